// short_write.so, to be preloaded: a write takes at most 1,000 bytes.
#define _GNU_SOURCE
#include <sys/syscall.h>
#include <unistd.h>

ssize_t write(int file, const void *from, size_t size) {
    return syscall(SYS_write, file, from, size < 1000 ? size : 1000);
}
