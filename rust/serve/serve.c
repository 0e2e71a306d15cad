/* The library's operations for a process that can't link it: requests on standard input, answers on standard output. The
   numbers of a message have 8 bytes, the lowest first. A request is the operation, how many slices it lends, the bytes of
   each, and the slices, each filled up to a multiple of 8 bytes. An answer is what the operation gives, how many slices
   come back, the bytes of each, and those slices. It ends with status 0 where its input ends behind a request, and with 1
   at a request that is cut off or that is none of the operation's. */
#include "../../crates/export/ebbcandle.h"

long read(int file, void *to, size_t size);
long write(int file, const void *from, size_t size);
void *malloc(size_t size);
void free(void *area);

/* A slice, in bytes. */
struct slice {
    void *start;
    uint64_t size;
};

/* An operation lends at most so many slices, and each has at most so many bytes. */
enum { MOST_SLICES = 16, MOST_BYTES = 1 << 30 };

/* Slice i of a request, as the operations take it: items with their number, or one number's place. */
#define BYTES(i) (uint8_t *)s[i].start, s[i].size
#define WORDS(i) (uint32_t *)s[i].start, s[i].size / 4
#define PLACES(i) (size_t *)s[i].start, s[i].size / 8
#define NUMBER(i) (size_t *)s[i].start

/* Each operation: its number, a letter for each slice, and its call, 0 where that gives nothing. The letters are those above,
   and a capital comes back. */
#define OPERATIONS(OPERATION)                                                                                           \
    OPERATION(0, "bwWWP", ebbcandle_answer(BYTES(0), WORDS(1), WORDS(2), WORDS(3), PLACES(4)))                          \
    OPERATION(1, "bN", ebbcandle_check_route(BYTES(0), NUMBER(1)))                                                      \
    OPERATION(2, "wnnN", ebbcandle_count(WORDS(0), *NUMBER(1), *NUMBER(2), NUMBER(3)))                                  \
    OPERATION(3, "bP", ebbcandle_read_sheet(BYTES(0), PLACES(1)))                                                       \
    OPERATION(4, "pBNN", ebbcandle_write_sheet(PLACES(0), BYTES(1), NUMBER(2), NUMBER(3)))                              \
    OPERATION(5, "bbbP", ebbcandle_read_typed(BYTES(0), BYTES(1), BYTES(2), PLACES(3)))                                 \
    OPERATION(6, "bbbwWWP",                                                                                             \
              ebbcandle_answer_typed(BYTES(0), BYTES(1), BYTES(2), WORDS(3), WORDS(4), WORDS(5), PLACES(6)))            \
    OPERATION(7, "bbbN", ebbcandle_check_typed(BYTES(0), BYTES(1), BYTES(2), NUMBER(3)))                                \
    OPERATION(8, "bnnNN",                                                                                               \
              (ebbcandle_faulty_name(BYTES(0), (uint32_t)*NUMBER(1), *NUMBER(2), NUMBER(3), NUMBER(4)), 0))             \
    OPERATION(9, "bwnnWWP",                                                                                             \
              ebbcandle_answer_charged(BYTES(0), WORDS(1), *NUMBER(2), *NUMBER(3), WORDS(4), WORDS(5), PLACES(6)))      \
    OPERATION(10, "bBN", ebbcandle_start(BYTES(0), BYTES(1), NUMBER(2)))                                                \
    OPERATION(11, "BWWWP", ebbcandle_choose(BYTES(0), WORDS(1), WORDS(2), WORDS(3), PLACES(4)))                         \
    OPERATION(12, "wnBWWP", ebbcandle_take(WORDS(0), *NUMBER(1), BYTES(2), WORDS(3), WORDS(4), PLACES(5)))

#define LETTERS(operation, letters, call) [operation] = letters,
#define CASE(operation, letters, call)                                                                                  \
    case operation:                                                                                                     \
        return call;

#define FEW(operation, letters, call) _Static_assert(sizeof letters <= MOST_SLICES + 1, "few slices");

OPERATIONS(FEW)
static const char *const letters_of[] = {OPERATIONS(LETTERS)};

/* What the operation gives for these slices. */
static uint32_t call(uint64_t operation, const struct slice *s) {
    switch (operation) { OPERATIONS(CASE) }
    return EBBCANDLE_NO_ROOM;
}

/* Whether a slice of so many bytes is one of this letter, small or capital: whole items, and one where it is a number. */
static int fits(char letter, uint64_t size) {
    switch (letter | ' ') {
    case 'b':
        return size <= MOST_BYTES;
    case 'w':
        return size <= MOST_BYTES && size % 4 == 0;
    case 'p':
        return size <= MOST_BYTES && size % 8 == 0;
    default:
        return size == 8;
    }
}

/* Whether a slice of this letter comes back. */
static int back(char letter) { return letter >= 'A' && letter <= 'Z'; }

/* 1 where all of it was read, 0 where the input had ended before it, -1 where it ended within. */
static int take(void *to, size_t size) {
    for (size_t at = 0; at < size;) {
        long got = read(0, (char *)to + at, size - at);
        if (got <= 0)
            return at == 0 && got == 0 ? 0 : -1;
        at += (size_t)got;
    }
    return 1;
}

/* Whether all of it was written. */
static int give(const void *from, size_t size) {
    for (size_t at = 0; at < size;) {
        long put = write(1, (const char *)from + at, size - at);
        if (put <= 0)
            return 0;
        at += (size_t)put;
    }
    return 1;
}

/* Whether the operation was done and its answer written. */
static int answer(uint64_t operation, const struct slice *s) {
    const char *letters = letters_of[operation];
    uint64_t head[2 + MOST_SLICES] = {call(operation, s)};
    for (size_t i = 0; letters[i]; i++)
        if (back(letters[i]))
            head[2 + head[1]++] = s[i].size;
    int good = give(head, 8 * (2 + head[1]));
    for (size_t i = 0; good && letters[i]; i++)
        good = !back(letters[i]) || give(s[i].start, s[i].size);
    return good;
}

/* So many bytes up to a multiple of 8. */
static uint64_t filled(uint64_t size) { return (size + 7) / 8 * 8; }

/* Whether a request of so many slices for the operation was read and answered. */
static int serve(uint64_t operation, uint64_t slices) {
    uint64_t sizes[MOST_SLICES], size = 0;
    struct slice s[MOST_SLICES];
    size_t count = 0;
    if (operation >= sizeof letters_of / sizeof *letters_of)
        return 0;
    while (letters_of[operation][count])
        count++;
    if (slices != count || take(sizes, 8 * count) != 1)
        return 0;
    for (size_t i = 0; i < count; i++) {
        if (!fits(letters_of[operation][i], sizes[i]))
            return 0;
        size += filled(sizes[i]);
    }
    /* one area, never empty */
    char *area = malloc(size + 8), *at = area;
    int good = area != NULL && take(area, size) == 1;
    for (size_t i = 0; good && i < count; i++) {
        s[i] = (struct slice){at, sizes[i]};
        at += filled(sizes[i]);
    }
    good = good && answer(operation, s);
    free(area);
    return good;
}

int main(void) {
    uint64_t head[2];
    for (;;) {
        int taken = take(head, sizeof head);
        if (taken == 0)
            return 0;
        if (taken < 0 || !serve(head[0], head[1]))
            return 1;
    }
}
