/* With two.c and -DNUMBER=n a program that prints twice the number. */
#include <stdio.h>

int twice(int n);

int main(void) {
    printf("%d\n", twice(NUMBER));
    return 0;
}
