/* The depot case with what a call and a row sent are charged, from C, by the library's header: rows sent and charges, another
   order, and p and q that are too high. Where calls alone are charged it prints what the program prints for the depot case. */
#include "../../crates/export/ebbcandle.h"
#include <stdio.h>
#include <string.h>

static const uint8_t sheet[] = {0x26, 0x66, 0x86, 0x43, 0x21, 0xA8, 0x00, 0x00, 0x00, 0x1C,
                                0x00, 0x00, 0x00, 0x04, 0x44, 0x88, 0x4C, 0x00, 0x40};
static const uint32_t words[] = {4, 7,   101, 7,   102, 7,   103, 8,   104, 4,   101, 1,
                                 102, 2, 103, 1,   104, 1,   2,   101, 51,  103, 52};

/* R(x, y) with the rules bf and ff, rows that repeat and rows with 0, and S(x). */
static const uint8_t two[] = {0x24, 0x24, 0x8A, 0x08, 0x80, 0x01, 0x10};
static const uint32_t two_words[] = {5, 1, 0, 1, 2, 2, 3, 2, 3, 0, 9, 1, 1};

/* Both tables, the places of the numbers, and one place behind them. */
enum { OLD = 77 };
static uint32_t first[8192], second[8192];
static size_t out[EBBCANDLE_PLACES + 1];

static void fill(void) {
    for (size_t i = 0; i < 8192; i++)
        first[i] = second[i] = OLD;
    for (size_t i = 0; i <= EBBCANDLE_PLACES; i++)
        out[i] = OLD;
}

/* Whether both tables, and so many last places, are as they came. */
static int untouched(size_t places) {
    for (size_t i = 0; i < 8192; i++)
        if (first[i] != OLD || second[i] != OLD)
            return 0;
    for (size_t i = EBBCANDLE_PLACES + 1 - places; i <= EBBCANDLE_PLACES; i++)
        if (out[i] != OLD)
            return 0;
    return 1;
}

static uint32_t depot(size_t p, size_t q) {
    fill();
    return ebbcandle_answer_charged(sheet, sizeof sheet, words, sizeof words / sizeof *words, p, q, first, 8192, second, 8192,
                                    out, EBBCANDLE_PLACES);
}

static uint32_t two_look_ups(size_t p, size_t q) {
    fill();
    return ebbcandle_answer_charged(two, sizeof two, two_words, sizeof two_words / sizeof *two_words, p, q, first, 8192, second,
                                    8192, out, EBBCANDLE_PLACES);
}

/* Whether the numbers are these: steps, calls, rows and charge, and six for each step. All other places are 0 or stayed. */
static int numbers(size_t steps, size_t calls, size_t rows, size_t charge, const size_t (*step)[6]) {
    size_t expected[EBBCANDLE_PLACES + 1] = {0, 0, steps, calls, rows, charge};
    memcpy(expected + 6, step, steps * sizeof *step);
    expected[EBBCANDLE_PLACES] = OLD;
    return memcmp(out, expected, sizeof out) == 0;
}

/* Whether p and q are refused: 17 and zeros behind it, and both tables as they came. */
static int refused(size_t p, size_t q) {
    static const size_t none[1][6];
    if (depot(p, q) != 17 || out[0] != 17)
        return 0;
    out[0] = 0;
    return numbers(0, 0, 0, 0, none) && untouched(1);
}

/* The order in which 17 is told, and too few places: 0, or the number of the check that fails. */
static int told(void) {
    if (!refused(1001, 0) || !refused(0, 1001) || !refused((size_t)1 << 32, 1) || !refused(1, SIZE_MAX))
        return 20;
    fill();
    if (ebbcandle_answer_charged(sheet, 0, words, 0, 1001, 0, first, 8192, second, 8192, out, EBBCANDLE_PLACES) != 17)
        return 21;
    if (ebbcandle_answer_charged(sheet, 0, words, 0, 1000, 0, first, 8192, second, 8192, out, EBBCANDLE_PLACES) != 2)
        return 22;
    if (ebbcandle_answer_charged(sheet, 0, words, 0, 1001, 0, first, 8192, second, 8191, out, EBBCANDLE_PLACES) != 1)
        return 23;
    fill();
    if (ebbcandle_answer_charged(sheet, 0, words, 0, 1001, 0, first, 0, second, 0, out, EBBCANDLE_PLACES - 1) !=
        EBBCANDLE_NO_ROOM)
        return 24;
    return untouched(EBBCANDLE_PLACES + 1) ? 0 : 25;
}

int main(void) {
    static const size_t dear_rows[3][6] = {{2, 0, 1, 3, 3, 13}, {1, 0, 3, 2, 2, 32}, {0, 0, 2, 2, 2, 22}};
    static const size_t by_calls[2][6] = {{0, 1, 1, 3, 4, 1}, {1, 0, 1, 2, 1, 1}};
    static const size_t by_both[2][6] = {{1, 0, 1, 1, 1, 2}, {0, 0, 1, 2, 2, 3}};
    static const size_t nothing[2][6] = {{0, 1, 1, 3, 4, 0}, {1, 0, 1, 2, 1, 0}};
    if (depot(10, 1) != 0 || !numbers(3, 6, 2, 67, dear_rows))
        return 1;
    if (two_look_ups(1, 0) != 0 || !numbers(2, 2, 2, 2, by_calls))
        return 2;
    if (two_look_ups(1, 1) != 0 || !numbers(2, 2, 2, 5, by_both))
        return 3;
    if (two_look_ups(0, 0) != 0 || !numbers(2, 2, 2, 0, nothing))
        return 4;
    if (depot(1000, 1000) != 0 || out[5] != 13000)
        return 5;
    size_t plain[EBBCANDLE_PLACES];
    if (ebbcandle_answer(sheet, sizeof sheet, words, sizeof words / sizeof *words, first, 8192, second, 8192, plain,
                         EBBCANDLE_PLACES) != 0)
        return 6;
    if (depot(1, 0) != 0 || memcmp(out, plain, sizeof plain) != 0 || out[5] != out[3])
        return 7;
    for (size_t i = 0; i < out[2]; i++)
        printf("step %zu lookup %zu rule %zu calls %zu rows %zu\n", i + 1, out[6 + 6 * i], out[7 + 6 * i],
               out[8 + 6 * i], out[9 + 6 * i]);
    printf("calls %zu\n", out[3]);
    for (size_t i = 0; i < out[4]; i++)
        printf("row %u %u %u %u\n", first[16 * i], first[16 * i + 1], first[16 * i + 2], first[16 * i + 3]);
    return told();
}
