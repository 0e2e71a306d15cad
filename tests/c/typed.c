/* The depot case typed as a line, from C: the reading, the answer, the route check, and the faulty name of broken lines, each
   by the library's header. It prints what the program prints for the depot case. */
#include "../../crates/export/ebbcandle.h"
#include <stdio.h>
#include <string.h>

static const uint8_t sheet[] = {0x26, 0x66, 0x86, 0x43, 0x21, 0xA8, 0x00, 0x00, 0x00, 0x1C,
                                0x00, 0x00, 0x00, 0x04, 0x44, 0x88, 0x4C, 0x00, 0x40};
static const uint32_t words[] = {4, 7,   101, 7,   102, 7,   103, 8,   104, 4,   101, 1,
                                 102, 2, 103, 1,   104, 1,   2,   101, 51,  103, 52};
static uint32_t first[8192], second[8192];

/* The bytes of a text, without the 0 behind them, and their number. */
#define TEXT(text) (const uint8_t *)(text), strlen(text)
static const char *names = "stock state carrier";
static const char *line = "depot=7 cond=1 : state(machine cond) carrier(machine truck) stock(depot machine)";

/* Whether the reading, the answer and the route check refuse a request alike, and its faulty name is this. */
static int refused(const char *second_line, const char *bad, uint32_t number, size_t detail, const char *name) {
    size_t out[EBBCANDLE_PLACES], read[EBBCANDLE_SHEET_PLACES], told = 7, place = 7, length = 7;
    if (ebbcandle_read_typed(sheet, sizeof sheet, TEXT(second_line), TEXT(bad), read, EBBCANDLE_SHEET_PLACES) != number ||
        read[0] != number || read[1] != detail || read[2] != 0)
        return 0;
    if (ebbcandle_answer_typed(sheet, sizeof sheet, TEXT(second_line), TEXT(bad), words, 0, first, 8192, second, 8192, out,
                               EBBCANDLE_PLACES) != number ||
        out[0] != number || out[1] != detail)
        return 0;
    if (ebbcandle_check_typed(sheet, sizeof sheet, TEXT(second_line), TEXT(bad), &told) != number || told != detail)
        return 0;
    ebbcandle_faulty_name(TEXT(bad), number, detail, &place, &length);
    size_t begins = number >= 20 && number <= 25 ? detail : 0;
    return place == begins && length == strlen(name) && memcmp(bad + place, name, length) == 0;
}

/* The lines that are broken: 0, or the number of the check that fails. */
static int broken(void) {
    if (!refused("stock state", line, 31, 0, "") || !refused("stock state state", line, 31, 0, ""))
        return 10;
    if (!refused(names, ": stock(depot machine\t)", 20, 21, "") || !refused(names, "depot=07 : stock(depot a)", 20, 6, ""))
        return 11;
    if (!refused(names, "depot 7", 21, 5, "") || !refused(names, ": stock(depot)stock", 23, 13, "") ||
        !refused(names, "depot=x", 21, 6, "x"))
        return 12;
    if (!refused(names, ": stock(depot a) carier(a b)", 22, 17, "carier"))
        return 13;
    if (!refused(names, ": stock(depot abcdefghijklm)", 24, 14, "abcdefghijklm"))
        return 14;
    if (!refused(names, "depot=7 depot=8", 25, 8, "depot") || !refused(names, "depot=0", 12, 6, ""))
        return 15;
    return refused(names, "", 21, 0, "") ? 0 : 16;
}

/* Whether the sheet that is written from the places of the reading is read as the same fields. */
static int says_the_same(const size_t *read) {
    uint8_t bytes[EBBCANDLE_SHEET_BYTES];
    size_t back[EBBCANDLE_SHEET_PLACES], detail, count;
    return ebbcandle_write_sheet(read, EBBCANDLE_SHEET_PLACES, bytes, sizeof bytes, &detail, &count) == 0 &&
           ebbcandle_read_sheet(bytes, count, back, EBBCANDLE_SHEET_PLACES) == 0 &&
           memcmp(back + 2, read + 2, sizeof back - 2 * sizeof *back) == 0;
}

int main(void) {
    size_t out[EBBCANDLE_PLACES], read[EBBCANDLE_SHEET_PLACES], detail = 7;
    if (ebbcandle_read_typed(sheet, sizeof sheet, TEXT(names), TEXT(line), read, EBBCANDLE_SHEET_PLACES - 1) !=
        EBBCANDLE_NO_ROOM)
        return 1;
    if (ebbcandle_answer_typed(sheet, sizeof sheet, TEXT(names), TEXT(line), words, sizeof words / sizeof *words, first, 8192,
                               second, 8192, out, EBBCANDLE_PLACES - 1) != EBBCANDLE_NO_ROOM)
        return 2;
    if (ebbcandle_answer_typed(sheet, sizeof sheet, TEXT(names), TEXT(line), words, sizeof words / sizeof *words, first, 8192,
                               second, 8192, out, EBBCANDLE_PLACES) != 0)
        return 3;
    for (size_t i = 0; i < out[2]; i++)
        printf("step %zu lookup %zu rule %zu calls %zu rows %zu\n", i + 1, out[6 + 6 * i], out[7 + 6 * i],
               out[8 + 6 * i], out[9 + 6 * i]);
    printf("calls %zu\n", out[3]);
    /* by first appearance 0 depot, 1 condition, 2 machine, 3 truck; the sheet has the machine before the condition */
    for (size_t i = 0; i < out[4]; i++)
        printf("row %u %u %u %u\n", first[16 * i], first[16 * i + 2], first[16 * i + 1], first[16 * i + 3]);
    if (first[1] != 1 || first[2] != 101 || first[3] != 51 || first[17] != 1 || first[18] != 103 || first[19] != 52)
        return 4;
    if (ebbcandle_check_typed(sheet, sizeof sheet, TEXT(names), TEXT(line), &detail) != 0 || detail != 0)
        return 5;
    if (ebbcandle_read_typed(sheet, sizeof sheet, TEXT(names), TEXT(line), read, EBBCANDLE_SHEET_PLACES) != 0 || read[0] != 0 ||
        read[1] != 0)
        return 6;
    if (read[2] != 3 || read[3] != 4 || read[4] != 3 || read[5] != 3 || read[6] != 7 || read[7] != 1 || !says_the_same(read))
        return 7;
    return broken();
}
