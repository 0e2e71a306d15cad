/* The depot case from C: the answer, the route check, the count, the reading and the writing, each by the library's header. */
#include "../../crates/export/ebbcandle.h"
#include <stdio.h>
#include <string.h>

static const uint8_t sheet[] = {0x26, 0x66, 0x86, 0x43, 0x21, 0xA8, 0x00, 0x00, 0x00, 0x1C,
                                0x00, 0x00, 0x00, 0x04, 0x44, 0x88, 0x4C, 0x00, 0x40};
static const uint32_t words[] = {4, 7,   101, 7,   102, 7,   103, 8,   104, 4,   101, 1,
                                 102, 2, 103, 1,   104, 1,   2,   101, 51,  103, 52};
static uint32_t first[8192], second[8192];

/* Whether the answer, the route check and the reading refuse a sheet alike. */
static int refused(const uint8_t *bad, size_t len, uint32_t number, size_t place) {
    size_t out[EBBCANDLE_PLACES], read[EBBCANDLE_SHEET_PLACES], detail;
    return ebbcandle_answer(bad, len, words, 0, first, 8192, second, 8192, out, EBBCANDLE_PLACES) == number &&
           out[0] == number && out[1] == place && ebbcandle_check_route(bad, len, &detail) == number && detail == place &&
           ebbcandle_read_sheet(bad, len, read, EBBCANDLE_SHEET_PLACES) == number && read[0] == number && read[1] == place;
}

/* A buffer of some length, and whether its bytes from a place on are as they came. */
enum { OLD = 0xA5 };
static uint8_t buffer[EBBCANDLE_SHEET_BYTES];
static int untouched(size_t from) {
    for (size_t i = from; i < sizeof buffer; i++)
        if (buffer[i] != OLD)
            return 0;
    return 1;
}

/* Whether writing these fields into so many bytes gives this, and changes no byte behind those written. */
static int writes(const size_t *fields, size_t room, uint32_t number, size_t place, size_t count) {
    size_t detail = 7, bytes = 7;
    memset(buffer, OLD, sizeof buffer);
    return ebbcandle_write_sheet(fields, EBBCANDLE_SHEET_PLACES, buffer, room, &detail, &bytes) == number &&
           detail == place && bytes == count && untouched(count);
}

/* Whether the fields with another number at a place are refused. */
static int refused_with(const size_t *fields, size_t place, size_t value, uint32_t number, size_t detail) {
    size_t changed[EBBCANDLE_SHEET_PLACES];
    memcpy(changed, fields, sizeof changed);
    changed[place] = value;
    return writes(changed, sizeof buffer, number, detail, 0);
}

/* Whether too few places, and a word of the first row over 32 bits, are not taken, and nothing is written. */
static int not_taken(const size_t *fields) {
    size_t changed[EBBCANDLE_SHEET_PLACES], detail = 7, bytes = 7;
    memset(buffer, OLD, sizeof buffer);
    memcpy(changed, fields, sizeof changed);
    changed[6 + 15] = (size_t)1 << 32;
    return ebbcandle_write_sheet(fields, EBBCANDLE_SHEET_PLACES - 1, buffer, sizeof buffer, &detail, &bytes) ==
               EBBCANDLE_NO_ROOM &&
           ebbcandle_write_sheet(changed, EBBCANDLE_SHEET_PLACES, buffer, sizeof buffer, &detail, &bytes) ==
               EBBCANDLE_NO_ROOM &&
           detail == 7 && bytes == 7 && untouched(0);
}

/* What is written from the fields of the sheet: 0, or the number of the check that fails. */
static int written(const size_t *fields) {
    size_t back[EBBCANDLE_SHEET_PLACES];
    for (size_t room = 0; room < sizeof sheet; room++)
        if (!writes(fields, room, 13, sizeof sheet, 0))
            return 13;
    for (size_t room = sizeof sheet; room <= sizeof buffer; room++)
        if (!writes(fields, room, 0, 0, sizeof sheet) || memcmp(buffer, sheet, sizeof sheet) != 0)
            return 14;
    if (ebbcandle_read_sheet(buffer, sizeof sheet, back, EBBCANDLE_SHEET_PLACES) != 0 ||
        memcmp(back, fields, sizeof back) != 0)
        return 15;
    if (!refused_with(fields, 2, 13, 8, 3) || !refused_with(fields, 3, 17, 8, 7) || !refused_with(fields, 22, 7, 8, 15))
        return 16;
    if (!refused_with(fields, 142, 3, 9, 110) || !refused_with(fields, 152, 4, 9, 126))
        return 17;
    if (!refused_with(fields, 3, 5, 10, 4) || !refused_with(fields, 6, 0, 12, 46))
        return 18;
    return not_taken(fields) ? 0 : 19;
}

int main(void) {
    size_t out[EBBCANDLE_PLACES], read[EBBCANDLE_SHEET_PLACES], detail, values;
    if (ebbcandle_answer(sheet, sizeof sheet, words, sizeof words / sizeof *words, first, 8192, second, 8192, out,
                         EBBCANDLE_PLACES - 1) != EBBCANDLE_NO_ROOM)
        return 1;
    if (ebbcandle_answer(sheet, sizeof sheet, words, sizeof words / sizeof *words, first, 8192, second, 8192, out,
                         EBBCANDLE_PLACES) != 0)
        return 2;
    for (size_t i = 0; i < out[2]; i++)
        printf("step %zu lookup %zu rule %zu calls %zu rows %zu\n", i + 1, out[6 + 6 * i], out[7 + 6 * i],
               out[8 + 6 * i], out[9 + 6 * i]);
    printf("calls %zu\n", out[3]);
    for (size_t i = 0; i < out[4]; i++)
        printf("row %u %u %u %u\n", first[16 * i], first[16 * i + 1], first[16 * i + 2], first[16 * i + 3]);
    if (ebbcandle_check_route(sheet, sizeof sheet, &detail) != 0 || detail != 0)
        return 3;
    if (!refused(sheet, 0, 2, 0) || !refused(sheet, sizeof sheet - 1, 2, 142))
        return 4;
    if (ebbcandle_count(first, 8192, out[4], 1, &values) != 0 || values != 2)
        return 5;
    if (ebbcandle_count(first, 8192, out[4], 16, &values) != 6 || values != 0)
        return 6;
    if (ebbcandle_read_sheet(sheet, sizeof sheet, read, EBBCANDLE_SHEET_PLACES - 1) != EBBCANDLE_NO_ROOM)
        return 7;
    if (ebbcandle_read_sheet(sheet, sizeof sheet, read, EBBCANDLE_SHEET_PLACES) != 0 || read[0] != 0 || read[1] != 152)
        return 8;
    if (read[2] != 3 || read[3] != 4 || read[4] != 5 || read[5] != 3 || read[6] != 7 || read[8] != 1)
        return 9;
    uint8_t bad[sizeof sheet + 1] = {0};
    for (size_t i = 0; i < sizeof sheet; i++)
        bad[i] = sheet[i];
    if (!refused(bad, sizeof bad, 11, 152))
        return 10;
    bad[sizeof sheet - 1] = 0x41;
    if (!refused(bad, sizeof sheet, 11, 146) || !refused(bad, sizeof bad, 11, 146))
        return 11;
    bad[0] = 0x46;
    if (!refused(bad, sizeof bad, 7, 0) || !refused(bad, 1, 7, 0))
        return 12;
    return written(read);
}
