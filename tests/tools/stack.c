/* The stack that one call of an operation takes, in bytes: `stack OPERATION FOLDER..`, with the operation `answer`,
   `answer_charged`, `check_route`, `count`, `read_sheet`, `write_sheet`, or `answer_typed`, `check_typed` or `read_typed`, or
   `start`, `choose` or `take`, and folders that have sheet.bin and data.bin. Prints the most of all folders, counted from the frame
   that makes the call. The first call is counted too, in which the dynamic linker looks up what the library calls; with
   LD_BIND_NOW=1 that is done before. A call and a row sent are charged 1 each. The table that is counted has different values and
   no 0, which a count leaves out. What is written is what was read of the sheet, before the call that is counted, and so is what
   is typed, by a letter for each register and each variable. Of choosing and taking the most of all steps is told; what is sent
   for a step is the register's rows that some call asks for. */
#include "../../crates/export/ebbcandle.h"
#include <stdio.h>
#include <string.h>

enum { PAINTED = 60000, NEAR = 512, PAINT = 0xA5 };

static uint8_t sheet[300], data[4 * 16400];
static uint32_t words[16400], first[8192], second[8192];
static uint8_t buffer[EBBCANDLE_SHEET_BYTES];
static char names[300], line[1000];
static size_t sheet_size, data_size, out[EBBCANDLE_PLACES], fields[EBBCANDLE_SHEET_PLACES], number, bytes;
static size_t names_size, line_size;
static uint8_t state[EBBCANDLE_STATE_BYTES];
static uint32_t calls[EBBCANDLE_CALL_WORDS], sent[512 * 6];
static size_t turn[EBBCANDLE_TURN_PLACES], step, sent_size;

/* The typed request: the sheet and both lines. */
#define TYPED sheet, sheet_size, (const uint8_t *)names, names_size, (const uint8_t *)line, line_size

static void answer(void) {
    ebbcandle_answer(sheet, sheet_size, words, data_size / 4, first, 8192, second, 8192, out, EBBCANDLE_PLACES);
}
static void answer_charged(void) {
    ebbcandle_answer_charged(sheet, sheet_size, words, data_size / 4, 1, 1, first, 8192, second, 8192, out, EBBCANDLE_PLACES);
}
static void check_route(void) { ebbcandle_check_route(sheet, sheet_size, &number); }
static void count(void) { ebbcandle_count(first, 8192, 512, 0, &number); }
static void read_sheet(void) { ebbcandle_read_sheet(sheet, sheet_size, fields, EBBCANDLE_SHEET_PLACES); }
static void write_sheet(void) {
    ebbcandle_write_sheet(fields, EBBCANDLE_SHEET_PLACES, buffer, sizeof buffer, &number, &bytes);
}
static void answer_typed(void) {
    ebbcandle_answer_typed(TYPED, words, data_size / 4, first, 8192, second, 8192, out, EBBCANDLE_PLACES);
}
static void check_typed(void) { ebbcandle_check_typed(TYPED, &number); }
static void read_typed(void) { ebbcandle_read_typed(TYPED, fields, EBBCANDLE_SHEET_PLACES); }
static void start(void) { ebbcandle_start(sheet, sheet_size, state, sizeof state, &number); }
static void choose(void) {
    ebbcandle_choose(state, sizeof state, first, 8192, second, 8192, calls, EBBCANDLE_CALL_WORDS, turn, EBBCANDLE_TURN_PLACES);
}
static void take(void) {
    ebbcandle_take(sent, sent_size, step, state, sizeof state, first, 8192, second, 8192, turn, EBBCANDLE_TURN_PLACES);
}

static const struct {
    const char *name;
    void (*call)(void);
} operations[] = {{"answer", answer},
                  {"answer_charged", answer_charged},
                  {"check_route", check_route},
                  {"count", count},
                  {"read_sheet", read_sheet},
                  {"write_sheet", write_sheet},
                  {"answer_typed", answer_typed},
                  {"check_typed", check_typed},
                  {"read_typed", read_typed},
                  {"start", start},
                  {"choose", choose},
                  {"take", take}};

/* How far below this frame the call writes. All of the stack from NEAR to PAINTED bytes below is painted first. */
static __attribute__((noinline)) size_t taken(void (*call)(void)) {
    volatile uint8_t *frame = __builtin_frame_address(0);
    for (size_t below = NEAR; below <= PAINTED; below++)
        *(frame - below) = PAINT;
    call();
    for (size_t below = PAINTED; below > NEAR; below--)
        if (*(frame - below) != PAINT)
            return below;
    return NEAR;
}

/* Makes the stack as large as what is painted. */
static __attribute__((noinline)) uint8_t grow(void) {
    volatile uint8_t area[2 * PAINTED];
    for (size_t i = 0; i < sizeof area; i++)
        area[i] = PAINT;
    return area[0];
}

/* The bytes of a file in a folder, as many as there is room for. */
static size_t contents(const char *folder, const char *name, uint8_t *to, size_t room) {
    char path[4096];
    snprintf(path, sizeof path, "%s/%s", folder, name);
    FILE *file = fopen(path, "rb");
    if (file == NULL)
        return 0;
    size_t size = fread(to, 1, room, file);
    fclose(file);
    return size;
}

/* The lines that say what the sheet says. */
static void type_fields(void) {
    size_t at = 0;
    for (size_t i = 0; i < fields[2]; i++)
        at += (size_t)snprintf(names + at, sizeof names - at, i == 0 ? "%c" : " %c", (int)('a' + i));
    at = 0;
    for (size_t v = 0; v < fields[3]; v++)
        if (fields[4] >> v & 1)
            at += (size_t)snprintf(line + at, sizeof line - at, "%c=%zu ", (int)('a' + v), fields[6 + v]);
    at += (size_t)snprintf(line + at, sizeof line - at, ":");
    for (const size_t *entry = fields + 142; entry < fields + 142 + 8 * fields[5]; entry += 8) {
        at += (size_t)snprintf(line + at, sizeof line - at, " %c(", (int)('a' + entry[0]));
        for (size_t i = 0; i < entry[1]; i++)
            at += (size_t)snprintf(line + at, sizeof line - at, i == 0 ? "%c" : " %c", (int)('a' + entry[2 + i]));
        at += (size_t)snprintf(line + at, sizeof line - at, ")");
    }
    names_size = strlen(names);
    line_size = at;
}

/* The files of a folder, and for writing and typing what the sheet says. */
static void take_files(const char *folder, void (*call)(void)) {
    sheet_size = contents(folder, "sheet.bin", sheet, sizeof sheet);
    data_size = contents(folder, "data.bin", data, sizeof data);
    for (size_t i = 0; i < data_size / 4; i++)
        words[i] = (uint32_t)data[4 * i] << 24 | (uint32_t)data[4 * i + 1] << 16 | (uint32_t)data[4 * i + 2] << 8 |
                   data[4 * i + 3];
    if (call != count)
        read_sheet();
    type_fields();
}

/* Whether some call of the step that is chosen asks for a row. */
static int asked_for(const uint32_t *row, size_t columns, size_t rule) {
    uint32_t given[6];
    size_t width = 0;
    for (size_t i = 0; i < columns; i++)
        if (rule >> (columns - 1 - i) & 1)
            given[width++] = row[i];
    for (size_t i = 0; i < turn[5]; i++)
        if (memcmp(calls + width * i, given, width * sizeof *given) == 0)
            return 1;
    return 0;
}

/* What is sent for the step: the rows of its register that some call asks for. Row data that ends early has fewer. */
static void deliver(void) {
    size_t in = fields[142 + 8 * turn[3]], at = 0;
    sent_size = 0;
    for (size_t i = 0; i <= in && at < data_size / 4; i++) {
        size_t columns = fields[22 + 10 * i], rows = words[at++];
        for (; rows > 0 && at + columns <= data_size / 4; rows--, at += columns)
            if (i == in && sent_size + columns <= sizeof sent / sizeof *sent &&
                asked_for(words + at, columns, fields[24 + 10 * i + turn[4]])) {
                memcpy(sent + sent_size, words + at, columns * sizeof *sent);
                sent_size += columns;
            }
    }
}

/* The most that choosing or taking takes over all steps, as far as they are taken. */
static size_t taken_in_steps(void (*call)(void)) {
    size_t most = 0;
    start();
    for (step = 1;; step++) {
        size_t choosing = taken(choose), taking = 0;
        if (turn[2] == EBBCANDLE_CALLS) {
            deliver();
            taking = taken(take);
        }
        size_t depth = call == choose ? choosing : taking;
        if (depth > most)
            most = depth;
        if (turn[2] != EBBCANDLE_TAKEN)
            return most;
    }
}

int main(int count, char **word) {
    size_t most = 0;
    void (*call)(void) = NULL;
    for (size_t i = 0; count > 2 && i < sizeof operations / sizeof *operations; i++)
        if (strcmp(word[1], operations[i].name) == 0)
            call = operations[i].call;
    if (call == NULL || grow() != PAINT)
        return 2;
    for (uint32_t i = 0; i < 8192; i++)
        first[i] = i + 1;
    for (int i = 2; i < count; i++) {
        take_files(word[i], call);
        size_t depth = call == choose || call == take ? taken_in_steps(call) : taken(call);
        if (depth > most)
            most = depth;
    }
    printf("%zu\n", most);
    return 0;
}
