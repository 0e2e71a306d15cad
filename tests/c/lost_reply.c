/* The depot case step by step, from C, over a link that sends one reply twice, loses one, and brings it when nobody waits for it
   any more. No machine is counted twice: prints what happens, and what the program prints for the depot case. */
#include "../../crates/export/ebbcandle.h"
#include <stdio.h>
#include <string.h>

static const uint8_t sheet[] = {0x26, 0x66, 0x86, 0x43, 0x21, 0xA8, 0x00, 0x00, 0x00, 0x1C,
                                0x00, 0x00, 0x00, 0x04, 0x44, 0x88, 0x4C, 0x00, 0x40};

/* The rows of the register that each look-up asks: state, carrier and stock. Each has two columns and is asked by the first, so
   a call is one word. */
enum { COLUMNS = 2, MOST = 4 };
static const uint32_t registers[3][MOST][COLUMNS] = {
    {{101, 1}, {102, 2}, {103, 1}, {104, 1}}, {{101, 51}, {103, 52}}, {{7, 101}, {7, 102}, {7, 103}, {8, 104}}};

/* The request: its state, both tables, the list of calls, and what choosing or taking comes to. */
static uint8_t state[EBBCANDLE_STATE_BYTES];
static uint32_t first[8192], second[8192], calls[EBBCANDLE_CALL_WORDS];
static size_t out[EBBCANDLE_TURN_PLACES];

static uint32_t choose(void) {
    return ebbcandle_choose(state, sizeof state, first, 8192, second, 8192, calls, EBBCANDLE_CALL_WORDS, out,
                            EBBCANDLE_TURN_PLACES);
}

static uint32_t take(size_t step, const uint32_t *sent, size_t words) {
    return ebbcandle_take(sent, words, step, state, sizeof state, first, 8192, second, 8192, out, EBBCANDLE_TURN_PLACES);
}

/* Keeps the state and both tables as they are, and says whether they are so still. */
static uint8_t old_state[sizeof state];
static uint32_t old_first[8192], old_second[8192];
static void keep(void) {
    memcpy(old_state, state, sizeof state);
    memcpy(old_first, first, sizeof first);
    memcpy(old_second, second, sizeof second);
}
static int unchanged(void) {
    return memcmp(old_state, state, sizeof state) == 0 && memcmp(old_first, first, sizeof first) == 0 &&
           memcmp(old_second, second, sizeof second) == 0;
}

/* A reply: the step and the call that it is for, and the words of the register's rows for that call. */
struct reply {
    size_t step, words;
    uint32_t call, rows[COLUMNS * MOST];
};

/* The link: how many calls were made, the replies under way, from `next` up to `end`, and the one that is lost. */
static struct reply replies[16], lost;
static size_t made, next, end;

/* Makes a call. The reply to the second call comes twice. That to the third is lost, and comes behind the sixth call after
   all. */
static void ask(size_t step, size_t lookup, uint32_t call) {
    struct reply reply = {step, 0, call, {0}};
    for (size_t i = 0; i < MOST; i++)
        if (registers[lookup][i][0] == call)
            for (size_t column = 0; column < COLUMNS; column++)
                reply.rows[reply.words++] = registers[lookup][i][column];
    made++;
    if (made == 2)
        replies[end++] = reply;
    if (made == 6)
        replies[end++] = lost;
    if (made == 3)
        lost = reply;
    else
        replies[end++] = reply;
}

static void print(const char *before, const uint32_t *words, size_t count, const char *behind) {
    printf("%s", before);
    for (size_t i = 0; i < count; i++)
        printf(" %u", words[i]);
    printf("%s\n", behind);
}

/* Makes the calls again that have no reply. */
static void ask_again(size_t step, size_t lookup, const int *answered, size_t count) {
    uint32_t open[512];
    size_t many = 0;
    for (size_t i = 0; i < count; i++)
        if (!answered[i])
            open[many++] = calls[i];
    print("  no reply to", open, many, ": asked again");
    for (size_t i = 0; i < many; i++)
        ask(step, lookup, open[i]);
}

/* Puts the rows sent for all calls of a step into `sent` and gives their words. A reply to a step before is handed on all the
   same: the library says that this step is taken, and nothing changes. */
static size_t gather(size_t step, size_t lookup, size_t count, uint32_t *sent) {
    int answered[512] = {0};
    size_t words = 0, left = count;
    for (size_t i = 0; i < count; i++)
        ask(step, lookup, calls[i]);
    while (left > 0) {
        if (next == end) {
            ask_again(step, lookup, answered, count);
            continue;
        }
        const struct reply *reply = &replies[next++];
        printf("  reply to %u, step %zu:", reply->call, reply->step);
        print("", reply->rows, reply->words, "");
        if (reply->step != step) {
            keep();
            if (take(reply->step, reply->rows, reply->words) == 0 && out[2] == EBBCANDLE_ALREADY && unchanged())
                printf("  step %zu is taken already: nothing changes\n", reply->step);
            continue;
        }
        memcpy(sent + words, reply->rows, reply->words * sizeof *sent);
        words += reply->words;
        for (size_t i = 0; i < count; i++)
            if (calls[i] == reply->call && !answered[i]) {
                answered[i] = 1;
                left--;
            }
    }
    return words;
}

int main(void) {
    size_t detail, steps = 0, total = 0, taken[12][6] = {{0}};
    uint32_t sent[COLUMNS * 512];
    if (ebbcandle_start(sheet, sizeof sheet, state, sizeof state, &detail) != 0)
        return 1;
    while (choose() == 0 && out[2] == EBBCANDLE_CALLS) {
        size_t step = steps + 1, lookup = out[3], count = out[5];
        printf("step %zu asks look-up %zu:", step, lookup);
        print("", calls, count, "");
        size_t words = gather(step, lookup, count, sent);
        if (take(step, sent, words) != 0 || out[2] != EBBCANDLE_TAKEN)
            return 2;
        printf("  taken: %zu rows came, %zu different\n", words / COLUMNS, out[7]);
        memcpy(taken[steps++], out + 3, sizeof *taken);
    }
    if (out[2] != EBBCANDLE_ALL_TAKEN)
        return 3;
    printf("all steps are taken by %zu calls\n", made);
    for (size_t i = 0; i < steps; i++) {
        printf("step %zu lookup %zu rule %zu calls %zu rows %zu\n", i + 1, taken[i][0], taken[i][1], taken[i][2], taken[i][3]);
        total += taken[i][2];
    }
    printf("calls %zu\n", total);
    for (size_t i = 0; i < taken[steps - 1][3]; i++)
        print("row", first + 16 * i, 4, "");
    return 0;
}
