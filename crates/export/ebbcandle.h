/* The operations for C and C++. `rt lib` in crates/export writes out/libexport.a there to link with, for x86-64;
   docs/USE.md has a complete program, and says what a caller owes. A slice passes as a pointer, not NULL, and then a length,
   which may be 0. What is written must not overlap with anything else that is passed. */
#ifndef EBBCANDLE_H
#define EBBCANDLE_H

#include <stddef.h>
#include <stdint.h>

#ifdef __cplusplus
extern "C" {
#endif

/* What an operation gives is 0, or the number of a refusal: the first that fits, in the order of this table. Bits of the
   sheet are counted from 0, the highest of its first byte.

   number  what is wrong                                                        detail
    1      a lent table has fewer than 8,192 words; of ebbcandle_choose also:   0
           the list of calls has fewer than 3,072
    5      of ebbcandle_choose and ebbcandle_take alone: a step was refused     that step, from 1
           with 5 before
   17      of ebbcandle_answer_charged alone: p or q is above 1,000             0
    2      the sheet ends early                                                 the first bit of the field that is not whole
    7      the version is not 1                                                 0, its first bit
    8      registers or look-ups are not from 1 to 12, columns not from 1 to    the first bit of that number
           6, or rules not from 1 to 8; of the writing alone: variables not
           from 1 to 16
   12      a given value is 0                                                   the first bit of that value
    9      a look-up names a register or a variable that is not in the sheet    the first bit of that number
   10      a variable is neither given nor in a look-up                         the lowest such variable
   11      a padding bit is 1, or else a byte follows                           the first padding bit, or else the first
                                                                                bit of that byte
   31      of typed requests alone, as are 20 to 25: the second line is not     0
           one name for each register
   12      a given value in the line is 0                                       where it begins
   20      a byte that no token has, or a number with a leading zero            its place, or where the number begins
   21      a token, or the line's end, is out of place                          where it begins
   22      a name is not a register's                                           where it begins
   23      the look-up has not one variable for each of its register's columns  the closing bracket's place
   24      a variable's name has over 12 letters, a number is over              where it begins
           4,294,967,295, or the name is a 17th variable's or begins a 13th
           look-up
   25      a name is given twice                                                where the second begins
    3      the row data ends early, has words left over, a row count above      0
           512, or over 16,384 words
    4      no order of the look-ups is a route                                  bit i: look-up i is never answerable
   15      of ebbcandle_take alone, as are 32 and 16: the step is not from 1    0
           to the number of look-ups, or is not yet chosen
   32      the rows sent are not whole rows, or over 512                        0
   16      a row was sent that no call asked for                                0
    5      a step yields more than 512 rows                                     the step, from 1
    6      of the count alone: the variable is above 15, the rows are above     none
           512, or the table has fewer than 16 words for each
   13      of the writing alone: the buffer is shorter than the sheet           the bytes that the sheet has

   2 and 7 to 12 are refusals of the sheet: of its faults the first one in reading order is told. 12 and 20 to 25 are those of
   a typed line: of its faults the first one in the line is told, and at one place the lowest number. Places of a line are
   counted in bytes, from 0. */

/* The answer's numbers take so many places: the number, the detail, the number of steps, the total calls, the rows, the total
   charge, and from place 6 on for each of 12 steps the look-up, the rule, its calls, the rows after it, the rows sent and its
   charge. */
#define EBBCANDLE_PLACES 78

/* The numbers of a sheet that was read, or that is to be written, take so many places: the number, the detail, the number of
   registers, the number of variables, the given variables as a set (bit v for variable v), the number of look-ups; from place
   6 on the 16 words of the list's first row, a word a variable, its value where it is given; from place 22 on for each of 12
   registers the columns, the number of rules and 8 rules; from place 142 on for each of 12 look-ups the register, the columns
   and 6 variables. A rule is a number of as many bits as there are columns, the first column's the highest, 1 = must give. */
#define EBBCANDLE_SHEET_PLACES 238

/* The longest sheet has so many bytes: a buffer of them fits any sheet. */
#define EBBCANDLE_SHEET_BYTES 193

/* A request that is answered step by step is a state of so many bytes: 193 for the sheet, zeros behind it; 1 for how many of
   them the sheet has; 2 for the look-ups answered, as a set (bit i for look-up i); 2 for the rows of the list; 1 for whether a
   step is chosen, where any but 0 is read as 1; 1 each for its look-up and its rule; and 1 for the step that was refused with
   5, or 0. Of two bytes the first is the higher one. They may be kept, and taken up again by another process, on any
   processor. */
#define EBBCANDLE_STATE_BYTES 202

/* What choosing or taking comes to takes so many places: the number, the detail, the case, and six values. Of calls these are
   the look-up, the rule, the number of calls and zeros; of a step taken the look-up, the rule, its calls, the rows after it,
   the rows sent and its charge; else zeros. */
#define EBBCANDLE_TURN_PLACES 9

/* The cases; 0 is a refusal. The next step with its calls; all steps are taken; the step is taken now; it was taken before. */
#define EBBCANDLE_CALLS 1
#define EBBCANDLE_ALL_TAKEN 2
#define EBBCANDLE_TAKEN 3
#define EBBCANDLE_ALREADY 4

/* A lent list of calls has at least so many words: 512 calls of 6. */
#define EBBCANDLE_CALL_WORDS 3072

/* What ebbcandle_answer, ebbcandle_answer_charged, ebbcandle_read_sheet and these of a typed request give where `out` has
   fewer places, ebbcandle_start, ebbcandle_choose and ebbcandle_take where `state` has fewer bytes or `out` fewer places, and
   ebbcandle_write_sheet where `fields` has fewer places, or has a word of the first row that is over 4,294,967,295: then
   nothing is written. */
#define EBBCANDLE_NO_ROOM UINT32_MAX

/* The answer to a sheet with the registers' rows: gives 0 or any refusal of the table above but 6, 13, 15 to 17, 20 to 25, 31 and
   32, and puts its numbers into the first 78 places of `out`; places behind them stay. Under 0 the first table holds the rows,
   16 words each, and zeros up to word 8,192, and the second zeros up to there. Under 5 both hold zeros up to there. Under any
   other refusal both stay as they came. Words beyond 8,192 always stay.

   A variable that is given, or stands in more than one column over all look-ups, never takes the value 0: a register row
   with 0 there does not match that look-up. */
uint32_t ebbcandle_answer(const uint8_t *sheet, size_t sheet_len, const uint32_t *words, size_t words_len,
                          uint32_t *first, size_t first_len, uint32_t *second, size_t second_len, size_t *out,
                          size_t out_len);

/* The same where a call costs p and a row sent costs q, both from 0 to 1,000: else 17, behind 1 and before the sheet is looked
   at, and both tables stay as they came. A step's charge is p times its calls and q times its rows sent, and each step is the
   one with the lowest charge, on a tie the lowest look-up, then the lowest rule. Rows sent are the register's different rows
   that have the values of some call in the rule's must-give columns, joined or not, also those that do not match for a 0.
   ebbcandle_answer is this at p = 1 and q = 0: there each charge is the calls. */
uint32_t ebbcandle_answer_charged(const uint8_t *sheet, size_t sheet_len, const uint32_t *words, size_t words_len, size_t p,
                                  size_t q, uint32_t *first, size_t first_len, uint32_t *second, size_t second_len,
                                  size_t *out, size_t out_len);

/* Whether a route exists for a sheet: gives 0, a refusal of the sheet, or 4, and puts the detail behind `detail`. */
uint32_t ebbcandle_check_route(const uint8_t *sheet, size_t sheet_len, size_t *detail);

/* The number of different values of one variable over the first rows of a table, 0 left out, put behind `values`: gives 0,
   or 6 with the value 0. */
uint32_t ebbcandle_count(const uint32_t *table, size_t table_len, size_t rows, size_t variable, size_t *values);

/* What a sheet says: gives 0, or a refusal of the sheet, and puts its numbers into the first EBBCANDLE_SHEET_PLACES places of
   `out`; places behind them stay. Under 0 the detail is the bit behind the padding, and the fields are the sheet's; entries
   that it does not use are zero. Refused, all of them behind the detail are zero. */
uint32_t ebbcandle_read_sheet(const uint8_t *sheet, size_t sheet_len, size_t *out, size_t out_len);

/* Writes the sheet that fields say to the beginning of `buffer`; bytes behind it stay. The fields stand in the first
   EBBCANDLE_SHEET_PLACES places of `fields`, as ebbcandle_read_sheet puts them; the first two, the number and the detail, are
   not looked at. Gives 0, puts 0 behind `detail`, and the bytes of the sheet behind `bytes`. Or gives 8, 9, 10 or 12 for the
   first of the sheet's fields that is wrong, with the place that it would have in the sheet, else 13, and puts the detail
   behind `detail` and 0 behind `bytes`: refused, no byte of the buffer changes.

   Any numbers may stand there. What a sheet has no field for is left out: registers, rules and look-ups beyond their
   numbers, bits of a rule beyond the columns, given variables beyond the number of variables, words of variables that are not
   given, and a look-up's own number of columns, which is its register's. Read back, these are 0, and the number of columns
   is the register's. But each of the 16 words must have 32 bits, given or not: else EBBCANDLE_NO_ROOM is given. */
uint32_t ebbcandle_write_sheet(const size_t *fields, size_t fields_len, uint8_t *buffer, size_t buffer_len, size_t *detail,
                               size_t *bytes);

/* Typed requests. A line as `depot=7 cond=1 : state(machine cond) stock(depot machine)`: givens, the colon, look-ups, parted
   by one space each, as are the variables in brackets. `sheet` is a sheet whose registers are reused, and `names` a second line
   with a name for each of them, in their order, parted by one space: its look-ups and its givens do not matter. A name is 1 to
   12 lower-case letters. A register and a variable may have the same name. Variables are numbered from 0 by their first
   appearance in the line. Both lines are bytes with a length; a line feed or a 0 behind them is not to be counted in it.

   Each operation gives what it gives of the sheet that would say the request, or the first refusal that fits: of `sheet`, then
   31, then of the line. */

/* The request that a line stands for: gives 0, or a refusal of the sheet or of the lines, and puts its numbers into the first
   EBBCANDLE_SHEET_PLACES places of `out`, as ebbcandle_read_sheet does; places behind them stay. Under 0 the detail is 0, and
   ebbcandle_write_sheet writes the sheet that would say the request from these places. Refused, all of them behind the detail
   are zero. */
uint32_t ebbcandle_read_typed(const uint8_t *sheet, size_t sheet_len, const uint8_t *names, size_t names_len,
                              const uint8_t *line, size_t line_len, size_t *out, size_t out_len);

/* The answer to a typed request with the registers' rows: as ebbcandle_answer, so at p = 1 and q = 0, with the refusals of the
   lines behind those of the sheet. */
uint32_t ebbcandle_answer_typed(const uint8_t *sheet, size_t sheet_len, const uint8_t *names, size_t names_len,
                                const uint8_t *line, size_t line_len, const uint32_t *words, size_t words_len,
                                uint32_t *first, size_t first_len, uint32_t *second, size_t second_len, size_t *out,
                                size_t out_len);

/* Whether a route exists for a typed request: gives 0, a refusal of the sheet or of the lines, or 4, and puts the detail behind
   `detail`. */
uint32_t ebbcandle_check_typed(const uint8_t *sheet, size_t sheet_len, const uint8_t *names, size_t names_len,
                               const uint8_t *line, size_t line_len, size_t *detail);

/* The faulty name of a line, by the number and the detail of its refusal: puts behind `place` where it begins in the line, and
   behind `length` how many letters it has, so it is the `*length` bytes at `line + *place`, and all of them are of the line. It
   is the name that begins at the detail of 20 to 25, as far as its letters go. Where none begins there, `*place` is the detail
   and `*length` 0. For any other number, and for a detail beyond the line, both are 0. */
void ebbcandle_faulty_name(const uint8_t *line, size_t line_len, uint32_t number, size_t detail, size_t *place,
                           size_t *length);

/* A request step by step, where rows arrive call by call. ebbcandle_start makes a state of a sheet; ebbcandle_choose says
   which look-up is asked next, and lists its calls; the caller makes them, and hands the rows that were sent for all of them
   to ebbcandle_take with the step's number, from 1; and so on, until all steps are taken. Then the first table holds the list,
   as ebbcandle_answer leaves it. A call costs 1 and a row sent nothing, as there.

   Between two calls the caller keeps the state and both tables as they were left. Of the first table the rows of the list are
   read, once a step is taken, and of the second nothing. Where they come back so, and each delivery is exactly the register's
   rows that have the values of some call in the rule's must-give columns, the steps are those of ebbcandle_answer, and so are
   both tables in the end. The rows of a delivery may come in any order, and each more than once. A delivery that lacks rows is
   taken as it is, and the list then lacks what they join with: a caller takes a step when each of its calls is answered.

   A state and tables may hold anything. A state whose sheet is not sound asks nothing: all its steps are taken. Rows in the
   first table that do not ascend, that have a value at a variable not yet known, or that are over 512 by the state, count as
   an empty list. A step that the state has as chosen and that can't be asked next counts as not chosen. Where nothing changes
   the state stays, and so do its bytes, but that the byte for whether a step is chosen, if it is none of 0 and 1, is written
   as 1. */

/* The state before the first step, put into the first 202 bytes of `state`; bytes behind them stay. Gives what
   ebbcandle_check_route gives, and puts its detail behind `detail`. Refused, all 202 bytes are 0: a state with nothing to
   choose. */
uint32_t ebbcandle_start(const uint8_t *sheet, size_t sheet_len, uint8_t *state, size_t state_len, size_t *detail);

/* The next step: gives 0, or 1, or 5 where a step was refused with 5 before. Puts what it comes to into the first 9 places of
   `out`, and the state afterwards into the first 202 bytes of `state`; places and bytes behind them stay. The case is
   EBBCANDLE_CALLS or EBBCANDLE_ALL_TAKEN.

   The calls stand in `calls`, ascending, each once: the values of the rule's must-give columns, in the order of the columns,
   so a call has as many words as the rule has such columns. Zeros follow up to word 3,072, and words beyond stay. Where
   nothing must be given there is one call, of no words; over an empty list there is none. Both tables stay as they came. Asked
   twice, it gives the same. Where all steps are taken, and under a refusal, `calls` stays as it came. Under 5 both tables hold
   zeros up to word 8,192. */
uint32_t ebbcandle_choose(uint8_t *state, size_t state_len, uint32_t *first, size_t first_len, uint32_t *second,
                          size_t second_len, uint32_t *calls, size_t calls_len, size_t *out, size_t out_len);

/* The rows sent for a step, a word a column, joined with the list: gives 0, 1, 15, 32, 16 or 5, and puts what it comes to, and
   the state afterwards, where ebbcandle_choose puts them. The case is EBBCANDLE_TAKEN, or EBBCANDLE_ALREADY where the step was
   taken before: then nothing changes, whatever was sent.

   A step taken leaves the rows of the list, 16 words each, in the first table, and zeros up to word 8,192, and in the second
   zeros up to there. Its rows sent are the different rows delivered, and its charge is its calls. Under 5 both hold zeros up
   to there, and each later ebbcandle_choose and ebbcandle_take is refused with the same 5, behind 1 alone, and zeroes both
   again. Under any other refusal nothing changes, and a step that is chosen stays so. Words beyond 8,192 always stay. A row
   that differs from the list in a free column is no fault: it does not join. */
uint32_t ebbcandle_take(const uint32_t *sent, size_t sent_len, size_t step, uint8_t *state, size_t state_len,
                        uint32_t *first, size_t first_len, uint32_t *second, size_t second_len, size_t *out,
                        size_t out_len);

#ifdef __cplusplus
}
#endif

#endif
