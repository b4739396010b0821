/* A result file beside the run of its stick, for partner, table and summary; and the records of that run. */
#ifndef IMPORT_RESULT_H
#define IMPORT_RESULT_H

#include "import.h"

/* The layout of a result file, which stands here alone: the parts of a unit's record, of an inverter's and of the end,
** by their first bytes, and the bytes of all of them. A tag is a byte, a length two; the numbers are big-endian. In
** each step come the records of the units and then those of the inverters.
*/
enum {
    RECORD_TAG = 0x11,
    RECORD_LENGTH = 1,
    RECORD_STEP = 3,
    RECORD_UNIT = 7,
    RECORD_REQUEST = 8,
    RECORD_KW = 12,
    RECORD_VARS = 20,
    RECORD_STORED = 24,
    RECORD_LOSS = 32,
    RECORD_BYTES = 40
};
enum {
    SOLAR_TAG = 0x12,
    SOLAR_LENGTH = 1,
    SOLAR_STEP = 3,
    SOLAR_INVERTER = 7,
    SOLAR_ON = 8,
    SOLAR_KW = 9,
    SOLAR_VARS = 17,
    SOLAR_DC = 21,
    SOLAR_BYTES = 29
};
enum {
    RESULT_END_TAG = 0x1F,
    RESULT_END_LENGTH = 1,
    RESULT_END_STEPS = 3,
    RESULT_END_BYTES = 7
};

/* What a result says of one unit in one step, and of one inverter. */
struct record {
    int32_t request, watts, vars;
    uint64_t stored, loss;
};

struct solar {
    int on;
    int32_t watts, vars;
    uint64_t dc;
};

/* import_result.c */

/* The bytes of all records of one step. */
size_t step_bytes(unsigned units, unsigned inverters);

/* What is said of a step that is among those of a run. */
struct record record_at(const struct run *run, uint32_t step, unsigned unit);
struct solar solar_at(const struct run *run, uint32_t step, unsigned inverter);

/* See whether all that a run gives can be shown, which always is so: a number that is 1 at first is then 0. */
void see_powers(void *to, const struct run *run);

/* Watts as kW with all of their three decimals, in a text of at most so many bytes. */
enum { KW_TEXT = 32 };
void kw_text(char *text, int64_t watts);

/* What stands in a record of anybody: a signed number of four bytes; and kW, in such a text, as above where a run can
** give them, and else with the digits that tell them from all others.
*/
int32_t signed_at(const uint8_t *bytes);
void power_text(char *text, const uint8_t *kw);

/* import_beside.c */

/* A result beside the run of its stick, which is complete and was kept. Of its bytes there are at most all that the run
** gives and some more; it may be longer, and its size is then that of the file, if anybody knows it. Verdict, start and
** count are those of yb_partner.
*/
struct beside {
    const char *result;
    const struct stick *stick;
    uint8_t *bytes;
    size_t len;
    int is_longer;
    uint64_t size, start, count;
    uint8_t verdict;
};

/* Read the result and judge it. Gives COMPLETE where there is a verdict, and else FAILED, which is told. What was read
** is to be freed.
*/
int judge_result(struct beside *beside);
void free_result(struct beside *beside);

/* The field of the run's result that a byte of it belongs to: its tag, which is 0 behind all of them, its first byte,
** its bytes and its step, which for the end is all of them; and whose it is.
*/
struct due {
    uint8_t tag;
    uint64_t from;
    size_t len;
    uint32_t step;
    unsigned which;
};
struct due due_at(const struct stick *stick, uint64_t place);

/* Whether two names are both standard input, which is told. */
int is_input_twice(const char *file, const char *result);

/* Run a file, and judge a result of it. Where this is right it gives COMPLETE, and the stick is kept, to be run again
** for what is to be shown, and is to be freed; anything else is told, and nothing of the result is to be shown.
*/
int open_result(struct stick *stick, const char *file, const char *result);

/* import_wrong.c */

/* Print what is wrong with a result; gives REFUSED, or FAILED where the verdict is not about it, which is told. */
int print_wrong(const struct beside *beside);

#endif
