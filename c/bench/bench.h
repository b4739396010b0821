/* What the parts of the bench share: the file at hand, the rooms of its runs, and how calls are timed. */
#ifndef BENCH_H
#define BENCH_H

#include <stddef.h>
#include <stdint.h>

#include "yesbrulka.h"

/* The check in quick ordinary Rust, from reference/bench: returns the number, and stores the place and the steps. The
** run there is called like the archive's.
*/
uint32_t ref_check(const uint8_t *file, size_t len, uint64_t *place, uint32_t *steps);
uint32_t ref_run(const uint8_t *file, size_t len, uint8_t *room, size_t room_len);

/* A year of hours, and a record of its result for a unit and for an inverter. */
#define YEAR 8760
#define RECORD 40
#define SOLAR 29

/* --- bench_files.c: every file is made here --- */

extern uint8_t file[YB_MOST_FILE_BYTES];
extern size_t file_len;

struct answer {
    uint32_t number, steps;
    uint64_t place;
};

/* What a step of a file of the check has: three powers; a weather, a voltage and three powers; or nothing. */
enum kind { POWERS, ALL_FIELDS, MISSING };

/* Makes a complete file of 64 units, for the check, and gives its right answer. */
struct answer make_complete(enum kind kind, uint32_t steps);

/* Makes the largest complete file of powers with other bytes after it, and gives its right answer. */
struct answer make_overlong(void);

/* What leads the vars of a season. */
enum lead { NOTHING, BY_RATING, BY_WHAT_WATTS_LEAVE };

/* A season of hours: mode 1 or 4, which give at the peaks, or 3, which takes in the valleys. Where vars come first they
** do so at every unit. The stores of a deep one outlast it.
*/
struct season {
    int units, inverters, mode, vars_first;
    enum lead lead;
    uint32_t steps;
    int deep;
};

/* Makes its file, whose settings have this target, in W or in mode 4 in mA. */
void make_season(struct season season);
uint32_t season_target(struct season season);

/* The bytes of a step in its result, and of the whole of it. */
size_t step_bytes(struct season season);
size_t result_bytes(struct season season);

/* --- bench_times.c: rounds of times, and what is made of them --- */

/* An odd number, so that the median is one of the times. On a loaded machine the least is the better figure. */
#define ROUNDS 15

/* The most calls that take turns in a round. */
#define MOST_CALLS 4

/* The nanoseconds of a call in each round. */
struct rounds {
    double ns[ROUNDS];
};

/* Of two calls: the ratio of the medians, the quartiles of the rounds' own ratios, and the ratio of the least times. */
struct ratio {
    double medians, low, high, least;
};

/* The straight line nearest to points by least squares: what it rises by, where it begins, and how far the farthest
** point lies from it, in parts in a hundred of the line there.
*/
struct line {
    double slope, start, farthest;
};

_Noreturn void give_up(const char *why);

/* The nanoseconds that this process has computed for, whatever else the machine did meanwhile. */
double now(void);

/* Times so many calls, each of which gives its own time, in one round or in all. They take turns, also at being first,
** so that whatever else the machine does slows all alike.
*/
void measure_once(int count, double (*const calls[])(void), int round, struct rounds rounds[]);
void measure(int count, double (*const calls[])(void), struct rounds rounds[]);

double median_of(struct rounds rounds);
double least_of(struct rounds rounds);
struct ratio ratio_of(struct rounds above, struct rounds below);
struct line line_through(int points, const double x[], const double y[]);

/* The ratio in its columns, and their heading. */
void show_ratio(struct ratio ratio);
void show_ratio_heading(const char *what);

/* --- bench_check.c: checks, timed and compared --- */

/* 1 if the archive and the Rust give the right answer for the file at hand, else 0 and a line that says what it is. */
int same_answers(struct answer right);

/* The time of a check of the file at hand. */
double time_check(void);
double time_ref_check(void);

/* --- bench_run.c: runs, timed and compared --- */

/* Makes the file of a season and runs it by the archive, whole and fed, and by the Rust: 1 if all are accepted and
** leave the same bytes, else 0 and a line that says what they did.
*/
int same_results(struct season season);

/* The time of a run over that file by each of them; it must leave that result again. */
double time_run(void);
double time_fed_run(void);
double time_ref_run(void);

/* --- the tables; each gives 0 where an answer is wrong, else 1 --- */

int show_checks(void); /* bench_check.c */
int show_runs(void); /* bench_run.c */
int show_verdicts(void); /* bench_run.c */
int show_peaks(void); /* bench_run.c */
int show_growth(void); /* bench_growth.c */
int show_steps(void); /* bench_step.c */

#endif
