/* The figures of a season, which the library tells of a stick and a target: in words for people, and for programs. */
#ifndef IMPORT_FIGURES_H
#define IMPORT_FIGURES_H

#include "import_columns.h"
#include "yesbrulka.h"

/* What a complete stick says of its season: the seconds of a step and the settings. */
struct season {
    const struct stick *stick;
    uint32_t seconds;
    struct settings settings;
};

/* Ask for a stick's season; and for the figures of a target, of a stick that was kept and is not too long. Both give
** COMPLETE, or FAILED where the answer is a fault, which is told.
*/
int ask_season(struct season *season, const struct stick *stick);
int ask_figures(int64_t *figures, const struct stick *stick, int32_t target);

/* Ask for the figures of a file that has so many steps; gives 0 where the answer is a fault, which is not told. */
int ask_figures_of(int64_t *figures, const uint8_t *file, size_t len, uint32_t steps, int32_t target);

/* Whether a stick is as short as the library takes a whole one, and so has figures that can be asked for. */
int has_figures(const struct stick *stick);

/* Whether a mode charges: what it works against is then too low, and else it is too high. */
int is_charging(unsigned mode);

/* Whether any step has a measure; and whether it has a net measure too, which no stick by current has. */
int has_measure(const int64_t *figures);
int has_net(const struct season *season, const int64_t *figures);

/* All losses, in J. */
large loss_of(const int64_t *figures);

/* Print the lines of a season: how long it is, its settings, and what its figures say. Without figures it says why
** there are none.
*/
void print_season(const struct season *season);
void print_figures(const struct season *season, const int64_t *figures);
void print_no_figures(void);

/* What a net measure means, and why there is none by current; and the one measure that a mode works against most. */
void print_net_meaning(void);
void print_no_net(void);
void print_peak_of(const struct season *season, const int64_t *figures);

/* The unit of a stick's measure, kW or A for people, W or mA for programs. */
const char *measure_unit(const struct season *season);

/* The members of a season: what it is; the figures of its readings, which every target shares; and those of a target.
** Figures that are not there are nothing; so are all of them where there are none, NULL.
*/
void json_season(const struct season *season);
void json_readings(const struct season *season, const int64_t *figures);
void json_target(const struct season *season, int32_t target, const int64_t *figures);

#endif
