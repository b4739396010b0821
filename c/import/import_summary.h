/* What the parts of the summary share: the units' lines, their var lines, the inverters' lines, and the lines of the
** largest and the smallest vars. Each part sees the run go by, prints its lines, and has members for programs.
*/
#ifndef IMPORT_SUMMARY_H
#define IMPORT_SUMMARY_H

#include "import_figures.h"
#include "import_result.h"

/* A heading, a line for each of 64 units and 64 inverters are as many rows as there can be. */
enum { ROWS = 1 + YB_MOST_UNITS + YB_MOST_INVERTERS };

/* Sixty-four units that draw all they can through 65,535 steps of a day take more joules than 64 bits hold. */
typedef large joules;

/* import_fleet.c */

/* A unit's line, or the fleet's: the request of the largest size, the most watts out and in of a step, the energy
** out, in and lost, the least stored and the first step that left it, and the steps whose request was not met. The grid
** loss is what a unit draws beside the power of its inverter: its idle loss in the older model, and else nothing.
*/
struct line {
    uint32_t grid_loss;
    int64_t request, out, in;
    joules given, taken, lost;
    uint64_t low;
    uint32_t low_step, not_met;
};

/* What a part of the run adds to the lines of the units and, after them, the fleet's; their print; and the members of
** one.
*/
void see_fleet(struct line *lines, const struct run *run, uint32_t seconds);
void print_unit_lines(const struct line *lines, const struct stick *stick);
void json_line(const struct line *line, const struct stick *stick);

/* import_vars.c */

/* A unit's var line: what the stick says of it, and the most vars that it provided and absorbed in a step. */
struct var_line {
    struct unit unit;
    struct limits limits;
    int64_t out, in;
};

/* What the stick says, which gives COMPLETE, or FAILED and is told; what a part of the run adds; their print; and the
** members of one.
*/
int ask_vars(struct var_line *lines, const struct stick *stick);
void see_vars(struct var_line *lines, const struct run *run);
void print_vars(const struct var_line *lines, const struct stick *stick);
void json_vars(const struct var_line *line);

/* The ends of the vars of a unit or an inverter: the largest and the smallest of a step, by their signs, and the first
** step that had each.
*/
struct var_ends {
    int32_t high, low;
    uint32_t high_step, low_step;
};

/* What a part of the run adds to the ends of the units and, after them, the inverters; their print; and the members of
** one.
*/
void see_var_ends(struct var_ends *ends, const struct run *run);
void print_var_ends(const struct var_ends *ends, const struct stick *stick);
void json_var_ends(const struct var_ends *ends, const struct stick *stick);

/* import_roof.c */

/* An inverter's line, or the roof's: the most watts of a step and the first step that gave them, the energy given and
** the DC energy that was not, and the seconds that it was on.
*/
struct roof_line {
    int64_t out;
    uint32_t out_step;
    joules given, unused;
    uint64_t on;
};

/* What a part of the run adds to the lines of the inverters and, after them, the roof's; their print; and the members
** of one.
*/
void see_roof(struct roof_line *lines, const struct run *run, uint32_t seconds);
void print_roof(const struct roof_line *lines, const struct stick *stick);
void json_roof(const struct roof_line *line);

#endif
