/* The targets that a season is tried at. */
#ifndef IMPORT_SWEEP_H
#define IMPORT_SWEEP_H

#include "import_figures.h"

/* The most lines of a sweep, the stick's own target not counted. */
enum { MOST_LINES = 10000 };

/* Targets in W, or by current in mA: from one on in steps up to another, which may be missed; and the stick's own among
** them, if it is to be there too. There are none where the step is 0.
*/
struct sweep {
    int64_t from, to, step;
    int has_own;
};

/* The lines that a sweep gives, the stick's own not counted. */
int64_t sweep_lines(const struct sweep *sweep);

/* Put the targets of a sweep in order; gives how many they are. */
int sweep_targets(int32_t *targets, const struct sweep *sweep, int32_t own);

/* Choose a sweep for a stick of which the figures at its own target are known: some twenty targets, from where the
** fleet could at most bring the season to where it has nothing to do, and the stick's own. Gives COMPLETE, or
** FAILED, which is told.
*/
int choose_sweep(struct sweep *sweep, const struct season *season, const int64_t *figures);

#endif
