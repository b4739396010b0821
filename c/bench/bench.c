/* Times the proved library beside ordinary Rust that is written to be quick, on the same files in this one process.
**
** Every file is made here (bench_files.c). The tables are: the check, beside the quick one and beside a plain pass over
** the bytes (bench_check.c); the run of a year, whole and fed, beside the quick one, the verdict on its result, and the
** planner's figures (bench_run.c); how the times grow with steps, units and bytes (bench_growth.c); and one step of a
** unit by the watts that are asked of it (bench_step.c).
**
** Exit status 0 if every answer was right, 1 if one was not, 2 if there is no clock or the lines cannot be written. The
** times do not matter for it.
*/
#include <stdio.h>

#include "bench.h"

int main(void)
{
    int right = show_checks();
    right &= show_runs();
    right &= show_verdicts();
    right &= show_peaks();
    right &= show_growth();
    right &= show_steps();
    printf("\nThe Rust here is written to be quick (reference/bench/src/tight.rs, run.rs). Times are the processor's.\n"
        "A ratio is that of the medians; low and high are the quartiles of the ratios of the %d rounds; least is the\n"
        "ratio of the least times, the better figure on a loaded machine.\n", ROUNDS);
    if (fflush(stdout) != 0 || ferror(stdout))
        give_up("the lines cannot be written");
    return right ? 0 : 1;
}
