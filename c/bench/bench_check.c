/* The check, beside the quick one and beside a plain pass over the bytes.
**
** The smaller files of powers have an eighth, a quarter and half of the largest one's steps. The last file is the
** largest one with other bytes after it, up to the limit of 2,097,152: it takes the same work and is refused where it
** should have ended. What comes after the place of an answer is not looked at, by the plain pass neither.
*/
#include <inttypes.h>
#include <stdio.h>

#include "bench.h"

/* The place of the right answer for the file at hand. */
static size_t passed;

/* 1 if an answer is the right one, else 0 and a line that says what it is. */
static int is_right(const char *whose, struct answer got, struct answer right)
{
    if (got.number == right.number && got.place == right.place && got.steps == right.steps)
        return 1;
    printf("WRONG: %s on %zu bytes: number %" PRIu32 ", place %" PRIu64 ", steps %" PRIu32
        "; right is %" PRIu32 ", %" PRIu64 ", %" PRIu32 "\n",
        whose, file_len, got.number, got.place, got.steps, right.number, right.place, right.steps);
    return 0;
}

int same_answers(struct answer right)
{
    struct answer archive, reference;
    archive.number = yb_checked(file, file_len, &archive.place, &archive.steps);
    reference.number = ref_check(file, file_len, &reference.place, &reference.steps);
    int archive_right = is_right("the archive", archive, right);
    return is_right("the Rust", reference, right) && archive_right;
}

double time_check(void)
{
    double start = now();
    yb_check(file, file_len);
    return now() - start;
}

double time_ref_check(void)
{
    struct answer answer;
    double start = now();
    ref_check(file, file_len, &answer.place, &answer.steps);
    return now() - start;
}

/* The sum of all bytes, byte by byte, and as the compiler's vectors have it. */
__attribute__((noinline, optimize("O2", "no-tree-vectorize"))) static uint64_t sum_of(const uint8_t *bytes, size_t len)
{
    uint64_t sum = 0;
    for (size_t i = 0; i < len; i++)
        sum += bytes[i];
    return sum;
}

__attribute__((noinline, optimize("O3"))) static uint64_t vector_sum_of(const uint8_t *bytes, size_t len)
{
    uint64_t sum = 0;
    for (size_t i = 0; i < len; i++)
        sum += bytes[i];
    return sum;
}

/* The sums go here, so that no compiler leaves them out. */
static volatile uint64_t summed;

static double time_pass(void)
{
    double start = now();
    summed = sum_of(file, passed);
    return now() - start;
}

static double time_vector_pass(void)
{
    double start = now();
    summed = vector_sum_of(file, passed);
    return now() - start;
}

/* Checks and times the file, and prints its line. Where an answer is wrong there is nothing to time. */
static int show_check(const char *what, struct answer right)
{
    static double (*const calls[])(void) = {time_check, time_ref_check, time_pass, time_vector_pass};
    struct rounds rounds[MOST_CALLS];
    if (!same_answers(right))
        return 0;
    passed = (size_t)right.place;
    measure(4, calls, rounds);
    printf("%-8s  %8zu  %5" PRIu32 "  %6" PRIu32 "  |", what, file_len, right.steps, right.number);
    for (int i = 0; i < 4; i++)
        printf("  %7.3f", median_of(rounds[i]) / (double)passed);
    show_ratio(ratio_of(rounds[0], rounds[1]));
    show_ratio(ratio_of(rounds[0], rounds[2]));
    printf("  |  %7.3f\n", ratio_of(rounds[0], rounds[3]).medians);
    fflush(stdout);
    return 1;
}

int show_checks(void)
{
    int right = 1;
    printf("The check: ns for each byte before the place, medians of %d rounds; beside it the quick Rust's, and a\n"
        "plain pass that adds up those bytes, one by one (pass) and in the compiler's vectors (vectors). The ratios\n"
        "are of the check to each of the three.\n\n", ROUNDS);
    printf("%-8s  %8s  %5s  %6s  |  %7s  %7s  %7s  %7s", "steps of", "bytes", "steps", "number", "check", "Rust",
        "pass", "vectors");
    show_ratio_heading("Rust");
    show_ratio_heading("pass");
    printf("  |  vectors\n");
    for (int part = 3; part >= 0; part--)
        right &= show_check("powers", make_complete(POWERS, YB_MOST_STEPS >> part));
    right &= show_check("all", make_complete(ALL_FIELDS, YB_MOST_STEPS / 2));
    right &= show_check("missing", make_complete(MISSING, YB_MOST_STEPS));
    right &= show_check("powers", make_overlong());
    return right;
}
