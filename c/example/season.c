/* season FILE: reads a stick and says what is wrong with it or, of a complete one, the figures of its season.
**
**     cc season.c $(pkg-config --cflags --libs yesbrulka) -o season
**
** Exit status 0 if the stick is complete, 1 if it was refused, 2 for a wrong call, a file that cannot be read, or lines
** that cannot be written.
*/
#include <inttypes.h>
#include <stdio.h>
#include <yesbrulka.h>

/* One byte more than a stick may have: of a longer file as much is read, which the library then refuses. */
static uint8_t bytes[YB_MOST_FILE_BYTES + 1];

static int read_stick(const char *name, size_t *len)
{
    FILE *in = fopen(name, "rb");
    if (in == NULL)
        return 0;
    *len = fread(bytes, 1, sizeof bytes, in);
    int whole = !ferror(in);
    fclose(in);
    return whole;
}

/* The five figures of a measure: smallest and largest with their steps, and the steps that are outside. */
static void print_measure(const char *what, const char *unit, const int64_t *figures)
{
    printf("smallest %s %" PRId64 " %s in step %" PRId64 "\n", what, figures[0], unit, figures[1]);
    printf("largest %s %" PRId64 " %s in step %" PRId64 "\n", what, figures[2], unit, figures[3]);
    printf("%s outside the band in %" PRId64 " steps\n", what, figures[4]);
}

/* Steps are counted from 0. Without a reading there is no measure, and by current no net measure. */
static void print_figures(const int64_t *figures, int by_current)
{
    printf("%" PRId64 " readings missing\n", figures[YB_FIGURE_MISSING]);
    if (figures[YB_FIGURE_MISSING] < figures[YB_FIGURE_STEPS])
        print_measure("measure", by_current ? "mA" : "W", figures + YB_FIGURE_LEAST);
    if (figures[YB_FIGURE_MISSING] < figures[YB_FIGURE_STEPS] && !by_current)
        print_measure("net measure", "W", figures + YB_FIGURE_NET_LEAST);
    if (figures[YB_FIGURE_STEPS] > 0)
        printf("lowest store %" PRId64 " J after step %" PRId64 "\n", figures[YB_FIGURE_STORE],
            figures[YB_FIGURE_STORE_STEP]);
    printf("losses %" PRId64 ".%06" PRId64 " MJ\n", figures[YB_FIGURE_LOSS_MJ], figures[YB_FIGURE_LOSS_J]);
    printf("some request not met in %" PRId64 " steps\n", figures[YB_FIGURE_NOT_MET]);
}

int main(int argc, char **argv)
{
    size_t len;
    uint8_t mode, phase;
    int32_t target;
    uint32_t band, steps;
    uint64_t place;
    uint16_t factor;
    int64_t figures[YB_FIGURES];
    if (argc != 2 || !read_stick(argv[1], &len)) {
        fprintf(stderr, argc != 2 ? "usage: season FILE\n" : "season: the file cannot be read\n");
        return 2;
    }
    uint32_t refusal = yb_checked(bytes, len, &place, &steps);
    if (refusal == 0)
        refusal = yb_settings(bytes, len, &mode, &target, &band, &factor, &phase);
    if (refusal == 0) /* for the stick's own target; any other can be asked for */
        refusal = yb_peaks(bytes, len, target, figures, YB_FIGURES);
    if (refusal == 0) {
        printf("%s: complete, %" PRIu32 " steps\n", argv[1], steps);
        print_figures(figures, mode == YB_I_PEAK_SHAVE || mode == YB_I_PEAK_SHAVE_LOW);
    } else {
        printf("%s: refused %" PRIu32 " (%s) at byte %" PRIu64 " after %" PRIu32 " steps\n", argv[1], refusal,
            yb_refusal_words(refusal), place, steps);
    }
    if (fflush(stdout) != 0 || ferror(stdout)) {
        fprintf(stderr, "season: the lines cannot be written\n");
        return 2;
    }
    return refusal != 0;
}
