/* watts KW..: what each phase power is in whole watts, a line for each.
**
** An argument is first rounded to a double, as a meter's reading is. Exit status 0 if all were converted,
** 1 if one was refused, 2 for a wrong call, an argument that is no number, or output that cannot be written.
*/
#include <inttypes.h>
#include <stdint.h>
#include <stdio.h>
#include <stdlib.h>

#include "yesbrulka.h"

/* All of the text as a double; 0 if it is no number. Too large a number is an infinity, and is refused
** like one.
*/
static int number(const char *text, double *value)
{
    char *end;
    *value = strtod(text, &end);
    return end != text && *end == '\0';
}

int main(int argc, char **argv)
{
    int status = 0;
    double kw;
    if (argc < 2) {
        fprintf(stderr, "usage: watts KW..\n");
        return 2;
    }
    for (int i = 1; i < argc; i++)
        if (!number(argv[i], &kw)) {
            fprintf(stderr, "watts: '%s' is no number\n", argv[i]);
            return 2;
        }
    for (int i = 1; i < argc; i++) {
        int32_t watts;
        number(argv[i], &kw);
        uint32_t refusal = yb_watts(kw, &watts);
        if (refusal == 0) {
            printf("%s kW: %" PRId32 " W\n", argv[i], watts);
        } else {
            printf("%s kW: refused %" PRIu32 " (%s)\n", argv[i], refusal, yb_refusal_words(refusal));
            status = 1;
        }
    }
    if (fflush(stdout) != 0 || ferror(stdout)) {
        fprintf(stderr, "watts: the lines cannot be written\n");
        return 2;
    }
    return status;
}
