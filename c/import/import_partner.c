/* import partner: whether a partner's result is, byte for byte, what the run of its stick gives; and where it is not,
** the first field that is wrong.
*/
#include "import_result.h"
#include "yesbrulka.h"

static const char no_verdict[] = "there is no verdict";

/* The refusal is the one that the library has for the whole file. Of one that is too long only its beginning is looked
** at, for it may be a result or no stick at all.
*/
static int refuse(struct stick *stick, const uint8_t *file, size_t len)
{
    uint8_t verdict;
    uint64_t start, count;
    uint32_t number = yb_partner(file, len, NULL, 0, &verdict, &start, &count);
    if (len > YB_MOST_FILE_BYTES) {
        stick->number = YB_TOO_MANY;
        stick->window = file;
        stick->window_len = len;
    }
    return number == stick->number ? refused(stick, no_verdict) : fault(stick->name);
}

static void print_right(const struct beside *beside)
{
    print_name(stdout, beside->result);
    printf(": right: the result of ");
    print_name(stdout, beside->stick->name);
    printf(", ");
    print_many(beside->stick->steps, "step", ", ", ", ");
    print_many(beside->len, "byte", "\n", "\n");
}

static int judge(struct stick *stick, const char *result)
{
    struct beside beside = {.result = result, .stick = stick};
    int outcome = ask_site(stick) == COMPLETE ? judge_result(&beside) : FAILED;
    if (outcome == COMPLETE && beside.verdict != YB_RIGHT)
        outcome = print_wrong(&beside);
    else if (outcome == COMPLETE)
        print_right(&beside);
    free_result(&beside);
    return outcome;
}

int partner_command(const char *name, const char *result)
{
    static uint8_t file[YB_MOST_FILE_BYTES + 1];
    struct stick stick = {.name = name, .result = result, .is_kept = 1};
    size_t len;
    if (is_input_twice(name, result) || read_input(name, file, sizeof file, &len) != COMPLETE)
        return FAILED;
    int outcome = len > YB_MOST_FILE_BYTES ? REFUSED : feed_bytes(&stick, file, len);
    if (outcome == COMPLETE)
        outcome = judge(&stick, result);
    else if (outcome == REFUSED)
        outcome = refuse(&stick, file, len);
    free_kept(&stick);
    return outcome;
}
