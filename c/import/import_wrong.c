/* What is said of a wrong result: which step and whose record, or what is missing or follows; its values and its bytes
** beside those of the run.
*/
#include <inttypes.h>
#include <string.h>

#include "import_summary.h"

/* What a part of a record is: a tag, a number, one with a sign, or kW. */
enum kind { TAG, NUMBER, SIGNED, POWER };

/* The parts of a record by their first bytes, and behind the last the bytes of all. */
static const struct part {
    unsigned from;
    const char *name;
    enum kind kind;
} record_parts[] = {
    {0, "tag", TAG}, {RECORD_LENGTH, "length", NUMBER}, {RECORD_STEP, "step", NUMBER}, {RECORD_UNIT, "unit", NUMBER},
    {RECORD_REQUEST, "request W", SIGNED}, {RECORD_KW, "delivered kW", POWER}, {RECORD_VARS, "vars", SIGNED},
    {RECORD_STORED, "stored J", NUMBER}, {RECORD_LOSS, "loss J", NUMBER}, {RECORD_BYTES, NULL, TAG},
}, solar_parts[] = {
    {0, "tag", TAG}, {SOLAR_LENGTH, "length", NUMBER}, {SOLAR_STEP, "step", NUMBER},
    {SOLAR_INVERTER, "inverter", NUMBER}, {SOLAR_ON, "on", NUMBER}, {SOLAR_KW, "delivered kW", POWER},
    {SOLAR_VARS, "vars", SIGNED}, {SOLAR_DC, "DC W", NUMBER}, {SOLAR_BYTES, NULL, TAG},
}, end_parts[] = {
    {0, "tag", TAG}, {RESULT_END_LENGTH, "length", NUMBER}, {RESULT_END_STEPS, "number of steps", NUMBER},
    {RESULT_END_BYTES, NULL, TAG},
};

/* Of the bytes behind the end the first so many are shown. */
enum { FIRST = 32 };

/* What is due where the result is wrong, and what the run has there. */
struct ours {
    struct due due;
    int is_there;
    uint8_t bytes[RECORD_BYTES];
};

static void take_ours(void *to, const struct run *run)
{
    struct ours *ours = to;
    uint64_t first = (uint64_t)step_bytes(run->units, run->inverters) * run->first;
    if (ours->due.from < first || ours->due.from - first >= run->len)
        return;
    memcpy(ours->bytes, run->bytes + (ours->due.from - first), ours->due.len);
    ours->is_there = 1;
}

/* Runs the stick again up to its end for the one field. It has to be another than the result's. */
static int ask_ours(struct ours *ours, const struct beside *beside)
{
    int outcome = feed_again(beside->stick, &(struct taker){take_ours, ours});
    if (outcome != COMPLETE)
        return outcome;
    int is_other = beside->count != ours->due.len || memcmp(beside->bytes + beside->start, ours->bytes, ours->due.len);
    return ours->is_there && is_other ? COMPLETE : fault(beside->result);
}

static const struct part *parts_of(uint8_t tag)
{
    return tag == RECORD_TAG ? record_parts : tag == SOLAR_TAG ? solar_parts : end_parts;
}

static const char *tag_name(uint8_t tag)
{
    return tag == RECORD_TAG ? "unit" : tag == SOLAR_TAG ? "inverter" : tag == RESULT_END_TAG ? "end" : "unknown";
}

static void value_text(char *text, const struct part *part, const uint8_t *bytes)
{
    switch (part->kind) {
    case TAG:
        strcpy(text, tag_name(*bytes));
        break;
    case SIGNED:
        snprintf(text, CELL, "%" PRId32, signed_at(bytes));
        break;
    case POWER:
        power_text(text, bytes);
        break;
    default:
        snprintf(text, CELL, "%" PRIu64, number_at(bytes, (int)(part[1].from - part->from)));
        break;
    }
}

static void bytes_text(char *text, const uint8_t *bytes, size_t count)
{
    for (size_t i = 0; i < count; i++)
        text += snprintf(text, 4, "%s%02X", i == 0 ? "" : " ", bytes[i]);
}

/* How many bytes of a part are there, in a field of so many. */
static size_t part_there(const struct part *part, size_t count)
{
    size_t to = count < part[1].from ? count : part[1].from;
    return to > part->from ? to - part->from : 0;
}

static int differs(const struct part *part, size_t count, const uint8_t *theirs, const uint8_t *ours)
{
    size_t there = part_there(part, count);
    return memcmp(theirs + part->from, ours + part->from, there) != 0;
}

/* A part's line: what came of it, its name, their value and ours, their bytes and ours. */
static void part_texts(row cells, const struct part *part, size_t count, const uint8_t *theirs, const uint8_t *ours)
{
    size_t there = part_there(part, count), width = part[1].from - part->from;
    const char *state = differs(part, count, theirs, ours) ? "differs" : "same";
    strcpy(cells[0], there == 0 ? "missing" : there < width ? "cut short" : state);
    strcpy(cells[1], part->name);
    strcpy(cells[2], "-");
    strcpy(cells[4], "-");
    if (there == width)
        value_text(cells[2], part, theirs + part->from);
    value_text(cells[3], part, ours + part->from);
    bytes_text(cells[4], theirs + part->from, there);
    bytes_text(cells[5], ours + part->from, width);
}

static void print_parts(const struct beside *beside, const struct ours *ours)
{
    enum { PARTS_COLUMNS = 6 };
    static const char *const heading[PARTS_COLUMNS] = {"", "value", "theirs", "ours", "their bytes", "our bytes"};
    static row rows[ROWS];
    unsigned count = 0;
    begin_rows(rows, heading, PARTS_COLUMNS, 0);
    for (const struct part *part = parts_of(ours->due.tag); part->name != NULL; part++)
        part_texts(rows[++count], part, (size_t)beside->count, beside->bytes + beside->start, ours->bytes);
    print_rows(rows, count + 1, PARTS_COLUMNS);
}

/* Whose record is due, counted as in the files and as people do; or the end. */
static void print_due(const struct due *due, const char *the)
{
    if (due->tag == RESULT_END_TAG) {
        printf("%s end", the);
        return;
    }
    printf("%s record of ", the);
    print_which(due->tag == RECORD_TAG ? "unit" : "inverter", due->which);
    printf(", in ");
    print_the_step(due->step);
    printf(",");
}

static void print_differing(const struct beside *beside, const struct ours *ours)
{
    const char *before = " What differs: ";
    for (const struct part *part = parts_of(ours->due.tag); part->name != NULL; part++)
        if (differs(part, (size_t)beside->count, beside->bytes + beside->start, ours->bytes)) {
            printf("%s%s", before, part->name);
            before = ", ";
        }
    printf("%s\n", *before == ',' ? "." : "");
}

static void print_field(const struct beside *beside, const struct ours *ours)
{
    printf("    ");
    print_due(&ours->due, "The");
    printf(" is due there");
    int there = (int)beside->count, missing = (int)ours->due.len - there;
    if (missing > 0)
        printf(", and is cut short: %d of its %d bytes %s there, and %d %s missing", there, (int)ours->due.len,
            there == 1 ? "is" : "are", missing, missing == 1 ? "is" : "are");
    printf(".");
    print_differing(beside, ours);
    print_parts(beside, ours);
}

static void print_lacking(const struct beside *beside, const struct due *due)
{
    printf("    The result ends there: ");
    print_due(due, "the");
    printf(" is missing. The %s of ", due->tag == RESULT_END_TAG ? "end field" : "reading");
    print_name(stdout, beside->stick->name);
    printf(" that asks for it is at byte ");
    print_commas(beside->start);
    printf(" and has ");
    print_many(beside->count, "byte", ":\n", ":\n");
    print_bytes(beside->stick->kept + beside->start, beside->count, beside->start);
}

static void print_behind(const struct beside *beside)
{
    uint64_t first = beside->count < FIRST ? beside->count : FIRST;
    printf("    All that is due is there, and behind it ");
    print_many(beside->size - beside->start, "byte", "", beside->is_longer ? " or more" : "");
    printf("%s:\n", first < beside->count ? ", which begin with" : "");
    print_bytes(beside->bytes + beside->start, first, beside->start);
}

/* A file that is none of ours from its first byte on. */
static void print_foreign(const struct beside *beside)
{
    if (beside->len == 0)
        printf("    It is empty: it was not written.\n");
    else if (beside->start != 0 || beside->verdict == YB_LACKING)
        return;
    else if (begins_like_a_stick(beside->bytes, beside->len))
        printf("    It looks like a stick, and no result; give the result of FILE in its place.\n");
    else if (beside->bytes[0] != RECORD_TAG && beside->bytes[0] != RESULT_END_TAG)
        printf("    It does not begin like a result: the first byte is 11, or 1F where there are no steps.\n");
}

int print_wrong(const struct beside *beside)
{
    uint64_t place = beside->verdict == YB_WRONG ? beside->start : beside->len;
    struct ours ours = {.due = due_at(beside->stick, place)};
    int is_field = beside->verdict == YB_WRONG && ours.due.tag != 0;
    if (is_field && ask_ours(&ours, beside) != COMPLETE)
        return FAILED;
    print_name(stdout, beside->result);
    printf(": wrong: not the result of ");
    print_name(stdout, beside->stick->name);
    printf(", from byte ");
    print_commas(place);
    printf(" on\n");
    if (is_field)
        print_field(beside, &ours);
    else if (beside->verdict == YB_LACKING)
        print_lacking(beside, &ours.due);
    else
        print_behind(beside);
    print_foreign(beside);
    printf("    It was changed or cut, is another stick's, or was made by other rules; import run FILE NEW makes the "
        "right one.\n");
    return REFUSED;
}
