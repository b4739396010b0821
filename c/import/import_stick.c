/* Sticks: asking the library what one says, and the lines that say what came of it. */
#include <inttypes.h>
#include <string.h>

#include "import_files.h"
#include "import_json.h"
#include "import_result.h"
#include "yesbrulka.h"

/* A byte that would move or end the line is a question mark. */
void print_name(FILE *out, const char *name)
{
    for (; *name != '\0'; name++)
        putc((unsigned char)*name < ' ' || *name == 0x7F ? '?' : *name, out);
}

void print_bytes(const uint8_t *bytes, uint64_t count, uint64_t place)
{
    for (uint64_t at = 0; at < count; at++) {
        if (at % 16 == 0)
            printf("    %8" PRIu64 " ", place + at);
        printf(" %02X%s", bytes[at], at % 16 == 15 || at + 1 == count ? "\n" : "");
    }
}

int failed(const char *name, const char *what, const char *why)
{
    keep_failure(what, why);
    end_progress();
    fflush(stdout);
    fprintf(stderr, "import: ");
    print_name(stderr, name);
    fprintf(stderr, ": %s%s\n", what, why);
    return FAILED;
}

int fault(const char *name)
{
    return failed(name, "the library's answer is not about this file; ", "keep it and tell the developers");
}

/* The edition is the fleet's first value. */
unsigned edition_of(const struct stick *stick)
{
    return stick->head_len > HEADER ? stick->head[HEADER] : 0;
}

unsigned fleet_units(const struct stick *stick)
{
    return stick->head_len > HEADER + 1 ? stick->head[HEADER + 1] : 0;
}

const char *mode_name(unsigned mode)
{
    static const char *const names[] = {"", [YB_PEAK_SHAVE] = " (PeakShave)", [YB_SUPPORT] = " (Support)",
        [YB_PEAK_SHAVE_LOW] = " (PeakShaveLow)", [YB_I_PEAK_SHAVE] = " (I-PeakShave)",
        [YB_I_PEAK_SHAVE_LOW] = " (I-PeakShaveLow)"};
    return names[mode < sizeof names / sizeof names[0] ? mode : 0];
}

/* A result in the stick's place is told from other bytes that are no stick, and from a stick that is too long. */
static int looks_like_a_result(const struct stick *stick)
{
    return (stick->number == YB_UNKNOWN_TAG || stick->number == YB_TOO_MANY) && stick->place == 0 &&
        begins_like_a_result(refused_bytes(stick), refused_len(stick));
}

int begins_like_a_stick(const uint8_t *bytes, size_t len)
{
    static const uint8_t fleet[] = {FLEET_TAG, 0, 6};
    return len >= sizeof fleet && memcmp(bytes, fleet, sizeof fleet) == 0;
}

/* An archive of the kind gzip begins with the tag of a result's end too, and then goes on otherwise. */
int begins_like_a_result(const uint8_t *bytes, size_t len)
{
    return len != 0 && (bytes[0] == RECORD_TAG || bytes[0] == RESULT_END_TAG) && (len == 1 || bytes[1] == 0);
}

static void print_exchanged(const struct stick *stick)
{
    if (stick->result != NULL && is_stick_file(stick->result)) {
        printf("    It looks like a result file, and ");
        print_name(stdout, stick->result);
        printf(" like a stick: they may have been exchanged; the stick's file comes first.\n");
    } else {
        printf("    It looks like a result file; where a command takes both, the stick's file comes first.\n");
    }
}

void print_answer(const struct stick *stick)
{
    print_name(stdout, stick->name);
    if (stick->number == 0) {
        printf(": complete, %" PRIu32 " steps\n", stick->steps);
        return;
    }
    printf(": refused %" PRIu32 " (%s) at byte %" PRIu64 " after %" PRIu32 " steps\n", stick->number,
        refusal_name(stick), stick->place, stick->steps);
    print_advice(stick);
    if (looks_like_a_result(stick))
        print_exchanged(stick);
    if (stick->is_shown)
        print_refused_field(stick);
}

int refused(const struct stick *stick, const char *not_done)
{
    print_answer(stick);
    failed(stick->name, "refused; ", not_done);
    return REFUSED;
}

int ask_complete(struct stick *stick, const struct taker *taker, const char *not_done)
{
    int outcome = feed_file(stick, taker);
    if (outcome == REFUSED)
        return refused(stick, not_done);
    return outcome == COMPLETE ? ask_site(stick) : outcome;
}

int ask_settings(struct settings *settings, const struct stick *stick)
{
    uint32_t number = yb_settings(stick->head, stick->head_len, &settings->mode, &settings->target, &settings->band,
        &settings->factor, &settings->phase);
    return number == 0 ? COMPLETE : fault(stick->name);
}

int ask_unit(struct unit *unit, const struct stick *stick, unsigned which)
{
    uint32_t number = yb_unit(stick->head, stick->head_len, which, &unit->rated, &unit->reserve, &unit->stored,
        &unit->rating, &unit->kva, &unit->idle_loss, &unit->var_request, &unit->weight, &unit->inverter,
        &unit->charge, &unit->discharge, &unit->priority);
    return number == 0 ? COMPLETE : fault(stick->name);
}

int ask_limits(struct limits *limits, const struct stick *stick, unsigned which)
{
    uint32_t number = yb_var_limits(stick->head, stick->head_len, which, &limits->provide, &limits->absorb);
    return number == 0 ? COMPLETE : fault(stick->name);
}
