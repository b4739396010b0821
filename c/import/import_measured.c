/* The range of a stick's readings, as the library tells it, and those that are missing. */
#include "import_look.h"

/* As many of the steps without a reading are named. */
enum { NAMED = 5 };

int ask_measured(struct measured *measured, const struct stick *stick)
{
    int outcome = ask_season(&measured->season, stick);
    return outcome == COMPLETE && has_figures(stick)
        ? ask_figures(measured->figures, stick, measured->season.settings.target) : outcome;
}

/* A measure, and its step, which is the figure behind it. */
static void print_end(const struct measured *measured, const char *which, int figure)
{
    struct text text = {.len = 0};
    say(&text, "%s measure ", which);
    say_thousandths(&text, measured->figures[figure]);
    say(&text, " %s at ", measure_unit(&measured->season));
    say_step(&text, (uint32_t)measured->figures[figure + 1]);
    if (figure == YB_FIGURE_MOST) {
        say(&text, "; ");
        say_many(&text, (uint64_t)measured->figures[YB_FIGURE_MISSING], "reading");
        say(&text, " missing");
    }
    say(&text, ".");
    print_wrapped(&text);
}

/* Why there is no measure to be told. */
static void print_none(const struct stick *stick)
{
    struct text text = {.len = 0};
    if (!has_figures(stick)) {
        say(&text, "It has ");
        say_number(&text, stick->len);
        say(&text, " bytes, more than the ");
        say_number(&text, YB_MOST_FILE_BYTES);
        say(&text, " of a call that takes a whole file: it can be fed, as the commands here do, and is too long for "
            "its smallest and largest measure to be told.");
    } else if (stick->steps == 0) {
        say(&text, "It has no readings.");
    } else {
        say(&text, "It has no measure: ");
        say_many(&text, stick->steps, "reading");
        say(&text, " missing, which is all.");
    }
    print_wrapped(&text);
}

void print_measured(const struct measured *measured)
{
    const struct stick *stick = measured->season.stick;
    if (!has_figures(stick) || !has_measure(measured->figures)) {
        print_none(stick);
        return;
    }
    print_end(measured, "Smallest", YB_FIGURE_LEAST);
    print_end(measured, "Largest", YB_FIGURE_MOST);
}

void print_missing(const struct stick *stick)
{
    struct text text = {.len = 0};
    uint32_t step = 0, missing = 0;
    for (uint64_t at = 0; stick->len - at >= HEADER; at += field_len(stick->kept + at)) {
        if (stick->len - at < field_len(stick->kept + at))
            break;
        if (stick->kept[at] == MISSING_TAG && missing++ < NAMED) {
            say(&text, missing == 1 ? "Missing: " : "; ");
            say_step(&text, step);
        }
        step += (uint32_t)is_reading(stick->kept[at]);
    }
    if (missing > NAMED) {
        say(&text, "; and ");
        say_number(&text, missing - NAMED);
        say(&text, " more");
    }
    if (missing == 0)
        return;
    say(&text, ".");
    print_wrapped(&text);
}
