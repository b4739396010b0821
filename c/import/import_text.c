/* Texts that are put together piece by piece; numbers as people read them. */
#include <stdarg.h>
#include <string.h>

#include "import_text.h"

enum { INDENT = 4 };

void say(struct text *text, const char *format, ...)
{
    va_list words;
    size_t room = sizeof text->bytes - text->len;
    va_start(words, format);
    int len = vsnprintf(text->bytes + text->len, room, format, words);
    va_end(words);
    if (len > 0)
        text->len += (size_t)len < room ? (size_t)len : room - 1;
}

void say_number(struct text *text, number of)
{
    if (of < 0)
        say(text, "-");
    number size = of < 0 ? -of : of;
    if (size < 1000) {
        say(text, "%d", (int)size);
        return;
    }
    say_number(text, size / 1000);
    say(text, ",%03d", (int)(size % 1000));
}

void say_thousandths(struct text *text, int64_t of)
{
    number size = of < 0 ? -(number)of : of;
    if (of < 0)
        say(text, "-");
    say_number(text, size / 1000);
    say(text, ".%03d", (int)(size % 1000));
}

void say_many(struct text *text, uint64_t count, const char *what)
{
    say_number(text, count);
    say(text, " %s%s", what, count == 1 ? "" : "s");
}

/* Which of something it is, counted from 1 as people do. */
static void say_counted(struct text *text, unsigned count, const char *what)
{
    static const char *const ends[] = {"th", "st", "nd", "rd"};
    say(text, "the ");
    say_number(text, count);
    say(text, "%s %s", count % 10 > 3 || count / 10 % 10 == 1 ? "th" : ends[count % 10], what);
}

void say_which(struct text *text, const char *what, unsigned which)
{
    say(text, "%s ", what);
    say_number(text, which);
    say(text, ", ");
    say_counted(text, which + 1, what);
}

void say_step(struct text *text, uint32_t step)
{
    say(text, "step ");
    say_number(text, step);
    say(text, ", ");
    say_counted(text, step + 1, "row");
}

void print_wrapped(const struct text *text)
{
    size_t column = 0;
    for (const char *at = text->bytes; *at != '\0'; at += *at == ' ') {
        size_t len = strcspn(at, " ");
        if (column != 0 && column + 1 + len <= COLUMNS_OF_LINE) {
            printf(" ");
            column++;
        } else {
            printf("%s%*s", column == 0 ? "" : "\n", INDENT, "");
            column = INDENT;
        }
        printf("%.*s", (int)len, at);
        column += len;
        at += len;
    }
    printf("\n");
}

void print_commas(uint64_t count)
{
    struct text text = {.len = 0};
    say_number(&text, count);
    printf("%s", text.bytes);
}

void print_counted(unsigned count, const char *what)
{
    struct text text = {.len = 0};
    say_counted(&text, count, what);
    printf("%s", text.bytes);
}

void print_many(uint64_t count, const char *what, const char *of_one, const char *of_many)
{
    struct text text = {.len = 0};
    say_many(&text, count, what);
    printf("%s%s", text.bytes, count == 1 ? of_one : of_many);
}

void print_the_step(uint32_t step)
{
    struct text text = {.len = 0};
    say_step(&text, step);
    printf("%s", text.bytes);
}

void print_which(const char *what, unsigned which)
{
    struct text text = {.len = 0};
    say_which(&text, what, which);
    printf("%s", text.bytes);
}
