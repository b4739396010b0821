/* JSON as it is written: what stands in a text is escaped, so that any name is one text on one line. */
#include <inttypes.h>
#include <string.h>

#include "import_advice.h"
#include "import_json.h"

/* Whether something stands before the next member, in what was opened last. */
static int is_after;

static char failure[200];

/* The bytes of the UTF-8 character that a text begins with, or 0 where it begins with none: neither a longer form than
** need be, nor half of a pair, nor a number beyond the last one.
*/
static int character_len(const unsigned char *text)
{
    int len = text[0] < 0x80 ? 1 : text[0] >= 0xC2 && text[0] < 0xE0 ? 2 : text[0] >= 0xE0 && text[0] < 0xF0 ? 3 :
        text[0] >= 0xF0 && text[0] < 0xF5 ? 4 : 0;
    for (int i = 1; i < len; i++)
        if ((text[i] & 0xC0) != 0x80)
            return 0;
    if ((text[0] == 0xE0 && text[1] < 0xA0) || (text[0] == 0xED && text[1] >= 0xA0) ||
        (text[0] == 0xF0 && text[1] < 0x90) || (text[0] == 0xF4 && text[1] >= 0x90))
        return 0;
    return len;
}

static void print_character(const unsigned char *text, int len)
{
    if (len == 0)
        printf("\\uFFFD");
    else if (text[0] == '"' || text[0] == '\\')
        printf("\\%c", text[0]);
    else if (text[0] < ' ' || text[0] == 0x7F)
        printf("\\u%04X", (unsigned)text[0]);
    else
        printf("%.*s", len, (const char *)text);
}

static void print_text(const char *text)
{
    const unsigned char *at = (const unsigned char *)text;
    putchar('"');
    while (*at != '\0') {
        int len = character_len(at);
        print_character(at, len);
        at += len == 0 ? 1 : len;
    }
    putchar('"');
}

static int is_utf_8(const char *text)
{
    const unsigned char *at = (const unsigned char *)text;
    while (*at != '\0' && character_len(at) != 0)
        at += character_len(at);
    return *at == '\0';
}

/* What stands before a value: a comma behind the one before it, and its key. */
static void begin_member(const char *key)
{
    if (is_after)
        printf(", ");
    is_after = 1;
    if (key != NULL)
        printf("\"%s\": ", key);
}

static void json_hex(const char *key, const char *bytes)
{
    begin_member(key);
    putchar('"');
    for (; *bytes != '\0'; bytes++)
        printf("%02X", (unsigned)(unsigned char)*bytes);
    putchar('"');
}

void begin_json(const char *name)
{
    is_after = 0;
    putchar('{');
    json_text("file", name);
    if (!is_utf_8(name))
        json_hex("file_hex", name);
}

void end_json(void)
{
    printf("}\n");
}

void json_text(const char *key, const char *text)
{
    begin_member(key);
    print_text(text);
}

void json_number(const char *key, int64_t number)
{
    begin_member(key);
    printf("%" PRId64, number);
}

void json_large(const char *key, large number)
{
    char digits[40] = "";
    int at = sizeof digits - 1;
    do
        digits[--at] = (char)('0' + (int)(number % 10));
    while ((number /= 10) != 0);
    begin_member(key);
    printf("%s", digits + at);
}

void json_truth(const char *key, int is_so)
{
    begin_member(key);
    printf("%s", is_so ? "true" : "false");
}

void json_null(const char *key)
{
    begin_member(key);
    printf("null");
}

static void open_with(const char *key, char bracket)
{
    begin_member(key);
    putchar(bracket);
    is_after = 0;
}

static void close_with(char bracket)
{
    putchar(bracket);
    is_after = 1;
}

void json_open_list(const char *key)
{
    open_with(key, '[');
}

void json_close_list(void)
{
    close_with(']');
}

void json_open(const char *key)
{
    open_with(key, '{');
}

void json_close(void)
{
    close_with('}');
}

void keep_failure(const char *what, const char *why)
{
    snprintf(failure, sizeof failure, "%s%s", what, why);
}

static void json_refused(const struct stick *stick)
{
    struct told told;
    tell_refusal(&told, stick);
    json_text("words", refusal_name(stick));
    json_number("place", (int64_t)stick->place);
    json_text("what", told.what.bytes);
    json_text("advice", told.advice.bytes);
}

void json_answer(const struct stick *stick, int outcome)
{
    json_text("status", outcome == COMPLETE ? "complete" : outcome == REFUSED ? "refused" : "failed");
    if (outcome == FAILED) {
        json_text("what", failure);
        return;
    }
    json_number("number", stick->number);
    json_number("steps", stick->steps);
    if (outcome == REFUSED)
        json_refused(stick);
    else
        json_number("bytes", (int64_t)stick->len);
}
