/* Files that are no sticks, told apart by their first bytes. */
#include <string.h>

#include "import_advice.h"

/* As many bytes as are looked at for text, and for a file that has nothing in it. */
enum { LOOKED_AT = 256 };

static const struct {
    const char *begins, *is;
} kinds[] = {
    {"PK\3\4", "a zip archive, such as a spreadsheet of the kind xlsx or ods"},
    {"\xD0\xCF\x11\xE0", "a document of an office program, such as a spreadsheet of the kind xls"},
    {"%PDF", "a PDF"},
    {"\xFF\xD8\xFF", "a picture (JPEG)"},
    {"\x89PNG", "a picture (PNG)"},
    {"GIF8", "a picture (GIF)"},
    {"\x1F\x8B", "a gzip archive"},
    {"7z\xBC\xAF", "a 7z archive"},
    {"Rar!", "a RAR archive"},
    {"\x7F" "ELF", "a program"},
    {"MZ\x90", "a program"},
    {"\xFF\xFE", "text: a spreadsheet or a letter"},
    {"\xFE\xFF", "text: a spreadsheet or a letter"},
};

/* Letters, digits and blanks, and nothing that no text has; what is beyond ASCII may be a letter. */
static int is_text(const uint8_t *bytes, size_t len)
{
    size_t plain = 0;
    for (size_t i = 0; i < len; i++) {
        if ((bytes[i] < ' ' && strchr("\t\r\n\f", bytes[i]) == NULL) || bytes[i] == 0 || bytes[i] == 0x7F)
            return 0;
        plain += bytes[i] < 0x80;
    }
    return 2 * plain >= len;
}

static int is_nothing(const uint8_t *bytes, size_t len)
{
    size_t zeros = 0;
    while (zeros < len && bytes[zeros] == 0)
        zeros++;
    return zeros == len;
}

static const char *kind_of(const uint8_t *bytes, size_t len)
{
    for (size_t i = 0; i < sizeof kinds / sizeof kinds[0]; i++) {
        size_t begins = strlen(kinds[i].begins);
        if (len >= begins && memcmp(bytes, kinds[i].begins, begins) == 0)
            return kinds[i].is;
    }
    return is_text(bytes, len) ? "text: a spreadsheet or a letter" : NULL;
}

static void say_beginning(struct text *text, const uint8_t *bytes, size_t len)
{
    for (size_t i = 0; i < len && i < HEADER; i++)
        say(text, " %02X", bytes[i]);
}

void tell_foreign(struct told *told, const uint8_t *bytes, size_t len)
{
    size_t looked_at = len < LOOKED_AT ? len : LOOKED_AT;
    const char *kind = kind_of(bytes, looked_at);
    if (kind != NULL) {
        say(&told->what, "This looks like %s, no stick.", kind);
    } else if (is_nothing(bytes, looked_at)) {
        say(&told->what, "This is no stick: it begins with nothing but zeros, as a file does that was never written.");
    } else {
        say(&told->what, "This is no stick%s: a stick begins with the bytes 01 00 06, and this file with",
            begins_like_a_result(bytes, len) ? "" : ", or its beginning was changed");
        say_beginning(&told->what, bytes, len);
        say(&told->what, ".");
    }
    say(&told->advice, "Copy the stick again, and see that it is the stick's own file; if it stays so, ask the manager "
        "which file that is.");
}
