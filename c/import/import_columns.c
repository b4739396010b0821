/* Numbers as texts that people read, and these in columns. */
#include <string.h>

#include "import_columns.h"

/* Between two columns. */
enum { GAP = 2 };

void whole_text(char *text, large number)
{
    char digits[CELL] = "";
    int at = CELL - 1;
    for (int count = 0; count == 0 || number != 0; count++, number /= 10) {
        if (count != 0 && count % 3 == 0)
            digits[--at] = ',';
        digits[--at] = (char)('0' + (int)(number % 10));
    }
    memcpy(text, digits + at, (size_t)(CELL - at));
}

void signed_text(char *text, int64_t number)
{
    *text = '-';
    whole_text(text + (number < 0), number < 0 ? -(large)number : (large)number);
}

static void parts_text(char *text, large thousandths)
{
    whole_text(text, thousandths / 1000);
    snprintf(text + strlen(text), 5, ".%03d", (int)(thousandths % 1000));
}

void thousandths_text(char *text, int64_t number)
{
    *text = '-';
    parts_text(text + (number < 0), number < 0 ? -(large)number : (large)number);
}

void kwh_text(char *text, large energy)
{
    parts_text(text, (energy + 1800) / 3600);
}

void hours_text(char *text, uint64_t seconds)
{
    parts_text(text, ((large)1000 * seconds + 1800) / 3600);
}

void begin_rows(row *rows, const char *const *heading, int columns, unsigned count)
{
    for (int k = 0; k < columns; k++)
        strcpy(rows[0][k], heading[k]);
    for (unsigned i = 0; i < count; i++)
        snprintf(rows[i + 1][0], CELL, "%u", i);
}

/* A step stays beside what it is the step of. */
static int is_with_next(row heading, int column, int columns)
{
    return column + 1 < columns && strcmp(heading[column + 1], AT_STEP) == 0;
}

/* The columns from one on that fit beside the first, which are one and its step at least; gives the next one. */
static int columns_that_fit(row heading, const int *width, int from, int columns)
{
    int used = width[0], to = from;
    while (to < columns) {
        int next = to + 1 + is_with_next(heading, to, columns);
        for (int k = to; k < next; k++)
            used += GAP + width[k];
        if (used > SCREEN && to > from)
            break;
        to = next;
    }
    return to;
}

static void print_part(row *rows, unsigned count, const int *width, int from, int to)
{
    for (unsigned i = 0; i < count; i++) {
        printf("%*s", width[0], rows[i][0]);
        for (int k = from; k < to; k++)
            printf("%*s", GAP + width[k], rows[i][k]);
        putchar('\n');
    }
}

static void measure_columns(int *width, row *rows, unsigned count, int columns)
{
    for (int k = 0; k < columns; k++) {
        width[k] = 0;
        for (unsigned i = 0; i < count; i++)
            if ((int)strlen(rows[i][k]) > width[k])
                width[k] = (int)strlen(rows[i][k]);
    }
}

void print_rows(row *rows, unsigned count, int columns)
{
    int width[COLUMNS];
    measure_columns(width, rows, count, columns);
    print_part(rows, count, width, 1, columns);
}

void print_blocks(row *rows, unsigned count, int columns)
{
    int width[COLUMNS];
    measure_columns(width, rows, count, columns);
    for (int from = 1, to; from < columns; from = to) {
        to = columns_that_fit(rows[0], width, from, columns);
        putchar('\n');
        print_part(rows, count, width, from, to);
    }
}
