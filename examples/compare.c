/* Compares two expressions over a book, each a string of cells: decimal numbers, separated by spaces.

       (cd crates/c_api && rt lib)
       cc -std=c11 -Wall -Wextra -I include examples/compare.c crates/c_api/out/libc_api.a -o compare_c
       ./compare_c examples/sample.aut '4 43 59' '35 35 43'
*/
#include "book.h"

#include <stdlib.h>
#include <string.h>

static Aut68Cell left[LIMIT], right[LIMIT];

/* The cells of a text, their number to *length; 0 if it holds anything but cells, or more of them than an expression may have. */
static int read_cells(const char *text, Aut68Cell *cells, size_t *length)
{
    char *end;
    *length = 0;
    for (text += strspn(text, " "); *text != '\0'; text = end + strspn(end, " ")) {
        unsigned long cell = strtoul(text, &end, 10);
        if (end == text || cell > UINT32_MAX || *length == LIMIT)
            return 0;
        cells[(*length)++] = (Aut68Cell)cell;
    }
    return 1;
}

int main(int argc, char **argv)
{
    size_t length, left_length, right_length;
    if (argc != 4 || !read_cells(argv[2], left, &left_length) || !read_cells(argv[3], right, &right_length)) {
        fputs("usage: compare BOOK LEFT RIGHT\n", stderr);
        return 2;
    }
    if (!read_book(argv[1], &length))
        return 2;

    Aut68Answer a = aut68_compare(book, length, BUDGET, LIMIT, table, TABLE, terms, TERMS, work, WORK, entries, INDEX,
                                  left, left_length, right, right_length, BUDGET);
    if (a.line > 0)
        printf("refused, %u %u %u\n", a.code, a.line, a.steps);
    else if (a.code == AUT68_ACCEPTED)
        printf("equal, %u steps\n", a.steps);
    else if (a.code == AUT68_MISMATCH)
        printf("different, %u steps\n", a.steps);
    else
        printf("not compared, %u %u\n", a.code, a.steps);
    return a.code != AUT68_ACCEPTED;
}
