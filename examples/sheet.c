/* Compares pairs of expressions over a book, in one call. A line of standard input is a pair: BUDGET: LEFT: RIGHT, each side a string of
   cells, decimal numbers separated by spaces.

       (cd crates/c_api && rt lib)
       cc -std=c11 -Wall -Wextra -I include examples/sheet.c crates/c_api/out/libc_api.a -o sheet
       ./sheet examples/sample.aut < examples/sample.pairs
*/
#include "book.h"

#include <stdlib.h>

enum { CELLS = 1 << 20, PAIRS = 1 << 12, TEXT = 1 << 16 };

static Aut68Cell cells[CELLS];
static Aut68Pair pairs[PAIRS];
static Aut68Answer sheet[PAIRS];
static char text[TEXT];

/* Puts the numbers at *at behind the first *used cells, and *at behind them; how many there were. */
static uint32_t read_cells(char **at, size_t *used)
{
    uint32_t count = 0;
    for (char *end;; *at = end, count++) {
        unsigned long cell = strtoul(*at, &end, 10);
        if (end == *at || cell > UINT32_MAX || *used == CELLS)
            return count;
        cells[(*used)++] = (Aut68Cell)cell;
    }
}

/* The pair in the text; 0 if there is none, or the line does not end in it. */
static int read_pair(Aut68Pair *pair, size_t *used)
{
    char *at;
    unsigned long budget = strtoul(text, &at, 10);
    if (at == text || budget > UINT32_MAX || *at++ != ':')
        return 0;
    pair->budget = (uint32_t)budget;
    pair->left = (uint32_t)*used;
    pair->left_length = read_cells(&at, used);
    if (*at++ != ':')
        return 0;
    pair->right = (uint32_t)*used;
    pair->right_length = read_cells(&at, used);
    return *at == '\n' || (*at == '\0' && feof(stdin));
}

int main(int argc, char **argv)
{
    size_t length, used = 0, count = 0;
    if (argc != 2) {
        fputs("usage: sheet BOOK < PAIRS\n", stderr);
        return 2;
    }
    if (!read_book(argv[1], &length))
        return 2;
    while (fgets(text, TEXT, stdin) != NULL) {
        if (count == PAIRS || !read_pair(&pairs[count], &used)) {
            fprintf(stderr, "line %zu: no pair\n", count + 1);
            return 2;
        }
        count++;
    }
    if (ferror(stdin)) {
        perror("standard input");
        return 2;
    }

    Aut68Answer a = aut68_compare_sheet(book, length, BUDGET, LIMIT, table, TABLE, terms, TERMS, work, WORK, entries, INDEX,
                                        cells, used, pairs, count, sheet, PAIRS);
    if (a.code != AUT68_ACCEPTED) {
        printf("refused, %u %u %u\n", a.code, a.line, a.steps);
        return 1;
    }
    for (uint32_t i = 0; i < a.length; i++)
        printf("%u %u\n", sheet[i].code, sheet[i].steps);
    return 0;
}
