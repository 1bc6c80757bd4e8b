/* Checks a book from standard input and writes its recorded lines and the outcome.

       (cd crates/c_api && rt lib)
       cc -std=c11 -Wall -Wextra -I include examples/check.c crates/c_api/out/libc_api.a -o check_c
       ./check_c < examples/sample.aut
*/
#include "aut68.h"

#include <stdio.h>
#include <stdlib.h>

enum { BUDGET = 100000, LIMIT = AUT68_LARGEST_LIMIT, LINES = AUT68_MOST_LINES, TERMS = 1 << 20, INDEX = 1 << 20 };
enum { TABLE = AUT68_ROW_WIDTH * LINES, WORK = AUT68_WORK_UNITS * LIMIT };

static const char *const MEANINGS[] = {
    [AUT68_ACCEPTED] = "accepted",
    [AUT68_WORK_TOO_SMALL] = "working store too small",
    [AUT68_LIMIT_OUT_OF_RANGE] = "limit out of range",
    [AUT68_MALFORMED] = "malformed",
    [AUT68_DUPLICATE] = "identifier taken",
    [AUT68_UNKNOWN_NAME] = "unknown name, or indicator no EB line",
    [AUT68_WRONG_ARITY] = "argument count",
    [AUT68_NOT_FUNCTION] = "applied thing is no function",
    [AUT68_NOT_TYPE] = "domain or category is no type",
    [AUT68_MISMATCH] = "categories differ",
    [AUT68_TOO_LARGE] = "larger than the limit",
    [AUT68_OUT_OF_BUDGET] = "budget spent",
    [AUT68_OUT_OF_SPACE] = "table, shelf or index full, or more lines or bytes than a book may have",
    [AUT68_NOT_IN_CONTEXT] = "variable not in context",
};

/* All of standard input, its length in *length; no memory: NULL. */
static uint8_t *read_all(size_t *length)
{
    size_t room = 65536, n = 0;
    uint8_t *book = malloc(room);
    while (book != NULL) {
        n += fread(book + n, 1, room - n, stdin);
        if (n < room)
            break;
        room *= 2;
        uint8_t *larger = realloc(book, room);
        if (larger == NULL)
            free(book);
        book = larger;
    }
    *length = n;
    return book;
}

int main(void)
{
    size_t length;
    uint8_t *book = read_all(&length);
    if (ferror(stdin)) {
        perror("reading the book");
        free(book);
        return 2;
    }
    uint32_t *table = calloc(TABLE, sizeof *table);
    Aut68Cell *terms = calloc(TERMS, sizeof *terms);
    Aut68Cell *work = calloc(WORK, sizeof *work);
    uint32_t *index = calloc(INDEX, sizeof *index);
    if (book == NULL || table == NULL || terms == NULL || work == NULL || index == NULL) {
        fputs("no memory\n", stderr);
        return 2;
    }

    Aut68Outcome o = aut68_check(book, length, BUDGET, LIMIT, table, TABLE, terms, TERMS, work, WORK, index, INDEX);

    uint32_t recorded = o.code == AUT68_ACCEPTED ? o.line : o.line == 0 ? 0 : o.line - 1;
    for (uint32_t v = 0; v < recorded; v++) {
        const uint32_t *row = table + AUT68_ROW_WIDTH * v;
        Aut68Part name = aut68_identifier(book, length, table, TABLE, v + 1);
        printf("%6u  %.*s  kind %u, %u variables, %u and %u cells\n", v + 1,
               (int)name.length, (const char *)book + name.start,
               row[AUT68_KIND], row[AUT68_CONTEXT_LENGTH],
               row[AUT68_CATEGORY_START] - row[AUT68_MIDDLE_START],
               row[AUT68_CATEGORY_END] - row[AUT68_CATEGORY_START]);
    }
    printf("%u %u %llu: %s\n", o.code, o.line, (unsigned long long)o.steps, MEANINGS[o.code]);

    free(index);
    free(work);
    free(terms);
    free(table);
    free(book);
    return o.code == AUT68_ACCEPTED ? 0 : 1;
}
