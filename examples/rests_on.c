/* Writes what a line of a book rests on: the identifiers of the PN lines that are reached from it by following names.

       (cd crates/c_api && rt lib)
       cc -std=c11 -Wall -Wextra -I include examples/rests_on.c crates/c_api/out/libc_api.a -o rests_on
       ./rests_on examples/landau.aut satz2
*/
#include "book.h"

#include <string.h>

static uint32_t answer[LINES];

int main(int argc, char **argv)
{
    if (argc != 3) {
        fputs("usage: rests_on BOOK IDENTIFIER\n", stderr);
        return 2;
    }
    size_t length;
    if (!read_book(argv[1], &length))
        return 2;

    Aut68Outcome o = aut68_check(book, length, BUDGET, LIMIT, table, TABLE, terms, TERMS, work, WORK, entries, INDEX);
    if (o.code != AUT68_ACCEPTED) {
        fprintf(stderr, "%s: refused, %u %u %llu\n", argv[1], o.code, o.line, (unsigned long long)o.steps);
        return 1;
    }

    /* The line with that identifier; 0 if there is none. */
    uint32_t line = o.line;
    for (; line > 0; line--) {
        Aut68Part name = aut68_identifier(book, length, table, TABLE, line);
        if (name.length == strlen(argv[2]) && memcmp(book + name.start, argv[2], name.length) == 0)
            break;
    }
    Aut68Answer a = aut68_rests_on(book, length, BUDGET, LIMIT, table, TABLE, terms, TERMS, work, WORK, entries, INDEX,
                                   line, answer, LINES);
    if (a.code == AUT68_NO_SUCH_LINE) {
        fprintf(stderr, "%s: no line %s\n", argv[1], argv[2]);
        return 1;
    }
    for (uint32_t i = 0; i < a.length; i++) {
        Aut68Part name = aut68_identifier(book, length, table, TABLE, answer[i]);
        printf("%.*s%c", (int)name.length, (const char *)book + name.start, i + 1 < a.length ? ' ' : '\n');
    }
    return 0;
}
