/* Prints a book on paper 72 columns wide.

       (cd crates/c_api && rt lib)
       cc -std=c11 -Wall -Wextra -I include examples/pages.c crates/c_api/out/libc_api.a -o pages_c
       ./pages_c examples/landau.aut
*/
#include "book.h"

/* Room for the pages of every book of so many lines and bytes. */
enum { PAGE = AUT68_PAGE_ROW * (LINES + BYTES / AUT68_TEXT_COLUMNS) };

static uint8_t page[PAGE];

int main(int argc, char **argv)
{
    if (argc != 2) {
        fputs("usage: pages BOOK\n", stderr);
        return 2;
    }
    size_t length;
    if (!read_book(argv[1], &length))
        return 2;

    Aut68Answer a = aut68_pages(book, length, BUDGET, LIMIT, table, TABLE, terms, TERMS, work, WORK, entries, INDEX,
                                page, PAGE);
    if (a.code != AUT68_ACCEPTED) {
        fprintf(stderr, "%s: refused, %u %u %u\n", argv[1], a.code, a.line, a.steps);
        return 1;
    }
    if (fwrite(page, 1, a.length, stdout) != a.length || fflush(stdout) != 0) {
        perror("writing the pages");
        return 2;
    }
    return 0;
}
