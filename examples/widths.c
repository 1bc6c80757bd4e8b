/* Converts a stored shelf from standard input to standard output, cell by cell: `widen` takes cells of 16 bits and writes cells of 32,
   `narrow` the other way round, each in the byte order of the machine.

       (cd crates/c_api && rt lib)
       cc -std=c11 -Wall -Wextra -I include examples/widths.c crates/c_api/out/libc_api.a -o widths
       ./widths widen < old_shelf > shelf
*/
#include "aut68.h"

#include <stdio.h>
#include <string.h>

enum { CELLS = 1 << 24 };

static Aut68Cell wide[CELLS];
static Aut68NarrowCell small[CELLS];

/* Says why nothing is written. */
static int failed(const char *why)
{
    fprintf(stderr, "%s\n", why);
    return 2;
}

/* Reads a shelf of cells of this size; 0 if it cannot be read or does not end with a cell. */
static int read_shelf(void *cells, size_t size, size_t *length)
{
    size_t bytes = fread(cells, 1, size * CELLS, stdin);
    *length = bytes / size;
    return !ferror(stdin) && bytes % size == 0 && getchar() == EOF;
}

int main(int count, char **words)
{
    int widens = count == 2 && strcmp(words[1], "widen") == 0;
    if (!widens && !(count == 2 && strcmp(words[1], "narrow") == 0))
        return failed("widths widen|narrow");
    size_t length;
    void *source = widens ? (void *)small : wide;
    void *target = widens ? (void *)wide : small;
    if (!read_shelf(source, widens ? sizeof *small : sizeof *wide, &length))
        return failed("no shelf, or more cells than there is room for");
    Aut68Answer a = widens ? aut68_widen(small, length, wide, CELLS) : aut68_narrow(wide, length, small, CELLS);
    if (a.code != AUT68_ACCEPTED) {
        fprintf(stderr, "%u\n", a.code);
        return 1;
    }
    size_t size = widens ? sizeof *wide : sizeof *small;
    return fwrite(target, size, a.length, stdout) == a.length && fflush(stdout) == 0 ? 0 : failed("the shelf cannot be written");
}
