/* What the examples share that take a book by name: the stores that they lend, and how they read the book. */
#ifndef EXAMPLES_BOOK_H
#define EXAMPLES_BOOK_H

#include "aut68.h"

#include <stdio.h>

enum { BUDGET = 100000, LIMIT = AUT68_LARGEST_LIMIT, LINES = AUT68_MOST_LINES, BYTES = 1 << 24, TERMS = 1 << 20, INDEX = 1 << 20 };
enum { TABLE = AUT68_ROW_WIDTH * LINES, WORK = AUT68_WORK_UNITS * LIMIT };

static uint8_t book[BYTES];
static uint32_t table[TABLE], entries[INDEX];
static Aut68Cell terms[TERMS], work[WORK];

/* Reads the book with this name, its length to *length; 0 if it cannot be read, and standard error says why. */
static int read_book(const char *name, size_t *length)
{
    FILE *file = fopen(name, "rb");
    *length = file == NULL ? 0 : fread(book, 1, BYTES, file);
    if (file == NULL || ferror(file)) {
        perror(name);
        return 0;
    }
    fclose(file);
    return 1;
}

#endif
