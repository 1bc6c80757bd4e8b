/* The check of an AUT-68 book, calls on accepted books, and calls on stored shelves, for C.
   The library is crates/c_api/out/libc_api.a, which `rt lib` writes in crates/c_api. */
#ifndef AUT68_H
#define AUT68_H

#include <stddef.h>
#include <stdint.h>

#ifdef __cplusplus
extern "C" {
#endif

/* Sizes. */
enum {
    AUT68_SMALLEST_LIMIT = 16,
    AUT68_LARGEST_LIMIT = 4096,
    AUT68_MOST_LINES = 65535, /* lines of a book */
    AUT68_WORK_UNITS = 128,   /* working cells for each cell of the limit */
    AUT68_ROW_WIDTH = 9,      /* table cells for each line */
    AUT68_OPEN_LIMIT = 32,    /* paragraphs open together */
    AUT68_PAGE_ROW = 73,      /* bytes of a printed row: AUT68_NUMBER_COLUMNS, a blank one, AUT68_TEXT_COLUMNS, byte 10 */
    AUT68_NUMBER_COLUMNS = 5,
    AUT68_TEXT_COLUMNS = 66
};

/* What the check of a book ends with: 0 to 12, 14 or 17. Codes 0, 3 to 9, 14 and 17 are verdicts; all of them but 0 call the book
   wrong. Any other call on a book checks it first and passes a refusal on; of an accepted book it ends with 0, 12, 13 or 15, a comparison
   of two strings with 0, 9, 10, 11 or 18. A call on a shelf ends with 0, 15 or 16. */
enum {
    AUT68_ACCEPTED = 0,
    AUT68_WORK_TOO_SMALL = 1,     /* under AUT68_WORK_UNITS * limit working cells; line 0, nothing written */
    AUT68_LIMIT_OUT_OF_RANGE = 2, /* looked at before 1; line 0, nothing written */
    AUT68_MALFORMED = 3,
    AUT68_DUPLICATE = 4,          /* a line or a paragraph of the same paragraph has the name already */
    AUT68_UNKNOWN_NAME = 5,       /* the name means no line above; or an indicator that is no EB line */
    AUT68_WRONG_ARITY = 6,        /* more arguments than its context has variables, or some left out that cannot be put in */
    AUT68_NOT_FUNCTION = 7,
    AUT68_NOT_TYPE = 8,
    AUT68_MISMATCH = 9,           /* categories differ; of two strings: they have no common expression */
    AUT68_TOO_LARGE = 10,         /* an expression, completed, larger than the limit or nested above 32; or compared below depth 32; or a
                                     string of more cells than the limit */
    AUT68_OUT_OF_BUDGET = 11,
    AUT68_OUT_OF_SPACE = 12,      /* table, shelf or index full, line 65,536, a thirty-third open paragraph, a book of more than
                                     16,777,215 bytes (line 0), or an answer that does not fit (line 0) */
    AUT68_NO_SUCH_LINE = 13,      /* the line is 0 or above the last */
    AUT68_NOT_IN_CONTEXT = 14,    /* the name has an EB line, outside the context of the line that uses it: its block has closed.
                                     Of 5, 6 and 14 a line gets that of the first name, from the left, that has one of them */
    AUT68_STORE_TOO_SMALL = 15,   /* the pages do not fit into the page store, the source not into the target, or the sheet is shorter
                                     than the list */
    AUT68_CELL_TOO_LARGE = 16,    /* a cell above 65,535 is to be narrowed */
    AUT68_UNBALANCED = 17,        /* a closing that is not of the innermost open paragraph; or one is left open at the end */
    AUT68_NOT_WHOLE = 18          /* the left or the right string is no whole expression over the lines of the book */
};

/* A cell of the shelf and of the working store; and one of a shelf that was stored before cells had 32 bits. */
typedef uint32_t Aut68Cell;
typedef uint16_t Aut68NarrowCell;

/* code: as above. line: the refused line, from 1; of an accepted book the number of its lines. Paragraph lines (`+p`, `-p`) have no
   number: a refused one, and the end of the book, has that of the next line. steps: the head steps made. */
typedef struct {
    uint32_t code;
    uint32_t line;
    uint64_t steps;
} Aut68Outcome;

/* The row of a line begins at cell AUT68_ROW_WIDTH * (line - 1) of the table. */
enum {
    AUT68_NAME_START = 0,     /* first byte of its identifier in the book */
    AUT68_NAME_LENGTH = 1,
    AUT68_INDICATOR = 2,      /* line of its indicator, 0 if empty */
    AUT68_CONTEXT_LENGTH = 3,
    AUT68_KIND = 4,           /* 0 EB, 1 PN, 2 abbreviation */
    AUT68_MIDDLE_START = 5,   /* shelf cells: middle, then category */
    AUT68_CATEGORY_START = 6,
    AUT68_CATEGORY_END = 7,
    AUT68_PARAGRAPH = 8       /* number of its paragraph in order of opening, 0 outside */
};

/* Checks a book. Lengths count elements.
   book: read only. budget: head steps allowed over the book. limit: cells of the largest expression, 16 to 4,096.
   table: AUT68_ROW_WIDTH cells a line. terms: the shelf, the cells of all middles and categories, completed: arguments that the
   book leaves out are there. work: at least AUT68_WORK_UNITS * limit cells. index: for each line a count and as many cells, the
   lines that it names: its indicator, and the variables and constants of its middle and category, completed; ascending, each once.
   It asks nothing of any value. Each pointer must be valid for its length, and the four stores must not overlap each other or
   the book. A pointer to no elements may be anything but null. The call keeps no pointer and takes no memory of its own.

   Afterwards:
   - codes 1 and 2: every cell of the four stores is as it was;
   - else table, terms and index hold, from their start on, the rows, cells and entries of the lines before the refused one (of all
     lines, if accepted), the first AUT68_WORK_UNITS * limit cells of work are 0, and every other cell of the four stores is as it
     was.

   Stack: nothing proves how much a call needs. Measured on x86-64: about 40 KB for a book nested as deep as lines may be, and at
   most about 1 MB, where expressions grow to 4,096 cells of nested abstractions; in proportion less under a smaller limit. */
Aut68Outcome aut68_check(const uint8_t *book, size_t book_length,
                         uint32_t budget, uint32_t limit,
                         uint32_t *table, size_t table_length,
                         Aut68Cell *terms, size_t terms_length,
                         Aut68Cell *work, size_t work_length,
                         uint32_t *index, size_t index_length);

/* What a call on an accepted book or on a shelf ends with. A refusal of the book's check is passed on: code, line and steps as
   above, length 0. Else line is 0, steps are the call's own head steps, and length is that of the answer it wrote; 0, if code is
   not 0. */
typedef struct {
    uint32_t code;
    uint32_t line;
    uint32_t steps;
    uint32_t length;
} Aut68Answer;

/* Tells what a line of a book rests on: the PN lines that are reached from it by following names, itself included, ascending, each
   once. The book is checked first, with all that aut68_check says of its arguments and of the four stores afterwards. Then, in this
   order:
   - the line is 0 or above the last: 13;
   - the list has more lines than the answer has cells: 12;
   - else 0; the list is in the first cells of the answer, as many as length says.
   steps are 0. Every other cell of the answer is as it was; after any code but 0 all of them are. The answer must not overlap the
   stores or the book. With all lines deleted that are not reached, the book is still correct. */
Aut68Answer aut68_rests_on(const uint8_t *book, size_t book_length,
                           uint32_t budget, uint32_t limit,
                           uint32_t *table, size_t table_length,
                           Aut68Cell *terms, size_t terms_length,
                           Aut68Cell *work, size_t work_length,
                           uint32_t *index, size_t index_length,
                           uint32_t line,
                           uint32_t *answer, size_t answer_length);

/* Prints a book on paper 72 columns wide. A line begins a row with its number, right-justified in columns 1 to 5; column 6 is blank;
   columns 7 to 72 hold its bytes but 32 and 10, 66 to a row; on its further rows the first six columns are blank. Its last row is
   padded with byte 32, and every row ends with byte 10. The book is checked first, with all that aut68_check says of its arguments
   and of the four stores afterwards. Then, in this order:
   - the pages have more bytes than the page store: 15;
   - else 0; the pages are in the first bytes of the page store, as many as length says.
   steps are 0. Every other byte of the page store is as it was; after any code but 0 all of them are. It must not overlap the stores
   or the book. A book of n bytes and k lines has at most k + n / AUT68_TEXT_COLUMNS rows of AUT68_PAGE_ROW bytes. Columns 7 to 72,
   read back line by line without byte 32, are a book with the same outcome, shelf, index and table but for AUT68_NAME_START. */
Aut68Answer aut68_pages(const uint8_t *book, size_t book_length,
                        uint32_t budget, uint32_t limit,
                        uint32_t *table, size_t table_length,
                        Aut68Cell *terms, size_t terms_length,
                        Aut68Cell *work, size_t work_length,
                        uint32_t *index, size_t index_length,
                        uint8_t *page, size_t page_length);

/* Compares two expressions over a book. Each is a string of cells as the shelf has them, in prefix order, one cell a symbol, 8 * v + k:
   k = 0 `type`; 1 the variable of line v; 2 the bound variable with v bindings between; 3 the constant of line v, then its arguments;
   4 `<A>B`, 5 `[x,A]B`, v = 0, then A and B. A string is whole if it is cell 0 alone or exactly one expression, without `type` inside,
   whose variables and constants have their lines in the book, with all arguments of each constant and the binding of each bound variable.
   Any EB line may stand free, and the expressions need not be correct. The book is checked first, under budget and limit, with all that
   aut68_check says of its arguments and of the four stores afterwards. Then, in this order:
   - the left or the right string is not whole: 18;
   - one of them has more than limit cells: 10;
   - else they are compared, at most own steps being made: 0, they have a common expression; 9, they have none; 10, a side grew above the
     limit, or the comparison went below depth 32; 11, the steps are spent.
   steps are those of the comparison, length is 0. The strings are read only; they may overlap each other and the book, not the stores.
   0, 9 and 18 are kept under every larger budget, limit and own, with the same steps. The test of a string takes time in its cells, unless
   bound variables stand ahead of more than AUT68_WORK_UNITS * limit expressions still to come: for each of these also in the cells between
   it and its binding. Stack: at most about 1 MB, as of a check; strings may be nested as deep as they are long. */
Aut68Answer aut68_compare(const uint8_t *book, size_t book_length,
                          uint32_t budget, uint32_t limit,
                          uint32_t *table, size_t table_length,
                          Aut68Cell *terms, size_t terms_length,
                          Aut68Cell *work, size_t work_length,
                          uint32_t *index, size_t index_length,
                          const Aut68Cell *left, size_t left_length,
                          const Aut68Cell *right, size_t right_length,
                          uint32_t own);

/* The same by the second comparison: for two uses of one abbreviation or two applications the parts are compared first, and a head step is
   taken only if they differ. Where both end with 0 or 9 they agree; their steps may differ, and either may end with 10 or 11 where the
   other does not. */
Aut68Answer aut68_compare_parts_first(const uint8_t *book, size_t book_length,
                                      uint32_t budget, uint32_t limit,
                                      uint32_t *table, size_t table_length,
                                      Aut68Cell *terms, size_t terms_length,
                                      Aut68Cell *work, size_t work_length,
                                      uint32_t *index, size_t index_length,
                                      const Aut68Cell *left, size_t left_length,
                                      const Aut68Cell *right, size_t right_length,
                                      uint32_t own);

/* Two strings for a comparison, each by its first cell, from 0, and its length in one lent slice of cells; and the steps that may be made. */
typedef struct {
    uint32_t left;
    uint32_t left_length;
    uint32_t right;
    uint32_t right_length;
    uint32_t budget;
} Aut68Pair;

/* Compares a list of pairs of strings over a book, which is checked once, first, under budget and limit, with all that aut68_check says of
   its arguments and of the four stores afterwards. pairs_count and sheet_count count pairs and places. Then, in this order:
   - the sheet has fewer places than the list has pairs: 15;
   - else 0; each pair is compared as by aut68_compare, in the order of the list, and its place on the sheet gets what that call would end
     with: code 0, 9, 10, 11 or 18, line 0, the steps, length 0. A string that reaches past the last cell, or is of length 0, is not
     whole: 18.
   steps are 0, and length is the number of pairs (4,294,967,295, if there are more). Each pair has its own budget, and no pair changes what
   another gets. Every other place of the sheet is as it was; after any code but 0 all of them are. Cells and pairs are read only; strings
   may overlap, and cells outside them are not looked at. The sheet must not overlap the stores, the book, the cells or the pairs. */
Aut68Answer aut68_compare_sheet(const uint8_t *book, size_t book_length,
                                uint32_t budget, uint32_t limit,
                                uint32_t *table, size_t table_length,
                                Aut68Cell *terms, size_t terms_length,
                                Aut68Cell *work, size_t work_length,
                                uint32_t *index, size_t index_length,
                                const Aut68Cell *cells, size_t cells_length,
                                const Aut68Pair *pairs, size_t pairs_count,
                                Aut68Answer *sheet, size_t sheet_count);

/* Puts the cells of a shelf that was stored in 16 bits each into cells of 32 bits. In this order:
   - the source has more cells than the target, or more than 4,294,967,295: 15;
   - else 0; the cells are in the first cells of the target, as many as length says.
   steps are 0. Every other cell of the target is as it was; after 15 all of them are. The target must not overlap the source. */
Aut68Answer aut68_widen(const Aut68NarrowCell *source, size_t source_length,
                        Aut68Cell *target, size_t target_length);

/* Puts the cells of a shelf into cells of 16 bits, for those who read shelves as they were stored before. In this order:
   - the source has more cells than the target, or more than 4,294,967,295: 15;
   - a cell is above 65,535: 16;
   - else 0; the cells are in the first cells of the target, as many as length says.
   steps are 0. Every other cell of the target is as it was; after 15 and 16 all of them are. The target must not overlap the source.
   A widened shelf narrows to the one it came from, and a narrowed one widens to it. */
Aut68Answer aut68_narrow(const Aut68Cell *source, size_t source_length,
                         Aut68NarrowCell *target, size_t target_length);

/* Where an identifier stands in the book: its first byte, from 0, and its length; length 0 where there is none. */
typedef struct {
    uint64_t start;
    uint64_t length;
} Aut68Part;

/* The identifier of a line, from 1, as the part of the book that its row in the table points to. After a check of that book, of
   every recorded line it is the line's identifier. Whatever the table holds, the part lies in the book. */
Aut68Part aut68_identifier(const uint8_t *book, size_t book_length,
                           const uint32_t *table, size_t table_length,
                           uint32_t line);

#ifdef __cplusplus
}
#endif

#endif
