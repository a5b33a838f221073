/* The C face of the assignment solver: n rows are paired with n columns at least total cost.
   And of the case reader: a case file says costs and a mask to solve, or is paired in one call.

   Link target/staticlib/libserbihun.a, which `tools/built serbihun` makes, on x86-64 Linux.
   The library allocates nothing, keeps nothing between calls, and checks every number that it
   is handed. What it cannot check is the caller's to keep:
   - each pointer is followed by the number of elements (not bytes) that it points to, is aligned
     for its element's type, and is not NULL, also where that number is 0;
   - no buffer that is written overlaps another one that is passed. */
#ifndef SERBIHUN_H
#define SERBIHUN_H

#include <stddef.h>
#include <stdint.h>

#ifdef __cplusplus
extern "C" {
#endif

/* The first of these that applies. */
enum serbihun_number {
    SERBIHUN_PAIRED = 0,       /* `columns` is an allowed pairing, and none has a smaller total  */
    SERBIHUN_EMPTY = 1,        /* n is 0                                                         */
    SERBIHUN_TOO_LARGE = 2,    /* n is above 64                                                  */
    SERBIHUN_WRONG_LENGTH = 3, /* a buffer has not exactly its length                            */
    SERBIHUN_BAD_MASK = 4,     /* a mask byte is above 1; `place` is the lowest such cell        */
    SERBIHUN_BAD_COST = 5,     /* an allowed cell costs more than 1,000,000,000 or less than
                                  -1,000,000,000; `place` is the lowest such cell                */
    SERBIHUN_NO_PAIRING = 6,   /* no allowed pairing exists: see `block_rows`, `block_columns`   */
    SERBIHUN_UNFINISHED = 7    /* the budget is spent; never where it is n (n - 1) / 2 or more   */
};

struct serbihun_answer {
    uint32_t number;        /* one of the above                                                */
    size_t place;           /* at 4 and 5 the cell, row * n + column; else 0                   */
    int64_t total;          /* at 0 the cost of the pairing; else 0                            */
    uint32_t adjustments;   /* how often prices were adjusted: at most n (n - 1) / 2           */
    uint32_t primes;        /* how many zeros were primed                                      */
    uint32_t augmentations; /* how often a star was added along a path: at most n - 1          */
    uint64_t block_rows;    /* at 6 a set of rows, bit i for row i ...                         */
    uint64_t block_columns; /* ... in which these columns are all forbidden: together more
                               than n lines, so no pairing exists. Else 0                      */
};

/* Cell (i, j) of a table is element i * n + j.

   Read:     costs          4 n n bytes: each cost is four little-endian bytes, two's complement
             mask           n n bytes: 1 where row and column may be paired, 0 where not
             budget         how many adjustments may be made; n (n - 1) / 2 always suffice
   Written:  working        n n, what each allowed cell costs above its two prices
             marks          n n, 0 for none, 1 for a star, 2 for a prime
             columns        n, at 0 the column of each row
             row_prices     n
             column_prices  n

   At 1 to 5 no buffer is changed, nor at 6 where a row has no allowed cell. Otherwise the steps
   ran, and for each allowed cell cost = row price + column price + working value; `columns` is
   changed at 0 only. */
struct serbihun_answer serbihun_solve(
    size_t n,
    const uint8_t *costs, size_t costs_length,
    const uint8_t *mask, size_t mask_length,
    uint32_t budget,
    int64_t *working, size_t working_length,
    uint8_t *marks, size_t marks_length,
    uint16_t *columns, size_t columns_length,
    int64_t *row_prices, size_t row_prices_length,
    int64_t *column_prices, size_t column_prices_length);

/* The same answer and the same bytes, by the solver that goes step by step as document 01 writes
   them: for an inspector who wants to watch the steps. It is slower. */
struct serbihun_answer serbihun_solve_by_steps(
    size_t n,
    const uint8_t *costs, size_t costs_length,
    const uint8_t *mask, size_t mask_length,
    uint32_t budget,
    int64_t *working, size_t working_length,
    uint8_t *marks, size_t marks_length,
    uint16_t *columns, size_t columns_length,
    int64_t *row_prices, size_t row_prices_length,
    int64_t *column_prices, size_t column_prices_length);

/* ---- The case reader

   A case file is records: one byte of kind, then a body whose length the kind fixes, its numbers
   little-endian.

     1 size      n u16, window u32
     2 fragment  hut u16, area u16, clock u32 in ms
     3 event     area u16, clock u32 in ms
     4 end       none

   One size first, n fragments and n events in any mixture, one end, nothing after. Row i is the
   i-th fragment, column j the j-th event. They may be paired where their areas are equal and
   their clocks at most the window apart; that difference of the clocks is the cost. */

enum {
    SERBIHUN_ROOM = 4096,   /* how many costs, and how many mask bytes, are lent to the reader   */
    SERBIHUN_NO_HUT = 65536 /* above every hut                                                   */
};

/* Records are judged one after another, each by 21, 22, 23, 25, 24, 26 in this order; the first
   that applies is given. */
enum serbihun_case_number {
    SERBIHUN_ACCEPTED = 0,      /* the file is a case                                            */
    SERBIHUN_WRONG_ROOM = 20,   /* the room is another; the file was not looked at               */
    SERBIHUN_CUT = 21,          /* the file ends where a kind or body byte is due                */
    SERBIHUN_UNKNOWN_KIND = 22, /* the kind is not 1 to 4                                        */
    SERBIHUN_WRONG_ORDER = 23,  /* the first record is not a size, or another one is             */
    SERBIHUN_WRONG_COUNT = 24,  /* one fragment or event too many, or too few at the end record  */
    SERBIHUN_BAD_SIZE = 25,     /* n is 0 or above 64, or the window above 1,000,000,000         */
    SERBIHUN_BYTES_AFTER = 26   /* bytes follow the end record                                   */
};

struct serbihun_case {
    uint32_t number; /* one of the above                                                       */
    size_t place;    /* at 21 to 25 the offset of the record's kind byte, which is the file's
                        length where there is none; at 26 of the first extra byte; else 0      */
    size_t n;        /* at 0 the size, 1 to 64; else 0                                         */
    uint32_t window; /* at 0 the window, at most 1,000,000,000; else 0                         */
};

/* What a file says.

   Read:     file   any bytes
   Written:  costs  SERBIHUN_ROOM: at 0 the first n n are the costs, 0 where forbidden
             mask   SERBIHUN_ROOM: at 0 the first n n are 1 where row and column may be paired,
                    0 where not

   The rest of costs and mask is untouched, and at 20 to 26 all of them. On a little-endian
   machine the first n n costs are the 4 n n bytes that serbihun_solve reads. */
struct serbihun_case serbihun_read_case(
    const uint8_t *file, size_t file_length,
    int32_t *costs, size_t costs_length,
    uint8_t *mask, size_t mask_length);

/* The hut of a row of the same file, 0 to 65,535; SERBIHUN_NO_HUT where the row is not below n,
   or the file is refused. */
uint32_t serbihun_hut(const uint8_t *file, size_t file_length, size_t row);

struct serbihun_record {
    uint32_t number; /* 0 where a body is there, else SERBIHUN_CUT or SERBIHUN_UNKNOWN_KIND     */
    size_t start;    /* at 0 the offset of the body's first byte, at + 1; else 0               */
    size_t length;   /* at 0 how many bytes the body has, 0 to 8; else 0                       */
};

/* The body of the record whose kind byte is at an offset: always a part of the file, and an empty
   one at 21 and 22. Nothing else of the file is judged. The next record's kind byte is due at
   start + length. In C++ the function hides the struct of its name, which is then written with
   `struct`. */
#if defined(__cplusplus) && defined(__GNUC__)
#pragma GCC diagnostic push
#pragma GCC diagnostic ignored "-Wshadow"
#endif
struct serbihun_record serbihun_record(const uint8_t *file, size_t file_length, size_t at);
#if defined(__cplusplus) && defined(__GNUC__)
#pragma GCC diagnostic pop
#endif

/* ---- A case, read and solved */

enum { SERBIHUN_LINES = 64 /* how many columns, row prices and column prices are lent for a case */ };

struct serbihun_pairs {
    uint32_t number;        /* SERBIHUN_PAIRED, SERBIHUN_NO_PAIRING, or 20 to 26 as above      */
    size_t place;           /* at 21 to 26 as above; else 0                                    */
    size_t n;               /* at 0 and 6 the size; else 0                                     */
    uint32_t window;        /* at 0 and 6 the window; else 0                                   */
    int64_t total;          /* at 0 the summed difference of the clocks; else 0                */
    uint64_t block_rows;    /* at 6 a block, as in serbihun_answer; else 0                     */
    uint64_t block_columns;
};

/* Pairs the fragments of a file with its events, at least summed difference of their clocks.

   Read:     file           any bytes
   Written:  costs, mask    SERBIHUN_ROOM each, as by serbihun_read_case
             working, marks SERBIHUN_ROOM each, of which n n are written as by serbihun_solve
             columns, row_prices, column_prices
                            SERBIHUN_LINES each, of which n are written: at 0 fragment i goes with
                            event columns[i]
             huts           any length: the hut of each row, as far as there is room

   Another length is 20, and then nothing is touched, nor at 21 to 26. Behind the first n n and n
   places the buffers keep what they held. */
struct serbihun_pairs serbihun_pair_case(
    const uint8_t *file, size_t file_length,
    int32_t *costs, size_t costs_length,
    uint8_t *mask, size_t mask_length,
    int64_t *working, size_t working_length,
    uint8_t *marks, size_t marks_length,
    uint16_t *columns, size_t columns_length,
    int64_t *row_prices, size_t row_prices_length,
    int64_t *column_prices, size_t column_prices_length,
    uint16_t *huts, size_t huts_length);

#ifdef __cplusplus
}
#endif

#endif
