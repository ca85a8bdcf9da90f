/*
 * The condensed cube archive: a table of bench records (one to eight codes and
 * a reading each) becomes a small archive of exact sums, one for every grouping
 * of the codes. Link with libcube_archive.a.
 *
 * FILES. Fields are little-endian, 32 bits and unsigned unless said.
 *
 *   table       46 41 43 54 (hexadecimal), D, D sizes, row count,
 *               rows of D codes and a reading (signed), check word
 *   archive     43 55 42 45 (hexadecimal), D, D sizes, base count, base entries,
 *               normal count, normal entries, check word
 *   base entry  D codes, sum (64 bits, signed), count, list count, set numbers
 *   cell        D codes or ALL, sum (64 bits, signed), count; so is a normal entry
 *   cuboid      number of cells, then the cells by codes
 *   expansion   all cuboids in lattice order: sets of fewer dimensions first,
 *               then the smaller set number
 *   keys        number of keys, then their set numbers in lattice order
 *   shares      number of cells of a cuboid, then each cell's cents in its order
 *
 * A table without rows has one cell, all ALL, with sum 0 and count 0, which is
 * the one normal entry of its archive (32 + 8 D bytes). Every other cell needs a
 * row.
 *
 * The check word is the sum of all 32-bit words before it, modulo 2^32. A code
 * is less than its dimension's size. In a set number dimension i, counted from
 * 1, adds 2^(i-1).
 *
 * ANSWERS. Every function returns one number. 2^63 or more is a stop
 * (CUBE_IS_STOP), the one of enum cube_stop that is reached first: the file is
 * read from the left, field by field, the first of two files whole before the
 * second; then comes the question, the record or the set number (before a question
 * the window that it goes through), then a fee and whether there are rows to share
 * it by, or whether the result can be one archive, and the output last. A stop changes no byte that was lent. Otherwise the number is what the
 * function says, and bytes of the output beyond the result keep their values. No function relies on an earlier check: each reads and checks its whole
 * input. That a number of 2^63 or more is a stop, and no other is, is proved
 * (crates/promises/proofs/Numbers.antt).
 *
 * POINTERS. A length counts elements: bytes, or the codes of a question or of a
 * record. No pointer may be null; where the length is 0, any other pointer will do.
 * Bytes need no alignment, codes and the numbers that are stored that of their
 * types. What is written (the output; the numbers) must overlap neither the inputs
 * nor one another.
 *
 * THREADS AND MEMORY. The functions have no state, and threads may call them at
 * once. They allocate nothing and call nothing but memcpy and memset. All work is
 * done on the stack, for which CUBE_STACK bytes are enough.
 */
#ifndef CUBE_ARCHIVE_H
#define CUBE_ARCHIVE_H

#include <stddef.h>
#include <stdint.h>

#ifdef __cplusplus
extern "C" {
#endif

/* The value that stands for ALL in cells and questions. It is never a code. */
#define CUBE_ALL UINT32_C(65535)

/* Stack that is enough for a call, in bytes: measured in the compiled library, not proved. */
#define CUBE_STACK 1048576

/* Stops: whether an answer is one, and which one it is if so. */
#define CUBE_STOP_BIT (UINT64_C(1) << 63)
#define CUBE_IS_STOP(r) (((r) & CUBE_STOP_BIT) != 0)
#define CUBE_STOP(r) ((unsigned)((r) & ~CUBE_STOP_BIT))

enum cube_stop {
    CUBE_STOP_OPENING = 1,    /* the first four bytes are missing or are not the opening of such a file */
    CUBE_STOP_CUT = 2,        /* the input ends before the last byte of a field that its earlier fields demand */
    CUBE_STOP_DIMENSIONS = 3, /* D is not 1 to 8 */
    CUBE_STOP_SIZE = 4,       /* a size is not 1 to 65,535 */
    CUBE_STOP_ROWS = 5,       /* the row count or base count is above 1,024 */
    CUBE_STOP_CODE = 6,       /* a code in a table row or base entry is not below its size */
    CUBE_STOP_ORDER = 7,      /* a base entry does not come strictly after the one before */
    CUBE_STOP_AMOUNT = 8,     /* a base entry has count 0, or a sum that this many readings cannot make,
                                 or brings the total count above 1,048,576 */
    CUBE_STOP_LIST = 9,       /* a list count is above 70 */
    CUBE_STOP_TRAILING = 10,  /* bytes follow the check word */
    CUBE_STOP_CHECK = 11,     /* the check word is wrong */
    CUBE_STOP_ENTRIES = 12,   /* a list, the normal count or a normal entry is not what the base entries require */
    CUBE_STOP_QUESTION = 13,  /* a question has other than D codes, or a code neither below its size nor CUBE_ALL;
                                 a record has other than D codes, or a code not below its size, CUBE_ALL too;
                                 a window's code is not below its size, looked at before the question */
    CUBE_STOP_SET = 14,       /* the set number is 2^D or more */
    CUBE_STOP_OUTPUT = 15,    /* the result is longer than the output */
    CUBE_STOP_DIMENSION = 16, /* the dimension is not 1 to D; looked at after 14 and before 15, a window's before 13 */
    CUBE_STOP_SIZES = 17,     /* the dimensions or sizes of two archives differ; after both are checked, before 18 and 15 */
    CUBE_STOP_MANY = 18,      /* the result has over 1,024 base rows or a total count over 1,048,576; before 15 */
    CUBE_STOP_WINDOW = 20,    /* the question's code at the window's dimension is not the window's; looked at last */
    CUBE_STOP_FEE = 23,       /* the fee is above 1,000,000,000; looked at after 14 and before 15 */
    CUBE_STOP_NO_ROWS = 24    /* the archive has no base row; looked at after 23 and before 15 */
};

/*
 * Lengths for d dimensions (1 to 8) and n rows (0 to 1,024), in bytes. A
 * table's length is exact. A ROOM is an upper bound, an output that is always
 * enough; n is the table's row count or the archive's base count. That a call
 * which is lent as much does not stop for want of output is proved of these
 * formulas (crates/promises/proofs/Room.antt). Arguments are evaluated more than
 * once. A table without rows needs the room of one with one row.
 *
 * Cuboid: a cell of 4d + 12 bytes for each base row at most. Expansion: 2^d
 * cuboids. Archive: 4d + 20 bytes are fields that occur once, and a base entry
 * has 4d + 16 bytes without its list. Then each base row takes at most 2d + 6
 * bytes for each of the 2^d - 1 sets other than the full one: the 4 bytes of a
 * listed set number, or half of a normal cell, in which another row falls too.
 */
#define CUBE_TABLE_LENGTH(d, n) (16 + 4 * (size_t)(d) + (size_t)(n) * (4 * (size_t)(d) + 4))
#define CUBE_AT_LEAST_1(n) ((size_t)(n) == 0 ? 1 : (size_t)(n))
#define CUBE_ARCHIVE_ROOM(d, n)                                                                        \
    (20 + 4 * (size_t)(d) +                                                                            \
     CUBE_AT_LEAST_1(n) * (4 * (size_t)(d) + 16 + (((size_t)1 << (d)) - 1) * (2 * (size_t)(d) + 6)))
#define CUBE_CUBOID_ROOM(d, n) (4 + CUBE_AT_LEAST_1(n) * (4 * (size_t)(d) + 12))
#define CUBE_EXPANSION_ROOM(d, n) (CUBE_CUBOID_ROOM(d, n) << (d))
/* Keys: a count and at most 70 set numbers, as many as there can be of which none holds another. */
#define CUBE_KEYS_ROOM ((size_t)284)

/* Two archives joined, of n and m base rows: as many as both have, and no more than 1,024. */
#define CUBE_JOIN_ROOM(d, n, m) \
    CUBE_ARCHIVE_ROOM(d, (size_t)(n) + (size_t)(m) < 1024 ? (size_t)(n) + (size_t)(m) : 1024)

/* A record added to an archive of n base rows: one row more at most, and no more than 1,024. */
#define CUBE_ADD_ROOM(d, n) CUBE_JOIN_ROOM(d, n, 1)

/* Shares of a fee: n is the number of cells, or the base count, which is no less where a fee can be shared. */
#define CUBE_FEE_ROOM(n) (4 + 4 * (size_t)(n))

/* Builds the archive of a table: its length. Stops: 1 to 6, 10, 11, 15. */
uint64_t cube_build(const uint8_t *table, size_t table_len, uint8_t *out, size_t out_len);

/* Checks an archive: its base count and normal count, in one number. Stops: 1 to 12. */
uint64_t cube_check(const uint8_t *archive, size_t archive_len);
#define CUBE_BASE_COUNT(r) ((uint32_t)((r) & UINT32_MAX))
#define CUBE_NORMAL_COUNT(r) ((uint32_t)((r) >> 32))

/*
 * Looks up the cell of a question, which has a code or CUBE_ALL for each
 * dimension: 1, with the cell's sum, its count and the number of the entry that
 * carries them stored (from 0 through base, then normal entries); or 0 for 'no
 * record', with nothing stored. An archive without rows answers all ALL with sum
 * 0, count 0, entry 0. Stops: 1 to 13, with nothing stored.
 */
uint64_t cube_look_up(const uint8_t *archive, size_t archive_len, const uint32_t *question,
                      size_t question_len, int64_t *sum, uint32_t *count, uint32_t *entry);

/* Lists the cuboid of a set: its length. Stops: 1 to 12, 14, 15. */
uint64_t cube_list_cuboid(const uint8_t *archive, size_t archive_len, uint32_t set, uint8_t *out,
                          size_t out_len);

/* Expands an archive to the complete cube: the expansion's length. Stops: 1 to 12, 15. */
uint64_t cube_expand(const uint8_t *archive, size_t archive_len, uint8_t *out, size_t out_len);

/*
 * Lists the smallest keys: the list's length. A key is a set on which no two base
 * rows agree, and a smallest one holds no other key. With no base row or one, the
 * empty set is the only smallest key. Stops: 1 to 12, 15.
 */
uint64_t cube_smallest_keys(const uint8_t *archive, size_t archive_len, uint8_t *out, size_t out_len);

/*
 * Whether a set fixes a dimension, counted from 1: base rows that agree on the set
 * agree on the dimension too. 1 for yes, 0 for no. Stops: 1 to 12, 14, 16.
 */
uint64_t cube_fixes(const uint8_t *archive, size_t archive_len, uint32_t set, uint32_t dimension);

/*
 * Shares a fee in cents over the cells of a set by their counts: the length of
 * the number of cells and each cell's whole cents. Each gets its proportion
 * rounded down; the cents left go one each to the largest remainders, the
 * earlier cell first if equal. A fee of 0 is one. Stops: 1 to 12, 14, 23, 24, 15.
 */
uint64_t cube_share_fee(const uint8_t *archive, size_t archive_len, uint32_t fee, uint32_t set,
                        uint8_t *out, size_t out_len);

/*
 * Joins two archives of the same dimensions and sizes: the length of the archive
 * of both lists of base rows, rows with equal codes as one with both sums and
 * counts. Which comes first does not matter; an archive without rows leaves the
 * other's bytes. Both inputs may be the same bytes. Stops: 1 to 12 of the first,
 * then 1 to 12 of the second (the number does not tell which), 17, 18, 15.
 */
uint64_t cube_join(const uint8_t *first, size_t first_len, const uint8_t *second, size_t second_len,
                   uint8_t *out, size_t out_len);

/*
 * Adds one record, a code for each dimension and a reading, to an archive: the
 * length of the archive of its base rows with this record folded in. Just the 2^d
 * cells in which the record falls gain it, each by the reading and by one in count;
 * every other cell keeps its values. Stops: 1 to 13, 18, 15.
 */
uint64_t cube_add(const uint8_t *archive, size_t archive_len, const uint32_t *codes, size_t count,
                  int32_t reading, uint8_t *out, size_t out_len);

/*
 * Looks up a cell through a window, a dimension counted from 1 and a code, which
 * the question must have there: 1, with the cell's sum and its count stored; or 0
 * for 'no record', with nothing stored. No entry's number is told. Accepted archives
 * of the same dimensions and sizes that agree on the base rows in the window answer
 * every question alike; how long a call takes may depend on every row. Stops: 1 to
 * 12, 16 (the dimension), 13 (the window's code, then the question), 20, with
 * nothing stored.
 */
uint64_t cube_window(const uint8_t *archive, size_t archive_len, uint32_t dimension, uint32_t code,
                     const uint32_t *question, size_t count, int64_t *sum, uint32_t *n);

#ifdef __cplusplus
}
#endif

#endif
