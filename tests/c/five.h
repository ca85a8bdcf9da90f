/* The five-row example of document 01: its numbers, and its cells by brute force over the rows. */
#ifndef FIVE_H
#define FIVE_H

#include "cube_archive.h"
#include "file.h"

enum { D = 3, ROWS = 5, SETS = 8, BASES = 5, NORMALS = 5, CELLS = 30, QUESTIONS = 8 * 7 * 4 };

static const uint32_t SIZES[D] = {7, 6, 3};

struct row {
    uint32_t codes[D];
    int32_t reading;
};

static const struct row FIVE[ROWS] = {
    {{0, 1, 1}, 50}, {{1, 1, 1}, 100}, {{2, 3, 1}, 60}, {{4, 5, 1}, 70}, {{6, 5, 2}, 80},
};

static const uint32_t LATTICE_ORDER[SETS] = {0, 1, 2, 4, 3, 5, 6, 7};

/* The ten entries; only base entries have a list. */
struct entry {
    uint32_t codes[D];
    int64_t sum;
    uint32_t count;
    uint32_t list_count;
    uint32_t list[2];
};

static const struct entry ENTRIES[BASES + NORMALS] = {
    {{0, 1, 1}, 50, 1, 1, {1, 0}},
    {{1, 1, 1}, 100, 1, 1, {1, 0}},
    {{2, 3, 1}, 60, 1, 2, {1, 2}},
    {{4, 5, 1}, 70, 1, 2, {1, 6}},
    {{6, 5, 2}, 80, 1, 2, {1, 4}},
    {{CUBE_ALL, CUBE_ALL, CUBE_ALL}, 360, 5, 0, {0, 0}},
    {{CUBE_ALL, 1, CUBE_ALL}, 150, 2, 0, {0, 0}},
    {{CUBE_ALL, 5, CUBE_ALL}, 150, 2, 0, {0, 0}},
    {{CUBE_ALL, CUBE_ALL, 1}, 280, 4, 0, {0, 0}},
    {{CUBE_ALL, 1, 1}, 150, 2, 0, {0, 0}},
};

static void put_head(struct file *f, uint32_t opening, uint32_t count)
{
    f->length = 0;
    put_word(f, opening);
    put_word(f, D);
    put_words(f, SIZES, D);
    put_word(f, count);
}

static struct file five_table(void)
{
    struct file f;
    put_head(&f, TABLE, ROWS);
    for (int i = 0; i < ROWS; i++) {
        put_words(&f, FIVE[i].codes, D);
        put_word(&f, (uint32_t)FIVE[i].reading);
    }
    put_check_word(&f);
    return f;
}

static void put_cell(struct file *f, const uint32_t *codes, int64_t sum, uint32_t count)
{
    put_words(f, codes, D);
    put_sum(f, sum);
    put_word(f, count);
}

static struct file five_archive(void)
{
    struct file f;
    put_head(&f, ARCHIVE, BASES);
    for (int i = 0; i < BASES + NORMALS; i++) {
        const struct entry *e = &ENTRIES[i];
        if (i == BASES)
            put_word(&f, NORMALS);
        put_cell(&f, e->codes, e->sum, e->count);
        if (i < BASES) {
            put_word(&f, e->list_count);
            put_words(&f, e->list, e->list_count);
        }
    }
    put_check_word(&f);
    return f;
}

/* All questions by codes, first dimension foremost: each code below its size, then ALL. */
static void set_question(uint32_t question[D], uint32_t number)
{
    for (int i = D - 1; i >= 0; i--) {
        uint32_t code = number % (SIZES[i] + 1);
        question[i] = code == SIZES[i] ? CUBE_ALL : code;
        number /= SIZES[i] + 1;
    }
}

static uint32_t set_of(const uint32_t question[D])
{
    uint32_t set = 0;
    for (int i = 0; i < D; i++)
        set |= (uint32_t)(question[i] != CUBE_ALL) << i;
    return set;
}

struct total {
    int64_t sum;
    uint32_t count;
};

/* The total over the rows that fall in a cell. */
static struct total total_of(const uint32_t cell[D])
{
    struct total total = {0, 0};
    for (int r = 0; r < ROWS; r++) {
        int falls = 1;
        for (int i = 0; i < D; i++)
            falls = falls && (cell[i] == CUBE_ALL || cell[i] == FIVE[r].codes[i]);
        if (falls) {
            total.sum += FIVE[r].reading;
            total.count++;
        }
    }
    return total;
}

/* Writes the number of cells of a set, then the cents of each, by brute force: a cent at a time for the largest remainder that has none. */
static void put_shares(struct file *f, uint32_t fee, uint32_t set)
{
    uint32_t counts[ROWS], given[ROWS] = {0}, cells = 0;
    uint64_t left = fee;
    for (uint32_t n = 0; n < QUESTIONS; n++) {
        uint32_t cell[D];
        set_question(cell, n);
        struct total total = total_of(cell);
        if (set_of(cell) == set && total.count > 0) {
            counts[cells++] = total.count;
            left -= (uint64_t)fee * total.count / ROWS;
        }
    }
    for (; left > 0; left--) {
        uint32_t best = cells;
        for (uint32_t i = 0; i < cells; i++)
            if (!given[i] && (best == cells || (uint64_t)fee * counts[i] % ROWS > (uint64_t)fee * counts[best] % ROWS))
                best = i;
        given[best] = 1;
    }
    put_word(f, cells);
    for (uint32_t i = 0; i < cells; i++)
        put_word(f, (uint32_t)((uint64_t)fee * counts[i] / ROWS) + given[i]);
}

/* Writes the cuboid of a set; how many cells it has. */
static uint32_t put_cuboid(struct file *f, uint32_t set)
{
    size_t start = f->length;
    uint32_t cells = 0;
    put_word(f, 0);
    for (uint32_t n = 0; n < QUESTIONS; n++) {
        uint32_t cell[D];
        set_question(cell, n);
        struct total total = total_of(cell);
        if (set_of(cell) == set && total.count > 0) {
            put_cell(f, cell, total.sum, total.count);
            cells++;
        }
    }
    set_word(f, start, cells);
    return cells;
}

#endif
