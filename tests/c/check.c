/*
 * The header and the functions from C: document 01's five-row example, the empty table (document 02, C-14), keys (C-12), a record added (C-18), a window (C-19), and each stop.
 * Prints a line for each failed check, and 'N passed, M failed' as the last line.
 */
#include <stdio.h>

#include "cube_archive.h"
#include "file.h"
#include "five.h"
#include "lent.h"

static unsigned passed, failed;

static void check(int holds, int line, const char *text, size_t number)
{
    if (holds) {
        passed++;
    } else {
        failed++;
        printf("check.c:%d: case %lu: %s\n", line, (unsigned long)number, text);
    }
}

#define CHECK(condition) CHECK_CASE(0, condition)
#define CHECK_CASE(number, condition) check((condition) ? 1 : 0, __LINE__, #condition, (size_t)(number))

/* The calls that write an output, in one form; only a listing and a fee use the set. */
typedef uint64_t writer(const struct file *input, uint32_t set, uint8_t *out, size_t room);

static uint64_t build(const struct file *input, uint32_t set, uint8_t *out, size_t room)
{
    (void)set;
    return cube_build(input->bytes, input->length, out, room);
}

static uint64_t list_cuboid(const struct file *input, uint32_t set, uint8_t *out, size_t room)
{
    return cube_list_cuboid(input->bytes, input->length, set, out, room);
}

static uint64_t expand(const struct file *input, uint32_t set, uint8_t *out, size_t room)
{
    (void)set;
    return cube_expand(input->bytes, input->length, out, room);
}

static uint64_t smallest_keys(const struct file *input, uint32_t set, uint8_t *out, size_t room)
{
    (void)set;
    return cube_smallest_keys(input->bytes, input->length, out, room);
}

/* The fee that is shared next. */
static uint32_t fee;

static uint64_t share_fee(const struct file *input, uint32_t set, uint8_t *out, size_t room)
{
    return cube_share_fee(input->bytes, input->length, fee, set, out, room);
}

/* The archive that is joined next to the input: behind it, and in front of it. */
static struct file other;

static uint64_t join_other(const struct file *input, uint32_t set, uint8_t *out, size_t room)
{
    (void)set;
    return cube_join(input->bytes, input->length, other.bytes, other.length, out, room);
}

static uint64_t join_to_other(const struct file *input, uint32_t set, uint8_t *out, size_t room)
{
    (void)set;
    return cube_join(other.bytes, other.length, input->bytes, input->length, out, room);
}

/* The record that is added next. */
static const uint32_t *added;
static size_t added_count;
static int32_t reading;

static uint64_t add(const struct file *input, uint32_t set, uint8_t *out, size_t room)
{
    (void)set;
    return cube_add(input->bytes, input->length, added, added_count, reading, out, room);
}

/* The call stops so, and the output keeps every byte. */
static void check_stopped(writer *call, const struct file *input, uint32_t set, size_t room, unsigned stop)
{
    struct lent lent;
    uint8_t *out = lend(&lent);
    uint64_t answer = call(input, set, out, room);
    CHECK_CASE(stop, CUBE_IS_STOP(answer) && CUBE_STOP(answer) == stop && answer == CUBE_STOP_BIT + stop);
    CHECK_CASE(stop, kept_beyond(&lent, 0));
}

/* The call writes this file if there is room for it, and changes no byte beyond; otherwise it stops with 15. */
static void check_written(writer *call, const struct file *input, uint32_t set, size_t enough, const struct file *want)
{
    const size_t rooms[] = {want->length, want->length + 1, enough, ROOM};
    for (size_t i = 0; i < sizeof rooms / sizeof *rooms; i++) {
        struct lent lent;
        uint8_t *out = lend(&lent);
        uint64_t answer = call(input, set, out, rooms[i]);
        CHECK_CASE(rooms[i], !CUBE_IS_STOP(answer) && same(want, out, (size_t)answer));
        CHECK_CASE(rooms[i], kept_beyond(&lent, want->length));
    }
    check_stopped(call, input, set, want->length - 1, CUBE_STOP_OUTPUT);
    check_stopped(call, input, set, 0, CUBE_STOP_OUTPUT);
}

/* The three numbers that a look-up is lent, with guards between them. */
struct numbers {
    uint64_t before;
    int64_t sum;
    uint64_t between;
    uint32_t count, apart, entry, behind;
};

static const struct numbers KEPT = {0x9E3779B97F4A7C15, -77, 0x7F4A7C159E3779B9, 78, 0xDEADBEEF, 79, 0xDEADBEAF};

static uint64_t look_up(const struct file *archive, const uint32_t *question, size_t length, struct numbers *n)
{
    *n = KEPT;
    return cube_look_up(archive->bytes, archive->length, question, length, &n->sum, &n->count, &n->entry);
}

/* The same numbers, of which a question through a window is lent two. */
static uint64_t window(const struct file *archive, uint32_t dimension, uint32_t code, const uint32_t *question, size_t length, struct numbers *n)
{
    *n = KEPT;
    return cube_window(archive->bytes, archive->length, dimension, code, question, length, &n->sum, &n->count);
}

static int guards_kept(const struct numbers *n)
{
    return n->before == KEPT.before && n->between == KEPT.between && n->apart == KEPT.apart && n->behind == KEPT.behind;
}

static int nothing_stored(const struct numbers *n)
{
    return guards_kept(n) && n->sum == KEPT.sum && n->count == KEPT.count && n->entry == KEPT.entry;
}

static void macros(void)
{
    const enum cube_stop stops[18] = {
        CUBE_STOP_OPENING, CUBE_STOP_CUT, CUBE_STOP_DIMENSIONS, CUBE_STOP_SIZE, CUBE_STOP_ROWS,
        CUBE_STOP_CODE, CUBE_STOP_ORDER, CUBE_STOP_AMOUNT, CUBE_STOP_LIST, CUBE_STOP_TRAILING,
        CUBE_STOP_CHECK, CUBE_STOP_ENTRIES, CUBE_STOP_QUESTION, CUBE_STOP_SET, CUBE_STOP_OUTPUT,
        CUBE_STOP_DIMENSION, CUBE_STOP_SIZES, CUBE_STOP_MANY,
    };
    for (unsigned i = 0; i < 18; i++)
        CHECK_CASE(i, (unsigned)stops[i] == i + 1);
    CHECK(CUBE_STOP_WINDOW == 20 && CUBE_STOP_FEE == 23 && CUBE_STOP_NO_ROWS == 24);
    CHECK(CUBE_ADD_ROOM(3, 4) == CUBE_ARCHIVE_ROOM(3, 5) && CUBE_ADD_ROOM(8, 1024) == CUBE_ARCHIVE_ROOM(8, 1024));
    CHECK(CUBE_FEE_ROOM(0) == 4 && CUBE_FEE_ROOM(5) == 24 && CUBE_FEE_ROOM(1024) == 4100);
    CHECK(CUBE_ALL == 65535);
    CHECK(!CUBE_IS_STOP(CUBE_STOP_BIT - 1) && CUBE_IS_STOP(CUBE_STOP_BIT));
    CHECK(CUBE_BASE_COUNT(UINT64_C(0x1FE0000000400)) == 1024 && CUBE_NORMAL_COUNT(UINT64_C(0x1FE0000000400)) == 130560);
    CHECK(CUBE_TABLE_LENGTH(3, 5) == 108 && CUBE_TABLE_LENGTH(8, 1024) == 36912);
    CHECK(CUBE_ARCHIVE_ROOM(1, 2) == 80 && CUBE_ARCHIVE_ROOM(8, 1024) == 52 + 1024 * (48 + 255 * 22));
    CHECK(CUBE_CUBOID_ROOM(3, 5) == 124 && CUBE_EXPANSION_ROOM(3, 5) == 8 * 124);
    CHECK(CUBE_EXPANSION_ROOM(8, 1024) == 11535360);
    CHECK(CUBE_JOIN_ROOM(3, 2, 3) == CUBE_ARCHIVE_ROOM(3, 5) && CUBE_JOIN_ROOM(3, 0, 0) == CUBE_ARCHIVE_ROOM(3, 0));
    CHECK(CUBE_JOIN_ROOM(8, 1000, 25) == CUBE_ARCHIVE_ROOM(8, 1024) && CUBE_JOIN_ROOM(8, 1024, 1024) == CUBE_ARCHIVE_ROOM(8, 1024));
    CHECK(CUBE_ARCHIVE_ROOM(1, 0) == 52 && CUBE_CUBOID_ROOM(1, 0) == 20 && CUBE_EXPANSION_ROOM(1, 0) == 40);
    for (unsigned d = 1; d <= 8; d++) {
        CHECK_CASE(d, CUBE_ARCHIVE_ROOM(d, 0) == CUBE_ARCHIVE_ROOM(d, 1));
        CHECK_CASE(d, CUBE_CUBOID_ROOM(d, 0) == CUBE_CUBOID_ROOM(d, 1));
        CHECK_CASE(d, CUBE_EXPANSION_ROOM(d, 0) == CUBE_EXPANSION_ROOM(d, 1));
    }
    CHECK(CUBE_KEYS_ROOM == 284);
}

static void building(void)
{
    struct file table = five_table(), archive = five_archive();
    CHECK(table.length == 108);
    CHECK(archive.length == 324);
    check_written(build, &table, 0, CUBE_ARCHIVE_ROOM(D, ROWS), &archive);
}

static void checking(void)
{
    struct file archive = five_archive();
    uint64_t answer = cube_check(archive.bytes, archive.length);
    CHECK(!CUBE_IS_STOP(answer));
    CHECK(CUBE_BASE_COUNT(answer) == BASES);
    CHECK(CUBE_NORMAL_COUNT(answer) == NORMALS);
}

/* Each entry answers for its own cell; a base entry also for a cell of its list. */
static void looking_up_entries(void)
{
    struct file archive = five_archive();
    struct numbers n;
    for (uint32_t i = 0; i < BASES + NORMALS; i++) {
        const struct entry *e = &ENTRIES[i];
        CHECK_CASE(i, look_up(&archive, e->codes, D, &n) == 1 && guards_kept(&n));
        CHECK_CASE(i, n.sum == e->sum && n.count == e->count && n.entry == i);
    }
    const uint32_t third[D] = {CUBE_ALL, 5, 1}, none[D] = {0, 3, CUBE_ALL};
    CHECK(look_up(&archive, third, D, &n) == 1 && n.sum == 70 && n.count == 1 && n.entry == 3);
    CHECK(look_up(&archive, none, D, &n) == 0 && nothing_stored(&n));
}

/* Every question there is: the cell's total over the rows, or 'no record'. */
static void looking_up_everything(void)
{
    struct file archive = five_archive();
    unsigned cells = 0;
    for (uint32_t i = 0; i < QUESTIONS; i++) {
        uint32_t question[D];
        struct numbers n;
        set_question(question, i);
        struct total total = total_of(question);
        uint64_t answer = look_up(&archive, question, D, &n);
        if (total.count == 0) {
            CHECK_CASE(i, answer == 0 && nothing_stored(&n));
        } else {
            CHECK_CASE(i, answer == 1 && guards_kept(&n));
            CHECK_CASE(i, n.sum == total.sum && n.count == total.count && n.entry < BASES + NORMALS);
            cells++;
        }
    }
    CHECK(cells == CELLS);
}

static void listing(void)
{
    struct file archive = five_archive();
    for (uint32_t set = 0; set < SETS; set++) {
        struct file cuboid = {{0}, 0};
        put_cuboid(&cuboid, set);
        check_written(list_cuboid, &archive, set, CUBE_CUBOID_ROOM(D, BASES), &cuboid);
    }
}

static void expanding(void)
{
    struct file archive = five_archive(), expansion = {{0}, 0};
    uint32_t cells = 0;
    for (int i = 0; i < SETS; i++)
        cells += put_cuboid(&expansion, LATTICE_ORDER[i]);
    CHECK(cells == CELLS && expansion.length == 752);
    check_written(expand, &archive, 0, CUBE_EXPANSION_ROOM(D, BASES), &expansion);
}

/* Whether two of the five rows agree on a set. */
static int agree(const struct row *a, const struct row *b, uint32_t set)
{
    for (int i = 0; i < D; i++)
        if ((set >> i & 1) == 1 && a->codes[i] != b->codes[i])
            return 0;
    return 1;
}

/* Whether rows that agree on a set agree on a dimension, counted from 1: by brute force over the rows. */
static int fixes(uint32_t set, uint32_t dimension)
{
    for (int a = 0; a < ROWS; a++)
        for (int b = 0; b < ROWS; b++)
            if (agree(&FIVE[a], &FIVE[b], set) && !agree(&FIVE[a], &FIVE[b], UINT32_C(1) << (dimension - 1)))
                return 0;
    return 1;
}

/* The first dimension is the one smallest key; the second does not fix the third. */
static void keys(void)
{
    struct file archive = five_archive(), want = {{0}, 0};
    put_word(&want, 1);
    put_word(&want, 1);
    check_written(smallest_keys, &archive, 0, CUBE_KEYS_ROOM, &want);
    CHECK(cube_fixes(archive.bytes, archive.length, 2, 3) == 0);
    for (uint32_t set = 0; set < SETS; set++) {
        unsigned fixed = 0;
        for (uint32_t dimension = 1; dimension <= D; dimension++) {
            uint64_t answer = cube_fixes(archive.bytes, archive.length, set, dimension);
            CHECK_CASE(set, answer == (uint64_t)fixes(set, dimension));
            fixed += answer == 1;
        }
        CHECK_CASE(set, (fixed == D) == ((set & 1) == 1));
    }
}

/* The empty table: D sizes, and no rows. */
static struct file empty_table(uint32_t d, uint32_t size)
{
    struct file f = {{0}, 0};
    put_word(&f, TABLE);
    put_word(&f, d);
    for (uint32_t i = 0; i < d; i++)
        put_word(&f, size);
    put_word(&f, 0);
    put_check_word(&f);
    return f;
}

/* All ALL, with a sum and a count. */
static void put_total(struct file *f, uint32_t d, int64_t sum, uint32_t count)
{
    for (uint32_t i = 0; i < d; i++)
        put_word(f, CUBE_ALL);
    put_sum(f, sum);
    put_word(f, count);
}

/* Its archive, but with so many normal entries, all ALL with this sum and count: right with one, 0 and 0. */
static struct file empty_archive(uint32_t d, uint32_t size, uint32_t normals, int64_t sum, uint32_t count)
{
    struct file f = empty_table(d, size);
    set_word(&f, 0, ARCHIVE);
    f.length -= 4;
    put_word(&f, normals);
    for (uint32_t i = 0; i < normals; i++)
        put_total(&f, d, sum, count);
    put_check_word(&f);
    return f;
}

/* All ALL has sum 0 and count 0, from entry 0; every other cell needs a row. */
static void looking_up_no_rows(const struct file *archive, uint32_t d, uint32_t size)
{
    uint32_t question[8];
    struct numbers n;
    for (uint32_t set = 0; set < UINT32_C(1) << d; set++) {
        for (uint32_t i = 0; i < d; i++)
            question[i] = set >> i & 1 ? size - 1 : CUBE_ALL;
        uint64_t answer = look_up(archive, question, d, &n);
        if (set == 0)
            CHECK_CASE(d, answer == 1 && guards_kept(&n) && n.sum == 0 && n.count == 0 && n.entry == 0);
        else
            CHECK_CASE(set, answer == 0 && nothing_stored(&n));
    }
}

/* A cuboid of the one cell for set 0, and a count of 0 for each other set. */
static void listing_no_rows(const struct file *archive, uint32_t d)
{
    struct file one_cell = {{0}, 0}, no_cells = {{0}, 4};
    put_word(&one_cell, 1);
    put_total(&one_cell, d, 0, 0);
    check_written(list_cuboid, archive, 0, CUBE_CUBOID_ROOM(d, 0), &one_cell);
    for (uint32_t i = 0; i < d; i++)
        check_written(list_cuboid, archive, UINT32_C(1) << i, CUBE_CUBOID_ROOM(d, 0), &no_cells);
    check_written(list_cuboid, archive, (UINT32_C(1) << d) - 1, CUBE_CUBOID_ROOM(d, 0), &no_cells);
    check_stopped(list_cuboid, archive, UINT32_C(1) << d, ROOM, CUBE_STOP_SET);
    struct file expansion = one_cell;
    expansion.length += 4 * (((size_t)1 << d) - 1);
    check_written(expand, archive, 0, CUBE_EXPANSION_ROOM(d, 0), &expansion);
}

static void no_rows(void)
{
    static const uint32_t sizes[2] = {1, 65535};
    for (uint32_t i = 0; i < 16; i++) {
        uint32_t d = 1 + i / 2, size = sizes[i % 2];
        struct file table = empty_table(d, size), archive = empty_archive(d, size, 1, 0, 0);
        CHECK_CASE(d, archive.length == 32 + 8 * d);
        check_written(build, &table, 0, CUBE_ARCHIVE_ROOM(d, 0), &archive);
        uint64_t counts = cube_check(archive.bytes, archive.length);
        CHECK_CASE(d, !CUBE_IS_STOP(counts) && CUBE_BASE_COUNT(counts) == 0 && CUBE_NORMAL_COUNT(counts) == 1);
        looking_up_no_rows(&archive, d, size);
        listing_no_rows(&archive, d);
    }
    struct file example = empty_archive(1, 1, 1, 0, 0);
    CHECK(example.length == 40 && word_at(&example, 36) == 0x45435545);
}

/* D 1, size 1, rows (0) 5 and (0) -5: one base entry with sum 0, count 2 and the list of the empty set; no normal entry. */
static void rows_that_cancel(void)
{
    const uint32_t rows[] = {1, 1, 2, 0, 5, 0, (uint32_t)-5}, entries[] = {1, 1, 1, 0, 0, 0, 2, 1, 0, 0}, all = CUBE_ALL;
    struct file table = file_of(TABLE, rows, 7), archive = file_of(ARCHIVE, entries, 10);
    struct numbers n;
    check_written(build, &table, 0, CUBE_ARCHIVE_ROOM(1, 2), &archive);
    uint64_t counts = cube_check(archive.bytes, archive.length);
    CHECK(CUBE_BASE_COUNT(counts) == 1 && CUBE_NORMAL_COUNT(counts) == 0);
    CHECK(look_up(&archive, &all, 1, &n) == 1 && guards_kept(&n) && n.sum == 0 && n.count == 2 && n.entry == 0);
}

/* Every call on the archive stops so, whatever question, set or output it is given, and changes nothing that it is lent. */
static void check_archive_stopped(const struct file *archive, unsigned stop)
{
    struct numbers n;
    CHECK_CASE(stop, cube_check(archive->bytes, archive->length) == CUBE_STOP_BIT + stop);
    CHECK_CASE(stop, look_up(archive, SIZES, 1, &n) == CUBE_STOP_BIT + stop && nothing_stored(&n));
    check_stopped(list_cuboid, archive, SETS, ROOM, stop);
    check_stopped(list_cuboid, archive, 0, 0, stop);
    check_stopped(expand, archive, 0, ROOM, stop);
    check_stopped(smallest_keys, archive, 0, ROOM, stop);
    CHECK_CASE(stop, cube_fixes(archive->bytes, archive->length, SETS, 0) == CUBE_STOP_BIT + stop);
    fee = UINT32_MAX;
    check_stopped(share_fee, archive, SETS, 0, stop);
    other.length = 0;
    check_stopped(join_other, archive, 0, 0, stop);
    other = five_archive();
    check_stopped(join_to_other, archive, 0, 0, stop);
    added = SIZES;
    added_count = 1;
    check_stopped(add, archive, 0, 0, stop);
    CHECK_CASE(stop, window(archive, 0, CUBE_ALL, SIZES, 1, &n) == CUBE_STOP_BIT + stop && nothing_stored(&n));
}

static void check_table_stopped(const struct file *table, unsigned stop)
{
    check_stopped(build, table, 0, ROOM, stop);
    check_stopped(build, table, 0, 0, stop);
}

/* A word of a file that is changed, with the check word made right again, and the stop that follows. */
struct damage {
    size_t at;
    uint32_t word;
    unsigned stop;
};

static struct file damaged(struct file f, const struct damage *damage)
{
    size_t end = f.length - 4;
    set_word(&f, damage->at, damage->word);
    set_word(&f, end, check_word(&f, end));
    return f;
}

/* Stops on a field that both files have at the same place, and at their ends. */
static void stops_of_both_files(void)
{
    static const struct damage both[] = {
        {0, 0x46425543, CUBE_STOP_OPENING},
        {4, 0, CUBE_STOP_DIMENSIONS},
        {4, 9, CUBE_STOP_DIMENSIONS},
        {8, 0, CUBE_STOP_SIZE},
        {16, 65536, CUBE_STOP_SIZE},
        {20, 1025, CUBE_STOP_ROWS},
        {24, 7, CUBE_STOP_CODE},
        {32, CUBE_ALL, CUBE_STOP_CODE},
    };
    struct file table = five_table(), archive = five_archive();
    for (size_t i = 0; i < sizeof both / sizeof *both; i++) {
        struct file wrong_table = damaged(table, &both[i]), wrong_archive = damaged(archive, &both[i]);
        check_table_stopped(&wrong_table, both[i].stop);
        check_archive_stopped(&wrong_archive, both[i].stop);
    }
    check_table_stopped(&archive, CUBE_STOP_OPENING);
    check_archive_stopped(&table, CUBE_STOP_OPENING);
    for (int more = -1; more <= 1; more += 2) {
        struct file other_table = table, other_archive = archive;
        other_table.length += (size_t)more;
        other_archive.length += (size_t)more;
        check_table_stopped(&other_table, more < 0 ? CUBE_STOP_CUT : CUBE_STOP_TRAILING);
        check_archive_stopped(&other_archive, more < 0 ? CUBE_STOP_CUT : CUBE_STOP_TRAILING);
    }
    table.bytes[table.length - 1] ^= 1;
    archive.bytes[archive.length - 1] ^= 1;
    check_table_stopped(&table, CUBE_STOP_CHECK);
    check_archive_stopped(&archive, CUBE_STOP_CHECK);
    table.length = archive.length = 0;
    check_table_stopped(&table, CUBE_STOP_OPENING);
    check_archive_stopped(&archive, CUBE_STOP_OPENING);
}

/* Stops on entries: the first has its sum at 36, its count at 44, its list at 48; the second begins at 56; the last count is at 316. */
static void stops_of_entries(void)
{
    static const struct damage entries[] = {
        {56, 0, CUBE_STOP_ORDER},
        {44, 0, CUBE_STOP_AMOUNT},
        {40, 1, CUBE_STOP_AMOUNT},
        {44, 1048576, CUBE_STOP_AMOUNT},
        {48, 71, CUBE_STOP_LIST},
        {52, 2, CUBE_STOP_ENTRIES},
        {316, 3, CUBE_STOP_ENTRIES},
    };
    struct file archive = five_archive();
    for (size_t i = 0; i < sizeof entries / sizeof *entries; i++) {
        struct file wrong = damaged(archive, &entries[i]);
        check_archive_stopped(&wrong, entries[i].stop);
    }
}

/* Without rows: no normal entry (document 01's 24 bytes at D 1), one too many, another sum, count or code. With a row: count 0, and a zero total beside it. */
static void stops_of_no_rows(void)
{
    for (uint32_t d = 1; d <= 8; d++) {
        const struct file wrong[] = {
            empty_archive(d, 1, 0, 0, 0),     empty_archive(d, 1, 2, 0, 0),         empty_archive(d, 1, 1, 1, 0),
            empty_archive(d, 1, 1, -1, 0),    empty_archive(d, 1, 1, INT64_MIN, 0), empty_archive(d, 1, 1, 0, 1),
            empty_archive(d, 1, 1, 0, 65536),
        };
        CHECK_CASE(d, wrong[0].length == 20 + 4 * d);
        for (size_t i = 0; i < sizeof wrong / sizeof *wrong; i++)
            check_archive_stopped(&wrong[i], CUBE_STOP_ENTRIES);
        for (uint32_t i = 0; i < d; i++) {
            struct damage code = {16 + 4 * d + 4 * i, i % 2 ? UINT32_MAX : 0, CUBE_STOP_ENTRIES};
            struct file other = damaged(empty_archive(d, 1, 1, 0, 0), &code);
            check_archive_stopped(&other, CUBE_STOP_ENTRIES);
        }
    }
    const uint32_t beside[] = {1, 1, 1, 0, 5, 0, 1, 1, 0, 1, CUBE_ALL, 0, 0, 0}, none[] = {1, 1, 1, 0, 0, 0, 0, 1, 0, 1, CUBE_ALL, 0, 0, 0};
    struct file row = file_of(ARCHIVE, beside, 14), no_count = file_of(ARCHIVE, none, 14);
    check_archive_stopped(&row, CUBE_STOP_ENTRIES);
    check_archive_stopped(&no_count, CUBE_STOP_AMOUNT);
}

/* Stops on a question or a set number; a code that is its size, and ALL plus 1, are no codes. */
static void stops_of_questions(void)
{
    static const uint32_t wrong[][D] = {{7, 1, 1}, {CUBE_ALL, 6, CUBE_ALL}, {0, 1, 3}, {CUBE_ALL + 1, 1, 1}, {0, 1, UINT32_MAX}};
    static const uint32_t right[4] = {0, 1, 1, CUBE_ALL};
    struct file archive = five_archive();
    struct numbers n;
    for (size_t i = 0; i < sizeof wrong / sizeof *wrong; i++)
        CHECK_CASE(i, look_up(&archive, wrong[i], D, &n) == CUBE_STOP_BIT + CUBE_STOP_QUESTION && nothing_stored(&n));
    for (size_t length = 0; length <= 4; length++) {
        uint64_t want = length == D ? 1 : CUBE_STOP_BIT + CUBE_STOP_QUESTION;
        CHECK_CASE(length, look_up(&archive, right, length, &n) == want && nothing_stored(&n) == (length != D));
    }
    check_stopped(list_cuboid, &archive, SETS, 0, CUBE_STOP_SET);
    check_stopped(list_cuboid, &archive, UINT32_MAX, ROOM, CUBE_STOP_SET);
}

/* Stops on a set and a dimension, the set first. */
static void stops_of_fixes(void)
{
    static const uint32_t dimensions[] = {0, D + 1, UINT32_MAX};
    struct file archive = five_archive();
    for (size_t i = 0; i < sizeof dimensions / sizeof *dimensions; i++) {
        CHECK_CASE(i, cube_fixes(archive.bytes, archive.length, 0, dimensions[i]) == CUBE_STOP_BIT + CUBE_STOP_DIMENSION);
        CHECK_CASE(i, cube_fixes(archive.bytes, archive.length, SETS, dimensions[i]) == CUBE_STOP_BIT + CUBE_STOP_SET);
    }
    CHECK(cube_fixes(archive.bytes, archive.length, UINT32_MAX, 1) == CUBE_STOP_BIT + CUBE_STOP_SET);
}

static void sharing(void)
{
    static const uint32_t fees[] = {0, 1, 2, 3, 101, 999999999, 1000000000};
    static const uint32_t first[] = {3, 41, 20, 40};
    struct file archive = five_archive(), third = {{0}, 0};
    for (size_t i = 0; i < sizeof fees / sizeof *fees; i++) {
        for (uint32_t set = 0; set < SETS; set++) {
            struct file shares = {{0}, 0};
            fee = fees[i];
            put_shares(&shares, fee, set);
            check_written(share_fee, &archive, set, CUBE_FEE_ROOM(BASES), &shares);
        }
    }
    put_words(&third, first, 4);
    fee = 101;
    check_written(share_fee, &archive, 2, CUBE_FEE_ROOM(3), &third);
}

/* 14, 23, 24, 15, each with what is wrong behind it. */
static void stops_of_fees(void)
{
    const uint32_t fields[] = {1, 1, 0};
    struct file table = file_of(TABLE, fields, 3), archive = five_archive(), empty = {{0}, 0};
    empty.length = (size_t)cube_build(table.bytes, table.length, empty.bytes, sizeof empty.bytes);
    CHECK(cube_check(empty.bytes, empty.length) < CUBE_STOP_BIT);
    fee = UINT32_MAX;
    check_stopped(share_fee, &empty, 2, 0, CUBE_STOP_SET);
    check_stopped(share_fee, &empty, 0, 0, CUBE_STOP_FEE);
    check_stopped(share_fee, &archive, SETS, ROOM, CUBE_STOP_SET);
    fee = 1000000001;
    check_stopped(share_fee, &empty, 1, ROOM, CUBE_STOP_FEE);
    check_stopped(share_fee, &archive, 7, ROOM, CUBE_STOP_FEE);
    fee = 1000000000;
    check_stopped(share_fee, &empty, 0, 0, CUBE_STOP_NO_ROWS);
    check_stopped(share_fee, &archive, 7, 23, CUBE_STOP_OUTPUT);
    fee = 0;
    check_stopped(share_fee, &empty, 1, ROOM, CUBE_STOP_NO_ROWS);
}

/* The five rows with themselves: the same entries, every sum and count twice. With no rows they keep their bytes. */
static void joining(void)
{
    struct file archive = five_archive(), twice, empty;
    put_head(&twice, ARCHIVE, BASES);
    for (int i = 0; i < BASES + NORMALS; i++) {
        const struct entry *e = &ENTRIES[i];
        if (i == BASES)
            put_word(&twice, NORMALS);
        put_cell(&twice, e->codes, 2 * e->sum, 2 * e->count);
        if (i < BASES) {
            put_word(&twice, e->list_count);
            put_words(&twice, e->list, e->list_count);
        }
    }
    put_check_word(&twice);
    other = archive;
    check_written(join_other, &archive, 0, CUBE_JOIN_ROOM(D, BASES, BASES), &twice);
    put_head(&empty, TABLE, 0);
    put_check_word(&empty);
    other.length = (size_t)cube_build(empty.bytes, empty.length, other.bytes, sizeof other.bytes);
    CHECK(other.length == 32 + 8 * D);
    check_written(join_other, &archive, 0, CUBE_JOIN_ROOM(D, BASES, 0), &archive);
    check_written(join_to_other, &archive, 0, CUBE_JOIN_ROOM(D, 0, BASES), &archive);
}

/* 17, 18, 15, each with what is wrong behind it. */
static void stops_of_joins(void)
{
    const uint32_t none[] = {1, 1, 0, 1, CUBE_ALL, 0, 0, 0}, wider[] = {1, 2, 0, 1, CUBE_ALL, 0, 0, 0};
    const uint32_t most[] = {1, 1, 1, 0, 7, 0, 1048576, 1, 0, 0}, one[] = {1, 1, 1, 0, 7, 0, 1, 1, 0, 0};
    struct file archive = five_archive(), empty = file_of(ARCHIVE, none, 8), full = file_of(ARCHIVE, most, 10);
    other = file_of(ARCHIVE, wider, 8);
    check_stopped(join_other, &archive, 0, 0, CUBE_STOP_SIZES);
    check_stopped(join_other, &full, 0, 0, CUBE_STOP_SIZES);
    other = file_of(ARCHIVE, one, 10);
    check_stopped(join_other, &full, 0, 0, CUBE_STOP_MANY);
    check_stopped(join_to_other, &full, 0, ROOM, CUBE_STOP_MANY);
    check_written(join_other, &empty, 0, CUBE_JOIN_ROOM(1, 0, 1), &other);
    check_stopped(join_other, &empty, 0, other.length - 1, CUBE_STOP_OUTPUT);
}

/* The archive of a table of the five rows and one more, built afresh. */
static struct file five_and(const uint32_t codes[D], int32_t last)
{
    struct file table = five_table(), archive = {{0}, 0};
    set_word(&table, 20, ROWS + 1);
    table.length -= 4;
    put_words(&table, codes, D);
    put_word(&table, (uint32_t)last);
    put_check_word(&table);
    archive.length = (size_t)cube_build(table.bytes, table.length, archive.bytes, sizeof archive.bytes);
    return archive;
}

/* Every row there is, known or new, with readings at both ends: as built afresh, and just the cells over the row gain it. */
static void adding(void)
{
    static const int32_t readings[] = {0, -1, 7, INT32_MIN, INT32_MAX};
    struct file archive = five_archive();
    for (uint32_t i = 0; i < 7 * 6 * 3; i++) {
        const uint32_t codes[D] = {i / 18, i / 3 % 6, i % 3};
        unsigned gained = 0;
        reading = readings[i % 5];
        added = codes;
        added_count = D;
        struct file want = five_and(codes, reading);
        check_written(add, &archive, 0, CUBE_ADD_ROOM(D, BASES), &want);
        for (uint32_t j = 0; j < QUESTIONS; j++) {
            uint32_t question[D];
            struct numbers before, after;
            set_question(question, j);
            int over = 1;
            for (int d = 0; d < D; d++)
                over &= question[d] == CUBE_ALL || question[d] == codes[d];
            uint64_t was = look_up(&archive, question, D, &before), is = look_up(&want, question, D, &after);
            int64_t sum = was == 1 ? before.sum : 0;
            uint32_t count = was == 1 ? before.count : 0;
            if (over)
                CHECK_CASE(j, is == 1 && after.sum == sum + reading && after.count == count + 1);
            else
                CHECK_CASE(j, is == was && (is == 0 || (after.sum == sum && after.count == count)));
            gained += (unsigned)over;
        }
        CHECK_CASE(i, gained == SETS);
    }
}

/* 13, 18, 15, each with what is wrong behind it. */
static void stops_of_adding(void)
{
    static const uint32_t wrong[][D] = {{7, 1, 1}, {0, 6, 1}, {0, 1, 3}, {CUBE_ALL, 1, 1}, {0, CUBE_ALL, 1}, {0, 1, CUBE_ALL}, {UINT32_MAX, 1, 1}};
    static const uint32_t right[4] = {0, 1, 1, 0}, zero = 0;
    const uint32_t most[] = {1, 1, 1, 0, 7, 0, 1048576, 1, 0, 0};
    struct file archive = five_archive(), full = file_of(ARCHIVE, most, 10);
    reading = -50;
    added_count = D;
    for (size_t i = 0; i < sizeof wrong / sizeof *wrong; i++) {
        added = wrong[i];
        check_stopped(add, &archive, 0, 0, CUBE_STOP_QUESTION);
        check_stopped(add, &archive, 0, ROOM, CUBE_STOP_QUESTION);
    }
    added = right;
    for (added_count = 0; added_count <= 4; added_count++)
        check_stopped(add, &archive, 0, 0, added_count == D ? CUBE_STOP_OUTPUT : CUBE_STOP_QUESTION);
    added_count = 1;
    check_stopped(add, &full, 0, 0, CUBE_STOP_MANY);
    added = &zero;
    check_stopped(add, &full, 0, ROOM, CUBE_STOP_MANY);
    added_count = 0;
    check_stopped(add, &full, 0, ROOM, CUBE_STOP_QUESTION);
}

/* Every question through every window: what a look-up tells, without the entry's number, if the question has the window's code; otherwise 20. */
static void windows(void)
{
    struct file archive = five_archive();
    for (uint32_t i = 0; i < QUESTIONS; i++) {
        uint32_t question[D];
        struct numbers found, seen;
        set_question(question, i);
        uint64_t answer = look_up(&archive, question, D, &found);
        for (uint32_t d = 0; d < D; d++) {
            for (uint32_t code = 0; code < SIZES[d]; code++) {
                uint64_t reply = window(&archive, d + 1, code, question, D, &seen);
                if (question[d] != code)
                    CHECK_CASE(i, reply == CUBE_STOP_BIT + CUBE_STOP_WINDOW && nothing_stored(&seen));
                else if (answer == 0)
                    CHECK_CASE(i, reply == 0 && nothing_stored(&seen));
                else
                    CHECK_CASE(i, reply == 1 && seen.sum == found.sum && seen.count == found.count && seen.entry == KEPT.entry && guards_kept(&seen));
            }
        }
    }
}

/* 16, 13 for the window's code, 13 for the question, 20, each with what is wrong behind it. */
static void stops_of_windows(void)
{
    static const uint32_t dimensions[] = {0, D + 1, UINT32_MAX}, codes[] = {7, CUBE_ALL, UINT32_MAX};
    static const uint32_t right[4] = {4, 5, 1, 0}, wrong[D] = {4, 6, 1}, elsewhere[D] = {6, 6, 1};
    struct file archive = five_archive();
    struct numbers n;
    for (size_t i = 0; i < 3; i++) {
        CHECK_CASE(i, window(&archive, dimensions[i], 7, wrong, 1, &n) == CUBE_STOP_BIT + CUBE_STOP_DIMENSION && nothing_stored(&n));
        CHECK_CASE(i, window(&archive, 1, codes[i], elsewhere, D, &n) == CUBE_STOP_BIT + CUBE_STOP_QUESTION && nothing_stored(&n));
    }
    for (size_t length = 0; length <= 4; length++) {
        uint64_t want = length == D ? 1 : CUBE_STOP_BIT + CUBE_STOP_QUESTION;
        CHECK_CASE(length, window(&archive, 1, 4, right, length, &n) == want && nothing_stored(&n) == (length != D));
    }
    CHECK(window(&archive, 1, 4, wrong, D, &n) == CUBE_STOP_BIT + CUBE_STOP_QUESTION && nothing_stored(&n));
    CHECK(window(&archive, 1, 4, elsewhere, D, &n) == CUBE_STOP_BIT + CUBE_STOP_QUESTION && nothing_stored(&n));
    CHECK(window(&archive, 1, 6, right, D, &n) == CUBE_STOP_BIT + CUBE_STOP_WINDOW && nothing_stored(&n));
}

int main(void)
{
    macros();
    building();
    checking();
    looking_up_entries();
    looking_up_everything();
    listing();
    expanding();
    keys();
    no_rows();
    rows_that_cancel();
    stops_of_both_files();
    stops_of_entries();
    stops_of_no_rows();
    stops_of_questions();
    stops_of_fixes();
    sharing();
    stops_of_fees();
    joining();
    stops_of_joins();
    adding();
    stops_of_adding();
    windows();
    stops_of_windows();
    printf("%u passed, %u failed\n", passed, failed);
    return failed == 0 ? 0 : 1;
}
