/*
 * The calls from C, beside document 01: the ten marked rows of its morning with answers and every byte, its edges, full tables of pieces, the
 * buffers given back and cleaned, the serials of slips and spent ones, the refusals, the two views of show, the wire lists and their reader, and
 * the macros of slp.h. What is lent stands in memory of exactly its length, so that a checker of memory sees one byte too far.
 * C11 and C++17 alike. Exit status 0 only where every check holds.
 */
#include <slp.h>

#include <assert.h>
#include <stdio.h>
#include <stdlib.h>
#include <string.h>

/* C's layout of the answers and of a record, and the macros where a constant is wanted. */
static_assert(sizeof(slp_answer) == 8 && offsetof(slp_answer, number) == 4, "slp_answer");
static_assert(sizeof(slp_shown) == 16 && offsetof(slp_shown, in_scratch) == 8 && offsetof(slp_shown, start) == 12, "slp_shown");
static_assert(sizeof(slp_gathered) == 16 && offsetof(slp_gathered, number) == 8 && sizeof(((slp_gathered *)0)->number) == 8, "slp_gathered");
static_assert(sizeof(slp_stretch) == 8 && offsetof(slp_stretch, position) == 0 && offsetof(slp_stretch, length) == 4, "slp_stretch");
static_assert(SLP_POOL_LENGTH(4, 6, 4) == 95 && SLP_STORAGE_LENGTH(4) == 2048, "lengths");
static_assert(SLP_DONE == 0 && SLP_COUNTS == 1 && SLP_TORN == 2 && SLP_SLIP == 3 && SLP_SAME == 4 && SLP_LONG == 5, "codes 0 to 5");
static_assert(SLP_RANGE == 6 && SLP_NARROW == 7 && SLP_SLIPS == 8 && SLP_PIECES == 9 && SLP_BUFFERS == 10 && SLP_LIST == 11,
              "codes 6 to 11");
static_assert(SLP_NUMBER(0) == 0 && SLP_SERIAL(0) == 0 && SLP_NUMBER(65535) == 65535 && SLP_SERIAL(65535) == 0, "slips at serial 0");
static_assert(SLP_NUMBER(3 + 65536 * 7) == 3 && SLP_SERIAL(3 + 65536 * 7) == 7, "slip 3 at serial 7");
static_assert(SLP_NUMBER(UINT32_MAX) == 65535 && SLP_SERIAL(UINT32_MAX) == SLP_LAST_SERIAL && SLP_LAST_SERIAL == 65535, "the last of both");
static_assert(sizeof(SLP_NUMBER(0)) == 2 && sizeof(SLP_SERIAL(0)) == 2, "16 bits each");
#if SLP_POOL_LENGTH(SLP_MOST_BUFFERS, SLP_MOST_PIECES, SLP_MOST_SLIPS) != 23563 || SLP_STORAGE_LENGTH(SLP_MOST_BUFFERS) != 524288
#error "the lengths of the largest pool"
#endif

enum { OUTPUT = 64, OLD = 238, LAST = SLP_LAST_SERIAL };

/* What is answered for a slip at a serial; at serial 0 it is the slip's number alone. And an answered slip as the calls take it. */
#define AT(slip, serial) ((slip) + 65536u * (serial))
#define NAME(n) SLP_NUMBER(n), SLP_SERIAL(n)

static unsigned checks, failures;

/* Counts one check, and says where it failed. */
static void check(int holds, int line, const char *what)
{
    checks++;
    if (!holds) {
        failures++;
        printf("rows.c:%d: not so: %s\n", line, what);
    }
}
#define CHECK(holds) check((holds), __LINE__, #holds)

/* Memory of exactly n bytes, all of them `byte`. */
static uint8_t *lend(size_t n, int byte)
{
    uint8_t *p = (uint8_t *)malloc(n ? n : 1);
    if (!p) {
        perror("malloc");
        exit(2);
    }
    memset(p, byte, n ? n : 1);
    return p;
}

/* The data of document 01's morning: byte i is i mod 251. */
static uint8_t *morning_data(size_t n)
{
    uint8_t *data = lend(n, 0);
    for (size_t i = 0; i < n; i++) data[i] = (uint8_t)(i % 251);
    return data;
}

/* A pool, its storage, and an output for what is copied out. */
typedef struct {
    uint8_t *pool;
    size_t pool_length;
    uint8_t *storage;
    size_t storage_length;
    uint8_t *output;
} lent;
#define LENT(b) (b).pool, (b).pool_length, (b).storage, (b).storage_length
/* The output as a lent list, of 16 numbers or 8 records. */
#define NUMBERS(b) ((uint32_t *)(void *)(b).output)
#define RECORDS(b) ((slp_stretch *)(void *)(b).output)

/* What is lent for these counts, opened over old bytes; its storage and output hold old bytes still. */
static lent fresh(uint16_t buffers, uint16_t pieces, uint16_t slips)
{
    lent b;
    b.pool_length = SLP_POOL_LENGTH(buffers, pieces, slips);
    b.storage_length = SLP_STORAGE_LENGTH(buffers);
    b.pool = lend(b.pool_length, OLD);
    b.storage = lend(b.storage_length, OLD);
    b.output = lend(OUTPUT, OLD);
    slp_answer a = slp_open(LENT(b), buffers, pieces, slips);
    CHECK(a.code == SLP_DONE && a.number == 0);
    return b;
}

/* A copy of all that is lent. */
static lent copy_of(lent b)
{
    lent c = b;
    c.pool = (uint8_t *)memcpy(lend(b.pool_length, 0), b.pool, b.pool_length);
    c.storage = (uint8_t *)memcpy(lend(b.storage_length, 0), b.storage, b.storage_length);
    c.output = (uint8_t *)memcpy(lend(OUTPUT, 0), b.output, OUTPUT);
    return c;
}

/* Whether two boxes hold the same bytes. */
static int same(lent b, lent c)
{
    return memcmp(b.pool, c.pool, b.pool_length) == 0 && memcmp(b.storage, c.storage, b.storage_length) == 0
        && memcmp(b.output, c.output, OUTPUT) == 0;
}

static void give_back(lent b)
{
    free(b.pool);
    free(b.storage);
    free(b.output);
}

/* An answer, and that all that is lent is as it was before the call. */
static void check_still(slp_answer a, unsigned code, lent b, lent before, int line, const char *call)
{
    check(a.code == code && a.number == 0, line, call);
    check(same(b, before), line, "the call above changes nothing");
    give_back(before);
}
/* The call is refused with the code, and changes nothing. */
#define REFUSES(wanted, b, call)                                    \
    do {                                                            \
        lent before = copy_of(b);                                    \
        slp_answer answer = (call);                                 \
        check_still(answer, (wanted), (b), before, __LINE__, #call); \
    } while (0)
/* The call is done, answers 0 and changes nothing. */
#define IDLE(b, call) REFUSES(SLP_DONE, b, call)

/* The code of a show, whose other three numbers are 0 with a no. */
static slp_answer refused_show(slp_shown v)
{
    slp_answer a;
    CHECK(v.in_scratch == 0 && v.start == 0);
    a.code = v.code;
    a.number = v.number;
    return a;
}

/* The code of a gather, whose number is 0 with a no. */
static slp_answer refused_gather(slp_gathered g)
{
    slp_answer a;
    CHECK(g.number == 0);
    a.code = g.code;
    a.number = 0;
    return a;
}

/* The call is done and answers the number. */
static void check_done(slp_answer a, uint32_t number, int line, const char *call)
{
    check(a.code == SLP_DONE && a.number == number, line, call);
}
#define ANSWERS(wanted, call) check_done((call), (wanted), __LINE__, #call)

/* put of n bytes of the morning's data. */
static slp_answer put(lent b, size_t n)
{
    uint8_t *data = morning_data(n);
    slp_answer a = slp_put(LENT(b), data, n);
    free(data);
    return a;
}

/* Whether a slip reads as n bytes of the morning's data from `from` on. */
static int reads(lent b, uint32_t slip, uint32_t n, uint32_t from)
{
    uint8_t *data = morning_data(from + n);
    uint8_t *out = lend(n, OLD);
    slp_answer length = slp_length(LENT(b), NAME(slip));
    slp_answer a = slp_read(LENT(b), NAME(slip), 0, n, out, n);
    int as_wanted = length.code == SLP_DONE && length.number == n && a.code == SLP_DONE && a.number == n
        && memcmp(out, data + from, n) == 0;
    free(out);
    free(data);
    return as_wanted;
}

/* Whether memory is the wanted numbers, then old ones. */
static int listed(const void *list, const uint32_t *wanted, size_t numbers, size_t old)
{
    const uint8_t *bytes = (const uint8_t *)list;
    for (size_t i = 4 * numbers; i < 4 * (numbers + old); i++) {
        if (bytes[i] != OLD) return 0;
    }
    return memcmp(bytes, wanted, 4 * numbers) == 0;
}

/* Whether a slip's wire list is these records, in numbers and in records, and what is lent past them stays as it is. */
static int lists(lent b, uint32_t slip, size_t records, const uint32_t *wanted)
{
    uint32_t *list = (uint32_t *)(void *)lend(4 * (2 * records + 1), OLD);
    slp_stretch *stretches = (slp_stretch *)(void *)lend(8 * (records + 1), OLD);
    slp_answer flat = slp_list(LENT(b), NAME(slip), list, 2 * records + 1);
    slp_answer whole = slp_stretches(LENT(b), NAME(slip), stretches, records + 1);
    int as_wanted = flat.code == SLP_DONE && flat.number == records && listed(list, wanted, 2 * records, 1)
        && whole.code == SLP_DONE && whole.number == records && listed(stretches, wanted, 2 * records, 2);
    free(list);
    free(stretches);
    return as_wanted;
}

/* The 16-bit number at a position of the pool, low byte first. */
static unsigned word_at(lent b, size_t at)
{
    return b.pool[at] + 256u * b.pool[at + 1];
}

/* Where a slip's state and its serial stand, in any pool. */
static size_t state_at(unsigned slip)
{
    return 11 + 4 * slip;
}
static size_t serial_at(unsigned slip)
{
    return 13 + 4 * slip;
}

/* Sets a slip's serial, which soundness asks nothing of. */
static void set_serial(lent b, unsigned slip, unsigned serial)
{
    b.pool[serial_at(slip)] = (uint8_t)(serial % 256);
    b.pool[serial_at(slip) + 1] = (uint8_t)(serial / 256);
}

/* Whether the pool's tables are those of a fresh one, but for the serials. */
static int fresh_but_serials(lent b)
{
    size_t slips_end = state_at(word_at(b, 9));
    for (size_t i = 11; i < b.pool_length; i++) {
        int of_serial = i < slips_end && (i - 11) % 4 >= 2;
        if (b.pool[i] != 0 && !of_serial) return 0;
    }
    return 1;
}

/* The entries of a pool for B 4, P 6, S 4. */
typedef struct {
    uint16_t slip[4];      /* 0 vacant, 1 empty, 2 + d heads piece d */
    uint16_t serial[4];
    uint16_t piece[6][5];  /* count, buffer, offset, length, next (0 none, 1 + d) */
    uint16_t buffer[4];    /* counts */
} entries;

/* The entries after each of document 01's rows, row 0 being open. */
static const entries after[11] = {
    /* 0 open        */ {{0, 0, 0, 0}, {0, 0, 0, 0}, {{0}, {0}, {0}, {0}, {0}, {0}}, {0, 0, 0, 0}},
    /* 1 put 600     */ {{2, 0, 0, 0}, {0, 0, 0, 0}, {{1, 0, 0, 512, 2}, {1, 1, 0, 88, 0}, {0}, {0}, {0}, {0}}, {1, 1, 0, 0}},
    /* 2 cut 0,500,50 */ {{2, 4, 0, 0}, {0, 0, 0, 0},
        {{1, 0, 0, 512, 2}, {1, 1, 0, 88, 0}, {1, 0, 500, 12, 4}, {1, 1, 0, 38, 0}, {0}, {0}}, {2, 2, 0, 0}},
    /* 3 dup 0       */ {{2, 4, 6, 0}, {0, 0, 0, 0},
        {{1, 0, 0, 512, 2}, {2, 1, 0, 88, 0}, {1, 0, 500, 12, 4}, {1, 1, 0, 38, 0}, {1, 0, 0, 512, 2}, {0}}, {3, 2, 0, 0}},
    /* 4 free 0      */ {{0, 4, 6, 0}, {1, 0, 0, 0},
        {{0}, {1, 1, 0, 88, 0}, {1, 0, 500, 12, 4}, {1, 1, 0, 38, 0}, {1, 0, 0, 512, 2}, {0}}, {2, 2, 0, 0}},
    /* 5 drop 2,520  */ {{0, 4, 3, 0}, {1, 0, 0, 0}, {{0}, {1, 1, 8, 80, 0}, {1, 0, 500, 12, 4}, {1, 1, 0, 38, 0}, {0}, {0}}, {1, 2, 0, 0}},
    /* 6 append 1,2  */ {{0, 4, 0, 0}, {1, 0, 1, 0}, {{0}, {1, 1, 8, 80, 0}, {1, 0, 500, 12, 4}, {1, 1, 0, 38, 2}, {0}, {0}}, {1, 2, 0, 0}},
    /* 7 keep 1,40   */ {{0, 4, 0, 0}, {1, 0, 1, 0}, {{0}, {0}, {1, 0, 500, 12, 4}, {1, 1, 0, 28, 0}, {0}, {0}}, {1, 1, 0, 0}},
    /* 8 pullup 1,20 */ {{0, 2, 0, 0}, {1, 0, 1, 0}, {{1, 2, 0, 20, 4}, {0}, {0}, {1, 1, 8, 20, 0}, {0}, {0}}, {0, 1, 1, 0}},
    /* 9 pack 1      */ {{0, 3, 0, 0}, {1, 0, 1, 0}, {{0}, {1, 0, 0, 40, 0}, {0}, {0}, {0}, {0}}, {1, 0, 0, 0}},
    /* 10 free 1     */ {{0, 0, 0, 0}, {1, 1, 1, 0}, {{0}, {0}, {0}, {0}, {0}, {0}}, {0, 0, 0, 0}},
};

/* The fresh pool's first eleven bytes, and what row 1 leaves behind them up to piece 2: the same as entries, byte for byte. */
static const uint8_t head[11] = {0x53, 0x4C, 0x50, 0x02, 0x00, 0x04, 0x00, 0x06, 0x00, 0x04, 0x00};
static const uint8_t row_1[36] = {
    0x02, 0x00, 0x00, 0x00, 0x00, 0x00, 0x00, 0x00, 0x00, 0x00, 0x00, 0x00, 0x00, 0x00, 0x00, 0x00,
    0x01, 0x00, 0x00, 0x00, 0x00, 0x00, 0x00, 0x02, 0x02, 0x00,
    0x01, 0x00, 0x01, 0x00, 0x00, 0x00, 0x58, 0x00, 0x00, 0x00,
};

/* The entries as a pool's 95 bytes. */
static void write_pool(uint8_t bytes[95], const entries *e)
{
    uint16_t word[42];
    for (int s = 0; s < 4; s++) {
        word[2 * s] = e->slip[s];
        word[2 * s + 1] = e->serial[s];
    }
    memcpy(word + 8, e->piece, sizeof e->piece);
    memcpy(word + 38, e->buffer, sizeof e->buffer);
    memcpy(bytes, head, sizeof head);
    for (int i = 0; i < 42; i++) {
        bytes[11 + 2 * i] = (uint8_t)(word[i] % 256);
        bytes[12 + 2 * i] = (uint8_t)(word[i] / 256);
    }
}

/* The call of a row. */
static slp_answer row_call(int row, lent b)
{
    switch (row) {
    case 1: return put(b, 600);
    case 2: return slp_cut(LENT(b), NAME(0), 500, 50);
    case 3: return slp_dup(LENT(b), NAME(0));
    case 4: return slp_free(LENT(b), NAME(0));
    case 5: return slp_drop(LENT(b), NAME(2), 520);
    case 6: return slp_append(LENT(b), NAME(1), NAME(2));
    case 7: return slp_keep(LENT(b), NAME(1), 40);
    case 8: return slp_pullup(LENT(b), NAME(1), 20);
    case 9: return slp_pack(LENT(b), NAME(1));
    default: return slp_free(LENT(b), NAME(1));
    }
}

/* What a row writes into storage: a taken buffer holds its bytes, then zeros; one given back is zero. */
static void row_storage(int row, uint8_t *storage)
{
    uint8_t *data = morning_data(600);
    if (row == 1) {
        memset(storage, 0, 1024);
        memcpy(storage, data, 600);
    }
    if (row == 8) {
        memset(storage + 1024, 0, 512);
        memcpy(storage + 1024, data + 500, 20);
        memset(storage, 0, 512);
    }
    if (row == 9) {
        memset(storage, 0, 1536);
        memcpy(storage, data + 500, 40);
    }
    if (row == 10) memset(storage, 0, 512);
    free(data);
}

/* Whether each of the buffers from `first` to before `end` is the wanted byte, all over. */
static int all_over(lent b, size_t first, size_t end, int byte)
{
    for (size_t i = 512 * first; i < 512 * end; i++) {
        if (b.storage[i] != byte) return 0;
    }
    return 1;
}

/* A row's answer, and every byte of pool and storage after it. */
static void check_row(int row, lent b, uint8_t *storage)
{
    static const uint32_t number[11] = {0, 0, 1, 2, 0, 0, 0, 0, 0, 0, 0};
    uint8_t pool[95];
    char what[40];
    snprintf(what, sizeof what, "row %d of the morning", row);
    if (row > 0) check_done(row_call(row, b), number[row], __LINE__, what);
    write_pool(pool, &after[row]);
    check(memcmp(b.pool, pool, 95) == 0, __LINE__, what);
    row_storage(row, storage);
    check(memcmp(b.storage, storage, 2048) == 0, __LINE__, what);
    check(slp_audit(LENT(b)).code == SLP_DONE, __LINE__, what);
}

/* The ten marked rows, and what their slips read. */
static void morning(void)
{
    static const uint8_t packed[40] = {249, 250, 0, 1, 2, 3, 4, 5, 6, 7, 8, 9, 10, 11, 12, 13, 14, 15, 16, 17,
                                       18, 19, 20, 21, 22, 23, 24, 25, 26, 27, 28, 29, 30, 31, 32, 33, 34, 35, 36, 37};
    uint8_t *storage = lend(2048, OLD);
    lent b = fresh(4, 6, 4);
    for (int row = 0; row <= 10; row++) {
        check_row(row, b, storage);
        if (row == 1) CHECK(memcmp(b.pool + 11, row_1, sizeof row_1) == 0);
        if (row == 2) CHECK(reads(b, 0, 600, 0) && reads(b, 1, 50, 500));
        if (row == 4) CHECK(reads(b, 2, 600, 0));
        if (row == 5) CHECK(reads(b, 2, 80, 520));
        if (row == 6) ANSWERS(130, slp_length(LENT(b), NAME(1)));
        if (row == 9) ANSWERS(40, slp_read(LENT(b), NAME(1), 0, 40, b.output, OUTPUT));
        if (row == 9) CHECK(memcmp(b.output, packed, 40) == 0 && b.output[40] == OLD);
        if (row < 8) CHECK(all_over(b, 2, 3, OLD));
        if (row == 8) CHECK(all_over(b, 0, 1, 0));
        if (row == 9) CHECK(memcmp(b.storage, packed, 40) == 0 && b.storage[40] == 0 && b.storage[511] == 0 && all_over(b, 1, 3, 0));
        if (row == 10) CHECK(all_over(b, 0, 3, 0));
        CHECK(all_over(b, 3, 4, OLD));
    }
    give_back(b);
    free(storage);
}

/* The wire lists of the morning's slips, row by row: position 512 * buffer + offset, then length. */
static void morning_lists(void)
{
    static const uint32_t whole[4] = {0, 512, 512, 88}, part[4] = {500, 12, 512, 38}, rest[2] = {520, 80};
    static const uint32_t joined[6] = {500, 12, 512, 38, 520, 80}, kept[4] = {500, 12, 512, 28};
    static const uint32_t pulled[4] = {1024, 20, 520, 20}, packed[2] = {0, 40};
    lent b = fresh(4, 6, 4);
    for (int row = 1; row <= 10; row++) {
        row_call(row, b);
        lent before = copy_of(b);
        if (row <= 3) CHECK(lists(b, 0, 2, whole));
        if (row >= 2 && row <= 5) CHECK(lists(b, 1, 2, part));
        if (row == 3 || row == 4) CHECK(lists(b, 2, 2, whole));
        if (row == 5) CHECK(lists(b, 2, 1, rest));
        if (row == 6) CHECK(lists(b, 1, 3, joined));
        if (row == 7) CHECK(lists(b, 1, 2, kept));
        if (row == 8) CHECK(lists(b, 1, 2, pulled));
        if (row == 9) CHECK(lists(b, 1, 1, packed));
        CHECK(same(b, before));
        give_back(before);
    }
    give_back(b);
}

/* Lists too short, of a slip that is none, and of an empty chain; 3 comes before 7. */
static void edges_of_lists(void)
{
    static const uint32_t whole[4] = {0, 512, 512, 88};
    lent b = fresh(4, 6, 4);
    put(b, 600);
    put(b, 0);
    for (size_t n = 0; n < 4; n++) REFUSES(SLP_NARROW, b, slp_list(LENT(b), NAME(0), NUMBERS(b), n));
    for (size_t n = 0; n < 2; n++) REFUSES(SLP_NARROW, b, slp_stretches(LENT(b), NAME(0), RECORDS(b), n));
    REFUSES(SLP_NARROW, b, slp_list(LENT(b), NAME(0), NULL, 0));
    REFUSES(SLP_NARROW, b, slp_stretches(LENT(b), NAME(0), NULL, 0));
    REFUSES(SLP_SLIP, b, slp_list(LENT(b), NAME(2), NULL, 0));
    REFUSES(SLP_SLIP, b, slp_stretches(LENT(b), NAME(4), NULL, 0));
    for (size_t n = 0; n < 3; n++) IDLE(b, slp_list(LENT(b), NAME(1), NUMBERS(b), n));
    for (size_t n = 0; n < 3; n++) IDLE(b, slp_stretches(LENT(b), NAME(1), RECORDS(b), n));
    IDLE(b, slp_list(LENT(b), NAME(1), NULL, 0));
    IDLE(b, slp_stretches(LENT(b), NAME(1), NULL, 0));
    ANSWERS(2, slp_list(LENT(b), NAME(0), NUMBERS(b), 4));
    CHECK(listed(b.output, whole, 4, 12));
    memset(b.output, OLD, OUTPUT);
    ANSWERS(2, slp_stretches(LENT(b), NAME(0), RECORDS(b), 2));
    CHECK(listed(b.output, whole, 4, 12) && RECORDS(b)[1].position == 512 && RECORDS(b)[1].length == 88);
    give_back(b);
}

/* A gather from lent storage into its output. */
static slp_gathered gather(lent b, const uint32_t *list, size_t numbers, size_t output)
{
    return slp_gather(b.storage, b.storage_length, list, numbers, b.output, output);
}

/* What gather copies: the morning's bytes, records that repeat, no record, and a lone last number, which is none. */
static void gathers(void)
{
    static const uint32_t part[5] = {500, 12, 512, 38, 7}, twice[6] = {3, 2, 2, 3, 3, 2}, last[2] = {2047, 1};
    static const uint8_t bytes[7] = {3, 4, 2, 3, 4, 3, 4};
    uint8_t *data = morning_data(600);
    lent b = fresh(4, 6, 4);
    put(b, 600);
    slp_gathered g = gather(b, part, 4, 50);
    CHECK(g.code == SLP_DONE && g.number == 50 && memcmp(b.output, data + 500, 50) == 0 && b.output[50] == OLD);
    memset(b.output, OLD, OUTPUT);
    g = gather(b, part, 5, OUTPUT);
    CHECK(g.code == SLP_DONE && g.number == 50 && memcmp(b.output, data + 500, 50) == 0 && b.output[50] == OLD);
    g = gather(b, twice, 6, 8);
    CHECK(g.code == SLP_DONE && g.number == 7 && memcmp(b.output, bytes, 7) == 0 && b.output[7] == data[507]);
    g = gather(b, last, 2, 1);
    CHECK(g.code == SLP_DONE && g.number == 1 && b.output[0] == OLD);
    IDLE(b, refused_gather(gather(b, NULL, 0, OUTPUT)));
    IDLE(b, refused_gather(gather(b, part, 1, 0)));
    IDLE(b, refused_gather(slp_gather(NULL, 0, NULL, 0, NULL, 0)));
    IDLE(b, refused_gather(slp_gather(NULL, 0, part, 1, NULL, 0)));
    free(data);
    give_back(b);
}

/* Outputs too short for the lengths' sum, as a whole number, and records of no length or past storage; 7 comes before 11. */
static void refusals_of_gathers(void)
{
    const uint32_t most = UINT32_MAX;
    const uint32_t short_by_one[4] = {500, 12, 512, 38}, none[4] = {0, 1, 9, 0}, past[4] = {0, 1, 2047, 2}, after_end[2] = {2048, 1};
    const uint32_t round[2] = {most, 1}, rounds[4] = {most - 9, 20, 0, 1}, halves[4] = {0, 1u << 31, 0, 1u << 31};
    const uint32_t sum[6] = {0, most, 0, 1, 0, 5}, both[4] = {0, 0, 0, OUTPUT + 1};
    lent b = fresh(4, 6, 4);
    REFUSES(SLP_NARROW, b, refused_gather(gather(b, short_by_one, 4, 49)));
    REFUSES(SLP_NARROW, b, refused_gather(gather(b, short_by_one, 4, 0)));
    REFUSES(SLP_NARROW, b, refused_gather(slp_gather(b.storage, b.storage_length, short_by_one, 4, NULL, 0)));
    REFUSES(SLP_NARROW, b, refused_gather(gather(b, halves, 4, OUTPUT)));
    REFUSES(SLP_NARROW, b, refused_gather(gather(b, sum, 6, OUTPUT)));
    REFUSES(SLP_NARROW, b, refused_gather(gather(b, both, 4, OUTPUT)));
    REFUSES(SLP_LIST, b, refused_gather(gather(b, both, 2, OUTPUT)));
    REFUSES(SLP_LIST, b, refused_gather(gather(b, none, 4, OUTPUT)));
    REFUSES(SLP_LIST, b, refused_gather(gather(b, past, 4, OUTPUT)));
    REFUSES(SLP_LIST, b, refused_gather(gather(b, after_end, 2, OUTPUT)));
    REFUSES(SLP_LIST, b, refused_gather(gather(b, round, 2, OUTPUT)));
    REFUSES(SLP_LIST, b, refused_gather(gather(b, rounds, 4, OUTPUT)));
    REFUSES(SLP_LIST, b, refused_gather(slp_gather(NULL, 0, none, 2, b.output, OUTPUT)));
    give_back(b);
}

/* The edges of put: full buffers, and one byte more than there is room for. */
static void edges_of_put(void)
{
    static const entries one = {{2, 0, 0, 0}, {0, 0, 0, 0}, {{1, 0, 0, 512, 0}, {0}, {0}, {0}, {0}, {0}}, {1, 0, 0, 0}};
    static const entries two = {{2, 0, 0, 0}, {0, 0, 0, 0}, {{1, 0, 0, 512, 2}, {1, 1, 0, 1, 0}, {0}, {0}, {0}, {0}}, {1, 1, 0, 0}};
    static const entries full = {{2, 0, 0, 0}, {0, 0, 0, 0},
        {{1, 0, 0, 512, 2}, {1, 1, 0, 512, 3}, {1, 2, 0, 512, 4}, {1, 3, 0, 512, 0}, {0}, {0}}, {1, 1, 1, 1}};
    static const entries *const wanted[3] = {&one, &two, &full};
    static const uint32_t bytes[3] = {512, 513, 2048};
    for (int i = 0; i < 3; i++) {
        uint8_t pool[95];
        lent b = fresh(4, 6, 4);
        ANSWERS(0, put(b, bytes[i]));
        write_pool(pool, wanted[i]);
        CHECK(memcmp(b.pool, pool, 95) == 0);
        CHECK(reads(b, 0, bytes[i], 0));
        give_back(b);
    }
    lent b = fresh(4, 6, 4);
    REFUSES(SLP_BUFFERS, b, put(b, 2049));
    give_back(b);
}

/* The edges of cut, pullup and append, each in a fresh pool. */
static void edges_of_others(void)
{
    lent b = fresh(4, 6, 4);
    put(b, 600);
    REFUSES(SLP_RANGE, b, slp_cut(LENT(b), NAME(0), 601, 0));
    ANSWERS(1, slp_cut(LENT(b), NAME(0), 600, 0));
    CHECK(word_at(b, state_at(1)) == 1);
    ANSWERS(0, slp_length(LENT(b), NAME(1)));
    give_back(b);

    b = fresh(4, 6, 4);
    put(b, 10);
    REFUSES(SLP_LONG, b, slp_pullup(LENT(b), NAME(0), 513));
    give_back(b);

    b = fresh(4, 6, 4);
    put(b, 10);
    REFUSES(SLP_SAME, b, slp_append(LENT(b), NAME(0), NAME(0)));
    REFUSES(SLP_SLIP, b, slp_append(LENT(b), NAME(1), NAME(1)));
    give_back(b);
}

enum operation { PUT, CUT, DUP, APPEND, DROP, PULLUP };

/* A call with its arguments, slips as they were answered, and the number that it answers. */
typedef struct {
    enum operation operation;
    uint32_t slip, first, second, number;
} asked;

static slp_answer ask(lent b, asked c)
{
    switch (c.operation) {
    case PUT: return put(b, c.first);
    case CUT: return slp_cut(LENT(b), NAME(c.slip), c.first, c.second);
    case DUP: return slp_dup(LENT(b), NAME(c.slip));
    case APPEND: return slp_append(LENT(b), NAME(c.slip), NAME(c.first));
    case DROP: return slp_drop(LENT(b), NAME(c.slip), c.first);
    default: return slp_pullup(LENT(b), NAME(c.slip), c.first);
    }
}

/* Drop and pullup where every piece is in use, and once where one is free: the calls, the last one's code, the buffer that it fills, if any (else
 * -1), and the entries after it, done or refused. */
static const struct {
    const char *what;
    unsigned calls;
    asked call[9];
    unsigned code;
    int buffer;
    entries after;
} full_table[8] = {
    {"pullup: the old head's number comes back to the front", 4,
        {{PUT, 0, 600, 0, 0}, {CUT, 0, 500, 50, 1}, {CUT, 0, 500, 50, 2}, {PULLUP, 1, 20, 0, 0}}, SLP_DONE, 2,
        {{2, 4, 6, 0}, {0, 0, 0, 0},
            {{1, 0, 0, 512, 2}, {1, 1, 0, 88, 0}, {1, 2, 0, 20, 4}, {1, 1, 8, 30, 0}, {1, 0, 500, 12, 6}, {1, 1, 0, 38, 0}}, {2, 3, 1, 0}}},
    {"pullup: a shared head gives nothing back", 8,
        {{PUT, 0, 600, 0, 0}, {PUT, 0, 10, 0, 1}, {APPEND, 0, 1, 0, 0}, {DUP, 0, 0, 0, AT(1, 1)}, {DROP, AT(1, 1), 512, 0, 0}, {CUT, 0, 0, 600, 2},
            {DUP, AT(1, 1), 0, 0, 3}, {PULLUP, AT(1, 1), 98, 0, 0}}, SLP_PIECES, -1,
        {{2, 3, 5, 7}, {0, 1, 0, 0},
            {{1, 0, 0, 512, 2}, {2, 1, 0, 88, 3}, {2, 2, 0, 10, 0}, {1, 0, 0, 512, 5}, {1, 1, 0, 88, 0}, {1, 1, 0, 88, 3}}, {2, 3, 1, 0}}},
    {"drop inside a shared piece, behind an own one", 5,
        {{PUT, 0, 600, 0, 0}, {DUP, 0, 0, 0, 1}, {CUT, 0, 0, 600, 2}, {DUP, 2, 0, 0, 3}, {DROP, 0, 520, 0, 0}}, SLP_DONE, -1,
        {{2, 4, 5, 7}, {0, 0, 0, 0},
            {{1, 1, 8, 80, 0}, {1, 1, 0, 88, 0}, {1, 0, 0, 512, 2}, {1, 0, 0, 512, 5}, {2, 1, 0, 88, 0}, {1, 0, 0, 512, 5}}, {3, 3, 0, 0}}},
    {"drop inside a shared head", 6,
        {{PUT, 0, 600, 0, 0}, {DUP, 0, 0, 0, 1}, {DROP, 1, 512, 0, 0}, {CUT, 0, 0, 600, 2}, {CUT, 0, 0, 600, 3}, {DROP, 1, 8, 0, 0}}, SLP_PIECES, -1,
        {{2, 3, 4, 6}, {0, 0, 0, 0},
            {{1, 0, 0, 512, 2}, {2, 1, 0, 88, 0}, {1, 0, 0, 512, 4}, {1, 1, 0, 88, 0}, {1, 0, 0, 512, 6}, {1, 1, 0, 88, 0}}, {3, 3, 0, 0}}},
    {"pullup: two wanted and one given back", 5,
        {{PUT, 0, 600, 0, 0}, {CUT, 0, 500, 50, 1}, {DUP, 1, 0, 0, 2}, {DUP, 0, 0, 0, 3}, {PULLUP, 1, 20, 0, 0}}, SLP_PIECES, -1,
        {{2, 4, 6, 7}, {0, 0, 0, 0},
            {{1, 0, 0, 512, 2}, {2, 1, 0, 88, 0}, {1, 0, 500, 12, 4}, {2, 1, 0, 38, 0}, {1, 0, 500, 12, 4}, {1, 0, 0, 512, 2}}, {4, 2, 0, 0}}},
    {"pullup: the same with piece 5 free", 4,
        {{PUT, 0, 600, 0, 0}, {CUT, 0, 500, 50, 1}, {DUP, 1, 0, 0, 2}, {PULLUP, 1, 20, 0, 0}}, SLP_DONE, 2,
        {{2, 4, 6, 0}, {0, 0, 0, 0},
            {{1, 0, 0, 512, 2}, {1, 1, 0, 88, 0}, {1, 2, 0, 20, 6}, {1, 1, 0, 38, 0}, {1, 0, 500, 12, 4}, {1, 1, 8, 30, 0}}, {2, 3, 1, 0}}},
    {"pullup: two wanted and two given back", 9,
        {{PUT, 0, 10, 0, 0}, {PUT, 0, 10, 0, 1}, {PUT, 0, 10, 0, 2}, {APPEND, 1, 2, 0, 0}, {APPEND, 0, 1, 0, 0}, {DUP, 0, 0, 0, AT(1, 1)},
            {DROP, AT(1, 1), 20, 0, 0}, {CUT, 0, 0, 30, AT(2, 1)}, {PULLUP, 0, 25, 0, 0}}, SLP_DONE, 3,
        {{2, 4, 5, 0}, {0, 1, 1, 0},
            {{1, 3, 0, 25, 2}, {1, 2, 5, 5, 0}, {1, 2, 0, 10, 0}, {1, 0, 0, 10, 5}, {1, 1, 0, 10, 6}, {1, 2, 0, 10, 0}}, {1, 1, 3, 1}}},
    {"pullup: the buffer given back is no room", 6,
        {{PUT, 0, 10, 0, 0}, {PUT, 0, 10, 0, 1}, {APPEND, 0, 1, 0, 0}, {PUT, 0, 1024, 0, AT(1, 1)}, {CUT, AT(1, 1), 0, 1024, 2},
            {PULLUP, 0, 15, 0, 0}},
        SLP_BUFFERS, -1,
        {{2, 4, 6, 0}, {0, 1, 0, 0},
            {{1, 0, 0, 10, 2}, {1, 1, 0, 10, 0}, {1, 2, 0, 512, 4}, {1, 3, 0, 512, 0}, {1, 2, 0, 512, 6}, {1, 3, 0, 512, 0}}, {1, 1, 2, 2}}},
};

/* The full tables: every byte of pool and storage after each last call. */
static void full_tables(void)
{
    for (int i = 0; i < 8; i++) {
        const char *what = full_table[i].what;
        const asked *call = full_table[i].call;
        unsigned last = full_table[i].calls - 1;
        uint8_t pool[95];
        lent b = fresh(4, 6, 4);
        for (unsigned k = 0; k < last; k++) check_done(ask(b, call[k]), call[k].number, __LINE__, what);
        lent before = copy_of(b);
        if (full_table[i].buffer >= 0) {
            uint8_t *filled = before.storage + 512 * full_table[i].buffer;
            memset(filled, 0, 512);
            check_done(slp_read(LENT(b), NAME(call[last].slip), 0, call[last].first, filled, 512), call[last].first, __LINE__, what);
        }
        slp_answer a = ask(b, call[last]);
        check(a.code == full_table[i].code && a.number == 0, __LINE__, what);
        write_pool(pool, &full_table[i].after);
        check(memcmp(b.pool, pool, 95) == 0, __LINE__, what);
        check(memcmp(b.storage, before.storage, 2048) == 0, __LINE__, what);
        check(a.code == SLP_DONE || memcmp(b.pool, before.pool, 95) == 0, __LINE__, what);
        check(slp_audit(LENT(b)).code == SLP_DONE, __LINE__, what);
        give_back(before);
        give_back(b);
    }
}

/* The call is done, and storage is as before but for the buffers from `first` to before `end`, which are zero. */
static void check_cleaned(slp_answer a, lent b, lent before, size_t first, size_t end, int line, const char *call)
{
    check(a.code == SLP_DONE && a.number == 0, line, call);
    memset(before.storage + 512 * first, 0, 512 * (end - first));
    check(memcmp(b.storage, before.storage, b.storage_length) == 0, line, "the call above cleans these buffers and writes no other");
    check(slp_audit(LENT(b)).code == SLP_DONE, line, "the call above leaves a sound pool");
    give_back(before);
}
#define CLEANS(b, first, end, call)                                     \
    do {                                                                \
        lent before = copy_of(b);                                       \
        slp_answer answer = (call);                                     \
        check_cleaned(answer, (b), before, (first), (end), __LINE__, #call); \
    } while (0)
/* The call writes no byte of storage. */
#define CLEANS_NONE(b, call) CLEANS(b, 0, 0, call)

/* The same of a call that also fills buffers from `filled` on with the slip's first n bytes, and then zeros. */
#define FILLS_AND_CLEANS(b, filled, slip, n, first, end, call)          \
    do {                                                                \
        lent before = copy_of(b);                                       \
        fill(before, (filled), (slip), (n));                            \
        slp_answer answer = (call);                                     \
        check_cleaned(answer, (b), before, (first), (end), __LINE__, #call); \
    } while (0)

/* Fills whole buffers from `filled` on with the slip's first n bytes, and then zeros. */
static void fill(lent b, size_t filled, uint32_t slip, uint32_t n)
{
    uint8_t *out = lend(n, OLD);
    ANSWERS(n, slp_read(LENT(b), NAME(slip), 0, n, out, n));
    memset(b.storage + 512 * filled, 0, 512 * ((n + 511) / 512));
    memcpy(b.storage + 512 * filled, out, n);
    free(out);
}

/* free: a buffer is cleaned with the last piece on it, all 512 bytes, and not before. */
static void cleaned_by_free(void)
{
    lent b = fresh(4, 8, 4);
    put(b, 600);
    ANSWERS(1, slp_cut(LENT(b), NAME(0), 500, 50));
    CLEANS_NONE(b, slp_free(LENT(b), NAME(0)));
    CHECK(reads(b, 1, 50, 500));
    ANSWERS(AT(0, 1), slp_cut(LENT(b), NAME(1), 0, 12));
    CLEANS(b, 1, 2, slp_free(LENT(b), NAME(1)));
    CHECK(reads(b, AT(0, 1), 12, 500));
    CLEANS(b, 0, 1, slp_free(LENT(b), NAME(AT(0, 1))));
    CHECK(all_over(b, 0, 2, 0) && all_over(b, 2, 4, OLD));

    /* The last piece is in the middle of its buffer, whose neighbours are in use, and free with old bytes. */
    ANSWERS(AT(0, 2), put(b, 512));
    ANSWERS(AT(1, 1), put(b, 512));
    CLEANS_NONE(b, slp_drop(LENT(b), NAME(AT(1, 1)), 100));
    CLEANS_NONE(b, slp_keep(LENT(b), NAME(AT(1, 1)), 50));
    CLEANS(b, 1, 2, slp_free(LENT(b), NAME(AT(1, 1))));
    CHECK(reads(b, AT(0, 2), 512, 0) && all_over(b, 1, 2, 0) && all_over(b, 2, 4, OLD));
    give_back(b);
}

/* drop: the buffers wholly in front of what stays, across one border or more, and where a piece is wanted for what stays. */
static void cleaned_by_drop(void)
{
    lent b = fresh(4, 8, 4);
    put(b, 1100);
    CLEANS(b, 0, 1, slp_drop(LENT(b), NAME(0), 512));
    CLEANS_NONE(b, slp_drop(LENT(b), NAME(0), 100));
    CLEANS(b, 1, 2, slp_drop(LENT(b), NAME(0), 422));
    CHECK(reads(b, 0, 66, 1034));
    CLEANS(b, 2, 3, slp_drop(LENT(b), NAME(0), 66));
    CHECK(all_over(b, 0, 3, 0) && all_over(b, 3, 4, OLD));
    give_back(b);

    b = fresh(4, 8, 4);
    put(b, 1100);
    CLEANS(b, 0, 2, slp_drop(LENT(b), NAME(0), 1030));
    CHECK(reads(b, 0, 70, 1030));
    give_back(b);

    b = fresh(4, 3, 4);
    put(b, 600);
    ANSWERS(1, slp_dup(LENT(b), NAME(0)));
    CLEANS_NONE(b, slp_drop(LENT(b), NAME(1), 512));
    CLEANS(b, 0, 1, slp_drop(LENT(b), NAME(0), 520));
    CHECK(reads(b, 0, 80, 520) && reads(b, 1, 88, 512));
    give_back(b);
}

/* keep: the buffers wholly behind what stays; where pieces are replaced, another slip holds them still. */
static void cleaned_by_keep(void)
{
    lent b = fresh(4, 8, 4);
    put(b, 1100);
    CLEANS_NONE(b, slp_keep(LENT(b), NAME(0), 1030));
    CLEANS(b, 2, 3, slp_keep(LENT(b), NAME(0), 600));
    CHECK(reads(b, 0, 600, 0));
    CLEANS(b, 1, 2, slp_keep(LENT(b), NAME(0), 512));
    CLEANS_NONE(b, slp_keep(LENT(b), NAME(0), 1));
    CLEANS(b, 0, 1, slp_keep(LENT(b), NAME(0), 0));
    CHECK(all_over(b, 0, 3, 0) && all_over(b, 3, 4, OLD));
    give_back(b);

    b = fresh(4, 8, 4);
    put(b, 1100);
    ANSWERS(1, slp_dup(LENT(b), NAME(0)));
    CLEANS_NONE(b, slp_keep(LENT(b), NAME(0), 520));
    CLEANS(b, 2, 3, slp_free(LENT(b), NAME(1)));
    CHECK(reads(b, 0, 520, 0));
    give_back(b);
}

/* pullup and pack: what they copy is copied first, and a buffer on which a cut lies stays. */
static void cleaned_by_pullup_and_pack(void)
{
    lent b = fresh(4, 8, 4);
    put(b, 600);
    CLEANS_NONE(b, slp_drop(LENT(b), NAME(0), 500));
    FILLS_AND_CLEANS(b, 2, 0, 60, 0, 1, slp_pullup(LENT(b), NAME(0), 60));
    CHECK(reads(b, 0, 100, 500));
    FILLS_AND_CLEANS(b, 0, 0, 100, 1, 3, slp_pullup(LENT(b), NAME(0), 100));
    CHECK(reads(b, 0, 100, 500) && all_over(b, 1, 3, 0) && all_over(b, 3, 4, OLD));
    give_back(b);

    b = fresh(4, 8, 4);
    put(b, 600);
    FILLS_AND_CLEANS(b, 2, 0, 600, 0, 2, slp_pack(LENT(b), NAME(0)));
    FILLS_AND_CLEANS(b, 0, 0, 600, 2, 4, slp_pack(LENT(b), NAME(0)));
    CHECK(reads(b, 0, 600, 0));
    ANSWERS(1, slp_cut(LENT(b), NAME(0), 3, 5));
    FILLS_AND_CLEANS(b, 2, 0, 600, 1, 2, slp_pack(LENT(b), NAME(0)));
    CHECK(reads(b, 0, 600, 0) && reads(b, 1, 5, 3));
    CLEANS(b, 0, 1, slp_free(LENT(b), NAME(1)));
    give_back(b);
}

/* append, open and every refused call write no byte of storage; the audit does not ask whether what is free is clean. */
static void cleaned_by_none(void)
{
    lent b = fresh(4, 8, 4);
    put(b, 1100);
    ANSWERS(1, slp_dup(LENT(b), NAME(0)));
    ANSWERS(2, put(b, 7));
    CLEANS_NONE(b, slp_append(LENT(b), NAME(0), NAME(2)));
    CHECK(reads(b, 1, 1100, 0));
    REFUSES(SLP_SLIP, b, slp_free(LENT(b), NAME(AT(0, 1))));
    REFUSES(SLP_RANGE, b, slp_drop(LENT(b), NAME(0), 1108));
    REFUSES(SLP_RANGE, b, slp_keep(LENT(b), NAME(0), 1108));
    REFUSES(SLP_PIECES, b, slp_pack(LENT(b), NAME(0)));
    CLEANS_NONE(b, slp_free(LENT(b), NAME(1)));
    REFUSES(SLP_BUFFERS, b, slp_pack(LENT(b), NAME(0)));
    ANSWERS(0, slp_drop(LENT(b), NAME(0), 1));
    REFUSES(SLP_BUFFERS, b, slp_pullup(LENT(b), NAME(0), 512));
    CLEANS_NONE(b, slp_open(LENT(b), 4, 8, 4));
    ANSWERS(0, put(b, 3));
    CLEANS(b, 0, 1, slp_free(LENT(b), NAME(0)));
    CHECK(!all_over(b, 1, 2, 0) && !all_over(b, 2, 3, 0) && !all_over(b, 3, 4, 0) && fresh_but_serials(b));
    IDLE(b, slp_audit(LENT(b)));
    give_back(b);
}

/* The serials of a pool with four slips. */
static int serials(lent b, unsigned s0, unsigned s1, unsigned s2, unsigned s3)
{
    return word_at(b, serial_at(0)) == s0 && word_at(b, serial_at(1)) == s1 && word_at(b, serial_at(2)) == s2 && word_at(b, serial_at(3)) == s3;
}

/* A name that was given up, by free or by append, is refused while the slip is vacant and when it is given again. */
static void old_names(void)
{
    lent b = fresh(4, 6, 4);
    ANSWERS(0, put(b, 600));
    ANSWERS(1, slp_dup(LENT(b), NAME(0)));
    ANSWERS(0, slp_free(LENT(b), NAME(0)));
    CHECK(serials(b, 1, 0, 0, 0));
    REFUSES(SLP_SLIP, b, slp_length(LENT(b), NAME(0)));
    REFUSES(SLP_SLIP, b, slp_length(LENT(b), NAME(AT(0, 1))));
    ANSWERS(AT(0, 1), slp_cut(LENT(b), NAME(1), 500, 50));
    REFUSES(SLP_SLIP, b, slp_free(LENT(b), NAME(0)));
    CHECK(reads(b, AT(0, 1), 50, 500) && reads(b, 1, 600, 0));
    ANSWERS(0, slp_append(LENT(b), NAME(1), NAME(AT(0, 1))));
    CHECK(serials(b, 2, 0, 0, 0));
    REFUSES(SLP_SLIP, b, slp_free(LENT(b), NAME(AT(0, 1))));
    ANSWERS(AT(0, 2), slp_dup(LENT(b), NAME(1)));
    REFUSES(SLP_SLIP, b, slp_free(LENT(b), NAME(AT(0, 1))));
    ANSWERS(0, slp_open(LENT(b), 4, 6, 4));
    CHECK(serials(b, 0, 0, 0, 0));
    ANSWERS(0, put(b, 600));
    give_back(b);
}

/* append: 3 is judged of both slips by number and serial, then 4 of the numbers; b's serial moves where a call is done, an empty side or not. */
static void serials_of_append(void)
{
    lent b = fresh(4, 4, 4);
    put(b, 0);
    ANSWERS(0, slp_free(LENT(b), NAME(0)));
    ANSWERS(AT(0, 1), put(b, 600));
    REFUSES(SLP_SLIP, b, slp_append(LENT(b), NAME(AT(0, 1)), NAME(0)));
    REFUSES(SLP_SLIP, b, slp_append(LENT(b), NAME(0), NAME(AT(0, 1))));
    REFUSES(SLP_SLIP, b, slp_append(LENT(b), NAME(0), NAME(0)));
    REFUSES(SLP_SAME, b, slp_append(LENT(b), NAME(AT(0, 1)), NAME(AT(0, 1))));
    ANSWERS(1, put(b, 0));
    ANSWERS(0, slp_append(LENT(b), NAME(AT(0, 1)), NAME(1)));
    CHECK(serials(b, 1, 1, 0, 0));
    ANSWERS(AT(1, 1), put(b, 0));
    ANSWERS(0, slp_append(LENT(b), NAME(AT(1, 1)), NAME(AT(0, 1))));
    CHECK(serials(b, 2, 1, 0, 0) && reads(b, AT(1, 1), 600, 0));
    ANSWERS(AT(0, 2), put(b, 0));
    ANSWERS(2, put(b, 0));
    ANSWERS(0, slp_append(LENT(b), NAME(AT(0, 2)), NAME(2)));
    CHECK(serials(b, 2, 1, 1, 0) && word_at(b, state_at(0)) == 1 && word_at(b, state_at(2)) == 0);
    ANSWERS(AT(2, 1), slp_dup(LENT(b), NAME(AT(1, 1))));
    ANSWERS(3, put(b, 1));
    REFUSES(SLP_PIECES, b, slp_append(LENT(b), NAME(AT(1, 1)), NAME(3)));
    give_back(b);
}

/* At the last serial a held slip is a slip like any other; given up, it keeps the serial and is spent: refused, and passed over by put, dup and cut. */
static void spent_slips(void)
{
    lent b = fresh(4, 6, 4);
    for (unsigned s = 0; s < 4; s++) set_serial(b, s, s == 1 ? LAST - 1 : LAST);
    set_serial(b, 3, 0);
    ANSWERS(AT(1, LAST - 1), put(b, 600));
    ANSWERS(3, slp_dup(LENT(b), NAME(AT(1, LAST - 1))));
    REFUSES(SLP_SLIPS, b, put(b, 0));
    REFUSES(SLP_SLIPS, b, slp_dup(LENT(b), NAME(3)));
    REFUSES(SLP_SLIPS, b, slp_cut(LENT(b), NAME(3), 0, 0));
    REFUSES(SLP_SLIP, b, slp_free(LENT(b), NAME(AT(0, LAST))));
    REFUSES(SLP_SLIP, b, slp_append(LENT(b), NAME(AT(0, LAST)), NAME(AT(0, LAST))));
    set_serial(b, 3, LAST);
    IDLE(b, slp_audit(LENT(b)));
    CHECK(reads(b, AT(3, LAST), 600, 0));
    ANSWERS(0, slp_free(LENT(b), NAME(AT(3, LAST))));
    CHECK(serials(b, LAST, LAST - 1, LAST, LAST));
    REFUSES(SLP_SLIP, b, slp_length(LENT(b), NAME(AT(3, LAST))));
    ANSWERS(0, slp_free(LENT(b), NAME(AT(1, LAST - 1))));
    CHECK(serials(b, LAST, LAST, LAST, LAST) && fresh_but_serials(b));
    REFUSES(SLP_SLIPS, b, put(b, 0));
    REFUSES(SLP_SLIPS, b, put(b, 2049));
    IDLE(b, slp_audit(LENT(b)));
    ANSWERS(0, slp_open(LENT(b), 4, 6, 4));
    CHECK(serials(b, 0, 0, 0, 0));
    ANSWERS(0, put(b, 0));
    give_back(b);
}

/* append for b at the last serial: it stays, and b is spent. */
static void spent_by_append(void)
{
    lent b = fresh(4, 6, 2);
    set_serial(b, 1, LAST);
    ANSWERS(0, put(b, 10));
    REFUSES(SLP_SLIPS, b, put(b, 10));
    set_serial(b, 1, LAST - 1);
    ANSWERS(AT(1, LAST - 1), put(b, 10));
    set_serial(b, 1, LAST);
    ANSWERS(0, slp_append(LENT(b), NAME(0), NAME(AT(1, LAST))));
    CHECK(word_at(b, serial_at(1)) == LAST && word_at(b, state_at(1)) == 0);
    REFUSES(SLP_SLIPS, b, put(b, 10));
    give_back(b);
}

/* One slip given and given up as often as it can be, by calls alone: each name once, the last serial never, and then none until an open. */
static void worn_out(void)
{
    lent b = fresh(1, 1, 1);
    for (uint32_t serial = 0; serial < LAST; serial++) {
        ANSWERS(AT(0, serial), slp_put(LENT(b), NULL, 0));
        ANSWERS(0, slp_free(LENT(b), NAME(AT(0, serial))));
    }
    REFUSES(SLP_SLIPS, b, put(b, 0));
    CHECK(word_at(b, serial_at(0)) == LAST && fresh_but_serials(b));
    ANSWERS(0, slp_open(LENT(b), 1, 1, 1));
    ANSWERS(0, put(b, 0));
    give_back(b);
}

/* Every call that names a slip, with one that is vacant or no slip of the pool, and with a held one by another serial. */
static void refusals_of_slips(void)
{
    static const uint32_t bad[10] = {1, 3, 4, 65535, AT(0, 0), AT(0, 2), AT(0, 257), AT(0, LAST), AT(1, 1), AT(4, 1)};
    lent b = fresh(4, 6, 4);
    put(b, 600);
    ANSWERS(0, slp_free(LENT(b), NAME(0)));
    ANSWERS(AT(0, 1), put(b, 600));
    for (int i = 0; i < 10; i++) {
        REFUSES(SLP_SLIP, b, slp_free(LENT(b), NAME(bad[i])));
        REFUSES(SLP_SLIP, b, slp_dup(LENT(b), NAME(bad[i])));
        REFUSES(SLP_SLIP, b, slp_cut(LENT(b), NAME(bad[i]), 0, 1));
        REFUSES(SLP_SLIP, b, slp_append(LENT(b), NAME(bad[i]), NAME(AT(0, 1))));
        REFUSES(SLP_SLIP, b, slp_append(LENT(b), NAME(AT(0, 1)), NAME(bad[i])));
        REFUSES(SLP_SLIP, b, slp_append(LENT(b), NAME(bad[i]), NAME(bad[i])));
        REFUSES(SLP_SLIP, b, slp_drop(LENT(b), NAME(bad[i]), 1));
        REFUSES(SLP_SLIP, b, slp_keep(LENT(b), NAME(bad[i]), 1));
        REFUSES(SLP_SLIP, b, slp_pullup(LENT(b), NAME(bad[i]), 513));
        REFUSES(SLP_SLIP, b, slp_pack(LENT(b), NAME(bad[i])));
        REFUSES(SLP_SLIP, b, slp_length(LENT(b), NAME(bad[i])));
        REFUSES(SLP_SLIP, b, slp_read(LENT(b), NAME(bad[i]), 0, 1, b.output, OUTPUT));
        REFUSES(SLP_SLIP, b, refused_show(slp_show(LENT(b), NAME(bad[i]), 513, b.output, OUTPUT)));
        REFUSES(SLP_SLIP, b, slp_list(LENT(b), NAME(bad[i]), NUMBERS(b), OUTPUT / 4));
        REFUSES(SLP_SLIP, b, slp_stretches(LENT(b), NAME(bad[i]), RECORDS(b), OUTPUT / 8));
    }
    give_back(b);
}

/* Bytes past the chain's end, more than 512, and outputs too short; sums past 32 bits do not wrap, and the lowest code is given. */
static void refusals_of_ranges(void)
{
    const uint32_t most = UINT32_MAX;
    lent b = fresh(4, 6, 4);
    put(b, 600);
    slp_cut(LENT(b), NAME(0), 500, 50);
    REFUSES(SLP_RANGE, b, slp_cut(LENT(b), NAME(0), 1, 600));
    REFUSES(SLP_RANGE, b, slp_cut(LENT(b), NAME(0), 1, most));
    REFUSES(SLP_RANGE, b, slp_cut(LENT(b), NAME(0), most, 1));
    REFUSES(SLP_RANGE, b, slp_cut(LENT(b), NAME(0), most, most));
    REFUSES(SLP_RANGE, b, slp_drop(LENT(b), NAME(0), 601));
    REFUSES(SLP_RANGE, b, slp_keep(LENT(b), NAME(0), most));
    REFUSES(SLP_RANGE, b, slp_pullup(LENT(b), NAME(1), 51));
    REFUSES(SLP_RANGE, b, slp_read(LENT(b), NAME(0), 600, 1, b.output, OUTPUT));
    REFUSES(SLP_RANGE, b, slp_read(LENT(b), NAME(0), 1, most, b.output, OUTPUT));
    REFUSES(SLP_RANGE, b, slp_read(LENT(b), NAME(0), 601, 0, NULL, 0));
    REFUSES(SLP_RANGE, b, refused_show(slp_show(LENT(b), NAME(1), 51, b.output, 0)));
    REFUSES(SLP_LONG, b, slp_pullup(LENT(b), NAME(0), 513));
    REFUSES(SLP_LONG, b, slp_pullup(LENT(b), NAME(1), most));
    REFUSES(SLP_LONG, b, refused_show(slp_show(LENT(b), NAME(0), 513, b.output, OUTPUT)));
    REFUSES(SLP_LONG, b, refused_show(slp_show(LENT(b), NAME(1), most, b.output, OUTPUT)));
    REFUSES(SLP_NARROW, b, slp_read(LENT(b), NAME(0), 0, OUTPUT + 1, b.output, OUTPUT));
    REFUSES(SLP_NARROW, b, slp_read(LENT(b), NAME(0), 0, 1, NULL, 0));
    REFUSES(SLP_NARROW, b, refused_show(slp_show(LENT(b), NAME(1), 13, b.output, 12)));
    give_back(b);
}

/* No vacant slip; then no free piece, each call that wants one; then no free buffer. */
static void refusals_of_room(void)
{
    lent b = fresh(4, 6, 4);
    put(b, 2048);
    for (int i = 0; i < 3; i++) put(b, 0);
    REFUSES(SLP_SLIPS, b, put(b, 0));
    REFUSES(SLP_SLIPS, b, put(b, 2049));
    REFUSES(SLP_SLIPS, b, slp_dup(LENT(b), NAME(0)));
    REFUSES(SLP_SLIPS, b, slp_cut(LENT(b), NAME(0), 0, 2048));
    give_back(b);

    b = fresh(4, 6, 5);
    put(b, 2048);
    slp_dup(LENT(b), NAME(0));
    ANSWERS(0, slp_drop(LENT(b), NAME(1), 512));
    slp_dup(LENT(b), NAME(0));
    slp_dup(LENT(b), NAME(0));
    ANSWERS(0, slp_drop(LENT(b), NAME(0), 1));
    REFUSES(SLP_PIECES, b, put(b, 1));
    REFUSES(SLP_PIECES, b, slp_dup(LENT(b), NAME(0)));
    REFUSES(SLP_PIECES, b, slp_cut(LENT(b), NAME(0), 0, 1));
    REFUSES(SLP_PIECES, b, slp_append(LENT(b), NAME(0), NAME(1)));
    REFUSES(SLP_PIECES, b, slp_drop(LENT(b), NAME(1), 8));
    REFUSES(SLP_PIECES, b, slp_keep(LENT(b), NAME(0), 520));
    REFUSES(SLP_PIECES, b, slp_pullup(LENT(b), NAME(0), 512));
    REFUSES(SLP_PIECES, b, slp_pack(LENT(b), NAME(0)));
    give_back(b);

    b = fresh(4, 12, 4);
    put(b, 2048);
    slp_cut(LENT(b), NAME(0), 500, 24);
    REFUSES(SLP_BUFFERS, b, put(b, 1));
    REFUSES(SLP_BUFFERS, b, slp_pullup(LENT(b), NAME(1), 13));
    REFUSES(SLP_BUFFERS, b, slp_pack(LENT(b), NAME(1)));
    give_back(b);
}

/* Every call but open on a pool that isn't sound. */
static void refuses_torn(lent b)
{
    REFUSES(SLP_TORN, b, slp_audit(LENT(b)));
    REFUSES(SLP_TORN, b, put(b, 600));
    REFUSES(SLP_TORN, b, slp_free(LENT(b), NAME(0)));
    REFUSES(SLP_TORN, b, slp_dup(LENT(b), NAME(0)));
    REFUSES(SLP_TORN, b, slp_cut(LENT(b), NAME(0), 0, 1));
    REFUSES(SLP_TORN, b, slp_append(LENT(b), NAME(0), NAME(0)));
    REFUSES(SLP_TORN, b, slp_drop(LENT(b), NAME(0), 1));
    REFUSES(SLP_TORN, b, slp_keep(LENT(b), NAME(0), 1));
    REFUSES(SLP_TORN, b, slp_pullup(LENT(b), NAME(0), 513));
    REFUSES(SLP_TORN, b, slp_pack(LENT(b), NAME(9)));
    REFUSES(SLP_TORN, b, slp_length(LENT(b), NAME(0)));
    REFUSES(SLP_TORN, b, slp_read(LENT(b), NAME(0), 0, 1, b.output, OUTPUT));
    REFUSES(SLP_TORN, b, refused_show(slp_show(LENT(b), NAME(0), 1, b.output, OUTPUT)));
    REFUSES(SLP_TORN, b, slp_list(LENT(b), NAME(0), NUMBERS(b), OUTPUT / 4));
    REFUSES(SLP_TORN, b, slp_list(LENT(b), NAME(9), NULL, 0));
    REFUSES(SLP_TORN, b, slp_stretches(LENT(b), NAME(0), RECORDS(b), OUTPUT / 8));
    REFUSES(SLP_TORN, b, slp_stretches(LENT(b), NAME(9), NULL, 0));
}

/* Pools torn in mark, version, a count, a slip, a piece's and a buffer's count, and in either length. */
static void refusals_of_torn_pools(void)
{
    static const size_t at[6] = {0, 3, 9, 15, 27, 87};
    lent b = fresh(4, 6, 4);
    put(b, 600);
    for (int i = 0; i < 6; i++) {
        b.pool[at[i]] = (uint8_t)(b.pool[at[i]] + 7);
        refuses_torn(b);
        b.pool[at[i]] = (uint8_t)(b.pool[at[i]] - 7);
    }
    CHECK(slp_audit(LENT(b)).code == SLP_DONE);
    b.pool_length--;
    refuses_torn(b);
    b.pool_length++;
    b.storage_length--;
    refuses_torn(b);
    b.storage_length++;
    CHECK(slp_audit(NULL, 0, NULL, 0).code == SLP_TORN);
    CHECK(slp_put(NULL, 0, NULL, 0, NULL, 0).code == SLP_TORN);
    CHECK(slp_show(NULL, 0, NULL, 0, 0, 0, 0, NULL, 0).code == SLP_TORN);
    give_back(b);
}

/* Calls with nothing to do, done and without a change; empty slices with null for a pointer. */
static void idle_calls(void)
{
    lent b = fresh(4, 6, 4);
    put(b, 600);
    IDLE(b, slp_audit(LENT(b)));
    IDLE(b, slp_drop(LENT(b), NAME(0), 0));
    IDLE(b, slp_keep(LENT(b), NAME(0), 600));
    IDLE(b, slp_pullup(LENT(b), NAME(0), 0));
    IDLE(b, slp_pullup(LENT(b), NAME(0), 512));
    IDLE(b, slp_read(LENT(b), NAME(0), 600, 0, NULL, 0));
    ANSWERS(0, slp_keep(LENT(b), NAME(0), 512));
    IDLE(b, slp_pack(LENT(b), NAME(0)));
    ANSWERS(0, slp_keep(LENT(b), NAME(0), 0));
    CHECK(word_at(b, state_at(0)) == 1);
    IDLE(b, slp_pack(LENT(b), NAME(0)));
    IDLE(b, slp_length(LENT(b), NAME(0)));
    ANSWERS(1, slp_put(LENT(b), NULL, 0));
    CHECK(word_at(b, state_at(1)) == 1);
    ANSWERS(0, slp_append(LENT(b), NAME(0), NAME(1)));
    ANSWERS(0, slp_free(LENT(b), NAME(0)));
    CHECK(memcmp(b.pool, head, 11) == 0 && fresh_but_serials(b) && serials(b, 1, 1, 0, 0));
    give_back(b);
}

/* What show answers, and the bytes of its view: n of the morning's data from `from` on. */
static void check_view(lent b, slp_shown v, uint32_t n, uint16_t in_scratch, uint32_t start, uint32_t from, int line)
{
    uint8_t *data = morning_data(from + n);
    check(v.code == SLP_DONE && v.number == n && v.in_scratch == in_scratch && v.start == start, line, "the place of the view");
    check(memcmp((in_scratch ? b.output : b.storage) + start, data + from, n) == 0, line, "the bytes of the view");
    free(data);
}
#define SHOWS(b, v, n, in_scratch, start, from) check_view(b, v, n, in_scratch, start, from, __LINE__)

/* The view in storage, where the scratch is neither asked for nor touched, and in the scratch, where nothing past it is. */
static void views(void)
{
    lent b = fresh(4, 6, 4);
    put(b, 600);
    slp_cut(LENT(b), NAME(0), 500, 50);
    lent before = copy_of(b);
    SHOWS(b, slp_show(LENT(b), NAME(0), 512, b.output, OUTPUT), 512, 0, 0, 0);
    SHOWS(b, slp_show(LENT(b), NAME(0), 512, NULL, 0), 512, 0, 0, 0);
    SHOWS(b, slp_show(LENT(b), NAME(1), 12, NULL, 0), 12, 0, 500, 500);
    SHOWS(b, slp_show(LENT(b), NAME(1), 0, NULL, 0), 0, 0, 0, 0);
    CHECK(same(b, before));
    SHOWS(b, slp_show(LENT(b), NAME(1), 13, b.output, 13), 13, 1, 0, 500);
    memcpy(before.output, b.storage + 500, 13);
    CHECK(same(b, before));
    SHOWS(b, slp_show(LENT(b), NAME(1), 50, b.output, OUTPUT), 50, 1, 0, 500);
    CHECK(b.output[50] == OLD && b.output[OUTPUT - 1] == OLD);
    CHECK(memcmp(b.pool, before.pool, b.pool_length) == 0 && memcmp(b.storage, before.storage, b.storage_length) == 0);
    ANSWERS(0, slp_drop(LENT(b), NAME(0), 512));
    SHOWS(b, slp_show(LENT(b), NAME(0), 88, NULL, 0), 88, 0, 512, 512);
    ANSWERS(0, slp_drop(LENT(b), NAME(0), 88));
    SHOWS(b, slp_show(LENT(b), NAME(0), 0, NULL, 0), 0, 0, 0, 0);
    give_back(before);
    give_back(b);
}

/* The code of an open with these counts, lent the given lengths; a no leaves the old bytes. */
static unsigned open_code(uint16_t buffers, uint16_t pieces, uint16_t slips, size_t pool_length, size_t storage_length)
{
    uint8_t *pool = lend(pool_length, OLD);
    uint8_t *storage = lend(storage_length, OLD);
    uint8_t *old = lend(pool_length > storage_length ? pool_length : storage_length, OLD);
    slp_answer a = slp_open(pool, pool_length, storage, storage_length, buffers, pieces, slips);
    CHECK(a.number == 0);
    CHECK((memcmp(pool, old, pool_length) == 0) == (a.code != SLP_DONE));
    CHECK(memcmp(storage, old, storage_length) == 0);
    free(pool);
    free(storage);
    free(old);
    return a.code;
}

/* The macros are the lengths that open asks, to the byte; the limits are the largest counts that it takes. */
static void macros(void)
{
    static const uint16_t shape[5][3] = {
        {1, 1, 1}, {4, 6, 4}, {7, SLP_MOST_PIECES, 3}, {SLP_MOST_BUFFERS, 1, SLP_MOST_SLIPS}, {SLP_MOST_BUFFERS, SLP_MOST_PIECES, SLP_MOST_SLIPS}};
    static const uint16_t outside[6][3] = {{0, 6, 4}, {4, 0, 4}, {4, 6, 0},
        {SLP_MOST_BUFFERS + 1, 6, 4}, {4, SLP_MOST_PIECES + 1, 4}, {4, 6, SLP_MOST_SLIPS + 1}};
    for (int i = 0; i < 5; i++) {
        uint16_t buffers = shape[i][0], pieces = shape[i][1], slips = shape[i][2];
        size_t pool = SLP_POOL_LENGTH(buffers, pieces, slips), storage = SLP_STORAGE_LENGTH(buffers);
        CHECK(open_code(buffers, pieces, slips, pool, storage) == SLP_DONE);
        CHECK(open_code(buffers, pieces, slips, pool - 1, storage) == SLP_COUNTS);
        CHECK(open_code(buffers, pieces, slips, pool + 1, storage) == SLP_COUNTS);
        CHECK(open_code(buffers, pieces, slips, pool, storage - 1) == SLP_COUNTS);
        CHECK(open_code(buffers, pieces, slips, pool, storage + 1) == SLP_COUNTS);
    }
    for (int i = 0; i < 6; i++) {
        uint16_t buffers = outside[i][0], pieces = outside[i][1], slips = outside[i][2];
        CHECK(open_code(buffers, pieces, slips, SLP_POOL_LENGTH(buffers, pieces, slips), SLP_STORAGE_LENGTH(buffers)) == SLP_COUNTS);
    }
    CHECK(slp_open(NULL, 0, NULL, 0, 4, 6, 4).code == SLP_COUNTS);
    CHECK(slp_open(NULL, 0, NULL, 0, 0, 0, 0).code == SLP_COUNTS);
}

/* The largest pool: all its storage in one chain, taken over by another slip, and every slip held. */
static void largest(void)
{
    const uint32_t all = SLP_STORAGE_LENGTH(SLP_MOST_BUFFERS);
    lent b = fresh(SLP_MOST_BUFFERS, SLP_MOST_PIECES, SLP_MOST_SLIPS);
    ANSWERS(0, put(b, all));
    REFUSES(SLP_BUFFERS, b, put(b, 1));
    ANSWERS(1, slp_cut(LENT(b), NAME(0), 100, all - 100));
    ANSWERS(0, slp_free(LENT(b), NAME(0)));
    CHECK(reads(b, 1, all - 100, 100));
    for (uint32_t s = 0; s < SLP_MOST_SLIPS; s++) {
        if (s != 1) ANSWERS(AT(s, s == 0), slp_dup(LENT(b), NAME(1)));
    }
    REFUSES(SLP_SLIPS, b, slp_dup(LENT(b), NAME(1)));
    CHECK(reads(b, SLP_MOST_SLIPS - 1, all - 100, 100));
    for (uint32_t s = 0; s < SLP_MOST_SLIPS; s++) ANSWERS(0, slp_free(LENT(b), NAME(AT(s, s == 0))));
    CHECK(fresh_but_serials(b) && all_over(b, 0, SLP_MOST_BUFFERS, 0));
    for (unsigned s = 0; s < SLP_MOST_SLIPS; s++) CHECK(word_at(b, serial_at(s)) == 1u + (s == 0));
    give_back(b);
}

/* The largest pool with every piece in use: pullup refused and done, drop done behind an own piece and refused inside a shared head. */
static void largest_full_table(void)
{
    const uint32_t stored = SLP_MOST_BUFFERS - 2, all = SLP_BUFFER_SIZE * stored, pieces = 11 + 4 * SLP_MOST_SLIPS;
    lent b = fresh(SLP_MOST_BUFFERS, SLP_MOST_PIECES, SLP_MOST_SLIPS);
    ANSWERS(0, put(b, all));
    ANSWERS(1, slp_cut(LENT(b), NAME(0), 0, all));
    ANSWERS(2, slp_dup(LENT(b), NAME(0)));
    ANSWERS(3, slp_cut(LENT(b), NAME(0), 500, 24));
    ANSWERS(4, slp_dup(LENT(b), NAME(3)));
    REFUSES(SLP_PIECES, b, put(b, 1));
    REFUSES(SLP_PIECES, b, slp_pullup(LENT(b), NAME(3), 20));
    ANSWERS(0, slp_pullup(LENT(b), NAME(3), 24));
    CHECK(word_at(b, state_at(3)) == 2 + 2045 && word_at(b, pieces + 20452) == stored && word_at(b, pieces + 20456) == 24);
    CHECK(reads(b, 3, 24, 500) && reads(b, 4, 24, 500));
    ANSWERS(0, slp_drop(LENT(b), NAME(2), 520));
    CHECK(word_at(b, state_at(2)) == 2 + 2044 && word_at(b, pieces + 20442) == 1 && word_at(b, pieces + 20444) == 8);
    CHECK(reads(b, 2, all - 520, 520) && reads(b, 0, all, 0));
    ANSWERS(0, slp_drop(LENT(b), NAME(2), 504));
    ANSWERS(5, slp_dup(LENT(b), NAME(0)));
    REFUSES(SLP_PIECES, b, put(b, 1));
    REFUSES(SLP_PIECES, b, slp_drop(LENT(b), NAME(2), 1));
    give_back(b);
}

int main(void)
{
    morning();
    morning_lists();
    edges_of_lists();
    gathers();
    refusals_of_gathers();
    edges_of_put();
    edges_of_others();
    full_tables();
    cleaned_by_free();
    cleaned_by_drop();
    cleaned_by_keep();
    cleaned_by_pullup_and_pack();
    cleaned_by_none();
    old_names();
    serials_of_append();
    spent_slips();
    spent_by_append();
    worn_out();
    refusals_of_slips();
    refusals_of_ranges();
    refusals_of_room();
    refusals_of_torn_pools();
    idle_calls();
    views();
    macros();
    largest();
    largest_full_table();
    printf("rows: %u checks, %u failed\n", checks, failures);
    return failures == 0 && checks > 0 ? 0 : 1;
}
