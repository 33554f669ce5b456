/*
 * How much stack each call takes at the largest pool. Every call runs on a painted stack of its own, done and refused with each of its codes;
 * what it takes goes from the stack's top to the deepest byte that lost its paint, with the few words of the switch to that stack.
 * Writes a table of the most for each call, and the most of all. Exit status 0 only where every code is the one wanted, no call takes more than MOST bytes, and
 * slp_length, whose walk is recursive, no more than DEEP.
 */
#define _XOPEN_SOURCE 700
#include <slp.h>

#include <stdio.h>
#include <stdlib.h>
#include <string.h>
#include <ucontext.h>

enum { MOST = 16384, DEEP = 8192, STACK = 262144 };
enum { B = SLP_MOST_BUFFERS, P = SLP_MOST_PIECES, S = SLP_MOST_SLIPS, ALL = SLP_STORAGE_LENGTH(B), LONGEST = 512 * P };

static uint8_t pool[SLP_POOL_LENGTH(B, P, S)], storage[ALL], data[ALL], output[LONGEST];
static uint32_t list[2 * P];
static slp_stretch records[P];
#define LENT pool, sizeof pool, storage, sizeof storage
/* A slip as it was answered, as the calls take it. */
#define NAME(n) SLP_NUMBER(n), SLP_SERIAL(n)

/* ---- states of the pool */

/* The number of a call that is done. */
static uint32_t done(slp_answer a)
{
    if (a.code == SLP_DONE) return a.number;
    printf("a state of the pool is not reached: code %u\n", a.code);
    exit(1);
}

/* Nothing is held. */
static void fresh(void)
{
    done(slp_open(LENT, B, P, S));
}

/* Slip 0 holds a chain over all buffers, its first byte dropped. */
static void stored(void)
{
    fresh();
    done(slp_put(LENT, data, ALL));
    done(slp_drop(LENT, NAME(0), 1));
}

/* The same over half of them, so that the chain can be packed. */
static void half(void)
{
    fresh();
    done(slp_put(LENT, data, ALL / 2));
    done(slp_drop(LENT, NAME(0), 1));
}

/* Slip 0 holds the longest chain: no piece is free. */
static void longest(void)
{
    fresh();
    done(slp_put(LENT, data, ALL));
    done(slp_cut(LENT, NAME(0), 0, ALL));
    done(slp_append(LENT, NAME(0), NAME(1)));
}

/* Slip 0 shares all its pieces but the first with slip 1; slip 2 has one more; room for everything. */
static void shared(void)
{
    fresh();
    done(slp_put(LENT, data, ALL - 8192));
    done(slp_dup(LENT, NAME(0)));
    done(slp_put(LENT, data, 100));
}

/* The same with no piece free. */
static void tight(void)
{
    fresh();
    done(slp_put(LENT, data, ALL));
    done(slp_dup(LENT, NAME(0)));
    done(slp_cut(LENT, NAME(0), 0, ALL - 512));
}

/* The same, slip 1 heading the first shared piece. */
static void headed(void)
{
    tight();
    done(slp_drop(LENT, NAME(1), 512));
    done(slp_dup(LENT, NAME(0)));
}

/* Slip 0 holds a chain over all buffers, its last piece shared with slip 1; no piece is free. */
static void ended(void)
{
    fresh();
    done(slp_put(LENT, data, ALL));
    done(slp_dup(LENT, NAME(0)));
    done(slp_drop(LENT, NAME(1), ALL - 512));
    done(slp_cut(LENT, NAME(0), 0, ALL));
}

/* Slip 0 holds 512 pieces of one byte each, another slip all others; no piece is free. */
static void crumbs(void)
{
    fresh();
    done(slp_put(LENT, data, 1));
    for (uint32_t n = 1; n < 512; n *= 2) {
        uint32_t part = done(slp_cut(LENT, NAME(0), 0, n));
        done(slp_append(LENT, NAME(0), NAME(part)));
    }
    uint32_t rest = done(slp_cut(LENT, NAME(0), 0, 512));
    for (int i = 2; i < P / 512; i++) {
        uint32_t part = done(slp_cut(LENT, NAME(0), 0, 512));
        done(slp_append(LENT, NAME(rest), NAME(part)));
    }
}

/* Every slip holds a chain of one piece. */
static void held(void)
{
    fresh();
    for (int s = 0; s < S; s++) done(slp_put(LENT, data, 1));
}

/* No slip is held, and every one is spent. */
static void spent(void)
{
    fresh();
    for (size_t s = 0; s < S; s++) pool[11 + 4 * s + 2] = pool[11 + 4 * s + 3] = 255;
}

/* The longest chain comes back to itself: torn, which only the audit's walks find. */
static void torn(void)
{
    longest();
    for (size_t at = 11 + 4 * S; at < 11 + 4 * S + 10 * P; at += 10) {
        if (pool[at + 8] == 0 && pool[at + 9] == 0) pool[at + 8] = 1;
    }
    pool[11 + 4 * S]++;
}

/* The list of the longest chain, for gather. */
static void listed(void)
{
    longest();
    done(slp_list(LENT, NAME(0), list, 2 * P));
}

/* ---- the calls: name, way, code, state, expression */

#define CALLS(X) \
    X(open, done, SLP_DONE, fresh, slp_open(LENT, B, P, S)) \
    X(open, counts, SLP_COUNTS, fresh, slp_open(LENT, B, P, S + 1)) \
    X(audit, done, SLP_DONE, longest, slp_audit(LENT)) \
    X(audit, torn, SLP_TORN, torn, slp_audit(LENT)) \
    X(put, done, SLP_DONE, fresh, slp_put(LENT, data, ALL)) \
    X(put, torn, SLP_TORN, torn, slp_put(LENT, data, 1)) \
    X(put, slips, SLP_SLIPS, held, slp_put(LENT, data, 1)) \
    X(put, spent, SLP_SLIPS, spent, slp_put(LENT, data, 1)) \
    X(put, pieces, SLP_PIECES, longest, slp_put(LENT, data, 1)) \
    X(put, buffers, SLP_BUFFERS, stored, slp_put(LENT, data, 1)) \
    X(free, done, SLP_DONE, longest, slp_free(LENT, NAME(0))) \
    X(free, torn, SLP_TORN, torn, slp_free(LENT, NAME(0))) \
    X(free, slip, SLP_SLIP, longest, slp_free(LENT, NAME(1))) \
    X(free, serial, SLP_SLIP, longest, slp_free(LENT, NAME(65536))) \
    X(dup, done, SLP_DONE, stored, slp_dup(LENT, NAME(0))) \
    X(dup, torn, SLP_TORN, torn, slp_dup(LENT, NAME(0))) \
    X(dup, slip, SLP_SLIP, stored, slp_dup(LENT, NAME(1))) \
    X(dup, slips, SLP_SLIPS, held, slp_dup(LENT, NAME(0))) \
    X(dup, pieces, SLP_PIECES, longest, slp_dup(LENT, NAME(0))) \
    X(cut, done, SLP_DONE, stored, slp_cut(LENT, NAME(0), 1, ALL - 2)) \
    X(cut, torn, SLP_TORN, torn, slp_cut(LENT, NAME(0), 1, 1)) \
    X(cut, slip, SLP_SLIP, stored, slp_cut(LENT, NAME(1), 1, 1)) \
    X(cut, range, SLP_RANGE, stored, slp_cut(LENT, NAME(0), 1, ALL)) \
    X(cut, slips, SLP_SLIPS, held, slp_cut(LENT, NAME(0), 0, 1)) \
    X(cut, pieces, SLP_PIECES, longest, slp_cut(LENT, NAME(0), 0, LONGEST)) \
    X(append, done, SLP_DONE, shared, slp_append(LENT, NAME(0), NAME(2))) \
    X(append, torn, SLP_TORN, torn, slp_append(LENT, NAME(0), NAME(1))) \
    X(append, slip, SLP_SLIP, shared, slp_append(LENT, NAME(0), NAME(3))) \
    X(append, serial, SLP_SLIP, shared, slp_append(LENT, NAME(0), NAME(65536))) \
    X(append, same, SLP_SAME, shared, slp_append(LENT, NAME(0), NAME(0))) \
    X(append, pieces, SLP_PIECES, tight, slp_append(LENT, NAME(0), NAME(2))) \
    X(drop, own, SLP_DONE, longest, slp_drop(LENT, NAME(0), LONGEST - 1)) \
    X(drop, shared, SLP_DONE, shared, slp_drop(LENT, NAME(0), 400000)) \
    X(drop, torn, SLP_TORN, torn, slp_drop(LENT, NAME(0), 1)) \
    X(drop, slip, SLP_SLIP, longest, slp_drop(LENT, NAME(1), 1)) \
    X(drop, range, SLP_RANGE, longest, slp_drop(LENT, NAME(0), LONGEST + 1)) \
    X(drop, front, SLP_DONE, tight, slp_drop(LENT, NAME(0), 600)) \
    X(drop, long_front, SLP_DONE, ended, slp_drop(LENT, NAME(0), ALL - 1)) \
    X(drop, pieces, SLP_PIECES, headed, slp_drop(LENT, NAME(1), 600)) \
    X(keep, own, SLP_DONE, longest, slp_keep(LENT, NAME(0), LONGEST - 1)) \
    X(keep, front, SLP_DONE, longest, slp_keep(LENT, NAME(0), 1)) \
    X(keep, shared, SLP_DONE, shared, slp_keep(LENT, NAME(0), 400000)) \
    X(keep, torn, SLP_TORN, torn, slp_keep(LENT, NAME(0), 1)) \
    X(keep, slip, SLP_SLIP, longest, slp_keep(LENT, NAME(1), 1)) \
    X(keep, range, SLP_RANGE, longest, slp_keep(LENT, NAME(0), LONGEST + 1)) \
    X(keep, pieces, SLP_PIECES, tight, slp_keep(LENT, NAME(0), 400000)) \
    X(pullup, own, SLP_DONE, half, slp_pullup(LENT, NAME(0), 512)) \
    X(pullup, shared, SLP_DONE, shared, (done(slp_drop(LENT, NAME(0), 1)), slp_pullup(LENT, NAME(0), 512))) \
    X(pullup, torn, SLP_TORN, torn, slp_pullup(LENT, NAME(0), 1)) \
    X(pullup, slip, SLP_SLIP, stored, slp_pullup(LENT, NAME(1), 1)) \
    X(pullup, too_long, SLP_LONG, stored, slp_pullup(LENT, NAME(0), 513)) \
    X(pullup, range, SLP_RANGE, held, slp_pullup(LENT, NAME(0), 2)) \
    X(pullup, long_front, SLP_DONE, crumbs, slp_pullup(LENT, NAME(0), 512)) \
    X(pullup, pieces, SLP_PIECES, tight, (done(slp_drop(LENT, NAME(0), 1)), slp_pullup(LENT, NAME(0), 512))) \
    X(pullup, buffers, SLP_BUFFERS, stored, slp_pullup(LENT, NAME(0), 512)) \
    X(pack, done, SLP_DONE, half, slp_pack(LENT, NAME(0))) \
    X(pack, torn, SLP_TORN, torn, slp_pack(LENT, NAME(0))) \
    X(pack, slip, SLP_SLIP, stored, slp_pack(LENT, NAME(1))) \
    X(pack, pieces, SLP_PIECES, longest, slp_pack(LENT, NAME(0))) \
    X(pack, buffers, SLP_BUFFERS, stored, slp_pack(LENT, NAME(0))) \
    X(length, done, SLP_DONE, longest, slp_length(LENT, NAME(0))) \
    X(length, torn, SLP_TORN, torn, slp_length(LENT, NAME(0))) \
    X(length, slip, SLP_SLIP, longest, slp_length(LENT, NAME(1))) \
    X(read, done, SLP_DONE, longest, slp_read(LENT, NAME(0), 0, LONGEST, output, LONGEST)) \
    X(read, torn, SLP_TORN, torn, slp_read(LENT, NAME(0), 0, 1, output, 1)) \
    X(read, slip, SLP_SLIP, longest, slp_read(LENT, NAME(1), 0, 1, output, 1)) \
    X(read, range, SLP_RANGE, longest, slp_read(LENT, NAME(0), 1, LONGEST, output, LONGEST)) \
    X(read, narrow, SLP_NARROW, longest, slp_read(LENT, NAME(0), 0, LONGEST, output, LONGEST - 1)) \
    X(show, in_storage, SLP_DONE, longest, slp_show(LENT, NAME(0), 512, output, 0)) \
    X(show, in_scratch, SLP_DONE, stored, slp_show(LENT, NAME(0), 512, output, 512)) \
    X(show, torn, SLP_TORN, torn, slp_show(LENT, NAME(0), 1, output, 512)) \
    X(show, slip, SLP_SLIP, stored, slp_show(LENT, NAME(1), 1, output, 512)) \
    X(show, too_long, SLP_LONG, stored, slp_show(LENT, NAME(0), 513, output, 513)) \
    X(show, range, SLP_RANGE, held, slp_show(LENT, NAME(0), 2, output, 512)) \
    X(show, narrow, SLP_NARROW, stored, slp_show(LENT, NAME(0), 512, output, 511)) \
    X(list, done, SLP_DONE, longest, slp_list(LENT, NAME(0), list, 2 * P)) \
    X(list, torn, SLP_TORN, torn, slp_list(LENT, NAME(0), list, 2 * P)) \
    X(list, slip, SLP_SLIP, longest, slp_list(LENT, NAME(1), list, 2 * P)) \
    X(list, narrow, SLP_NARROW, longest, slp_list(LENT, NAME(0), list, 2 * P - 1)) \
    X(gather, done, SLP_DONE, listed, slp_gather(storage, sizeof storage, list, 2 * P, output, LONGEST)) \
    X(gather, narrow, SLP_NARROW, listed, slp_gather(storage, sizeof storage, list, 2 * P, output, LONGEST - 1)) \
    X(gather, outside, SLP_LIST, listed, slp_gather(storage, sizeof storage - 1, list, 2 * P, output, LONGEST)) \
    X(stretches, done, SLP_DONE, longest, slp_stretches(LENT, NAME(0), records, P)) \
    X(stretches, torn, SLP_TORN, torn, slp_stretches(LENT, NAME(0), records, P)) \
    X(stretches, slip, SLP_SLIP, longest, slp_stretches(LENT, NAME(1), records, P)) \
    X(stretches, narrow, SLP_NARROW, longest, slp_stretches(LENT, NAME(0), records, P - 1))

#define FUNCTION(name, way, wanted, state, call) \
    static unsigned name##_##way(void) { return (call).code; }
CALLS(FUNCTION)

#define ROW(name, way, wanted, state, call) {#name, #way, wanted, state, name##_##way},
static const struct row { const char *name, *way; unsigned code; void (*state)(void); unsigned (*call)(void); } rows[] = {CALLS(ROW)};
enum { ROWS = sizeof rows / sizeof *rows };

/* ---- the painted stack */

static uint8_t stack[STACK];
static ucontext_t here, there;
static unsigned (*called)(void);
static unsigned code;

static void enter(void)
{
    code = called();
}

/* The bytes that a call takes of a stack painted in one colour. */
static unsigned taken(unsigned (*call)(void), int paint)
{
    unsigned deepest = 0;
    memset(stack, paint, STACK);
    called = call;
    if (getcontext(&there)) return STACK;
    there.uc_stack.ss_sp = stack;
    there.uc_stack.ss_size = STACK;
    there.uc_link = &here;
    makecontext(&there, enter, 0);
    if (swapcontext(&here, &there)) return STACK;
    while (deepest < STACK && stack[deepest] == paint) deepest++;
    return STACK - deepest;
}

/* The same of two colours, since a call may write a byte of one of them. */
static unsigned most(const struct row *row)
{
    unsigned most = 0;
    for (int paint = 0x5A; paint <= 0xA5; paint += 0x4B) {
        row->state();
        unsigned n = taken(row->call, paint);
        if (n > most) most = n;
        if (code == row->code) continue;
        printf("%s, %s: code %u\n", row->name, row->way, code);
        exit(1);
    }
    return most;
}

int main(void)
{
    unsigned all = 0, status = 0;
    for (size_t i = 0; i < ALL; i++) data[i] = (uint8_t)(i % 251);
    printf("| call | done | refused |\n|---|---|---|\n");
    for (int i = 0; i < ROWS;) {
        const char *name = rows[i].name;
        unsigned way[2] = {0, 0};
        for (; i < ROWS && !strcmp(rows[i].name, name); i++) {
            unsigned n = most(&rows[i]), refused = rows[i].code != SLP_DONE;
            if (n > way[refused]) way[refused] = n;
        }
        printf("| %s | %u | %u |\n", name, way[0], way[1]);
        unsigned limit = strcmp(name, "length") ? MOST : DEEP, here = way[0] > way[1] ? way[0] : way[1];
        if (here > limit) status = 1;
        if (here > all) all = here;
    }
    printf("at most %u bytes of stack, of %d allowed\n", all, MOST);
    return (int)status;
}
