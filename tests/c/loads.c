/*
 * The loads of next that slp_audit makes, seen from outside: valgrind's tracer writes down every load of this program, and the program finds in
 * that trace those that touch a next of its pool. Document 02 allows the test that no chain meets itself 2·P follows; the audit keeps
 * within that with all its loads of next, also those of its pass over the counts.
 *   loads POOL                     audits a pool of the most pieces and writes the address of its first next
 *   loads count ADDRESS <TRACE     counts the loads; exit status 0 only where they are more than P and at most 2·P
 */
#include <slp.h>

#include <stdio.h>
#include <stdlib.h>
#include <string.h>

enum { P = SLP_MOST_PIECES, S = SLP_MOST_SLIPS, B = 1, SPINE = P - S + 1, PIECES = 11 + 4 * S, COUNTS = PIECES + 10 * P };

static uint8_t pool[SLP_POOL_LENGTH(B, P, S)], storage[SLP_STORAGE_LENGTH(B)];

/* The link of each piece's next and of each slip's head: 0 none, 1 + d piece d. */
static unsigned next[P], head[S];

static void put16(size_t at, unsigned v)
{
    pool[at] = (uint8_t)(v % 256);
    pool[at + 1] = (uint8_t)(v / 256);
}

/* One chain of the first n pieces, which slip 0 heads. */
static void chain(unsigned n)
{
    for (unsigned d = 0; d + 1 < n; d++) next[d] = d + 2;
    head[0] = 1;
}

/* Sets the links of a pool; answers its code, or -1 for a name that is none. */
static int link_up(const char *name)
{
    if (!strcmp(name, "chain")) {
        chain(P);
    } else if (!strcmp(name, "against")) {
        for (unsigned d = 1; d < P; d++) next[d] = d;
        head[0] = P;
    } else if (!strcmp(name, "single")) {
        for (unsigned s = 0; s < S; s++) head[s] = s + 1;
    } else if (!strcmp(name, "comb")) {
        chain(SPINE);
        for (unsigned i = 1; i < S; i++) {
            next[SPINE + i - 1] = 1 + (i - 1) * SPINE / (S - 1);
            head[i] = SPINE + i;
        }
    } else if (!strcmp(name, "ring")) {
        chain(P);
        next[P - 1] = P / 2;
        return SLP_TORN;
    } else {
        return -1;
    }
    return SLP_DONE;
}

/* Writes the pool of these links, every count right: each piece in use has one byte of the one buffer. */
static void write_pool(void)
{
    unsigned count[P] = {0}, used = 0;
    for (unsigned d = 0; d < P; d++)
        if (next[d]) count[next[d] - 1]++;
    for (unsigned s = 0; s < S; s++)
        if (head[s]) count[head[s] - 1]++;
    memcpy(pool, "SLP", 3);
    put16(3, 2), put16(5, B), put16(7, P), put16(9, S);
    for (unsigned s = 0; s < S; s++) put16(11 + 4 * s, head[s] ? head[s] + 1 : 0);
    for (unsigned d = 0; d < P; d++) {
        put16(PIECES + 10 * d, count[d]);
        put16(PIECES + 10 * d + 6, count[d] > 0);
        put16(PIECES + 10 * d + 8, next[d]);
        used += count[d] > 0;
    }
    put16(COUNTS, used);
}

/* The loads of a trace that touch a next, of which the first lies at this address. */
static unsigned count_loads(unsigned long first)
{
    char line[200], kind;
    unsigned long at, size;
    unsigned loads = 0;
    while (fgets(line, sizeof line, stdin)) {
        if (sscanf(line, " %c %lx,%lu", &kind, &at, &size) != 3 || (kind != 'L' && kind != 'M')) continue;
        /* The first next that ends behind the load's first byte: the load touches that one, or none. */
        unsigned long d = at < first + 2 ? 0 : (at - first + 8) / 10;
        if (d < P && first + 10 * d < at + size) loads++;
    }
    return loads;
}

int main(int argc, char **argv)
{
    if (argc == 3 && !strcmp(argv[1], "count")) {
        unsigned loads = count_loads(strtoul(argv[2], NULL, 16));
        printf("%u loads of next, of at most %d\n", loads, 2 * P);
        return loads > P && loads <= 2 * P ? 0 : 1;
    }
    int code = argc == 2 ? link_up(argv[1]) : -1;
    if (code < 0) return 2;
    write_pool();
    printf("%lx\n", (unsigned long)(uintptr_t)(pool + PIECES + 8));
    return slp_audit(pool, sizeof pool, storage, sizeof storage).code == code ? 0 : 1;
}
