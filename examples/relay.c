/*
 * A relay in a page: two payment messages come in, lose the header of the line they came on, are joined without copying a byte, looked at,
 * listed for the network card and handed on whole. An account number in the first is shared, and outlives the message that it came in.
 * The next message comes under the first one's number, with another serial: the first one's old name opens nothing.
 */
#include <slp.h>

#include <stdio.h>
#include <stdlib.h>
#include <string.h>

enum { BUFFERS = 4, PIECES = 8, SLIPS = 4, HEADER = 10, NONE = 65535 };

/* What the library is lent: the pool and storage, each of exactly the length asked for. */
static uint8_t pool[SLP_POOL_LENGTH(BUFFERS, PIECES, SLIPS)];
static uint8_t storage[SLP_STORAGE_LENGTH(BUFFERS)];
#define LENT pool, sizeof pool, storage, sizeof storage
/* A slip is kept as it was answered, number and serial in one, and handed on as both. */
#define NAME(slip) SLP_NUMBER(slip), SLP_SERIAL(slip)

/* Says what was refused, and why. */
static void say_refused(const char *what, uint16_t code)
{
    static const char *const word[] = {
        "DONE", "COUNTS", "TORN", "SLIP", "SAME", "LONG", "RANGE", "NARROW", "SLIPS", "PIECES", "BUFFERS", "LIST"};
    printf("%-44s refused: %u %s\n", what, (unsigned)code, word[code]);
}

/*
 * The one place where a no is handled. Nothing has changed, so the relay can go on: without room the message is turned away. Any other no
 * would be the relay's own mistake.
 */
static uint32_t refused(const char *what, uint16_t code)
{
    say_refused(what, code);
    if (code < SLP_SLIPS || code > SLP_BUFFERS) exit(1);
    return NONE;
}

/* Says what a call did, and hands back its number. */
static uint32_t done(const char *what, slp_answer answer)
{
    if (answer.code != SLP_DONE) return refused(what, answer.code);
    printf("%-44s done: %u\n", what, (unsigned)answer.number);
    return answer.number;
}

/* Says which slip a call gave, and hands it back. */
static uint32_t given(const char *what, slp_answer answer)
{
    if (answer.code != SLP_DONE) return refused(what, answer.code);
    printf("%-44s done: slip %u, serial %u\n", what, (unsigned)SLP_NUMBER(answer.number), (unsigned)SLP_SERIAL(answer.number));
    return answer.number;
}

/* A message comes in: its bytes are copied once, into free buffers, and a new slip stands for them. */
static uint32_t come_in(const char *what, const char *text, size_t length)
{
    return given(what, slp_put(LENT, (const uint8_t *)text, length));
}

/* Looks at the first n bytes in one stretch: where they lie, or, if they lie in several pieces, in a scratch. */
static void look(uint32_t slip, uint32_t n)
{
    uint8_t scratch[SLP_BUFFER_SIZE];
    slp_shown v = slp_show(LENT, NAME(slip), n, scratch, sizeof scratch);
    if (v.code != SLP_DONE) {
        refused("show", v.code);
        return;
    }
    const uint8_t *view = (v.in_scratch ? scratch : storage) + v.start;
    printf("  slip %u begins, in %s at %u: %.*s\n", (unsigned)SLP_NUMBER(slip), v.in_scratch ? "the scratch" : "storage", (unsigned)v.start,
           (int)v.number, (const char *)view);
}

/* Lists a chain for the card, which takes the bytes from storage itself: where each stretch begins, and how long it is. */
static void to_card(uint32_t slip)
{
    slp_stretch list[PIECES];
    uint32_t n = done("list it for the card: stretches", slp_stretches(LENT, NAME(slip), list, PIECES));
    for (uint32_t i = 0; i < n; i++) printf("  %u bytes at %u\n", (unsigned)list[i].length, (unsigned)list[i].position);
}

/* Hands a chain on: all its bytes, copied out in order. */
static void hand_on(uint32_t slip)
{
    static uint8_t out[sizeof storage];
    uint32_t length = done("length of the joined message: bytes", slp_length(LENT, NAME(slip)));
    uint32_t n = done("read all of it: bytes", slp_read(LENT, NAME(slip), 0, length, out, sizeof out));
    printf("  handed on: %.*s\n", (int)n, (const char *)out);
}

/* Whether an old name, whose chain was given up, is refused, though its number is in use again. */
static int stale(uint32_t slip)
{
    slp_answer a = slp_length(LENT, NAME(slip));
    say_refused("length by the first message's old slip", a.code);
    return a.code == SLP_SLIP;
}

/* The end of the day: the pool is sound, and every slip is vacant, so that as many empty messages find one. */
static int closed(void)
{
    int vacant = 0;
    done("audit", slp_audit(LENT));
    while (slp_put(LENT, NULL, 0).code == SLP_DONE) vacant++;
    printf("%-44s %d of %d\n", "vacant slips", vacant, SLIPS);
    return vacant == SLIPS;
}

int main(void)
{
    static const char first[] = "LINE7 0041PAY 250.00 TO NL02ABNA0123456789 FOR INVOICE 7731;";
    static const char second[] = "LINE7 0042PAY 99.50 TO DE89370400440532013000 FOR RENT;";
    static const char flood[3000] = {0};

    done("open a pool of 4 buffers, 8 pieces, 4 slips", slp_open(LENT, BUFFERS, PIECES, SLIPS));
    uint32_t a = come_in("put the first message", first, strlen(first));
    uint32_t b = come_in("put the second message", second, strlen(second));
    come_in("put 3000 bytes into the 2 buffers left", flood, sizeof flood);

    done("drop the header of the first", slp_drop(LENT, NAME(a), HEADER));
    done("drop the header of the second", slp_drop(LENT, NAME(b), HEADER));
    uint32_t account = given("cut out the first's account", slp_cut(LENT, NAME(a), 14, 18));
    done("append the second to the first", slp_append(LENT, NAME(a), NAME(b)));
    look(a, 10);
    look(a, 59);
    to_card(a);
    hand_on(a);

    done("free the joined message", slp_free(LENT, NAME(a)));
    look(account, 18);
    done("free the account", slp_free(LENT, NAME(account)));

    uint32_t c = come_in("put the second message again", second, strlen(second));
    int refused_as_stale = stale(a);
    done("free it", slp_free(LENT, NAME(c)));
    return refused_as_stale && closed() ? 0 : 1;
}
