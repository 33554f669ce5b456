/*
 * slp.h: Fulcrumnest's calls for C11 and C++17. Link with libslp.a.
 *
 * The caller lends two stretches of memory: a pool, which holds the tables, and storage, which holds the buffers. A message is a chain of
 * pieces over buffers of 512 bytes, several pieces may share one buffer, and counts in the pool say who holds what. The caller knows a
 * chain by its slip alone. A slip is vacant, or holds an empty chain, or heads a piece.
 *
 * Serials. A slip has a number, below S, and a serial of 16 bits. slp_put, slp_dup and slp_cut answer both in one, the number + 65,536 times the
 * serial: SLP_NUMBER and SLP_SERIAL take that apart, and every call that names a slip is given both. slp_free, and slp_append for b, add 1 to the
 * serial, never past 65,535, so that a name once given up is refused (3 SLIP) even where its number is given again. A slip that is vacant at 65,535 is
 * spent: it is not given again and is no room (8 SLIPS), until slp_open, which sets every serial to 0; a refused call moves none.
 *
 * Slices. A slice is a pointer, then its length: in bytes or, of a list, in its numbers or records. It may be empty: then the pointer is not
 * read and may be null.
 *
 * Answers. Every call answers a code and a number. Code 0 is done. Any other code is a no: the number is 0, and pool, storage and
 * everything else that was lent are unchanged. Ask the code first, since 0 is also what slip 0 is answered as at serial 0. Where several codes
 * apply, the lowest is given.
 *
 * Room is counted when the call begins; what it gives back is room for the next one. But slp_drop and slp_pullup first give back the own pieces in
 * front of what stays, those that no other chain reaches: their numbers are then free for the call, their buffers are not. So slp_drop is never
 * refused for want of pieces where the slip's first piece is own.
 *
 * Wire lists. A record is a stretch of storage: where it begins and how many bytes it has. slp_list and slp_stretches write one for each piece
 * of a chain, for a card that reads storage itself; slp_gather copies the bytes out as such a card does. The bytes that a record names stay as
 * they are while any piece lies on their buffer.
 *
 * Any bytes may be lent, of any length: every call tests the pool first (2 TORN), but for slp_open and for slp_gather, which has no pool. What
 * no call can test, and the caller keeps:
 *   - a pointer is what it says: as many elements as its length stand there, aligned as their type asks, readable, and writable where it
 *     isn't const;
 *   - pool, storage and whatever else a call is lent stand apart: no two of them overlap;
 *   - until a call is back, nobody else writes what it was lent, or reads what it may write.
 *
 * Stack. No call takes more than 16 KiB, whatever it is lent, and no call allocates or keeps anything. Measured at the largest pool (tests/c/stack.c),
 * done and refused: slp_open and slp_gather take less than 256 bytes, every other call at most 6,544, of which 6,144 are the audit's counters.
 *
 * Storage. The pool is written by every call whose pool isn't const. Storage is written so alone: slp_put, slp_pullup and slp_pack fill buffers that no
 * piece lay on when they began, whole, with the bytes and then zeros; slp_free, slp_drop, slp_keep, and slp_pullup and slp_pack once they have copied,
 * clean every buffer that loses its last piece: all its 512 bytes are then zero. Any other buffer keeps its bytes. A free buffer need not be clean,
 * and slp_audit does not ask it; in a pool opened over zeroed storage every free one is, after any calls but another done slp_open.
 */
#ifndef SLP_H
#define SLP_H

#include <stddef.h>
#include <stdint.h>

#ifdef __cplusplus
extern "C" {
#endif

/* The limits of a pool's counts, each at least 1, and the bytes of a buffer. The longest chain has SLP_MOST_PIECES pieces and 1,048,576 bytes. */
#define SLP_MOST_BUFFERS 1024
#define SLP_MOST_PIECES 2048
#define SLP_MOST_SLIPS 256
#define SLP_BUFFER_SIZE 512

/* The exact length of the pool for B buffers, P pieces and S slips, and of the storage for B buffers. */
#define SLP_POOL_LENGTH(B, P, S) (11u + 4u * (S) + 10u * (P) + 2u * (B))
#define SLP_STORAGE_LENGTH(B) (512u * (B))

/* The slip's number and its serial in what slp_put, slp_dup and slp_cut answer; and the last serial, at which a vacant slip is spent. */
#define SLP_NUMBER(n) ((uint16_t)((uint32_t)(n) % 65536u))
#define SLP_SERIAL(n) ((uint16_t)((uint32_t)(n) / 65536u))
#define SLP_LAST_SERIAL 65535

/* The codes, and when exactly each is given. */
enum slp_code {
    SLP_DONE = 0,     /* done */
    SLP_COUNTS = 1,   /* open: a count outside its range, or a lent length not the one it asks */
    SLP_TORN = 2,     /* any other call that has a pool: the pool isn't sound */
    SLP_SLIP = 3,     /* a named slip is S or more, or vacant, or its serial is another */
    SLP_SAME = 4,     /* append names one slip twice */
    SLP_LONG = 5,     /* pullup or show asks more than 512 */
    SLP_RANGE = 6,    /* the asked bytes reach past the chain's end, as whole numbers */
    SLP_NARROW = 7,   /* the lent output, scratch or list can't take the bytes or records */
    SLP_SLIPS = 8,    /* a new slip is wanted and none is vacant but spent ones */
    SLP_PIECES = 9,   /* more new pieces wanted than free */
    SLP_BUFFERS = 10, /* more new buffers wanted than free */
    SLP_LIST = 11     /* gather: a record is of no length or leaves storage, as whole numbers */
};

/* What a call answers: one of the codes, and a number. */
typedef struct { uint16_t code; uint32_t number; } slp_answer;

/*
 * What slp_show answers. The view is `number` bytes from `start` on: of the scratch if in_scratch is 1, of storage if it is 0. With a no it
 * is empty, at the start of storage. In storage it stays as it is while any piece lies on its buffer.
 */
typedef struct { uint16_t code; uint32_t number; uint16_t in_scratch; uint32_t start; } slp_shown;

/* A record of a wire list: `length` bytes of storage from `position` on. */
typedef struct { uint32_t position; uint32_t length; } slp_stretch;

/* What slp_gather answers: one of the codes, and a count of bytes. A list may repeat itself, so the count may pass 32 bits. */
typedef struct { uint16_t code; uint64_t number; } slp_gathered;

/* In every call below that names a slip, `slip` is its number and `serial` its serial. */

/* Writes the fresh pool, whatever the bytes were, every serial 0; answers 0. Storage is not touched. No: 1 COUNTS. */
slp_answer slp_open(uint8_t *pool, size_t pool_length, uint8_t *storage, size_t storage_length,
                    uint16_t buffers, uint16_t pieces, uint16_t slips);

/* Tests whether the pool is sound; answers 0. No: 2 TORN. */
slp_answer slp_audit(const uint8_t *pool, size_t pool_length, const uint8_t *storage, size_t storage_length);

/* Copies the data into fresh buffers, 512 bytes to each; answers the new slip and its serial. No: 2 TORN, 8 SLIPS, 9 PIECES, 10 BUFFERS. */
slp_answer slp_put(uint8_t *pool, size_t pool_length, uint8_t *storage, size_t storage_length,
                   const uint8_t *data, size_t data_length);

/* Gives up the slip's chain, and frees what nobody else holds; the slip is vacant, its serial 1 more; answers 0. No: 2 TORN, 3 SLIP.
 * Cleaned: the buffers that lose their last piece with the chain. */
slp_answer slp_free(uint8_t *pool, size_t pool_length, uint8_t *storage, size_t storage_length, uint16_t slip, uint16_t serial);

/* A new slip that reads the same and shares its buffers, at one new piece; answers it and its serial. No: 2 TORN, 3 SLIP, 8 SLIPS, 9 PIECES. */
slp_answer slp_dup(uint8_t *pool, size_t pool_length, const uint8_t *storage, size_t storage_length, uint16_t slip, uint16_t serial);

/* A new slip on `length` bytes from `offset` on, shared and not copied; answers it and its serial. No: 2 TORN, 3 SLIP, 6 RANGE, 8 SLIPS, 9 PIECES. */
slp_answer slp_cut(uint8_t *pool, size_t pool_length, const uint8_t *storage, size_t storage_length,
                   uint16_t slip, uint16_t serial, uint32_t offset, uint32_t length);

/* Slip a reads as a then b, other slips as before; b is vacant, its serial 1 more; answers 0.
 * No: 2 TORN, 3 SLIP (of either), 4 SAME (the numbers are one), 9 PIECES. Cleaned: none, no buffer is given back and no byte of storage written. */
slp_answer slp_append(uint8_t *pool, size_t pool_length, uint8_t *storage, size_t storage_length,
                      uint16_t a, uint16_t a_serial, uint16_t b, uint16_t b_serial);

/* The slip's first n bytes go, other slips read as before; answers 0. No: 2 TORN, 3 SLIP, 6 RANGE, 9 PIECES.
 * Cleaned: the buffers that lose their last piece in front of what stays. */
slp_answer slp_drop(uint8_t *pool, size_t pool_length, uint8_t *storage, size_t storage_length, uint16_t slip, uint16_t serial, uint32_t n);

/* The slip's first n bytes stay and the rest goes, other slips read as before; answers 0. No: 2 TORN, 3 SLIP, 6 RANGE, 9 PIECES.
 * Cleaned: the buffers that lose their last piece behind what stays. */
slp_answer slp_keep(uint8_t *pool, size_t pool_length, uint8_t *storage, size_t storage_length, uint16_t slip, uint16_t serial, uint32_t n);

/* The slip's first n bytes, at most 512, come to lie in one piece; answers 0. No: 2 TORN, 3 SLIP, 5 LONG, 6 RANGE, 9 PIECES, 10 BUFFERS.
 * Cleaned, once the bytes are copied: the buffers that lose their last piece in front of what stays. */
slp_answer slp_pullup(uint8_t *pool, size_t pool_length, uint8_t *storage, size_t storage_length, uint16_t slip, uint16_t serial, uint32_t n);

/* Puts a chain of two or more pieces afresh, under the same slip, in as few buffers as hold it; answers 0. No: 2 TORN, 3 SLIP, 9 PIECES, 10 BUFFERS.
 * Cleaned, once the bytes are copied: the buffers that lose their last piece with the old chain. */
slp_answer slp_pack(uint8_t *pool, size_t pool_length, uint8_t *storage, size_t storage_length, uint16_t slip, uint16_t serial);

/* Answers the chain's length in bytes. No: 2 TORN, 3 SLIP. */
slp_answer slp_length(const uint8_t *pool, size_t pool_length, const uint8_t *storage, size_t storage_length, uint16_t slip, uint16_t serial);

/* Copies `length` bytes from `offset` on to the front of the output; answers how many. No: 2 TORN, 3 SLIP, 6 RANGE, 7 NARROW. */
slp_answer slp_read(const uint8_t *pool, size_t pool_length, const uint8_t *storage, size_t storage_length,
                    uint16_t slip, uint16_t serial, uint32_t offset, uint32_t length, uint8_t *output, size_t output_length);

/* The slip's first n bytes, at most 512, in one stretch, in storage where they lie so, else copied to the scratch; answers n and where.
 * No: 2 TORN, 3 SLIP, 5 LONG, 6 RANGE, 7 NARROW (a scratch that is needed and too short). */
slp_shown slp_show(const uint8_t *pool, size_t pool_length, const uint8_t *storage, size_t storage_length,
                   uint16_t slip, uint16_t serial, uint32_t n, uint8_t *scratch, size_t scratch_length);

/* Writes one record of two numbers for each piece, in chain order, to the front of the list: position in storage (512 times the buffer's number,
 * and the offset), then length; answers how many records. Numbers past them are unchanged; a lone last number is no record.
 * No: 2 TORN, 3 SLIP, 7 NARROW (a list too short for all records). */
slp_answer slp_list(const uint8_t *pool, size_t pool_length, const uint8_t *storage, size_t storage_length,
                    uint16_t slip, uint16_t serial, uint32_t *list, size_t numbers);

/* Copies the bytes of the list's records, two numbers each, in order to the front of the output; answers how many. A lone last number is no
 * record. No: 7 NARROW (the lengths' sum, as a whole number, is more than the output's length), 11 LIST. */
slp_gathered slp_gather(const uint8_t *storage, size_t storage_length, const uint32_t *list, size_t numbers,
                        uint8_t *output, size_t output_length);

/* As slp_list, into a list of records; answers how many. Records past them are unchanged. No: 2 TORN, 3 SLIP, 7 NARROW. */
slp_answer slp_stretches(const uint8_t *pool, size_t pool_length, const uint8_t *storage, size_t storage_length,
                         uint16_t slip, uint16_t serial, slp_stretch *list, size_t records);

#ifdef __cplusplus
}
#endif

#endif
