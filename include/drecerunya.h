/*
 * Drecerunya: a proved lookup for pooled fares, for C and C++.
 *
 * LINKING
 *
 *     embed/archive                                writes target/staticlib/libdrecerunya.a
 *     cc -Iinclude program.c target/staticlib/libdrecerunya.a -o program
 *
 * The archive is for x86-64 Linux, serves position-independent programs and shared libraries, and needs nothing else: no C
 * library, no heap, no start-up call, and at most about 8 kilobytes of stack. It keeps nothing between calls, so calls on different
 * pools, and questions on one pool, may run at the same time.
 *
 * THE POOL
 *
 * All pairs are kept in a pool: an array of 4 (n + 1) numbers that the caller lends, with room for n pairs, n from 1 to 4095.
 * DRECERUNYA_CELLS(n) says how many numbers that is. Set it up once by drecerunya_set_up; then leave its cells to the calls.
 *
 *     cells 0 to 3             the mark 1, the root slot, the first free slot, the number of pairs
 *     cells 4i to 4i + 3       slot i, 1 to n: x, y, left, right; in a free slot 0, 0, 4294967295, the next free slot
 *
 * Slot number 0 means none. A pool is plain numbers, with no pointer in it: it may be copied, stored and lent again elsewhere.
 * Every call but drecerunya_set_up checks the whole pool first, so a damaged one is refused and never followed.
 *
 * PAIRS AND STRIPS
 *
 * A pair is [x, y]; no two stored pairs have the same x. A strip has a start, an end and a number, each 0 to 65535, with
 * start <= end. It is stored as the pair x = end * 65536 + number, y = start, and it covers slot u when start <= u <= end.
 *
 * SLICES
 *
 * A slice is a pointer and then its length, in elements and not in bytes. No two of the arrays that are lent to one call
 * overlap, `answer` among them. No pointer is null, not even where the length is 0. Nothing behind the end of a slice is touched.
 *
 * ANSWERS
 *
 * Every call gives a code. A call that takes `answer`, an array of five, writes there on every call
 *
 *     answer = { code, x, y, count, visits }
 *
 * where x and y are those of a found pair, count is the number of pairs listed, and visits is the number of tree slots that a
 * question visited; every field that a code has no use for is 0. Of the codes that a call can give, the first that holds is
 * given, in the order 1, 2, 9, 3, 4, 5, 6, 7, then 11, then what was found. Under every code but 0 and 10 no lent cell and no
 * lent byte changes (`answer` aside).
 */
#ifndef DRECERUNYA_H
#define DRECERUNYA_H

#include <stddef.h>
#include <stdint.h>

#ifdef __cplusplus
extern "C" {
#endif

/* The codes. */
enum {
    DRECERUNYA_DONE = 0,       /* done; found; listing complete, also with no match */
    DRECERUNYA_LENGTH = 1,     /* the pool's length is not 4 (n + 1) with n 1 to 4095 */
    DRECERUNYA_UNSOUND = 2,    /* the pool is not sound */
    DRECERUNYA_BACKWARDS = 3,  /* x0 > x1, v < u, or e < u */
    DRECERUNYA_TAKEN = 4,      /* x is stored, with whatever y */
    DRECERUNYA_FULL = 5,       /* no free slot */
    DRECERUNYA_MISSING = 6,    /* x is not stored */
    DRECERUNYA_OTHER = 7,      /* x is stored with another y */
    DRECERUNYA_NOTHING = 8,    /* nothing matches */
    DRECERUNYA_NO_STRIP = 9,   /* a start, end, number or asked slot over 65535, or start > end */
    DRECERUNYA_MORE = 10,      /* more matches than room */
    DRECERUNYA_SHORT = 11      /* too few bytes for the book */
};

/* The length of a pool with room for n pairs, in cells. */
#define DRECERUNYA_CELLS(n) (((size_t)(n) + 1) * 4)

/* The length of the book of so many pairs, in bytes. */
#define DRECERUNYA_BOOK_BYTES(pairs) ((size_t)(pairs) * 8 + 5)

/*
 * Lays out a pool with nothing stored, whatever its cells held.
 * Codes: 0 done; 1 wrong length.
 * Writes: under 0 every cell of the pool.
 */
uint32_t drecerunya_set_up(uint32_t *pool, size_t len);

/*
 * Says whether a pool is sound.
 * Codes: 0 sound; 1 wrong length; 2 not sound.
 * Writes nothing.
 */
uint32_t drecerunya_check(const uint32_t *pool, size_t len);

/*
 * Stores the pair [x, y].
 * Codes: 0 stored; 1 wrong length; 2 not sound; 4 x is stored already, with whatever y; 5 no free slot.
 * Writes: the answer; under 0 the pool.
 */
uint32_t drecerunya_insert(uint32_t *pool, size_t len, uint32_t x, uint32_t y, uint32_t answer[5]);

/*
 * Takes the pair [x, y] out. It takes back an insert of the same pair, to the last cell, and an insert takes back a delete.
 * Codes: 0 taken out; 1 wrong length; 2 not sound; 6 x is not stored; 7 x is stored with another y.
 * Writes: the answer; under 0 the pool.
 */
uint32_t drecerunya_delete(uint32_t *pool, size_t len, uint32_t x, uint32_t y, uint32_t answer[5]);

/*
 * Of the pairs with x0 <= x <= x1 and y <= y1, finds the one with the smallest x.
 * Codes: 0 found, with x, y and visits; 1 wrong length; 2 not sound; 3 x0 > x1; 8 nothing matches, with visits.
 * Writes: the answer.
 */
uint32_t drecerunya_smallest_x(const uint32_t *pool, size_t len, uint32_t x0, uint32_t x1, uint32_t y1, uint32_t answer[5]);

/*
 * Of the pairs with x0 <= x <= x1 and y <= y1, finds the one with the largest x.
 * Codes: 0 found, with x, y and visits; 1 wrong length; 2 not sound; 3 x0 > x1; 8 nothing matches, with visits.
 * Writes: the answer.
 */
uint32_t drecerunya_largest_x(const uint32_t *pool, size_t len, uint32_t x0, uint32_t x1, uint32_t y1, uint32_t answer[5]);

/*
 * Of the pairs with x0 <= x <= x1, finds the one with the smallest y; on equal y the one with the smaller x.
 * Codes: 0 found, with x, y and visits; 1 wrong length; 2 not sound; 3 x0 > x1; 8 nothing matches, with visits.
 * Writes: the answer.
 */
uint32_t drecerunya_smallest_y(const uint32_t *pool, size_t len, uint32_t x0, uint32_t x1, uint32_t answer[5]);

/*
 * Lists the pairs with x0 <= x <= x1 and y <= y1 into `out`: x and y of each, two cells a pair, from its start. Its room is
 * out_len / 2 pairs, rounded down. They come in the order of the walk, a slot before those below it and the left side before the
 * right: neither by x nor by y.
 * Codes: 0 all are listed, with count (0 where nothing matches) and visits; 10 there are more matches than room: the first
 * ones fill it, count is the room, with visits; 1 wrong length; 2 not sound; 3 x0 > x1.
 * Writes: the answer; under 0 and 10 the first 2 * count cells of `out`.
 */
uint32_t drecerunya_listing(const uint32_t *pool, size_t len, uint32_t x0, uint32_t x1, uint32_t y1, uint32_t *out, size_t out_len,
                            uint32_t answer[5]);

/*
 * Opens a strip: its pair is stored.
 * Codes: 0 opened; 1 wrong length; 2 not sound; 9 a start, end or number over 65535, or start > end; 4 a strip with this end
 * and number is open already; 5 no free slot.
 * Writes: the answer; under 0 the pool.
 */
uint32_t drecerunya_open(uint32_t *pool, size_t len, uint32_t start, uint32_t end, uint32_t number, uint32_t answer[5]);

/*
 * Closes a strip: its pair is taken out. It takes back the opening of the same strip, to the last cell, and an opening takes
 * back a closing.
 * Codes: 0 closed; 1 wrong length; 2 not sound; 9 a start, end or number over 65535, or start > end; 6 no strip with this end
 * and number is open; 7 one is, with another start.
 * Writes: the answer; under 0 the pool.
 */
uint32_t drecerunya_close(uint32_t *pool, size_t len, uint32_t start, uint32_t end, uint32_t number, uint32_t answer[5]);

/*
 * Of the strips that cover slot u, finds the one that ends first; of those that end in the same slot, the lowest number.
 * Codes: 0 found, with its pair (x = end * 65536 + number, y = start) and visits; 1 wrong length; 2 not sound; 9 u over 65535;
 * 8 no strip covers u, with visits.
 * Writes: the answer.
 */
uint32_t drecerunya_first_to_end(const uint32_t *pool, size_t len, uint32_t u, uint32_t answer[5]);

/*
 * Of the strips that cover slot u and end no later than e, finds the one that ends last; of those that end in the same slot,
 * the highest number.
 * Codes: 0 found, with its pair and visits; 1 wrong length; 2 not sound; 9 u or e over 65535; 3 e < u; 8 there is none, with
 * visits.
 * Writes: the answer.
 */
uint32_t drecerunya_last_to_end(const uint32_t *pool, size_t len, uint32_t u, uint32_t e, uint32_t answer[5]);

/*
 * Lists the strips that cover slot u into `out`, as drecerunya_listing does.
 * Codes: 0 all are listed, with count and visits; 10 more than room, with count and visits; 1 wrong length; 2 not sound;
 * 9 u over 65535.
 * Writes: the answer; under 0 and 10 the first 2 * count cells of `out`.
 */
uint32_t drecerunya_list_covers(const uint32_t *pool, size_t len, uint32_t u, uint32_t *out, size_t out_len, uint32_t answer[5]);

/*
 * Lists the strips that cover some slot of u..v into `out`, as drecerunya_listing does.
 * Codes: 0 all are listed, with count and visits; 10 more than room, with count and visits; 1 wrong length; 2 not sound;
 * 9 u or v over 65535; 3 v < u.
 * Writes: the answer; under 0 and 10 the first 2 * count cells of `out`.
 */
uint32_t drecerunya_list_meets(const uint32_t *pool, size_t len, uint32_t u, uint32_t v, uint32_t *out, size_t out_len,
                               uint32_t answer[5]);

/*
 * Lists the strips that cover every slot of u..v into `out`, as drecerunya_listing does.
 * Codes: 0 all are listed, with count and visits; 10 more than room, with count and visits; 1 wrong length; 2 not sound;
 * 9 u or v over 65535; 3 v < u.
 * Writes: the answer; under 0 and 10 the first 2 * count cells of `out`.
 */
uint32_t drecerunya_list_contains(const uint32_t *pool, size_t len, uint32_t u, uint32_t v, uint32_t *out, size_t out_len,
                                  uint32_t answer[5]);

/*
 * Of the strips that end in u..v, finds the one with the earliest start; of those that start in the same slot, the first to
 * end, and then the lowest number.
 * Codes: 0 found, with its pair and visits; 1 wrong length; 2 not sound; 9 u or v over 65535; 3 v < u; 8 there is none, with
 * visits.
 * Writes: the answer.
 */
uint32_t drecerunya_earliest_start(const uint32_t *pool, size_t len, uint32_t u, uint32_t v, uint32_t answer[5]);

/*
 * Writes the stored book into `bytes`: four bytes with the number of bytes that follow, a version byte 1, then x and y of four
 * bytes each per pair, by ascending x; every number has its highest byte first. DRECERUNYA_BOOK_BYTES says how many bytes the
 * book has; those beyond it stay as they are.
 * Codes: 0 written; 1 wrong length; 2 not sound; 11 too few bytes.
 * Writes: the answer; under 0 the first 5 + 8 * (number of pairs) bytes.
 */
uint32_t drecerunya_save(const uint32_t *pool, size_t len, uint8_t *bytes, size_t bytes_len, uint32_t answer[5]);

#ifdef __cplusplus
}
#endif

#endif
