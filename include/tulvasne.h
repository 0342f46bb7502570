/*
 * The pairing core for a host in C: lists the optimum pairings of the sheet in an order file.
 *
 *     uint8_t out[TULVASNE_MOST_BLOCKS];
 *     uint32_t answer = tulvasne_first(file, file_len, out, sizeof out);
 *     while (answer == TULVASNE_OK) {
 *         size_t n = file[TULVASNE_SIZE_AT];
 *         ... left block l is paired with right block out[l], for each l below n ...
 *         answer = tulvasne_after(file, file_len, out, sizeof out);
 *     }
 *     if (answer != TULVASNE_END)
 *         ... the file is refused ...
 *
 * Link with the static library that `rt lib` makes in crates/chost, crates/chost/out/libchost.a.
 * It allocates nothing, keeps nothing from one call to the next, and calls nothing but memcpy,
 * memmove and memset. So calls in several threads, each with an `out` of its own, do not disturb
 * one another.
 *
 * A file may name a pair several times: the greatest of its costs counts, wherever it stands.
 *
 * docs/order-files.md has the format of an order file, docs/refusals.md all refusals.
 */
#ifndef TULVASNE_H
#define TULVASNE_H

#include <stddef.h>
#include <stdint.h>

#ifdef __cplusplus
extern "C" {
#endif

/* What a call answers: one of the first two, or the number of a refusal. */
enum {
    /* out holds the pairing that was asked for */
    TULVASNE_OK = 0,
    /* out holds the last pairing */
    TULVASNE_END = 100,

    /* in a size field: n is 0 or above 64 */
    TULVASNE_SIZE = 1,
    /* in a pair field: the left or the right block is n or more */
    TULVASNE_BLOCK = 3,
    /* in a pair field: the cost is not from -10^9 to 10^9 */
    TULVASNE_COST_RANGE = 4,
    /* the pairs of the file hold no perfect pairing */
    TULVASNE_NO_PERFECT_PAIRING = 6,
    /* the first n bytes of out are no optimum pairing */
    TULVASNE_INCONSISTENT = 7,
    /* a field runs past the file */
    TULVASNE_OVERRUN = 8,
    /* a field's tag is unknown or out of order */
    TULVASNE_TAG = 9,
    /* a field's length is not the one of its tag */
    TULVASNE_FIELD_LENGTH = 10,
    /* out has fewer than n bytes */
    TULVASNE_SHORT_BUFFER = 11
};

/* The greatest n: so many bytes of `out` are enough for every file. */
#define TULVASNE_MOST_BLOCKS 64

/* Where n, the number of blocks a plane, stands in every file that is not refused. */
#define TULVASNE_SIZE_AT 3

/*
 * Settles an order file and writes the first of its optimum pairings in dictionary order to `out`:
 * byte l is the right block of left block l, for each l below n. The bytes behind them stay.
 *
 * It answers TULVASNE_OK, or the first refusal of these, and then leaves `out` as it was:
 *
 *     8, 9, 10, 1, 3, 4   the file has a fault; the number is that of its first one
 *     11                  `out` has fewer than n bytes
 *     6                   no pairing is perfect
 *
 * `file` points to `file_len` bytes and `out` to `out_len` bytes. They do not overlap, and neither
 * is null, even where its length is 0. The same holds for the other call.
 */
uint32_t tulvasne_first(const uint8_t *file, size_t file_len, uint8_t *out, size_t out_len);

/*
 * Takes an optimum pairing from `out`, as either call leaves one there, and writes over it the
 * optimum pairing that comes next in dictionary order. The bytes behind the first n stay.
 *
 * It answers TULVASNE_OK; or TULVASNE_END where the pairing is the last one, or the first refusal
 * of these, and then leaves `out` as it was:
 *
 *     8, 9, 10, 1, 3, 4, 11, 6   as tulvasne_first, in the same order
 *     7                          the first n bytes of `out` are no optimum pairing
 */
uint32_t tulvasne_after(const uint8_t *file, size_t file_len, uint8_t *out, size_t out_len);

#ifdef __cplusplus
}
#endif

#endif
