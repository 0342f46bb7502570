/*
 * What is known of a sheet without the library: whether some pairing is perfect, whether a pairing
 * is optimum, and, where there are few blocks, all optimum pairings in dictionary order. Nothing
 * here goes the library's way: an optimum pairing is known by that no exchange along a cycle gains.
 */
#ifndef CHECKER_H
#define CHECKER_H

#include <stdbool.h>
#include <stddef.h>
#include <stdint.h>

/* The most blocks a plane of a sheet, and of one whose pairings are all gone through. */
enum { MOST = 64, FEW = 6 };

struct sheet {
    size_t n;
    bool stands[MOST][MOST];
    int64_t cost[MOST][MOST];
};

/* Reads an order file that is known to have no fault. */
void read_sheet(struct sheet *sheet, const uint8_t *file);

bool has_perfect_pairing(const struct sheet *sheet);

/* Whether the n bytes pair each left block with a right block of its own by a standing pair. */
bool is_perfect(const struct sheet *sheet, const uint8_t *pairing);

/* Lets two left blocks change their right blocks. */
void swap_blocks(uint8_t *pairing, size_t l, size_t k);

/* The total cost of a perfect pairing. */
int64_t total_cost(const struct sheet *sheet, const uint8_t *pairing);

/* Whether a perfect pairing is optimum. */
bool is_optimum(const struct sheet *sheet, const uint8_t *pairing);

/*
 * For at most FEW blocks: the first perfect pairing of that total cost in dictionary order that
 * comes after `pairing`, or the first of all where that is null. Whether there is one.
 */
bool following(const struct sheet *sheet, int64_t total, const uint8_t *pairing, uint8_t *found);

/* For at most FEW blocks: the least total cost of all perfect pairings, of which there is one. */
int64_t least_total(const struct sheet *sheet);

#endif
