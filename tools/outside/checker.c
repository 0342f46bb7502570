/* What is known of a sheet without the library; see checker.h. */
#include "checker.h"
#include <string.h>

enum { SIZE_AT = 3, SIZE_FIELD = 4, PAIR_TAG = 2, PAIR_FIELD = 13, LEFT_AT = 3, RIGHT_AT = 4,
       COST_AT = 5, COST_BYTES = 8 };

static int64_t read_cost(const uint8_t *bytes)
{
    uint64_t cost = 0;
    for (size_t k = 0; k < COST_BYTES; ++k)
        cost = cost << 8 | bytes[k];
    return (int64_t)cost;
}

void read_sheet(struct sheet *sheet, const uint8_t *file)
{
    memset(sheet, 0, sizeof *sheet);
    sheet->n = file[SIZE_AT];
    for (file += SIZE_FIELD; file[0] == PAIR_TAG; file += PAIR_FIELD) {
        const size_t l = file[LEFT_AT], r = file[RIGHT_AT];
        const int64_t cost = read_cost(file + COST_AT);
        /* of several costs of a pair the greatest counts */
        if (!sheet->stands[l][r] || sheet->cost[l][r] < cost)
            sheet->cost[l][r] = cost;
        sheet->stands[l][r] = true;
    }
}

/* ---- Whether some pairing is perfect, by chains from each left block in turn */

enum { NOBODY = MOST };

struct search {
    const struct sheet *sheet;
    size_t owner[MOST];
    bool tried[MOST];
};

/* Whether left block l can be given a right block, if others change theirs. */
static bool can_pair(struct search *search, size_t l)
{
    for (size_t r = 0; r < search->sheet->n; ++r) {
        if (!search->sheet->stands[l][r] || search->tried[r])
            continue;
        search->tried[r] = true;
        if (search->owner[r] == NOBODY || can_pair(search, search->owner[r])) {
            search->owner[r] = l;
            return true;
        }
    }
    return false;
}

bool has_perfect_pairing(const struct sheet *sheet)
{
    struct search search = {.sheet = sheet};
    for (size_t r = 0; r < MOST; ++r)
        search.owner[r] = NOBODY;
    for (size_t l = 0; l < sheet->n; ++l) {
        memset(search.tried, 0, sizeof search.tried);
        if (!can_pair(&search, l))
            return false;
    }
    return true;
}

/* ---- A pairing */

bool is_perfect(const struct sheet *sheet, const uint8_t *pairing)
{
    bool taken[MOST] = {false};
    for (size_t l = 0; l < sheet->n; ++l) {
        const size_t r = pairing[l];
        if (r >= sheet->n || taken[r] || !sheet->stands[l][r])
            return false;
        taken[r] = true;
    }
    return true;
}

void swap_blocks(uint8_t *pairing, size_t l, size_t k)
{
    const uint8_t kept = pairing[l];
    pairing[l] = pairing[k];
    pairing[k] = kept;
}

int64_t total_cost(const struct sheet *sheet, const uint8_t *pairing)
{
    int64_t total = 0;
    for (size_t l = 0; l < sheet->n; ++l)
        total += sheet->cost[l][pairing[l]];
    return total;
}

/*
 * Lets each left block gain by taking another one's right block, which then gains likewise: one
 * round over all of them. Whether anything changed.
 */
static bool gain(const struct sheet *sheet, const uint8_t *pairing, int64_t *gained)
{
    bool changed = false;
    for (size_t l = 0; l < sheet->n; ++l)
        for (size_t k = 0; k < sheet->n; ++k) {
            const size_t r = pairing[k];
            if (!sheet->stands[l][r])
                continue;
            const int64_t by_this = sheet->cost[l][r] - sheet->cost[k][r] + gained[k];
            if (by_this < gained[l]) {
                gained[l] = by_this;
                changed = true;
            }
        }
    return changed;
}

/* Where no cycle gains, the best chains have fewer than n links, so n rounds come to rest. */
bool is_optimum(const struct sheet *sheet, const uint8_t *pairing)
{
    int64_t gained[MOST] = {0};
    if (!is_perfect(sheet, pairing))
        return false;
    for (size_t round = 0; round < sheet->n; ++round)
        if (!gain(sheet, pairing, gained))
            return true;
    return false;
}

/* ---- All pairings, of few blocks */

/* Where the longest end of the n bytes begins that falls all the way. */
static size_t falling_end(const uint8_t *bytes, size_t n)
{
    size_t at = n - 1;
    while (at > 0 && bytes[at - 1] > bytes[at])
        --at;
    return at;
}

/* Goes to the next order of the n bytes in dictionary order; false, and no change, at the last. */
static bool next_order(uint8_t *bytes, size_t n)
{
    const size_t at = falling_end(bytes, n);
    size_t larger = n - 1;
    if (at == 0)
        return false;
    while (bytes[larger] < bytes[at - 1])
        --larger;
    swap_blocks(bytes, at - 1, larger);
    for (size_t from = at, to = n - 1; from < to; ++from, --to)
        swap_blocks(bytes, from, to);
    return true;
}

static void first_order(uint8_t *bytes, size_t n)
{
    for (size_t l = 0; l < n; ++l)
        bytes[l] = (uint8_t)l;
}

bool following(const struct sheet *sheet, int64_t total, const uint8_t *pairing, uint8_t *found)
{
    bool more = true;
    if (pairing == NULL)
        first_order(found, sheet->n);
    else {
        memcpy(found, pairing, sheet->n);
        more = next_order(found, sheet->n);
    }
    while (more && !(is_perfect(sheet, found) && total_cost(sheet, found) == total))
        more = next_order(found, sheet->n);
    return more;
}

int64_t least_total(const struct sheet *sheet)
{
    uint8_t pairing[FEW];
    int64_t least = INT64_MAX;
    first_order(pairing, sheet->n);
    do {
        if (is_perfect(sheet, pairing) && total_cost(sheet, pairing) < least)
            least = total_cost(sheet, pairing);
    } while (next_order(pairing, sheet->n));
    return least;
}
