// Loading and saving an order file in plain C++, with the checks that the proved calls make.
#pragma once
#include <cstddef>
#include <cstdint>
#include <cstring>

namespace order_file {

// What is refused, by the numbers of the proved calls.
enum Refusal {
    NONE = 0, SIZE = 1, TABLE_LENGTH = 2, BLOCK = 3, COST_RANGE = 4, INCONSISTENT = 7, OVERRUN = 8,
    TAG = 9, FIELD_LENGTH = 10, SHORT_BUFFER = 11
};

constexpr uint8_t SIZE_TAG = 1, PAIR_TAG = 2, END_TAG = 3;
constexpr size_t SIZE_FIELD = 4, PAIR_FIELD = 13, END_FIELD = 3, HEAD = 3;
constexpr uint64_t COST_LIMIT = 1000000000;

inline bool is_far(int64_t cost) { return uint64_t(cost) + COST_LIMIT > 2 * COST_LIMIT; }

// The tables that a file is loaded into.
struct Tables {
    int64_t *costs;
    uint8_t *standing;
};

// Enters a reading of the pair at a place: of a pair that stands the greater cost stays.
static inline void enter(const Tables &tables, int at, int64_t reading) {
    if (tables.standing[at] != 1 || tables.costs[at] < reading) tables.costs[at] = reading;
    tables.standing[at] = 1;
}

// Reads the value of a pair field, and enters the pair where there are tables.
static inline Refusal read_pair(const uint8_t *value, size_t length, int n, const Tables *tables) {
    if (length != PAIR_FIELD - HEAD) return FIELD_LENGTH;
    int l = value[0], r = value[1];
    if (l >= n || r >= n) return BLOCK;
    uint64_t big_endian;
    std::memcpy(&big_endian, value + 2, sizeof big_endian);
    int64_t cost = static_cast<int64_t>(__builtin_bswap64(big_endian));
    if (is_far(cost)) return COST_RANGE;
    if (tables) enter(*tables, l * n + r, cost);
    return NONE;
}

static inline Refusal read_size(const uint8_t *value, uint8_t tag, size_t length, int &n) {
    if (tag != SIZE_TAG) return TAG;
    if (length != SIZE_FIELD - HEAD) return FIELD_LENGTH;
    n = value[0];
    return n == 0 || n > 64 ? SIZE : NONE;
}

// Reads a whole file: its size field, its pair fields and its end field, and nothing behind it.
static inline Refusal read(const uint8_t *file, size_t length, int &n, const Tables *tables) {
    n = 0;
    for (size_t at = 0;;) {
        if (length - at < HEAD) return OVERRUN;
        uint8_t tag = file[at];
        size_t value_length = size_t(file[at + 1]) << 8 | file[at + 2];
        if (length - at < HEAD + value_length) return OVERRUN;
        const uint8_t *value = file + at + HEAD;
        at += HEAD + value_length;
        Refusal refusal = NONE;
        if (n == 0) refusal = read_size(value, tag, value_length, n);
        else if (tag == PAIR_TAG) refusal = read_pair(value, value_length, n, tables);
        else if (tag != END_TAG) refusal = TAG;
        else if (value_length != 0) refusal = FIELD_LENGTH;
        else return at == length ? NONE : TAG;
        if (refusal != NONE) return refusal;
    }
}

// Nothing is written unless all of the file can be.
static inline Refusal load(const uint8_t *file, size_t length, int64_t *costs, uint8_t *standing,
                           size_t places) {
    int n;
    Refusal refusal = read(file, length, n, nullptr);
    if (refusal != NONE) return refusal;
    if (places != size_t(n) * n) return TABLE_LENGTH;
    std::memset(costs, 0, places * sizeof *costs);
    std::memset(standing, 0, places);
    Tables tables{costs, standing};
    return read(file, length, n, &tables);
}

// The length of the file of a sheet, or 0 where its tables are not in order.
static inline size_t length_of(int n, const int64_t *costs, const uint8_t *standing) {
    size_t pairs = 0;
    bool bad = false;
    for (int k = 0; k < n * n; ++k) {
        pairs += standing[k] & 1;
        bad |= standing[k] > 1 || (standing[k] && is_far(costs[k]));
    }
    return bad ? 0 : SIZE_FIELD + PAIR_FIELD * pairs + END_FIELD;
}

// Writes the fields of the standing pairs, and answers the end of them.
static inline uint8_t *write_pairs(int n, const int64_t *costs, const uint8_t *standing,
                                   uint8_t *out) {
    for (int l = 0; l < n; ++l)
        for (int r = 0; r < n; ++r) {
            if (!standing[l * n + r]) continue;
            out[0] = PAIR_TAG;
            out[1] = 0;
            out[2] = PAIR_FIELD - HEAD;
            out[3] = uint8_t(l);
            out[4] = uint8_t(r);
            uint64_t cost = __builtin_bswap64(static_cast<uint64_t>(costs[l * n + r]));
            std::memcpy(out + 5, &cost, sizeof cost);
            out += PAIR_FIELD;
        }
    return out;
}

static inline Refusal save(int n, const int64_t *costs, const uint8_t *standing, uint8_t *out,
                           size_t room) {
    size_t length = length_of(n, costs, standing);
    if (length == 0) return INCONSISTENT;
    if (room < length) return SHORT_BUFFER;
    const uint8_t head[] = {SIZE_TAG, 0, 1, uint8_t(n)}, end[] = {END_TAG, 0, 0};
    std::memcpy(out, head, sizeof head);
    std::memcpy(write_pairs(n, costs, standing, out + sizeof head), end, sizeof end);
    return NONE;
}

} // namespace order_file
