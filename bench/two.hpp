// Costs as the anchor takes them: plain ones are 64-bit numbers, and two-step ones are the 128-bit
// numbers that have the same sums and the same order. C calls are handed the latter as two numbers.
#pragma once
#include <cstdint>

// A cost of two steps, as crates/bench_calls lays it out.
struct Two {
    int64_t first, second;
};

namespace anchor {

// One number for two steps: the second ones stay far below half of a unit of the first ones.
using Wide = __int128;
constexpr Wide UNIT = Wide(1) << 50;
inline Wide wide(Two two) { return two.first * UNIT + two.second; }

constexpr int64_t COST_LIMIT = 1000000000, PRICE_LIMIT = 1000000000000;

// Whether a cost, or a price, is not within its limit. Of a two-step one the first step is looked
// at alone: the anchor is handed these only where the proved call has accepted them.
template <class Value> static inline uint64_t is_far(Value cost) {
    return uint64_t(cost) + COST_LIMIT > uint64_t(2 * COST_LIMIT);
}
template <class Value> static inline uint64_t is_far_price(Value price) {
    return uint64_t(price) + PRICE_LIMIT > uint64_t(2 * PRICE_LIMIT);
}
template <> inline uint64_t is_far<Wide>(Wide) { return 0; }
template <> inline uint64_t is_far_price<Wide>(Wide) { return 0; }

// More than a chain of standing pairs can cost.
template <class Value> constexpr Value ABSENT = 1000000000000;
template <> constexpr Wide ABSENT<Wide> = 1000000000000 * UNIT;

} // namespace anchor
