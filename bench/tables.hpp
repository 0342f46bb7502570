// The tables of a sheet with the calls on them, once by the proved code and once by the anchor, and
// the test that the two of them say the same.
#pragma once
#include "anchor.hpp"
#include "calls.hpp"
#include "sheets.hpp"
#include <algorithm>
#include <cstring>
#include <string>
#include <vector>

// So many steps of a walk are made on each sheet, or those up to the last pairing.
constexpr int STEPS = 10;

// The tables of a kind of costs that the proved calls are handed.
template <int N, class Cost> struct Proved {
    std::vector<Cost> costs;
    std::vector<uint8_t> standing;
    uint16_t partners[N];
    Cost left[N], right[N];

    uint32_t settle() {
        return Calls<Cost>::settle(costs.data(), costs.size(), standing.data(), standing.size(),
                                   partners, N, left, N, right, N);
    }
    uint32_t next(uint16_t *list) const {
        return Calls<Cost>::next(costs.data(), costs.size(), standing.data(), standing.size(),
                                 partners, N, left, N, right, N, list, N);
    }
    uint32_t marks(uint8_t *table) const {
        return Calls<Cost>::marks(costs.data(), costs.size(), standing.data(), standing.size(),
                                  partners, N, left, N, right, N, table, N * N);
    }
};

// The same for the anchor.
template <int N, class Value> struct Anchored {
    std::vector<Value> costs;
    std::vector<uint8_t> standing;
    uint16_t partners[N];
    Value left[N], right[N];

    anchor::Tables<Value> lent() const {
        return {costs.data(), standing.data(), partners, left, right};
    }
    uint32_t settle() {
        return anchor::settle<N>(costs.data(), standing.data(), partners, left, right);
    }
    uint32_t next(uint16_t *list) const { return anchor::next<N>(lent(), list); }
    uint32_t marks(uint8_t *table) const { return anchor::marks<N>(lent(), table); }
};

// Walks on from the settled pairing, and answers how many calls were made, or 0 where one of them
// was refused.
template <int N, class Tables> int walk(const Tables &tables) {
    uint16_t list[N];
    std::memcpy(list, tables.partners, sizeof list);
    for (int steps = 1;; ++steps) {
        uint32_t answer = tables.next(list);
        if (answer != anchor::DONE && answer != anchor::LAST) return 0;
        if (answer == anchor::LAST || steps == STEPS) return steps;
    }
}

inline int64_t value_of(int64_t cost) { return cost; }
inline anchor::Wide value_of(Two cost) { return anchor::wide(cost); }

template <int N, class Cost, class Value>
bool same_walks(const Proved<N, Cost> &proved, const Anchored<N, Value> &anchored) {
    uint16_t list[N], other[N];
    std::memcpy(list, proved.partners, sizeof list);
    std::memcpy(other, anchored.partners, sizeof other);
    for (int step = 0; step < STEPS; ++step) {
        uint32_t answer = proved.next(list);
        if (answer != anchored.next(other) || std::memcmp(list, other, sizeof list) != 0)
            return false;
        if (answer != anchor::DONE) return answer == anchor::LAST;
    }
    return true;
}

// What the two differ in, or nothing. Both are settled then.
template <int N, class Cost, class Value>
std::string difference(Proved<N, Cost> &proved, Anchored<N, Value> &anchored) {
    if (proved.settle() != anchor::DONE || anchored.settle() != anchor::DONE) return "not settled";
    if (!std::equal(proved.partners, proved.partners + N, anchored.partners)) return "partners";
    for (int k = 0; k < N; ++k)
        if (value_of(proved.left[k]) != anchored.left[k] ||
            value_of(proved.right[k]) != anchored.right[k])
            return "prices";
    if (!same_walks(proved, anchored)) return "walks";
    std::vector<uint8_t> table(N * N, 2), other(N * N, 3);
    if (proved.marks(table.data()) != anchor::DONE || anchored.marks(other.data()) != anchor::DONE)
        return "no marks";
    return table == other ? "" : "marks";
}
