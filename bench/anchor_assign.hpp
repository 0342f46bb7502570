// An assignment in plain C++, as fast as it was got: what can be paired at once is paired before
// any search, and the loops over right blocks are such as a compiler makes fast.
#pragma once
#include <cstdint>
#include <cstring>

namespace anchor {

constexpr int NONE = -1;

// More than any chain of costs, and small enough to be added to itself.
template <class Value> constexpr Value FAR = Value(1) << (8 * sizeof(Value) - 4);

// An assignment under way: who is paired with whom, what right blocks cost, and which left blocks
// are free.
template <int N, class Value> struct Pairing {
    int partner[N], owner[N];
    int free[N], free_count = 0;
    alignas(64) Value price[N];
    void pair(int l, int r) { partner[l] = r; owner[r] = l; }
};

// Each right block starts at the cost of its cheapest pair. A left block gets the first right block
// that it is cheapest with, and `wanted` counts them.
template <int N, class Value>
static inline void reduce_columns(const Value *costs, Pairing<N, Value> &p, int *wanted) {
    alignas(64) Value least[N];
    alignas(64) Value cheapest[N]; // as wide as a cost, so that both are chosen in one loop
    for (int r = 0; r < N; ++r) { least[r] = costs[r]; cheapest[r] = 0; }
    for (int l = 1; l < N; ++l) {
        const Value *row = costs + l * N;
        for (int r = 0; r < N; ++r) {
            bool less = row[r] < least[r];
            least[r] = less ? row[r] : least[r];
            cheapest[r] = less ? l : cheapest[r];
        }
    }
    for (int l = 0; l < N; ++l) { p.partner[l] = NONE; wanted[l] = 0; }
    for (int r = N - 1; r >= 0; --r) {
        p.price[r] = least[r];
        p.owner[r] = NONE;
        int l = static_cast<int>(cheapest[r]);
        if (++wanted[l] == 1) p.pair(l, r);
    }
}

// Whether so few left blocks are wanted that their right blocks' prices are far from those in the end.
template <int N> static inline bool wants_few(const int *wanted) {
    int count = 0;
    for (int l = 0; l < N; ++l) count += wanted[l] > 0;
    return 2 * count < N;
}

// Nobody is paired, and all prices are zero.
template <int N, class Value> static inline void start_at_zero(Pairing<N, Value> &p) {
    for (int k = 0; k < N; ++k) {
        p.partner[k] = p.owner[k] = NONE;
        p.price[k] = 0;
        p.free[p.free_count++] = k;
    }
}

// Where a left block is wanted by one right block alone, that one becomes as cheap as it can
// without being given up. The left blocks that no right block wants are free.
template <int N, class Value>
static inline void transfer(const Value *costs, Pairing<N, Value> &p, const int *wanted) {
    for (int l = 0; l < N; ++l) {
        if (wanted[l] == 0) p.free[p.free_count++] = l;
        if (wanted[l] != 1) continue;
        const Value *row = costs + l * N;
        alignas(64) Value price[N];
        std::memcpy(price, p.price, sizeof price);
        price[p.partner[l]] = -FAR<Value> / 2;
        Value second = FAR<Value> / 2;
        for (int r = 0; r < N; ++r) {
            Value excess = row[r] - price[r];
            second = excess < second ? excess : second;
        }
        p.price[p.partner[l]] -= second;
    }
}

// The cheapest and the second cheapest right block of a left block.
template <class Value> struct TwoLeast {
    Value least, second;
    int at, second_at;
};

template <int N, class Value>
static inline TwoLeast<Value> two_least(const Value *row, const Value *price) {
    Value excess[N], least = FAR<Value>, second = FAR<Value>;
    for (int r = 0; r < N; ++r) {
        excess[r] = row[r] - price[r];
        least = excess[r] < least ? excess[r] : least;
    }
    int at = 0, second_at = 0;
    while (excess[at] != least) ++at;
    excess[at] = FAR<Value>;
    for (int r = 0; r < N; ++r) second = excess[r] < second ? excess[r] : second;
    while (excess[second_at] != second && second_at < N - 1) ++second_at;
    return {least, second, at, second_at};
}

// Each free left block takes its cheapest right block and lowers the price by what the second
// cheapest costs more; whoever had it is free and goes on at once, for 4 * N turns at most.
template <int N, class Value>
static inline void reduce_rows(const Value *costs, Pairing<N, Value> &p) {
    int next = 0, turns = 0, count = p.free_count;
    p.free_count = 0;
    while (next < count) {
        int l = p.free[next++];
        TwoLeast<Value> two = two_least<N>(costs + l * N, p.price);
        bool dearer = two.least < two.second;
        int r = two.at;
        if (dearer) p.price[r] -= two.second - two.least;
        else if (p.owner[r] != NONE) r = two.second_at;
        int before = p.owner[r];
        p.pair(l, r);
        if (before == NONE) continue;
        p.partner[before] = NONE;
        if (dearer && ++turns < 4 * N) p.free[--next] = before;
        else p.free[p.free_count++] = before;
    }
}

// Pairs a free left block along the cheapest chain to a free right block.
template <int N, class Value>
static inline void search(const Value *costs, Pairing<N, Value> &p, int start) {
    alignas(64) Value way[N], from[N], closed[N] = {}; // FAR where a right block was reached
    for (int r = 0; r < N; ++r) way[r] = FAR<Value>;
    int reached[N], count = 0, at = NONE;
    Value off = 0, nearest;
    for (int l = start;; l = p.owner[at]) {
        const Value *row = costs + l * N;
        nearest = FAR<Value>;
        for (int r = 0; r < N; ++r) {
            Value here = row[r] - p.price[r] - off + closed[r];
            bool less = here < way[r];
            way[r] = less ? here : way[r];
            from[r] = less ? l : from[r];
            Value open = way[r] + closed[r];
            nearest = open < nearest ? open : nearest;
        }
        for (int r = 0; r < N; ++r)
            if (way[r] == nearest && !closed[r]) { at = r; if (p.owner[r] == NONE) break; }
        if (p.owner[at] == NONE) break;
        closed[at] = FAR<Value>;
        reached[count++] = at;
        off = costs[p.owner[at] * N + at] - p.price[at] - nearest;
    }
    for (int k = 0; k < count; ++k) p.price[reached[k]] += way[reached[k]] - nearest;
    for (int l = NONE; l != start;) {
        l = static_cast<int>(from[at]);
        int next = p.partner[l];
        p.pair(l, at);
        at = next;
    }
}

// An optimum pairing of full costs, and some prices of right blocks.
template <int N, class Value>
static inline void assign(const Value *costs, Pairing<N, Value> &p) {
    int wanted[N];
    reduce_columns(costs, p, wanted);
    if (wants_few<N>(wanted)) start_at_zero(p);
    else transfer(costs, p, wanted);
    for (int turn = 0; turn < 2; ++turn) reduce_rows(costs, p);
    for (int k = 0; k < p.free_count; ++k) search(costs, p, p.free[k]);
}

} // namespace anchor
