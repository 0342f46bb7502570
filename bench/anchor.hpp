// The complete job of the calls in plain C++: settling (the tables are tested, an optimum pairing
// is found, the greatest prices, and the first pairing), a step of the walk and the marks, with all
// their tests. It is what the proved calls are measured by, and what their results are compared to.
#pragma once
#include "anchor_assign.hpp"
#include "two.hpp"
#include <cstdint>
#include <cstring>

namespace anchor {

// What a call answers.
enum Answer { DONE = 0, REFUSED = 1, LAST = 100 };

// A set of blocks in a word, bit k for block k.
using Set = uint64_t;

inline int first_of(Set set) { return __builtin_ctzll(set); }
inline Set bit(int k) { return Set(1) << k; }
inline Set above(int k) { return k == 63 ? 0 : ~Set(0) << (k + 1); }
template <int N> constexpr Set ALL = ~Set(0) >> (64 - N);

constexpr uint64_t ONES = 0x0101010101010101, GATHER = 0x0102040810204080;

// The set of the places where eight bytes are 1, if each of them is 0 or 1.
static inline Set eight_of(const uint8_t *bytes) {
    uint64_t eight;
    std::memcpy(&eight, bytes, 8);
    return eight * GATHER >> 56;
}

// The other way round.
template <int N> static inline void write_bytes(Set set, uint8_t *bytes) {
    for (int k = 0; k < N; k += 8) {
        uint64_t eight = ((set >> k & 255) * ONES) & 0x8040201008040201;
        eight = ((eight + 0x7f7f7f7f7f7f7f7f) | eight) >> 7 & ONES;
        std::memcpy(bytes + k, &eight, 8);
    }
}

// The tables that a call is lent.
template <class Value> struct Tables {
    const Value *costs;
    const uint8_t *standing;
    const uint16_t *partners;
    const Value *left, *right;
};

// Whether no byte is above 1 and no standing cost too far from zero; `rows`: the standing pairs.
template <int N, class Value>
static inline bool in_order(const Value *costs, const uint8_t *standing, Set *rows) {
    uint64_t bad = 0;
    for (int l = 0; l < N; ++l) {
        const uint8_t *bytes = standing + l * N;
        const Value *row = costs + l * N;
        uint8_t wrong = 0;
        for (int r = 0; r < N; ++r) wrong |= bytes[r] > 1;
        uint64_t far = 0;
        for (int r = 0; r < N; ++r) far |= uint64_t(bytes[r] & 1) & is_far<Value>(row[r]);
        bad |= wrong | far;
        Set row_set = 0;
        for (int k = 0; k < N; k += 8) row_set |= eight_of(bytes + k) << k;
        rows[l] = row_set;
    }
    return !bad;
}

template <int N, class Value> static inline bool are_prices(const Value *prices) {
    uint64_t far = 0;
    for (int k = 0; k < N; ++k) far |= is_far_price<Value>(prices[k]);
    return !far;
}

// Whether no standing pair costs less than its two prices; `tight`: those that cost just as much.
template <int N, class Value>
static inline bool find_tight(const Value *costs, const Set *standing, const Value *left,
                              const Value *right, Set *tight) {
    Set under = 0;
    for (int l = 0; l < N; ++l) {
        const Value *row = costs + l * N;
        Value price = left[l];
        uint8_t less[N], equal[N];
        for (int r = 0; r < N; ++r) {
            Value both = price + right[r];
            less[r] = both > row[r];
            equal[r] = both == row[r];
        }
        Set just = 0, more = 0;
        for (int k = 0; k < N; k += 8) {
            just |= eight_of(equal + k) << k;
            more |= eight_of(less + k) << k;
        }
        tight[l] = just & standing[l];
        under |= more & standing[l];
    }
    return !under;
}

// Whether the list is a perfect pairing over the rows.
template <int N> static inline bool pairs(const Set *rows, const uint16_t *list) {
    Set free = ALL<N>;
    bool good = true;
    for (int l = 0; l < N; ++l) {
        if (list[l] >= N) return false;
        good &= (rows[l] & free & bit(list[l])) != 0;
        free &= ~bit(list[l]);
    }
    return good;
}

// Whether the tables hold together; `tight`: the tight pairs.
template <int N, class Value> static inline bool holds(const Tables<Value> &t, Set *tight) {
    Set standing[N];
    return in_order<N>(t.costs, t.standing, standing) & are_prices<N>(t.left) &
               are_prices<N>(t.right) &&
           find_tight<N>(t.costs, standing, t.left, t.right, tight) && pairs<N>(tight, t.partners);
}

template <int N> static inline void transpose(const Set *rows, Set *columns) {
    for (int r = 0; r < N; ++r) columns[r] = 0;
    for (int l = 0; l < N; ++l)
        for (Set rest = rows[l]; rest; rest &= rest - 1) columns[first_of(rest)] |= bit(l);
}

// Left block l takes the first of the `wanted` right blocks that it can while all before it keep
// theirs. A search back from its own right block finds who could move on, and to where.
template <int N>
static inline bool improve(const Set *columns, uint16_t *list, uint8_t *owner, int l, Set wanted) {
    if (!wanted) return false;
    uint8_t target[64];
    int freed = list[l];
    Set front = columns[freed] & above(l), seen = front, reach = 0;
    for (Set rest = front; rest; rest &= rest - 1) target[first_of(rest)] = uint8_t(freed);
    while (front) {
        int m = first_of(front), from = list[m];
        front &= front - 1;
        reach |= bit(from);
        Set more = columns[from] & above(l) & ~seen;
        seen |= more;
        front |= more;
        for (Set rest = more; rest; rest &= rest - 1) target[first_of(rest)] = uint8_t(from);
    }
    if (!(wanted & reach)) return false;
    int r = first_of(wanted & reach), m = owner[r];
    list[l] = uint16_t(r);
    owner[r] = uint8_t(l);
    for (;;) {
        int to = target[m], next = owner[to];
        list[m] = uint16_t(to);
        owner[to] = uint8_t(m);
        if (to == freed) return true;
        m = next;
    }
}

// The first pairing in dictionary order among those that keep the pairs before left block `start`.
template <int N>
static inline void make_first(const Set *rows, const Set *columns, uint16_t *list, uint8_t *owner,
                              int start) {
    Set used = 0;
    for (int l = 0; l < start; ++l) used |= bit(list[l]);
    for (int l = start; l < N; ++l) {
        improve<N>(columns, list, owner, l, rows[l] & ~used & (bit(list[l]) - 1));
        used |= bit(list[l]);
    }
}

// The greatest prices of right blocks: a search from an imagined left block that costs 0 with each.
template <int N, class Value>
static inline void find_greatest(const Value *costs, const Pairing<N, Value> &p, Value *way) {
    alignas(64) Value closed[N] = {};
    for (int r = 0; r < N; ++r) way[r] = 0;
    for (int turn = 0; turn < N; ++turn) {
        Value nearest = FAR<Value> * 4;
        for (int r = 0; r < N; ++r) {
            Value here = way[r] - p.price[r] + closed[r];
            nearest = here < nearest ? here : nearest;
        }
        int at = 0;
        while (way[at] - p.price[at] + closed[at] != nearest) ++at;
        closed[at] = FAR<Value>;
        const Value *row = costs + p.owner[at] * N;
        Value off = way[at] - row[at];
        for (int r = 0; r < N; ++r) { // those that are closed cannot fall
            Value here = row[r] + off;
            way[r] = here < way[r] ? here : way[r];
        }
    }
}

// The costs with more than any pairing costs where a pair is absent, or the costs themselves.
template <int N, class Value>
static inline const Value *fill_absent(const Value *costs, const uint8_t *standing, const Set *rows,
                                       Value *copy) {
    Set full = ALL<N>;
    for (int l = 0; l < N; ++l) full &= rows[l];
    if (full == ALL<N>) return costs;
    for (int k = 0; k < N * N; ++k) copy[k] = standing[k] ? costs[k] : ABSENT<Value>;
    return copy;
}

template <int N, class Value>
static inline Answer settle(const Value *costs, const uint8_t *standing, uint16_t *partners,
                            Value *left, Value *right) {
    Set rows[N], tight[N], columns[N];
    if (!in_order<N>(costs, standing, rows)) return REFUSED;
    alignas(64) Value copy[N * N], way[N];
    const Value *full = fill_absent<N>(costs, standing, rows, copy);
    Pairing<N, Value> p;
    assign(full, p);
    for (int l = 0; l < N; ++l)
        if (!(rows[l] & bit(p.partner[l]))) return REFUSED;
    find_greatest(full, p, way);
    uint8_t owner[N];
    for (int l = 0; l < N; ++l) {
        int r = p.partner[l];
        right[l] = way[l];
        left[l] = full[l * N + r] - way[r];
        partners[l] = uint16_t(r);
        owner[r] = uint8_t(l);
    }
    find_tight<N>(costs, rows, left, right, tight);
    transpose<N>(tight, columns);
    make_first<N>(tight, columns, partners, owner, 0);
    return DONE;
}

template <int N, class Value> static inline Answer next(const Tables<Value> &t, uint16_t *list) {
    Set tight[N], columns[N];
    if (!holds<N>(t, tight) || !pairs<N>(tight, list)) return REFUSED;
    transpose<N>(tight, columns);
    uint8_t owner[N];
    for (int l = 0; l < N; ++l) owner[list[l]] = uint8_t(l);
    Set later = 0;
    for (int l = N - 1; l >= 0; --l) {
        if (improve<N>(columns, list, owner, l, tight[l] & later & above(list[l]))) {
            make_first<N>(tight, columns, list, owner, l + 1);
            return DONE;
        }
        later |= bit(list[l]);
    }
    return LAST;
}

// A pair is in some optimum pairing if a chain leads from its right block back to the one that its
// left block has. `reach` says where chains lead from each right block.
template <int N, class Value> static inline Answer marks(const Tables<Value> &t, uint8_t *table) {
    Set tight[N], reach[N], back[N];
    if (!holds<N>(t, tight)) return REFUSED;
    for (int l = 0; l < N; ++l) reach[t.partners[l]] = tight[l];
    for (int k = 0; k < N; ++k) {
        Set through = reach[k];
        for (int r = 0; r < N; ++r) reach[r] |= through & -(reach[r] >> k & 1);
    }
    transpose<N>(reach, back);
    for (int l = 0; l < N; ++l)
        write_bytes<N>(tight[l] & back[t.partners[l]], table + l * N);
    return DONE;
}

} // namespace anchor
