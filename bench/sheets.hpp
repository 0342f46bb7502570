// The classes of sheets that are measured: each is a rule for which pairs stand and what they cost.
#pragma once
#include <algorithm>
#include <cstdint>
#include <numeric>
#include <random>
#include <stdexcept>
#include <string>
#include <vector>

namespace sheets {

constexpr int64_t MOST_COST = 1000000000;

// n left and n right blocks; the place of left block l and right block r is l * n + r.
struct Sheet {
    int n;
    std::vector<int64_t> costs;
    std::vector<uint8_t> standing;
};

using Random = std::mt19937_64;

// From -MOST_COST to MOST_COST.
inline int64_t any_cost(Random &random) {
    return static_cast<int64_t>(random() % (2 * MOST_COST + 1)) - MOST_COST;
}

// A sheet where every pair stands, at the cost that the rule gives it.
template <class Rule> Sheet full(int n, Rule rule) {
    Sheet sheet{n, std::vector<int64_t>(n * n), std::vector<uint8_t>(n * n, 1)};
    for (int k = 0; k < n * n; ++k) sheet.costs[k] = rule(k / n, k % n);
    return sheet;
}

// A sheet where a pair stands, at cost 0, if the rule says so.
template <class Rule> Sheet partial(int n, Rule rule) {
    Sheet sheet{n, std::vector<int64_t>(n * n, 0), std::vector<uint8_t>(n * n)};
    for (int k = 0; k < n * n; ++k) sheet.standing[k] = rule(k / n, k % n);
    return sheet;
}

// A perfect pairing and four more pairs for each left block, some of them named twice.
inline Sheet sparse(int n, Random &random) {
    Sheet sheet = partial(n, [](int, int) { return false; });
    std::vector<int> partners(n);
    std::iota(partners.begin(), partners.end(), 0);
    std::shuffle(partners.begin(), partners.end(), random);
    for (int l = 0; l < n; ++l) {
        sheet.standing[l * n + partners[l]] = 1;
        for (int k = 0; k < 4; ++k) sheet.standing[l * n + random() % n] = 1;
    }
    for (int k = 0; k < n * n; ++k)
        if (sheet.standing[k]) sheet.costs[k] = any_cost(random);
    return sheet;
}

// The sheets whose costs are drawn.
inline Sheet drawn(const std::string &name, int n, Random &random) {
    if (name == "random") return full(n, [&](int, int) { return any_cost(random); });
    if (name == "near") return full(n, [&](int, int) { return random() % 4; });
    if (name == "sparse") return sparse(n, random);
    // Every right block is cheapest with left block 0, so that only one pair is made at once.
    if (name == "one-cheap")
        return full(n, [&](int l, int r) {
            return l == 0 ? r - MOST_COST : static_cast<int64_t>(random() % 1000000);
        });
    // The same, and what tells the others apart is small beside what all of them cost.
    if (name == "lateral")
        return full(n, [&](int l, int) { return 1000 * int64_t(l) + int64_t(random() % 1000); });
    throw std::invalid_argument("no class of sheets is called " + name);
}

// The sheet of a class, the same one for the same seed.
inline Sheet make(const std::string &name, int n, uint64_t seed) {
    if (name == "equal") return full(n, [](int, int) { return 7; });
    if (name == "products") return full(n, [](int l, int r) { return (l + 1) * (r + 1); });
    if (name == "reversed") return full(n, [n](int l, int r) { return (n - l) * (r + 1); });
    if (name == "squares") return full(n, [](int l, int r) { return -(l - r) * (l - r); });
    // A walk's steps change pairs far up.
    if (name == "hessenberg") return partial(n, [](int l, int r) { return r <= l + 1; });
    // Two perfect pairings, and each search goes round the whole ring.
    if (name == "cycle")
        return partial(n, [n](int l, int r) { return r == l || r == (l + 1) % n; });
    // One perfect pairing, and many steps that are tried in vain.
    if (name == "upper") return partial(n, [](int l, int r) { return r >= l; });
    // The same by costs: every pair stands, and these are the tight ones.
    if (name == "tight-upper") return full(n, [](int l, int r) { return r >= l ? 0 : 1; });
    Random random(seed * 1000003 + n);
    return drawn(name, n, random);
}

} // namespace sheets
