// Makes the calls of bench/calls.hpp but those on texts, on tables of just the lengths that are
// stated, over the classes of bench/sheets.hpp, and tests what they answer and write: settled
// prices have to prove the pairing optimum, a refused call has to leave all tables, a saved file
// has to load again.
//
//     sheet_calls heap|fences few|many
//
// `few` are for a run under memcheck. It prints how many sheets there were, calls by answer, and
// errors; a line `wrong ..` tells of each error by the class and the size of its sheet, and the
// status is then 1. An access beyond a table is for the tools to see; see buffers.h.
#include "../../bench/calls.hpp"
#include "../../bench/sheets.hpp"
#include "lent.hpp"

namespace {

using namespace lent;

enum Answer : uint32_t { DONE = 0, REFUSED = 1, TABLE_LENGTH = 2, SHORT_BUFFER = 11, END = 100 };

constexpr int STEPS = 6;
const char *const CLASSES[] = {"random", "equal", "near", "sparse", "one-cheap", "lateral",
                               "products", "reversed", "squares", "hessenberg", "cycle", "upper",
                               "tight-upper"};

long sheets_tried;

template <class T> bool same(const std::vector<T> &some, const std::vector<T> &other) {
    return some.size() == other.size() &&
           (some.empty() || std::memcmp(some.data(), other.data(), some.size() * sizeof(T)) == 0);
}

// ---- The tables of a sheet, and the calls on them

template <class Cost> struct Tables {
    std::vector<Cost> costs;
    std::vector<uint8_t> standing;
    std::vector<uint16_t> partners;
    std::vector<Cost> left, right;

    bool operator==(const Tables &other) const {
        return same(costs, other.costs) && same(standing, other.standing) &&
               same(partners, other.partners) && same(left, other.left) &&
               same(right, other.right);
    }

    // Makes a call that takes all five tables, and maybe one more.
    template <class Call, class... More> uint32_t made(Call call, More... more) {
        Exact<Cost> c(costs), x(left), y(right);
        Exact<uint8_t> s(standing);
        Exact<uint16_t> p(partners);
        return counted(call(c.data(), c.size, s.data(), s.size, p.data(), p.size, x.data(), x.size,
                            y.data(), y.size, more...));
    }
    template <class Call> uint32_t settle(Call call) { return made(call); }
    uint32_t next(std::vector<uint16_t> &list) {
        Exact<uint16_t> walk(list);
        return made(Calls<Cost>::next, walk.data(), walk.size);
    }
    uint32_t marks(std::vector<uint8_t> &marked) {
        Exact<uint8_t> table(marked);
        return made(Calls<Cost>::marks, table.data(), table.size);
    }
};

int64_t exact(int64_t cost) { return cost; }
anchor::Wide exact(Two cost) { return anchor::wide(cost); }

int64_t cost_of(int64_t first, int64_t, int64_t) { return first; }
Two cost_of(int64_t first, int64_t second, Two) { return {first, second}; }

template <class Cost> Tables<Cost> tables_of(const sheets::Sheet &sheet) {
    Tables<Cost> t;
    for (int k = 0; k < sheet.n * sheet.n; ++k)
        t.costs.push_back(cost_of(sheet.costs[k], k * 37 % 11 - 5, Cost()));
    t.standing = sheet.standing;
    t.partners.assign(sheet.n, 60000);
    t.left.assign(sheet.n, cost_of(-1, -1, Cost()));
    t.right = t.left;
    return t;
}

// ---- What has to hold

template <class Cost> bool is_tight(const Tables<Cost> &t, int l, int r) {
    const size_t place = l * t.partners.size() + r;
    return t.standing[place] && exact(t.left[l]) + exact(t.right[r]) == exact(t.costs[place]);
}

// Whether a list is a perfect pairing of tight pairs: an optimum one, if the prices are valid.
template <class Cost>
bool is_optimum(const Tables<Cost> &t, const std::vector<uint16_t> &list) {
    std::vector<bool> taken(list.size());
    for (size_t l = 0; l < list.size(); ++l) {
        if (list[l] >= list.size() || taken[list[l]] || !is_tight(t, l, list[l])) return false;
        taken[list[l]] = true;
    }
    return true;
}

template <class Cost> bool are_valid_prices(const Tables<Cost> &t) {
    const size_t n = t.partners.size();
    for (size_t k = 0; k < n * n; ++k)
        if (t.standing[k] && exact(t.left[k / n]) + exact(t.right[k % n]) > exact(t.costs[k]))
            return false;
    return std::all_of(t.right.begin(), t.right.end(), [](Cost y) { return exact(y) <= 0; });
}

// ---- The calls in turn

// Settles tables of which one is a place too long or too short, or disturbed: all are refused.
template <class Cost, class Call> void try_wrong_tables(const Tables<Cost> &sound, Call call) {
    const auto refused = [&](auto disturb) {
        Tables<Cost> t = sound;
        disturb(t);
        const Tables<Cost> old = t;
        want(t.settle(call) == REFUSED && t == old, "wrong tables are not refused as they stand");
    };
    for (int more : {-1, 1}) {
        refused([=](auto &t) { t.costs.resize(t.costs.size() + more); });
        refused([=](auto &t) { t.standing.resize(t.standing.size() + more); });
        refused([=](auto &t) { t.partners.resize(t.partners.size() + more); });
        refused([=](auto &t) { t.left.resize(t.left.size() + more); });
        refused([=](auto &t) { t.right.resize(t.right.size() + more); });
    }
    refused([](auto &t) { t.standing.back() = 2; });
    refused([](auto &t) {
        t.standing.back() = 1;
        t.costs.back() = cost_of(sheets::MOST_COST + 1, 0, Cost());
    });
}

template <class Cost> void try_walk(Tables<Cost> &t, const std::vector<uint8_t> &marked) {
    const size_t n = t.partners.size();
    std::vector<uint16_t> list = t.partners;
    for (int k = 0; k < STEPS; ++k) {
        const std::vector<uint16_t> before = list;
        const uint32_t answer = t.next(list);
        if (answer != DONE) {
            want(answer == END && list == before, "a step is refused");
            break;
        }
        want(before < list && is_optimum(t, list), "a step to a wrong pairing");
        for (size_t l = 0; l < n; ++l) want(marked[l * n + list[l]] == 1, "a pair is not marked");
    }
    list.push_back(0);
    const std::vector<uint16_t> longer = list;
    want(t.next(list) == REFUSED && list == longer, "a list that is too long is not refused");
    list.assign(n, n);
    want(t.next(list) == REFUSED, "a list that is no pairing is not refused");
}

template <class Cost> std::vector<uint8_t> try_marks(Tables<Cost> &t) {
    const size_t n = t.partners.size();
    std::vector<uint8_t> marked(n * n, 7), longer(n * n + 1, 7), kept = longer;
    want(t.marks(marked) == DONE, "marks are refused");
    for (size_t k = 0; k < n * n; ++k)
        want(marked[k] <= is_tight(t, k / n, k % n), "a pair is marked that is not tight");
    want(t.marks(longer) == REFUSED && longer == kept, "a table that is too long is not refused");
    return marked;
}

// All calls on a sheet of that kind of costs, whose first pairing is answered, or none.
template <class Cost, class Call>
std::vector<uint16_t> try_kind(const sheets::Sheet &sheet, Call call, bool paired) {
    Tables<Cost> t = tables_of<Cost>(sheet);
    const Tables<Cost> old = t;
    try_wrong_tables(t, call);
    if (!paired) {
        want(t.settle(call) == REFUSED && t == old, "a sheet with no pairing is not refused");
        return {};
    }
    want(t.settle(call) == DONE, "settling is refused");
    want(are_valid_prices(t) && is_optimum(t, t.partners), "prices prove nothing");
    const Tables<Cost> settled = t;
    try_walk(t, try_marks(t));
    want(t == settled, "a table changed that is lent to be read");
    return t.partners;
}

// The walk without costs, over the standing pairs, from a perfect pairing of them.
void try_rows(const sheets::Sheet &sheet, std::vector<uint16_t> list) {
    std::vector<uint64_t> table(sheet.n);
    for (int k = 0; k < sheet.n * sheet.n; ++k)
        table[k / sheet.n] |= uint64_t(sheet.standing[k]) << k % sheet.n;
    const auto made = [&](auto call) {
        Exact<uint64_t> rows(table);
        Exact<uint16_t> p(list);
        return counted(call(rows.data(), rows.size, p.data(), p.size));
    };
    want(made(bench_first) == DONE, "the first pairing is refused");
    for (int k = 0; k < STEPS; ++k) {
        const std::vector<uint16_t> before = list;
        const uint32_t answer = made(bench_next);
        want(answer == DONE ? before < list : answer == END && before == list, "no step");
    }
    list.push_back(0);
    want(made(bench_first) == REFUSED && made(bench_next) == REFUSED, "a list that is too long");
}

uint32_t load(std::vector<uint8_t> &file, std::vector<int64_t> &costs,
              std::vector<uint8_t> &standing) {
    Exact<uint8_t> f(file), s(standing);
    Exact<int64_t> c(costs);
    return counted(bench_load(f.data(), f.size, c.data(), c.size, s.data(), s.size));
}

uint32_t save(const sheets::Sheet &sheet, std::vector<uint8_t> &file) {
    std::vector<int64_t> lent = sheet.costs, opened(lent.size(), 5);
    std::vector<uint8_t> bytes = sheet.standing, opened_bytes(bytes.size(), 5);
    Exact<int64_t> oc(opened), c(lent);
    Exact<uint8_t> os(opened_bytes), s(bytes), out(file);
    return counted(bench_save(sheet.n, oc.data(), oc.size, os.data(), os.size, c.data(), c.size,
                              s.data(), s.size, out.data(), out.size));
}

void try_files(const sheets::Sheet &sheet) {
    const size_t pairs = std::count(sheet.standing.begin(), sheet.standing.end(), 1);
    std::vector<uint8_t> file(7 + 13 * pairs, 9), shorter(file.size() - 1, 9), kept = shorter;
    std::vector<int64_t> costs(sheet.costs.size(), 9);
    std::vector<uint8_t> standing(sheet.standing.size(), 9);
    want(save(sheet, shorter) == SHORT_BUFFER && shorter == kept, "a short buffer");
    want(save(sheet, file) == DONE, "saving is refused");
    want(load(file, costs, standing) == DONE && standing == sheet.standing, "loading");
    for (size_t k = 0; k < costs.size(); ++k)
        want(!standing[k] || costs[k] == sheet.costs[k], "a cost is loaded wrong");
    standing.push_back(9);
    want(load(file, costs, standing) == TABLE_LENGTH && standing.back() == 9, "a long table");
    file.pop_back();
    want(load(file, costs, standing) > REFUSED, "a file that is cut short");
}

void try_open(int n) {
    std::vector<int64_t> costs(n * n, 9);
    std::vector<uint8_t> standing(n * n, 9);
    Exact<int64_t> c(costs);
    Exact<uint8_t> s(standing);
    want(counted(bench_open(n, c.data(), c.size, s.data(), s.size)) == DONE, "opening");
    want(counted(bench_open(n + 1, c.data(), c.size, s.data(), s.size)) != DONE, "a wrong size");
}

// Tables with no place at all: whatever a call answers, there is nothing that it may touch.
template <class Cost, class Call> void try_nothing(Call call) {
    Tables<Cost> t;
    std::vector<uint16_t> list;
    std::vector<uint8_t> marked;
    t.settle(call);
    t.next(list);
    t.marks(marked);
}

void try_sheet(const std::string &name, const sheets::Sheet &sheet, bool paired) {
    at_work = name + ", " + std::to_string(sheet.n) + " blocks a plane";
    ++sheets_tried;
    try_kind<int64_t>(sheet, bench_optimum, paired);
    try_kind<Two>(sheet, bench_two_settle, paired);
    const std::vector<uint16_t> first = try_kind<int64_t>(sheet, bench_settle, paired);
    if (paired) try_rows(sheet, first);
    try_files(sheet);
    try_open(sheet.n);
}

void try_size(int n) {
    for (const char *name : CLASSES) try_sheet(name, sheets::make(name, n, 1), true);
    sheets::Sheet unpaired = sheets::make("random", n, 2);
    for (int l = 0; l < n; ++l) unpaired.standing[l * n] = 0;
    try_sheet("no perfect pairing", unpaired, false);
}

} // namespace

int main(int count, char **words) {
    if (count != 3) return 2;
    const bool many = words[2] == std::string("many");
    for (placing place : places_of(words[1])) {
        where = place;
        try_nothing<int64_t>(bench_optimum);
        try_nothing<int64_t>(bench_settle);
        try_nothing<Two>(bench_two_settle);
        for (int n = 1; n <= 64; ++n)
            if (many || n <= 8 || n % 16 == 15 || n % 16 <= 1) try_size(n);
    }
    std::printf("sheets: %ld\n", sheets_tried);
    return tell_calls();
}
