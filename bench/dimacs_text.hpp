// Checking and importing an assignment text in plain C++, with the checks that the proved calls
// make.
#pragma once
#include <cstddef>
#include <cstdint>
#include <cstring>
#include <string_view>

namespace dimacs_text {

// What is refused, by the numbers of the proved calls.
enum Refusal {
    NONE = 0, SIZE = 1, TABLE_LENGTH = 2, BLOCK = 3, COST_RANGE = 4, LINE = 12, COUNT = 13
};

struct Fault {
    Refusal refusal;
    size_t place;
};

constexpr uint64_t MOST_BLOCKS = 64, COST_LIMIT = 1000000000;
// So many digits fit into 64 bits, whatever they are, with a sign too; the least number of more.
constexpr int SHORT = 18;
constexpr uint64_t LARGE = 1000000000000000000;

// The tables that a text is imported into.
struct Tables {
    int64_t *costs;
    uint8_t *standing;
};

// The number that a run of digits writes, however long, or LARGE where it is that or more.
static inline uint64_t long_number(const uint8_t *digit, const uint8_t *end) {
    while (digit != end && *digit == '0') ++digit;
    if (end - digit > SHORT) return LARGE;
    uint64_t value = 0;
    for (; digit != end; ++digit) value = 10 * value + (*digit - '0');
    return value;
}

// Goes over a text, of which `at` is the next byte. Each step answers whether it was there.
struct Reader {
    const uint8_t *at, *end;

    bool byte(uint8_t wanted) {
        if (at == end || *at != wanted) return false;
        ++at;
        return true;
    }

    bool word(std::string_view wanted) {
        if (size_t(end - at) < wanted.size()) return false;
        if (std::memcmp(at, wanted.data(), wanted.size()) != 0) return false;
        at += wanted.size();
        return true;
    }

    bool number(uint64_t &value) {
        const uint8_t *first = at;
        value = 0;
        for (; at != end; ++at) {
            unsigned digit = unsigned(*at) - '0';
            if (digit > 9) break;
            value = 10 * value + digit;
        }
        if (at - first > SHORT) value = long_number(first, at);
        return at != first;
    }

    bool signed_number(int64_t &value) {
        bool below_zero = byte('-');
        uint64_t size;
        if (!number(size)) return false;
        value = below_zero ? -int64_t(size) : int64_t(size);
        return true;
    }

    // Goes behind the comments that come next, up to one without a newline.
    bool comments() {
        while (at != end && *at == 'c') {
            const void *newline = std::memchr(at, '\n', end - at);
            if (!newline) return false;
            at = static_cast<const uint8_t *>(newline) + 1;
        }
        return true;
    }

    bool problem(uint64_t &nodes, uint64_t &arcs) {
        return word("p asn ") && number(nodes) && byte(' ') && number(arcs) && byte('\n');
    }

    bool node(uint64_t &number_stated) {
        return word("n ") && number(number_stated) && byte('\n');
    }

    bool arc(uint64_t &i, uint64_t &j, int64_t &w) {
        return word("a ") && number(i) && byte(' ') && number(j) && byte(' ') &&
               signed_number(w) && byte('\n');
    }
};

// Enters a reading of the pair at a place: of a pair that stands the greater cost stays.
static inline void enter(const Tables &tables, size_t at, int64_t reading) {
    if (tables.standing[at] != 1 || tables.costs[at] < reading) tables.costs[at] = reading;
    tables.standing[at] = 1;
}

// Reads the arcs up to the end of the text, and enters them where there are tables.
static inline Fault read_arcs(Reader &reader, const uint8_t *text, uint64_t n, uint64_t &count,
                              const Tables *tables) {
    for (count = 0;; ++count) {
        if (!reader.comments()) return {LINE, size_t(reader.at - text)};
        if (reader.at == reader.end) return {NONE, 0};
        size_t line = reader.at - text;
        uint64_t i, j;
        int64_t w;
        if (!reader.arc(i, j, w)) return {LINE, line};
        // below the first node the difference is large
        uint64_t l = i - 1, r = j - n - 1;
        if (l >= n || r >= n) return {BLOCK, line};
        if (uint64_t(w) + COST_LIMIT > 2 * COST_LIMIT) return {COST_RANGE, line};
        if (tables) enter(*tables, l * n + r, w);
    }
}

// Reads a whole text: its problem line, its node lines and its arcs.
static inline Fault read(const uint8_t *text, size_t length, int &n, const Tables *tables) {
    Reader reader{text, text + length};
    uint64_t nodes, arcs, node, count;
    bool closed = reader.comments();
    size_t problem = reader.at - text;
    if (!closed || !reader.problem(nodes, arcs)) return {LINE, problem};
    if (nodes / 2 == 0 || nodes / 2 > MOST_BLOCKS) return {SIZE, problem};
    n = int(nodes / 2);
    for (int next = 1; next <= n; ++next) {
        closed = reader.comments();
        size_t line = reader.at - text;
        if (!closed || !reader.node(node) || node != uint64_t(next)) return {LINE, line};
    }
    Fault fault = read_arcs(reader, text, n, count, tables);
    if (fault.refusal != NONE) return fault;
    if (nodes % 2 != 0 || count != arcs) return {COUNT, problem};
    return fault;
}

static inline Fault check(const uint8_t *text, size_t length, int &n) {
    return read(text, length, n, nullptr);
}

// Nothing is written unless all of the text can be.
static inline Fault import(const uint8_t *text, size_t length, int64_t *costs, size_t costs_length,
                           uint8_t *standing, size_t standing_length) {
    int n;
    Fault fault = check(text, length, n);
    if (fault.refusal != NONE) return fault;
    size_t places = size_t(n) * n;
    if (costs_length != places || standing_length != places) return {TABLE_LENGTH, 0};
    std::memset(costs, 0, places * sizeof *costs);
    std::memset(standing, 0, places);
    Tables tables{costs, standing};
    return read(text, length, n, &tables);
}

} // namespace dimacs_text
