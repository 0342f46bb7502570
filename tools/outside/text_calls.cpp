// Makes the two calls of bench/calls.hpp that take an assignment text, on a text and tables of just
// the lengths that are stated, and compares what they answer and write with what tools/dimacs.py
// tells of the text.
//
//     text_calls heap|fences TEXTS TOLD
//
// The files are what `tools/dimacs.py input` prints, and what `tools/dimacs.py expect` prints of
// it. It prints how many texts there were by first fault, calls by answer, and errors; a line
// `wrong ..` tells of each error by the line of its text, and the status is then 1. An access
// beyond a text or a table is for the tools to see; see buffers.h.
#include "../../bench/calls.hpp"
#include "lent.hpp"
#include <algorithm>
#include <cstdlib>
#include <fstream>

namespace {

using namespace lent;

constexpr uint32_t DONE = 0, TABLE_LENGTH = 2;
constexpr unsigned long long MOST_BLOCKS = 64;
// What tables hold before, which no import leaves there.
constexpr int64_t OLD_COST = INT64_MIN;
constexpr uint8_t OLD_BYTE = 0xa5;

using Bytes = std::vector<uint8_t>;

Counts texts_tried;

struct Tables {
    std::vector<int64_t> costs;
    Bytes standing;

    Tables(size_t costs_length, int64_t cost, size_t standing_length, uint8_t byte)
        : costs(costs_length, cost), standing(standing_length, byte) {}
    bool operator==(const Tables &other) const {
        return costs == other.costs && standing == other.standing;
    }
};

// ---- What is told of a text

// Its first fault, or 0 and the tables of the pairs that it states.
struct Told {
    uint32_t fault = DONE;
    size_t n = 0;
    Tables sheet{0, 0, 0, 0};
};

Told next_told(std::istream &file) {
    Told told;
    std::string word;
    file >> word;
    if (word == "refused") {
        file >> told.fault;
        std::getline(file, word);
        return told;
    }
    file >> told.n;
    told.sheet = Tables(told.n * told.n, 0, told.n * told.n, 0);
    while (file >> word && word == "pair") {
        size_t l, r;
        int64_t cost;
        file >> l >> r >> cost;
        told.sheet.costs.at(l * told.n + r) = cost;
        told.sheet.standing.at(l * told.n + r) = 1;
    }
    return told;
}

Bytes bytes_of(const std::string &hex) {
    Bytes bytes;
    for (size_t k = 0; k + 1 < hex.size(); k += 2)
        bytes.push_back(static_cast<uint8_t>(std::stoi(hex.substr(k, 2), nullptr, 16)));
    return bytes;
}

// How many blocks a plane a problem line names that may be damaged: at least one, and at most 64.
size_t blocks_named(const Bytes &text) {
    const std::string words(text.begin(), text.end());
    const size_t at = words.find("p asn ");
    if (at == std::string::npos) return 1;
    const auto nodes = std::strtoull(words.c_str() + at + 6, nullptr, 10);
    return std::clamp(nodes / 2, 1ull, MOST_BLOCKS);
}

// ---- The calls

void try_import(const Exact<uint8_t> &text, const Told &told, size_t costs_length,
                size_t standing_length, Filling filling) {
    const Tables before(costs_length, OLD_COST, standing_length, OLD_BYTE);
    Tables after = before;
    uint32_t answer;
    {
        Exact<int64_t> costs(after.costs, filling);
        Exact<uint8_t> standing(after.standing, filling);
        answer = counted(bench_dimacs_import(text.data(), text.size, costs.data(), costs.size,
                                             standing.data(), standing.size));
    }
    const size_t places = told.n * told.n;
    const bool fit = costs_length == places && standing_length == places;
    want(answer == (told.fault != DONE || fit ? told.fault : TABLE_LENGTH), "an import's answer");
    if (answer == DONE) want(after == told.sheet, "tables that are not of the stated pairs");
    else if (filling == FILLED) want(after == before, "a refused import wrote");
}

// Checks a text, and imports it into tables of just the places, one less and one more of each, no
// places at all, and such as were never written.
void try_text(const Bytes &stated, const Told &told) {
    ++texts_tried[told.fault];
    Bytes kept = stated;
    {
        Exact<uint8_t> text(kept);
        text.lock();
        want(counted(bench_dimacs_check(text.data(), text.size)) == told.fault, "a check's answer");
        const size_t n = told.fault == DONE ? told.n : blocks_named(stated), places = n * n;
        for (size_t costs_length : {places - 1, places, places + 1})
            for (size_t standing_length : {places - 1, places, places + 1})
                try_import(text, told, costs_length, standing_length, FILLED);
        try_import(text, told, 0, 0, FILLED);
        try_import(text, told, places, places, NEVER_WRITTEN);
    }
    want(kept == stated, "the text changed");
}

void try_texts(const char *texts, const char *tellings) {
    std::ifstream hex(texts), tell(tellings);
    std::string line;
    long number = 0;
    while (std::getline(hex, line)) {
        at_work = "line " + std::to_string(++number);
        const Told told = next_told(tell);
        if (!tell) break;
        try_text(bytes_of(line), told);
    }
    want(number > 0 && tell && !(tell >> line), "not just as many texts as are told of");
}

} // namespace

int main(int count, char **words) {
    if (count != 4) return 2;
    for (placing place : places_of(words[1])) {
        where = place;
        try_texts(words[2], words[3]);
    }
    print_counts("texts", "first fault", texts_tried);
    return tell_calls();
}
