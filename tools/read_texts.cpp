// Prints what the reader of bench/dimacs_text.hpp tells of texts, each a line of hex on standard
// input, as `tools/dimacs.py expect` does; and ends with status 1 where checking and importing do
// not agree, or a refused import wrote into its tables.
//
//     c++ -std=c++17 -O1 -g -fsanitize=address,undefined -fno-sanitize-recover=all
//         -o target/read_texts tools/read_texts.cpp
//     tools/dimacs.py input 7 10000 > target/texts
//     target/read_texts < target/texts > target/told
//     tools/dimacs.py expect < target/texts | cmp - target/told
#include "../bench/dimacs_text.hpp"
#include <cstdio>
#include <iostream>
#include <string>
#include <vector>

namespace {

// The layer that refuses by a number.
int layer(dimacs_text::Refusal refusal) {
    return refusal == dimacs_text::LINE || refusal == dimacs_text::COUNT ? 2 : 3;
}

// Answers whether the call refused as it has to, and left the tables as they were.
bool refused(const std::vector<uint8_t> &text, size_t costs_length, size_t standing_length,
             dimacs_text::Fault wanted) {
    const std::vector<int64_t> costs(costs_length, 7);
    const std::vector<uint8_t> standing(standing_length, 2);
    auto costs_after = costs;
    auto standing_after = standing;
    auto fault = dimacs_text::import(text.data(), text.size(), costs_after.data(), costs_length,
                                     standing_after.data(), standing_length);
    return fault.refusal == wanted.refusal && fault.place == wanted.place &&
           costs_after == costs && standing_after == standing;
}

// Prints what a text states, or its first fault; answers whether all calls agree.
bool tell(const std::vector<uint8_t> &text) {
    int n = 0;
    auto fault = dimacs_text::check(text.data(), text.size(), n);
    if (fault.refusal != dimacs_text::NONE) {
        std::printf("refused %d at %zu layer %d\n", fault.refusal, fault.place,
                    layer(fault.refusal));
        return refused(text, 4, 4, fault);
    }
    size_t places = size_t(n) * n;
    std::vector<int64_t> costs(places, 7);
    std::vector<uint8_t> standing(places, 2);
    fault = dimacs_text::import(text.data(), text.size(), costs.data(), places, standing.data(),
                                places);
    std::printf("size %d\n", n);
    for (size_t k = 0; k < places; ++k)
        if (standing[k])
            std::printf("pair %zu %zu %lld\n", k / n, k % n, static_cast<long long>(costs[k]));
    std::printf("end\n");
    const dimacs_text::Fault lengths{dimacs_text::TABLE_LENGTH, 0};
    return fault.refusal == dimacs_text::NONE && refused(text, places - 1, places, lengths) &&
           refused(text, places + 1, places, lengths) &&
           refused(text, places, places - 1, lengths) && refused(text, places, places + 1, lengths);
}

} // namespace

int main() {
    std::string line;
    while (std::getline(std::cin, line)) {
        std::vector<uint8_t> text;
        for (size_t k = 0; k + 1 < line.size(); k += 2)
            text.push_back(static_cast<uint8_t>(std::stoi(line.substr(k, 2), nullptr, 16)));
        if (!tell(text)) {
            std::fprintf(stderr, "the calls do not agree on %s\n", line.c_str());
            return 1;
        }
    }
}
