// Tables that are lent to a call in buffers of just their lengths, and what is told in the end of
// the calls: how many there were by answer, and the errors.
#pragma once
#include "buffers.h"
#include <cstdio>
#include <cstring>
#include <map>
#include <string>
#include <vector>

namespace lent {

using Counts = std::map<uint32_t, long>;

// Where tables are laid, and on what the calls are made.
inline placing where;
inline std::string at_work;
inline Counts answers;
inline long errors;

inline void want(bool held, const char *what) {
    if (held) return;
    std::printf("wrong: %s: %s\n", at_work.c_str(), what);
    ++errors;
}

inline uint32_t counted(uint32_t answer) {
    ++answers[answer];
    return answer;
}

// The places that a word of the command names, each for a run of its own.
inline std::vector<placing> places_of(const std::string &word) {
    if (word == "fences") return {BEFORE_FENCE, BEHIND_FENCE};
    return {ON_HEAP};
}

inline void print_counts(const char *what, const char *by, const Counts &counts) {
    long all = 0;
    for (auto [number, times] : counts) all += times;
    std::printf("%s: %ld; by %s", what, all, by);
    for (auto [number, times] : counts) std::printf(" %u: %ld", number, times);
    std::printf("\n");
}

// Prints the calls and the errors, and answers the status to end with.
inline int tell_calls() {
    print_counts("calls", "answer", answers);
    std::printf("errors: %ld\n", errors);
    return errors != 0;
}

enum Filling { FILLED, NEVER_WRITTEN };

// A table in a buffer of just its length, while a call is made; what is written goes back into it.
// The buffer holds the table before, if it is not one that was never written.
template <class T> class Exact {
  public:
    explicit Exact(std::vector<T> &table, Filling filling = FILLED)
        : table(table), size(table.size()) {
        held = make_buffer(where, size * sizeof(T));
        if (size && filling == FILLED) std::memcpy(held.bytes, table.data(), held.length);
    }
    Exact(const Exact &) = delete;
    ~Exact() {
        if (size) std::memcpy(table.data(), held.bytes, held.length);
        free_buffer(&held);
    }
    T *data() const { return reinterpret_cast<T *>(held.bytes); }
    // From now on a write to it is seen, where it lies beside a fence.
    void lock() const { lock_buffer(&held); }

  private:
    std::vector<T> &table;
    buffer held;

  public:
    const size_t size;
};

} // namespace lent
