// The C calls of crates/bench_calls, as C++ sees them, under one name for both kinds of costs.
#pragma once
#include "two.hpp"
#include <cstddef>
#include <cstdint>

// The tables of a sheet of some kind of costs, and those that settling writes.
#define PAIR_TABLES(COST)                                                                          \
    const COST *costs, size_t costs_length, const uint8_t *standing, size_t standing_length
#define SETTLED_TABLES(COST, KEPT)                                                                 \
    PAIR_TABLES(COST), KEPT uint16_t *partners, size_t partners_length, KEPT COST *left,           \
        size_t left_length, KEPT COST *right, size_t right_length

extern "C" {
uint32_t bench_first(const uint64_t *rows, size_t rows_length, uint16_t *p, size_t p_length);
uint32_t bench_next(const uint64_t *rows, size_t rows_length, uint16_t *p, size_t p_length);
uint32_t bench_optimum(SETTLED_TABLES(int64_t, ));
uint32_t bench_settle(SETTLED_TABLES(int64_t, ));
uint32_t bench_cost_next(SETTLED_TABLES(int64_t, const), uint16_t *walk, size_t walk_length);
uint32_t bench_marks(SETTLED_TABLES(int64_t, const), uint8_t *table, size_t table_length);
uint32_t bench_two_settle(SETTLED_TABLES(Two, ));
uint32_t bench_two_next(SETTLED_TABLES(Two, const), uint16_t *walk, size_t walk_length);
uint32_t bench_two_marks(SETTLED_TABLES(Two, const), uint8_t *table, size_t table_length);
uint32_t bench_load(const uint8_t *file, size_t file_length, int64_t *costs, size_t costs_length,
                    uint8_t *standing, size_t standing_length);
uint32_t bench_open(uint16_t n, int64_t *costs, size_t costs_length, uint8_t *standing,
                    size_t standing_length);
uint32_t bench_save(uint16_t n, int64_t *opened_costs, size_t opened_costs_length,
                    uint8_t *opened_standing, size_t opened_standing_length, PAIR_TABLES(int64_t),
                    uint8_t *out, size_t out_length);
uint32_t bench_dimacs_check(const uint8_t *text, size_t text_length);
uint32_t bench_dimacs_import(const uint8_t *text, size_t text_length, int64_t *costs,
                             size_t costs_length, uint8_t *standing, size_t standing_length);
}

#undef PAIR_TABLES
#undef SETTLED_TABLES

template <class Cost> struct Calls;
template <> struct Calls<int64_t> {
    static constexpr auto settle = bench_settle;
    static constexpr auto next = bench_cost_next;
    static constexpr auto marks = bench_marks;
};
template <> struct Calls<Two> {
    static constexpr auto settle = bench_two_settle;
    static constexpr auto next = bench_two_next;
    static constexpr auto marks = bench_two_marks;
};
