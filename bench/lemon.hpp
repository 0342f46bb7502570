// The assignment of a sheet by LEMON's network simplex, where its headers are installed.
#pragma once
#include "sheets.hpp"
#if __has_include(<lemon/network_simplex.h>)
#include <lemon/network_simplex.h>
#include <lemon/static_graph.h>
#include <utility>
#define WITH_LEMON

// The graph of the standing pairs is built once; each run sets the costs and finds the least total.
class Simplex {
  public:
    explicit Simplex(const sheets::Sheet &sheet)
        : sheet_(sheet), cost_(graph_), capacity_(graph_, 1), supply_(graph_) {
        std::vector<std::pair<int, int>> arcs;
        for (int k = 0; k < sheet.n * sheet.n; ++k)
            if (sheet.standing[k]) {
                arcs.push_back({k / sheet.n, sheet.n + k % sheet.n});
                places_.push_back(k);
            }
        graph_.build(2 * sheet.n, arcs.begin(), arcs.end());
        for (int i = 0; i < 2 * sheet.n; ++i) supply_[graph_.node(i)] = i < sheet.n ? 1 : -1;
        for (int a = 0; a < graph_.arcNum(); ++a) capacity_[graph_.arc(a)] = 1;
    }
    int64_t operator()() {
        for (size_t a = 0; a < places_.size(); ++a)
            cost_[graph_.arc(static_cast<int>(a))] = sheet_.costs[places_[a]];
        lemon::NetworkSimplex<lemon::StaticDigraph, int64_t, int64_t> simplex(graph_);
        simplex.upperMap(capacity_).costMap(cost_).supplyMap(supply_).run();
        return simplex.totalCost<int64_t>();
    }

  private:
    const sheets::Sheet &sheet_;
    std::vector<int> places_;
    lemon::StaticDigraph graph_;
    lemon::StaticDigraph::ArcMap<int64_t> cost_, capacity_;
    lemon::StaticDigraph::NodeMap<int64_t> supply_;
};
#endif
