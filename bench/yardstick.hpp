// The yardstick of the benchmarks: a clock, and a plain shortest-augmenting-path assignment, which
// tells how fast the machine is.
#pragma once
#include <algorithm>
#include <chrono>
#include <cstdint>
#include <limits>
#include <vector>

namespace yardstick {

// The time in microseconds.
inline double now() {
    using namespace std::chrono;
    return duration<double, std::micro>(steady_clock::now().time_since_epoch()).count();
}

// The least total of an assignment of n * n costs, by rows added one at a time along shortest
// augmenting paths, with potentials.
inline int64_t assign(const std::vector<int64_t> &cost, int n) {
    const int64_t far = std::numeric_limits<int64_t>::max() / 4;
    std::vector<int64_t> u(n + 1), v(n + 1), least(n + 1);
    std::vector<int> row(n + 1), way(n + 1);
    std::vector<char> used(n + 1);
    for (int i = 1; i <= n; ++i) {
        row[0] = i;
        int j0 = 0;
        std::fill(least.begin(), least.end(), far);
        std::fill(used.begin(), used.end(), 0);
        do {
            used[j0] = 1;
            int i0 = row[j0], j1 = 0;
            int64_t delta = far;
            for (int j = 1; j <= n; ++j) {
                if (used[j]) continue;
                int64_t c = cost[(i0 - 1) * n + j - 1] - u[i0] - v[j];
                if (c < least[j]) { least[j] = c; way[j] = j0; }
                if (least[j] < delta) { delta = least[j]; j1 = j; }
            }
            for (int j = 0; j <= n; ++j) {
                if (used[j]) { u[row[j]] += delta; v[j] -= delta; } else { least[j] -= delta; }
            }
            j0 = j1;
        } while (row[j0] != 0);
        do { int j1 = way[j0]; row[j0] = row[j1]; j0 = j1; } while (j0);
    }
    return -v[0];
}

} // namespace yardstick
