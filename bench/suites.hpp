// What is measured together: a suite is a list of contenders over the same sheets, whose results
// were compared.
#pragma once
#include "dimacs_text.hpp"
#include "lemon.hpp"
#include "order_file.hpp"
#include "tables.hpp"
#include "yardstick.hpp"
#include <cstdio>
#include <functional>
#include <limits>
#include <memory>

// What is timed: so many parts, a few calls each. Running a part answers how many calls that were,
// or 0 where one was refused or found something else. Of each part the least time counts, since
// whatever else the machine does can only add to it.
struct Contender {
    std::string name;
    int parts;
    std::function<int(int)> run;
    std::vector<double> least = std::vector<double>(parts, std::numeric_limits<double>::max());
    std::vector<int> calls = std::vector<int>(parts);
};

// `wrong` says what differs, if anything does; `total` is the sum of the least totals, or of a text
// its length.
struct Suite {
    std::vector<Contender> contenders;
    std::string wrong;
    int64_t total = 0;
};

// A sheet with all that the contenders keep of it.
template <int N> struct Case {
    sheets::Sheet sheet;
    std::vector<int64_t> full; // absent pairs cost more than any pairing
    Proved<N, int64_t> plain, optimum;
    Proved<N, Two> two;
    Anchored<N, int64_t> twin;
    int64_t total;
#ifdef WITH_LEMON
    std::unique_ptr<Simplex> simplex;
#endif
};

template <int N> std::vector<Two> pair_up(const sheets::Sheet &first, const sheets::Sheet &second) {
    std::vector<Two> costs(N * N, Two{0, 0});
    for (int k = 0; k < N * N; ++k)
        if (first.standing[k]) costs[k] = {first.costs[k], second.costs[k]};
    return costs;
}

// The case of one seed of a class; the second steps are the costs of another seed.
template <int N> Case<N> make_case(const std::string &name, int seed) {
    Case<N> c;
    c.sheet = sheets::make(name, N, seed);
    c.full = c.sheet.costs;
    for (int k = 0; k < N * N; ++k)
        if (!c.sheet.standing[k]) c.full[k] = anchor::ABSENT<int64_t>;
    c.plain.costs = c.optimum.costs = c.twin.costs = c.sheet.costs;
    c.two.costs = pair_up<N>(c.sheet, sheets::make(name, N, seed + 1000));
    c.plain.standing = c.optimum.standing = c.two.standing = c.twin.standing = c.sheet.standing;
    return c;
}

// Compares the results of all contenders on a sheet, and answers what differs, or nothing.
template <int N> std::string compare(Case<N> &c) {
    std::string differs = difference(c.plain, c.twin);
    if (!differs.empty()) return differs;
    Anchored<N, anchor::Wide> wide;
    for (Two cost : c.two.costs) wide.costs.push_back(anchor::wide(cost));
    wide.standing = c.two.standing;
    differs = difference(c.two, wide);
    if (!differs.empty()) return "two-step " + differs;
    c.total = 0;
    for (int l = 0; l < N; ++l) c.total += c.sheet.costs[l * N + c.plain.partners[l]];
    if (yardstick::assign(c.full, N) != c.total) return "total of the plain assignment";
#ifdef WITH_LEMON
    c.simplex = std::make_unique<Simplex>(c.sheet);
    if ((*c.simplex)() != c.total) return "total of LEMON";
#endif
    return "";
}

template <int N> using Cases = std::shared_ptr<std::vector<Case<N>>>;

// A part is one case, whose call is made so many times.
template <int N, class Call>
Contender over(const char *name, Cases<N> cases, int repeats, Call call) {
    return {name, static_cast<int>(cases->size()), [=](int part) {
                int made = 0;
                for (int k = 0; k < repeats; ++k) {
                    int calls = call((*cases)[part]);
                    if (calls == 0) return 0;
                    made += calls;
                }
                return made;
            }};
}

template <int N> uint32_t find_optimum(Proved<N, int64_t> &t) {
    return bench_optimum(t.costs.data(), N * N, t.standing.data(), N * N, t.partners, N, t.left, N,
                         t.right, N);
}

// A proved call stands beside its twin, so that both are timed right after one another. Short calls
// are repeated more often.
template <int N> std::vector<Contender> contenders(Cases<N> cases) {
    auto marks = std::make_shared<std::vector<uint8_t>>(N * N);
    auto add = [&](const char *name, auto call) { return over<N>(name, cases, 64 / N, call); };
    auto add_short = [&](const char *name, auto call) {
        return over<N>(name, cases, 2 * 64 / N, call);
    };
    return {
        add("settle", [](auto &c) { return c.plain.settle() == 0; }),
        add("settle.cpp", [](auto &c) { return c.twin.settle() == 0; }),
        add("two.settle", [](auto &c) { return c.two.settle() == 0; }),
        add("optimum", [](auto &c) { return find_optimum(c.optimum) == 0; }),
        add_short("next", [](auto &c) { return walk<N>(c.plain); }),
        add_short("next.cpp", [](auto &c) { return walk<N>(c.twin); }),
        add_short("two.next", [](auto &c) { return walk<N>(c.two); }),
        add_short("marks", [=](auto &c) { return c.plain.marks(marks->data()) == 0; }),
        add_short("marks.cpp", [=](auto &c) { return c.twin.marks(marks->data()) == 0; }),
        add_short("two.marks", [=](auto &c) { return c.two.marks(marks->data()) == 0; }),
        add("assign", [](auto &c) { return yardstick::assign(c.full, N) == c.total; }),
#ifdef WITH_LEMON
        add("lemon", [](auto &c) { return (*c.simplex)() == c.total; }),
#endif
    };
}

// The sheets go to a file too, for a solver that is no part of this program.
template <int N> bool write_sheets(const std::vector<Case<N>> &cases, const std::string &path) {
    std::FILE *file = std::fopen(path.c_str(), "wb");
    if (!file) return false;
    for (auto &c : cases) std::fwrite(c.full.data(), sizeof c.full[0], c.full.size(), file);
    return std::fclose(file) == 0;
}

template <int N> Suite class_suite(const std::string &name, int count, const std::string &path) {
    auto cases = std::make_shared<std::vector<Case<N>>>();
    Suite suite;
    cases->reserve(count); // a solver holds on to its sheet
    for (int seed = 0; seed < count && suite.wrong.empty(); ++seed) {
        cases->push_back(make_case<N>(name, seed));
        suite.wrong = compare(cases->back());
        suite.total += cases->back().total;
    }
    if (!write_sheets(*cases, path)) suite.wrong = "the sheets cannot be written to " + path;
    suite.contenders = contenders<N>(cases);
    return suite;
}

// Order files of the most pairs: a random sheet, its file, and the tables that calls write.
struct Files {
    static constexpr int N = 64, PLACES = N * N;
    static constexpr size_t LENGTH =
        order_file::SIZE_FIELD + PLACES * order_file::PAIR_FIELD + order_file::END_FIELD;
    sheets::Sheet sheet = sheets::make("random", N, 1);
    std::vector<int64_t> costs = std::vector<int64_t>(PLACES), opened = costs;
    std::vector<uint8_t> standing = std::vector<uint8_t>(PLACES), opened_standing = standing;
    std::vector<uint8_t> file = std::vector<uint8_t>(LENGTH), out = file;

    uint32_t load() {
        return bench_load(file.data(), LENGTH, costs.data(), PLACES, standing.data(), PLACES);
    }
    uint32_t load_twin() {
        return order_file::load(file.data(), LENGTH, costs.data(), standing.data(), PLACES);
    }
    uint32_t open() {
        return bench_open(N, opened.data(), PLACES, opened_standing.data(), PLACES);
    }
    uint32_t save() {
        return bench_save(N, opened.data(), PLACES, opened_standing.data(), PLACES,
                          sheet.costs.data(), PLACES, sheet.standing.data(), PLACES, out.data(),
                          LENGTH);
    }
    uint32_t save_twin(std::vector<uint8_t> &to) {
        return order_file::save(N, sheet.costs.data(), sheet.standing.data(), to.data(), LENGTH);
    }
    bool loaded() const { return costs == sheet.costs && standing == sheet.standing; }
};

// All parts are the same: a few short ones are disturbed less often than a long one.
constexpr int PARTS = 8, REPEATS = 2;

template <class Call> Contender repeated(const char *name, Call call) {
    return {name, PARTS, [=](int) {
                for (int k = 0; k < REPEATS; ++k)
                    if (call() != 0) return 0;
                return REPEATS;
            }};
}

inline Suite file_suite() {
    auto files = std::make_shared<Files>();
    Suite suite;
    if (files->save_twin(files->file) != 0 || files->save() != 0 || files->out != files->file)
        suite.wrong = "saved files";
    if (files->load_twin() != 0 || !files->loaded()) suite.wrong = "the file loaded in C++";
    std::fill(files->costs.begin(), files->costs.end(), 1);
    if (files->load() != 0 || !files->loaded()) suite.wrong = "the loaded file";
    suite.contenders = {
        repeated("load", [=] { return files->load(); }),
        repeated("load.cpp", [=] { return files->load_twin(); }),
        repeated("open", [=] { return files->open(); }),
        repeated("save", [=] { return files->save(); }),
        repeated("save.cpp", [=] { return files->save_twin(files->out); }),
    };
    return suite;
}

// An assignment text of the most pairs, at costs up to 1,000,000, and the tables that calls write.
struct Text {
    static constexpr int N = 64, PLACES = N * N;
    sheets::Random random{1};
    sheets::Sheet sheet =
        sheets::full(N, [this](int, int) { return int64_t(random() % 1000000) + 1; });
    std::vector<int64_t> costs = std::vector<int64_t>(PLACES);
    std::vector<uint8_t> standing = std::vector<uint8_t>(PLACES);
    std::string text = "p asn " + std::to_string(2 * N) + ' ' + std::to_string(PLACES) + '\n';

    Text() {
        for (int i = 1; i <= N; ++i) text += "n " + std::to_string(i) + '\n';
        for (int k = 0; k < PLACES; ++k)
            text += "a " + std::to_string(k / N + 1) + ' ' + std::to_string(N + k % N + 1) + ' ' +
                    std::to_string(sheet.costs[k]) + '\n';
    }
    const uint8_t *bytes() const { return reinterpret_cast<const uint8_t *>(text.data()); }
    uint32_t check() const { return bench_dimacs_check(bytes(), text.size()); }
    uint32_t check_twin() const {
        int n;
        return dimacs_text::check(bytes(), text.size(), n).refusal;
    }
    uint32_t import() {
        return bench_dimacs_import(bytes(), text.size(), costs.data(), PLACES, standing.data(),
                                   PLACES);
    }
    uint32_t import_twin() {
        return dimacs_text::import(bytes(), text.size(), costs.data(), PLACES, standing.data(),
                                   PLACES)
            .refusal;
    }
    bool imported() const { return costs == sheet.costs && standing == sheet.standing; }

    // Whether both refuse alike where a byte is changed, here and there.
    bool same_refusals() {
        for (size_t at = 0; at < text.size(); at += 499)
            for (char other : {' ', '9', '\n', '-'}) {
                std::swap(text[at], other);
                bool same = check() == check_twin();
                std::swap(text[at], other);
                if (!same) return false;
            }
        return true;
    }
};

inline Suite text_suite() {
    auto text = std::make_shared<Text>();
    Suite suite;
    suite.total = text->text.size();
    if (text->check() != 0 || text->check_twin() != 0) suite.wrong = "the checked text";
    if (!text->same_refusals()) suite.wrong = "refusals of a text";
    if (text->import_twin() != 0 || !text->imported()) suite.wrong = "the text imported in C++";
    std::fill(text->costs.begin(), text->costs.end(), 1);
    if (text->import() != 0 || !text->imported()) suite.wrong = "the imported text";
    suite.contenders = {
        repeated("check", [=] { return text->check(); }),
        repeated("check.cpp", [=] { return text->check_twin(); }),
        repeated("import", [=] { return text->import(); }),
        repeated("import.cpp", [=] { return text->import_twin(); }),
    };
    return suite;
}

// The walk without costs, over 64 rows that hold every right block. Each part walks on from where
// the one before it came to.
struct FreeWalk {
    static constexpr int N = 64, PARTS = 20, STEPS = 5000;
    std::vector<uint64_t> rows = std::vector<uint64_t>(N, ~uint64_t{0});
    std::vector<uint16_t> list = std::vector<uint16_t>(N);

    int run(int part) {
        if (part == 0) {
            for (int l = 0; l < N; ++l) list[l] = static_cast<uint16_t>(N - 1 - l);
            if (bench_first(rows.data(), N, list.data(), N) != 0) return 0;
        }
        for (int k = 0; k < STEPS; ++k)
            if (bench_next(rows.data(), N, list.data(), N) != 0) return 0;
        return STEPS;
    }
};

inline Suite free_suite() {
    auto walk = std::make_shared<FreeWalk>();
    Suite suite;
    suite.contenders = {{"next", FreeWalk::PARTS, [=](int part) { return walk->run(part); }}};
    return suite;
}
