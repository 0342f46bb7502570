// Measures how much stack each C call of crates/chost and crates/bench_calls takes: a thread makes
// the call on a stack of its own that was painted before, and the lowest byte that is not as it was
// painted tells. It prints a Markdown table of the most bytes that were seen, by call and class of
// sheets, over 1 to 64 blocks a plane.
//
// Counted is what lies below the address that the call returns to, down to the lowest byte that was
// written, below the stack pointer too. What a function set aside at the very end of its stack and
// never wrote is not seen.
#include "../../bench/calls.hpp"
#include "../../bench/order_file.hpp"
#include "../../bench/sheets.hpp"
#include "../../include/tulvasne.h"
#include <cstdio>
#include <cstdlib>
#include <cstring>
#include <functional>
#include <map>
#include <pthread.h>
#include <sys/mman.h>

namespace {

// ---- One call

// The stack of the thread; the call is made so far below its top that nothing which starting the
// thread wrote lies there.
constexpr size_t STACK = 1 << 18, START = 1 << 14;
uint8_t *stack;

struct Job {
    const std::function<void()> *make;
    const uint8_t *frame;
};

__attribute__((noinline)) void make(Job *job) {
    job->frame = static_cast<const uint8_t *>(__builtin_frame_address(0));
    (*job->make)();
    asm volatile("" ::: "memory"); // so that this frame stands during the call
}

void *on_thread(void *job) {
    uint8_t above[START];
    asm volatile("" ::"r"(above) : "memory"); // so that the bytes are set aside
    make(static_cast<Job *>(job));
    asm volatile("" ::"r"(above) : "memory");
    return nullptr;
}

void must(bool held, const char *what) {
    if (held) return;
    std::fprintf(stderr, "stack: %s\n", what);
    std::exit(1);
}

// How far below the frame of `make` the work writes to a stack of that paint.
size_t written_on(uint8_t paint, const std::function<void()> &work) {
    std::memset(stack, paint, STACK);
    Job job{&work, nullptr};
    pthread_attr_t with;
    pthread_t thread;
    must(pthread_attr_init(&with) == 0 && pthread_attr_setstack(&with, stack, STACK) == 0 &&
             pthread_create(&thread, &with, on_thread, &job) == 0 &&
             pthread_join(thread, nullptr) == 0 && pthread_attr_destroy(&with) == 0,
         "a thread cannot be made");
    const uint8_t *low = std::find_if(stack, stack + STACK, [=](uint8_t b) { return b != paint; });
    return job.frame - low;
}

// Has the stack that a call is compared with: its address of return, and arguments.
template <class... Args> __attribute__((noinline)) uint32_t nothing(Args...) {
    asm volatile("");
    return 0;
}

// The stack that a call takes, and its answer. A byte that is written as it was painted is seen
// with the other paint; the call has to do the same with both, so `reset` comes before each.
template <class... Args>
size_t taken(uint32_t (*call)(Args...), uint32_t &answer, const std::function<void()> &reset,
             Args... args) {
    uint32_t (*volatile made)(Args...) = nothing<Args...>;
    const auto written = [&] {
        size_t most = 0;
        for (uint8_t paint : {0xa5, 0x3c}) {
            reset();
            most = std::max(most, written_on(paint, [&] { answer = made(args...); }));
        }
        return most;
    };
    const size_t without = written();
    made = call;
    return written() - without;
}

// ---- The most of each call and class

const std::vector<std::string> COLUMNS = {"random", "all equal", "l·r", "sparse", "others",
                                          "no pairing", "damaged"};
// The columns that have one class of bench/sheets.hpp each; those not named here are the others.
const std::map<std::string, std::string> COLUMN_OF = {
    {"random", "random"}, {"equal", "all equal"}, {"products", "l·r"}, {"sparse", "sparse"}};
std::map<std::string, std::map<std::string, size_t>> most;
std::vector<std::string> calls;
std::string column;
long measured;

// Measures a call that may write to `kept` tables, which are as before when it is made again.
template <class... Params, class... Args>
uint32_t measure(const std::string &name, uint32_t (*call)(Params...),
                 const std::function<void()> &reset, Args... args) {
    uint32_t answer = 0;
    const size_t bytes = taken<Params...>(call, answer, reset, static_cast<Params>(args)...);
    if (std::find(calls.begin(), calls.end(), name) == calls.end()) calls.push_back(name);
    most[name][column] = std::max(most[name][column], bytes);
    ++measured;
    return answer;
}

const auto NO_RESET = [] {};

void print_table() {
    std::printf("| call |");
    for (const auto &name : COLUMNS) std::printf(" %s |", name.c_str());
    std::printf(" most |\n|---|");
    for (size_t k = 0; k <= COLUMNS.size(); ++k) std::printf("---|");
    for (const auto &call : calls) {
        size_t all = 0;
        std::printf("\n| %s |", call.c_str());
        for (const auto &name : COLUMNS) {
            const auto at = most[call].find(name);
            if (at == most[call].end()) std::printf(" |");
            else std::printf(" %zu |", at->second), all = std::max(all, at->second);
        }
        std::printf(" %zu |", all);
    }
    std::printf("\n%ld calls, the stack of each painted twice\n", measured);
}

// ---- The calls for a host in C

constexpr int STEPS = 12;
using Bytes = std::vector<uint8_t>;

Bytes file_of(const sheets::Sheet &sheet) {
    Bytes file(order_file::length_of(sheet.n, sheet.costs.data(), sheet.standing.data()));
    order_file::save(sheet.n, sheet.costs.data(), sheet.standing.data(), file.data(), file.size());
    return file;
}

uint32_t measure_first(const Bytes &file, uint8_t *out) {
    return measure("`tulvasne_first`", tulvasne_first, NO_RESET, file.data(), file.size(), out,
                   size_t(64));
}

uint32_t measure_after(const Bytes &file, uint8_t *out) {
    uint8_t begun[64];
    std::memcpy(begun, out, 64);
    return measure("`tulvasne_after`", tulvasne_after, [&] { std::memcpy(out, begun, 64); },
                   file.data(), file.size(), out, size_t(64));
}

void host_calls(const sheets::Sheet &sheet) {
    const Bytes file = file_of(sheet);
    uint8_t out[64] = {}, start[64];
    uint32_t answer = measure_first(file, out);
    std::memset(start, 255, sizeof start);
    measure_after(file, start);
    for (int k = 0; k < STEPS && answer == TULVASNE_OK; ++k) answer = measure_after(file, out);
}

// Files that are cut or changed at the start, at the size, in the last pair and at the end: by one
// bit or more the tag, the size, the block and the first byte of the cost.
void damaged_files(const sheets::Sheet &sheet) {
    const Bytes sound = file_of(sheet);
    const size_t end = sound.size() - 3, pair = end - 13;
    uint8_t out[64] = {};
    for (size_t at : {size_t(0), size_t(3), pair, pair + 3, pair + 5, end}) {
        Bytes cut(sound.begin(), sound.begin() + at), changed = sound;
        changed[at] ^= 0x7f;
        for (const Bytes &file : {cut, changed}) {
            must(measure_first(file, out) != TULVASNE_OK, "a damaged file is settled");
            measure_after(file, out);
        }
    }
}

// ---- The calls on tables

int64_t cost_of(int64_t first, int64_t, int64_t) { return first; }
Two cost_of(int64_t first, int64_t second, Two) { return {first, second}; }

template <class Cost> struct Tables {
    std::vector<Cost> costs;
    std::vector<uint8_t> standing;
    std::vector<uint16_t> partners;
    std::vector<Cost> left, right;

    explicit Tables(const sheets::Sheet &sheet)
        : standing(sheet.standing), partners(sheet.n), left(sheet.n), right(sheet.n) {
        for (int k = 0; k < sheet.n * sheet.n; ++k)
            costs.push_back(cost_of(sheet.costs[k], k * 37 % 11 - 5, Cost()));
    }
    template <class Call, class... More>
    uint32_t made(const std::string &name, Call call, const std::function<void()> &reset,
                  More... more) {
        return measure(name, call, reset, costs.data(), costs.size(), standing.data(),
                       standing.size(), partners.data(), partners.size(), left.data(), left.size(),
                       right.data(), right.size(), more...);
    }
};

template <class Cost> void walk_and_marks(Tables<Cost> &t, const std::string &kind) {
    std::vector<uint16_t> list = t.partners, before;
    Bytes marked(t.standing.size());
    uint32_t answer = 0;
    for (int k = 0; k < STEPS && answer == 0; ++k) {
        before = list;
        answer = t.made("`next`, " + kind, Calls<Cost>::next,
                        [&] { std::copy(before.begin(), before.end(), list.begin()); },
                        list.data(), list.size());
    }
    t.made("`marks`, " + kind, Calls<Cost>::marks, NO_RESET, marked.data(), marked.size());
}

template <class Cost, class Call>
void settle_and_walk(const sheets::Sheet &sheet, const std::string &kind, Call settle) {
    Tables<Cost> t(sheet);
    t.made("`settle`, " + kind, settle, NO_RESET);
    walk_and_marks(t, kind); // which are refused where no pairing is perfect
}

void walk_of_rows(const sheets::Sheet &sheet) {
    Tables<int64_t> t(sheet);
    std::vector<uint64_t> rows(sheet.n);
    for (int k = 0; k < sheet.n * sheet.n; ++k)
        rows[k / sheet.n] |= uint64_t(sheet.standing[k]) << k % sheet.n;
    t.made("`optimum`, plain", bench_optimum, NO_RESET);
    std::vector<uint16_t> &p = t.partners, before = p;
    const auto reset = [&] { std::copy(before.begin(), before.end(), p.begin()); };
    uint32_t answer = measure("`first` over rows", bench_first, reset, rows.data(), rows.size(),
                              p.data(), p.size());
    for (int k = 0; k < STEPS && answer == 0; ++k) {
        before = p;
        answer = measure("`next` over rows", bench_next, reset, rows.data(), rows.size(),
                         p.data(), p.size());
    }
}

void files_and_tables(const sheets::Sheet &sheet) {
    Bytes file = file_of(sheet), standing(sheet.standing.size()), opened = standing;
    std::vector<int64_t> costs(standing.size()), opened_costs = costs;
    measure("`load`", bench_load, NO_RESET, file.data(), file.size(), costs.data(), costs.size(),
            standing.data(), standing.size());
    measure("`open`", bench_open, NO_RESET, sheet.n, costs.data(), costs.size(), standing.data(),
            standing.size());
    measure("`save`, after `open`", bench_save, NO_RESET, sheet.n, opened_costs.data(),
            costs.size(), opened.data(), opened.size(), sheet.costs.data(), costs.size(),
            sheet.standing.data(), standing.size(), file.data(), file.size());
}

// ---- The calls on texts

// The assignment text of a sheet, behind a comment.
std::string text_of(const sheets::Sheet &sheet) {
    const int n = sheet.n;
    const auto pairs = std::count(sheet.standing.begin(), sheet.standing.end(), 1);
    std::string text = "c a sheet\np asn " + std::to_string(2 * n) + ' ';
    text += std::to_string(pairs) + '\n';
    for (int i = 1; i <= n; ++i) text += "n " + std::to_string(i) + '\n';
    for (int k = 0; k < n * n; ++k)
        if (sheet.standing[k])
            text += "a " + std::to_string(k / n + 1) + ' ' + std::to_string(n + k % n + 1) + ' ' +
                    std::to_string(sheet.costs[k]) + '\n';
    return text;
}

uint32_t measure_text(const std::string &text, int n) {
    Bytes bytes(text.begin(), text.end()), standing(n * n);
    std::vector<int64_t> costs(n * n);
    const uint32_t checked = measure("`check` of a text", bench_dimacs_check, NO_RESET,
                                     bytes.data(), bytes.size());
    const uint32_t imported = measure("`import`", bench_dimacs_import, NO_RESET, bytes.data(),
                                      bytes.size(), costs.data(), costs.size(), standing.data(),
                                      standing.size());
    must(checked == imported, "a text is not imported as it is checked");
    return checked;
}

// Texts that are cut, or have a sign or many digits put in: at the start, and at the start and
// behind the first word of the problem line, the first node line and the last arc.
void damaged_texts(const sheets::Sheet &sheet) {
    const std::string sound = text_of(sheet), digits(30, '9');
    const size_t problem = sound.find("\np") + 1, node = sound.find("\nn") + 1;
    const size_t arc = sound.rfind("\na") + 1;
    for (size_t at : {size_t(0), problem, problem + 2, node, node + 2, arc, arc + 2}) {
        const std::string front = sound.substr(0, at), rest = sound.substr(at);
        for (const std::string &text : {front, front + '-' + rest, front + digits + rest})
            must(measure_text(text, sheet.n) != 0, "a damaged text is imported");
    }
}

// ---- The sheets

void measure_sheet(const sheets::Sheet &sheet) {
    host_calls(sheet);
    settle_and_walk<int64_t>(sheet, "plain", bench_settle);
    settle_and_walk<Two>(sheet, "two-step", bench_two_settle);
    walk_of_rows(sheet);
    files_and_tables(sheet);
    must(measure_text(text_of(sheet), sheet.n) == 0, "a sound text is refused");
}

// The same with a standing byte that says nothing, and files and texts with a fault.
void measure_damaged(sheets::Sheet sheet) {
    column = "damaged";
    damaged_files(sheet);
    damaged_texts(sheet);
    sheet.standing.back() = 2;
    settle_and_walk<int64_t>(sheet, "plain", bench_settle);
    settle_and_walk<Two>(sheet, "two-step", bench_two_settle);
}

// A sheet whose pairs stand by chance and where only one right block is left for two left ones.
sheets::Sheet unpaired(int n) {
    sheets::Random random(n);
    sheets::Sheet sheet = sheets::make("random", n, 3);
    for (auto &stands : sheet.standing) stands = random() % 2;
    for (int r = 0; r < n; ++r)
        for (int l = std::max(0, n - 2); l < n; ++l) sheet.standing[l * n + r] = r == 0 && n > 1;
    return sheet;
}

void measure_size(int n) {
    for (const char *name : {"random", "equal", "products", "sparse", "near", "one-cheap",
                             "lateral", "reversed", "squares", "hessenberg", "cycle", "upper",
                             "tight-upper"}) {
        const auto own = COLUMN_OF.find(name);
        column = own == COLUMN_OF.end() ? "others" : own->second;
        measure_sheet(sheets::make(name, n, 1));
    }
    column = "no pairing";
    measure_sheet(unpaired(n));
    measure_damaged(sheets::make("random", n, 1));
}

} // namespace

int main() {
    stack = static_cast<uint8_t *>(mmap(nullptr, STACK, PROT_READ | PROT_WRITE,
                                        MAP_PRIVATE | MAP_ANONYMOUS, -1, 0));
    must(stack != MAP_FAILED, "no memory for a stack");
    for (int n : {1, 2, 3, 4, 5, 7, 8, 9, 16, 17, 31, 32, 33, 48, 63, 64}) measure_size(n);
    print_table();
}
