// Makes the calls on one suite after the other, as lines on its input tell it, and says on its
// output how long they took; bench/report.py drives it, so that other programs can take turns.
//
//     suite NAME N COUNT PATH    makes a suite: so many sheets of a class, or order files, or an
//                                assignment text, or the walk without costs; compares the results
//                                and writes the sheets to PATH; says `ready TOTAL`, or what is
//                                wrong, and then ends
//     round NAME N               makes all calls once; a line `NAME MICROSECONDS` for each
//                                contender tells what a call took at least so far, then `done`
//     count NAME N               makes all calls once for callgrind, a dump for each contender
#include "suites.hpp"

// Where the code lies changes a time by up to a tenth, so the program is built with its code in
// several places.
#ifdef PLACE
#define TEXT_OF(x) #x
#define TEXT(x) TEXT_OF(x)
asm(".text\n.skip " TEXT(PLACE) ", 0x90\n");
#endif

#include <iostream>
#include <map>
#if __has_include(<valgrind/callgrind.h>)
#include <valgrind/callgrind.h>
#else
#define CALLGRIND_ZERO_STATS
#define CALLGRIND_TOGGLE_COLLECT
#define CALLGRIND_DUMP_STATS_AT(label)
#endif

namespace {

Suite make_suite(const std::string &name, int n, int count, const std::string &path) {
    if (name == "file") return file_suite();
    if (name == "text") return text_suite();
    if (name == "free") return free_suite();
    return n == 64 ? class_suite<64>(name, count, path) : class_suite<16>(name, count, path);
}

double mean_of_least(const Contender &contender) {
    double time = 0, calls = 0;
    for (int part = 0; part < contender.parts; ++part) {
        time += contender.least[part];
        calls += contender.calls[part];
    }
    return time / calls;
}

// All contenders take turns at each part.
bool time_all(Suite &suite) {
    int most = 0;
    for (auto &contender : suite.contenders) most = std::max(most, contender.parts);
    for (int part = 0; part < most; ++part) {
        for (auto &contender : suite.contenders) {
            if (part >= contender.parts) continue;
            double start = yardstick::now();
            contender.calls[part] = contender.run(part);
            contender.least[part] = std::min(contender.least[part], yardstick::now() - start);
            if (contender.calls[part] == 0) return false;
        }
    }
    for (auto &contender : suite.contenders)
        std::cout << contender.name << ' ' << mean_of_least(contender) << '\n';
    return true;
}

bool count_all(Suite &suite, const std::string &label) {
    for (auto &contender : suite.contenders) {
        if (contender.name == "lemon") continue;
        int calls = 0;
        CALLGRIND_ZERO_STATS;
        CALLGRIND_TOGGLE_COLLECT;
        for (int part = 0; part < contender.parts; ++part) calls += contender.run(part);
        CALLGRIND_TOGGLE_COLLECT;
        std::string text = label + '/' + contender.name + '/' + std::to_string(calls);
        CALLGRIND_DUMP_STATS_AT(text.c_str());
        if (calls == 0) return false;
    }
    return true;
}

// Answers whether all is well.
bool obey(const std::string &command, std::map<std::string, Suite> &suites) {
    std::string name, path;
    int n, count;
    std::cin >> name >> n;
    std::string label = name + '/' + std::to_string(n);
    Suite &suite = suites[label];
    if (command == "suite") {
        std::cin >> count >> path;
        suite = make_suite(name, n, count, path);
        if (suite.wrong.empty()) std::cout << "ready " << suite.total << std::endl;
        else std::cout << "wrong: " << suite.wrong << std::endl;
        return suite.wrong.empty();
    }
    bool good = command == "round" ? time_all(suite) : count_all(suite, label);
    std::cout << (good ? "done" : "wrong: a call was refused") << std::endl;
    return good;
}

} // namespace

int main() {
    std::map<std::string, Suite> suites;
    std::string command;
    while (std::cin >> command)
        if (!obey(command, suites)) return 1;
}
