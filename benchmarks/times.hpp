// How long a program reads, solves and writes, in the line that `diffuse solve --times` has.
#pragma once
#include <chrono>
#include <cstdio>
#include <cstring>

enum Phase { READING, SOLVING, WRITING, PHASES };

// Begins as the program reads.
class Times {
    using Clock = std::chrono::steady_clock;
    Phase phase = READING;
    Clock::time_point since = Clock::now();
    std::chrono::duration<double> spent[PHASES] = {};

public:
    // The program begins this, and ends what it did before.
    void enter(Phase next) {
        Clock::time_point now = Clock::now();
        spent[phase] += now - since;
        phase = next, since = now;
    }

    // Says on standard error how long each phase took.
    void show() {
        enter(READING);
        std::fprintf(stderr, "times: read %.3f solve %.3f write %.3f\n", spent[READING].count(), spent[SOLVING].count(), spent[WRITING].count());
    }
};

// Whether the command line has two files, and after them perhaps the word --times.
static inline bool has_two_files(int count, char** words) {
    return count == 3 || (count == 4 && std::strcmp(words[3], "--times") == 0);
}
