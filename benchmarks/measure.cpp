// Runs a command with its standard output in a file, and reports what the command alone has used:
//
//     measure OUTPUT COMMAND [ARGUMENT ..]
//
// One line: seconds of processor time (user and system), seconds of the clock, peak memory in KiB, and the exit status
// (128 and the signal's number where a signal ended it). A child that is forked begins with its parent's memory, and its peak counts that;
// this program is small, so that what it reports is the command's own peak.
#include <chrono>
#include <cstdio>
#include <fcntl.h>
#include <sys/resource.h>
#include <sys/wait.h>
#include <unistd.h>

static double seconds(const timeval& time) {
    return static_cast<double>(time.tv_sec) + static_cast<double>(time.tv_usec) * 1e-6;
}

int main(int count, char** words) {
    if (count < 3) {
        std::fprintf(stderr, "usage: measure OUTPUT COMMAND [ARGUMENT ..]\n");
        return 2;
    }
    int output = open(words[1], O_WRONLY | O_CREAT | O_TRUNC | O_CLOEXEC, 0644);
    if (output < 0) {
        std::perror(words[1]);
        return 2;
    }
    auto begun = std::chrono::steady_clock::now();
    pid_t child = fork();
    if (child == 0) {
        dup2(output, STDOUT_FILENO);
        execv(words[2], words + 2);
        std::perror(words[2]);
        _exit(127);
    }
    int status = 0;
    rusage used{};
    if (child < 0 || wait4(child, &status, 0, &used) != child) {
        std::perror("measure");
        return 2;
    }
    std::chrono::duration<double> passed = std::chrono::steady_clock::now() - begun;
    int code = WIFEXITED(status) ? WEXITSTATUS(status) : 128 + WTERMSIG(status);
    std::printf("%.6f %.6f %ld %d\n", seconds(used.ru_utime) + seconds(used.ru_stime), passed.count(), used.ru_maxrss, code);
    return 0;
}
