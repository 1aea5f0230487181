#include "files.hpp"
#include "log.hpp"
#include "sha256.hpp"
#include <cerrno>
#include <cstring>
#include <fcntl.h>
#include <fstream>
#include <sys/stat.h>
#include <unistd.h>

namespace {

struct Opened {
    int number;
    ~Opened() {
        if (number >= 0) close(number);
    }
};

[[noreturn]] void bad(const std::string &path, const std::string &why) {
    throw BadFile(path + ": " + why);
}

// The number that a file of the system has, or the greatest one.
uint64_t number_in(const char *path) {
    uint64_t number = 0;
    return std::ifstream(path) >> number ? number : UINT64_MAX;
}

// The bytes of memory that the system, or its container, could give, as far as they say so.
uint64_t available_memory() {
    uint64_t most = number_in("/sys/fs/cgroup/memory.max"),
             used = number_in("/sys/fs/cgroup/memory.current");
    uint64_t within = most == UINT64_MAX || used == UINT64_MAX ? most : most - std::min(most, used);
    std::ifstream file("/proc/meminfo");
    for (std::string name; file >> name;) {
        uint64_t kilobytes = 0;
        if (name == "MemAvailable:" && file >> kilobytes) return std::min(within, kilobytes * 1024);
    }
    return within;
}

}  // namespace

std::string read_file(const std::string &path, Origin &origin) {
    // A FIFO without a writer must not be waited for.
    Opened file{open(path.c_str(), O_RDONLY | O_CLOEXEC | O_NONBLOCK)};
    struct stat about {};
    if (file.number < 0 || fstat(file.number, &about) != 0) bad(path, strerror(errno));
    if (!S_ISREG(about.st_mode)) bad(path, "not a regular file");
    if (uint64_t(about.st_size) > uint64_t(1) << 32) bad(path, "more than 4294967296 bytes");
    if (uint64_t(about.st_size) > available_memory())
        bad(path, "larger than the memory that is available");
    std::string text(size_t(about.st_size), '\0');
    size_t done = 0;
    while (done < text.size()) {
        ssize_t step = read(file.number, text.data() + done, text.size() - done);
        if (step < 0 && errno != EINTR) bad(path, strerror(errno));
        if (step == 0) break;
        done += size_t(std::max<ssize_t>(step, 0));
    }
    text.resize(done);
    origin = {path, sha256(text), now_as_text()};
    return text;
}
