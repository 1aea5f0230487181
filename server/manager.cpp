#include "manager.hpp"
#include <cerrno>
#include <cstddef>
#include <cstdio>
#include <cstdlib>
#include <cstring>
#include <ctime>
#include <grp.h>
#include <pwd.h>
#include <stdexcept>
#include <sys/prctl.h>
#include <sys/socket.h>
#include <sys/un.h>
#include <unistd.h>

void notify_manager(const char *state) noexcept {
    const char *path = std::getenv("NOTIFY_SOCKET");
    sockaddr_un to{};
    size_t size = path ? std::strlen(path) : 0;
    if (size < 2 || size >= sizeof to.sun_path) return;
    to.sun_family = AF_UNIX;
    std::memcpy(to.sun_path, path, size);
    // A name of the abstract space.
    if (path[0] == '@') to.sun_path[0] = '\0';
    int socket = ::socket(AF_UNIX, SOCK_DGRAM | SOCK_CLOEXEC, 0);
    if (socket < 0) return;
    (void)!sendto(socket, state, std::strlen(state), MSG_NOSIGNAL | MSG_DONTWAIT,
        reinterpret_cast<sockaddr *>(&to), socklen_t(offsetof(sockaddr_un, sun_path) + size));
    close(socket);
}

void notify_reload() noexcept {
    timespec now{};
    clock_gettime(CLOCK_MONOTONIC, &now);
    char state[80];
    std::snprintf(state, sizeof state, "RELOADING=1\nMONOTONIC_USEC=%lld",
        (long long)(now.tv_sec) * 1000000 + now.tv_nsec / 1000);
    notify_manager(state);
}

void become(const std::string &user) {
    const passwd *found = getpwnam(user.c_str());
    if (!found) throw std::runtime_error("--user: there is no user '" + user + "'");
    if (initgroups(user.c_str(), found->pw_gid) != 0 || setgid(found->pw_gid) != 0
        || setuid(found->pw_uid) != 0)
        throw std::runtime_error("--user: can't become '" + user + "': " + strerror(errno));
    // So that it may read what /proc says of itself.
    prctl(PR_SET_DUMPABLE, 1);
}
