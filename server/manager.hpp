// What a manager of services hears and gives: systemd's notices, and the user to become.
#pragma once
#include <string>

// Sends a notice to systemd, if that has started the server (sd_notify's datagram, without its
// library).
void notify_manager(const char *state) noexcept;
// That a reload begins, with its time, as systemd wants it.
void notify_reload() noexcept;

// Becomes a user of the system; else std::runtime_error.
void become(const std::string &user);
