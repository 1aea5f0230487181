// What the command line says.
#pragma once
#include <cstdint>
#include <string>

struct Options {
    std::string graph, places, names, also_name, also, host = "127.0.0.1", cors, unit, user;
    unsigned port = 8080, handles = 0, queue = 256, connections = 1024, slow = 32;
    double timeout = 5, read = 10, write = 30, idle = 60, drain = 10, grace = 0;
    // Metres from a place to its vertex at most.
    unsigned snap_limit = 50000;
    bool factors = false, parts = false;
};

// The options of a command line and of the file that it names; a wrong one ends the program with
// status 2, --help and --version with 0.
Options read_options(int count, char **words);
