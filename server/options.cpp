#include "options.hpp"
#include "version.hpp"
#include <cmath>
#include <cstdio>
#include <cstdlib>
#include <fstream>
#include <functional>
#include <thread>
#include <vector>

namespace {

const char *const USAGE =
    "Answers routes, trees, tables and nearest vertices over HTTP, in JSON, from a road graph in "
    "memory.\n"
    "\n"
    "usage: diffuse-server GRAPH.gr [OPTIONS]\n"
    "\n"
    "  --factors             factor the graph, so that an answer takes a fraction of a search\n"
    "  --places FILE.co      coordinates of the vertices, for the map, places, and geometry\n"
    "  --names FILE.names    names of streets, for the steps of routes\n"
    "  --also NAME=FILE.gr   a second graph over the same arcs: its sum along each route is given "
    "as NAME\n"
    "  --unit UNIT           what the weights are, as the map shows them: s, cs (hundredths), or m\n"
    "  --snap-limit METRES   a place that is farther from each vertex is refused (default: 50000)\n"
    "  --parts               print how large the parts are in which each vertex reaches each, and "
    "end\n"
    "  --config FILE         further options, a line `NAME = VALUE` for each, without dashes\n"
    "  --host ADDRESS        where to listen (default: 127.0.0.1, for this machine alone)\n"
    "  --port N              (default: 8080; 0: the system chooses one)\n"
    "  --cors ORIGIN         let pages of this origin ask, or of all origins by '*'\n"
    "  --handles N           searches at once (default: one for each processor, and at least 2)\n"
    "  --queue N             routes that may wait, and as many tables and trees (default: 256)\n"
    "  --connections N       connections at once (default: 1024)\n"
    "  --slow N              connections of one address that may read or write for over a second "
    "(default: 32)\n"
    "  --timeout SECONDS     a request has its answer after this time, or is refused (default: 5)\n"
    "  --read SECONDS        a request must have come whole after this time (default: 10)\n"
    "  --write SECONDS       a reply must have been taken after this time (default: 30)\n"
    "  --idle SECONDS        a connection without a request is closed after this time, and the "
    "memory\n"
    "                        of a search that none needs is given back (default: 60)\n"
    "  --grace SECONDS       after SIGTERM it goes on for this time, with 503 at /health (default: "
    "0)\n"
    "  --drain SECONDS       then it ends within this time (default: 10)\n"
    "  --user NAME           become this user once the port is open and the files are read\n"
    "  --version, --help\n";

[[noreturn]] void stop(const std::string &message) {
    std::fprintf(stderr, "diffuse-server: %s\n", message.c_str());
    std::exit(2);
}

// A whole number of an option.
unsigned whole(const std::string &name, const std::string &text, unsigned least, unsigned most) {
    bool digits =
        !text.empty() && text.size() < 10 && text.find_first_not_of("0123456789") == text.npos;
    unsigned long number = digits ? std::stoul(text) : 0;
    if (!digits || number < least || number > most)
        stop(name + ": '" + text + "' is not a whole number from " + std::to_string(least) + " to "
             + std::to_string(most));
    return unsigned(number);
}

// A time of an option.
double seconds(const std::string &name, const std::string &text) {
    char *end = nullptr;
    double number = std::strtod(text.c_str(), &end);
    if (text.empty() || *end || !std::isfinite(number) || number < 0.01 || number > 86400)
        stop(name + ": '" + text + "' is not a number of seconds from 0.01 to 86400");
    return number;
}

// NAME=FILE, with a name that no field of a reply has.
void second(Options &options, const std::string &text) {
    auto at = text.find('=');
    options.also_name = text.substr(0, at);
    options.also = at == text.npos ? "" : text.substr(at + 1);
    bool letters = options.also_name.find_first_not_of("abcdefghijklmnopqrstuvwxyz_") == text.npos;
    for (const char *taken : {"", "source", "target", "value", "hops", "route", "geometry",
             "status", "vertices", "arcs", "graph", "places", "names", "unit", "also",
             "largest_part", "snap", "legs", "steps", "sources", "targets", "values", "street"})
        letters = letters && options.also_name != taken;
    if (!letters || options.also.empty())
        stop("--also: '" + text
             + "' is not NAME=FILE, with a name of small letters that no other field has");
}

using Setter = std::function<void(Options &, const std::string &, const std::string &)>;

Setter into(unsigned Options::*field, unsigned least, unsigned most) {
    return [=](Options &options, const std::string &name, const std::string &text) {
        options.*field = whole(name, text, least, most);
    };
}

Setter into(double Options::*field) {
    return [=](Options &options, const std::string &name, const std::string &text) {
        options.*field = seconds(name, text);
    };
}

Setter into(std::string Options::*field) {
    return [=](Options &options, const std::string &name, const std::string &text) {
        options.*field = text.empty() || text.find_first_of("\r\n") != text.npos
                             ? (stop(name + ": a value is missing"), "")
                             : text;
    };
}

void unit(Options &options, const std::string &name, const std::string &text) {
    if (text != "s" && text != "cs" && text != "m")
        stop(name + ": '" + text + "' is not s, cs or m");
    options.unit = text;
}

const std::vector<std::pair<std::string, Setter>> SETTERS = {{"--places", into(&Options::places)},
    {"--names", into(&Options::names)}, {"--host", into(&Options::host)},
    {"--cors", into(&Options::cors)}, {"--user", into(&Options::user)}, {"--unit", unit},
    {"--also", [](Options &options, const std::string &,
                   const std::string &text) { second(options, text); }},
    {"--port", into(&Options::port, 0, 65535)}, {"--handles", into(&Options::handles, 1, 1024)},
    {"--queue", into(&Options::queue, 0, 1000000)},
    {"--snap-limit", into(&Options::snap_limit, 0, 30000000)},
    {"--connections", into(&Options::connections, 1, 100000)},
    {"--slow", into(&Options::slow, 1, 100000)}, {"--timeout", into(&Options::timeout)},
    {"--read", into(&Options::read)}, {"--write", into(&Options::write)},
    {"--idle", into(&Options::idle)}, {"--grace", into(&Options::grace)},
    {"--drain", into(&Options::drain)}};

// Sets an option that has a value, which is the next word or follows '='.
void set(Options &options, const std::vector<std::string> &words, size_t &place) {
    auto &word = words[place];
    auto equals = word.find('=');
    std::string name = word.substr(0, equals);
    for (auto &[known, setter] : SETTERS) {
        if (name != known) continue;
        if (equals == word.npos && place + 1 == words.size()) stop(name + ": a value is missing");
        setter(options, name, equals == word.npos ? words[++place] : word.substr(equals + 1));
        return;
    }
    stop("there is no option '" + word + "'; see --help");
}

std::string trimmed(std::string_view text) {
    auto begin = text.find_first_not_of(" \t\r"), end = text.find_last_not_of(" \t\r");
    return begin == text.npos ? "" : std::string(text.substr(begin, end - begin + 1));
}

// The options of a file, as words of a command line: `graph` is the graph, and a name alone a flag.
void read_config(const std::string &path, std::vector<std::string> &words) {
    std::ifstream file(path);
    if (!file) stop("--config: '" + path + "' can't be read");
    for (std::string line; std::getline(file, line);) {
        line = trimmed(line.substr(0, line.find('#')));
        auto equals = line.find('=');
        std::string name = trimmed(line.substr(0, equals));
        std::string value = equals == line.npos ? "" : "=" + trimmed(line.substr(equals + 1));
        if (name == "config") stop("--config: '" + path + "' names a further file");
        if (name == "graph") words.push_back(value.substr(std::min<size_t>(1, value.size())));
        else if (!name.empty()) words.push_back("--" + name + value);
    }
}

// The words of a command line, with those of the file that it names before them.
std::vector<std::string> words_of(int count, char **given) {
    std::vector<std::string> words, own;
    for (int place = 1; place < count; place++) {
        std::string word = given[place], equals = "--config=";
        if (word == "--config" && place + 1 < count) read_config(given[++place], words);
        else if (word.compare(0, equals.size(), equals) == 0)
            read_config(word.substr(equals.size()), words);
        else own.push_back(word);
    }
    words.insert(words.end(), own.begin(), own.end());
    return words;
}

[[noreturn]] void print(const std::string &text) {
    std::fputs(text.c_str(), stdout);
    std::exit(0);
}

}  // namespace

Options read_options(int count, char **given) {
    Options options;
    auto words = words_of(count, given);
    for (size_t place = 0; place < words.size(); place++) {
        auto &word = words[place];
        if (word == "--help") print(USAGE);
        if (word == "--version") print("diffuse-server " + version() + "\n");
        if (word == "--factors") options.factors = true;
        else if (word == "--parts") options.parts = true;
        else if (word.substr(0, 1) == "-") set(options, words, place);
        else if (options.graph.empty()) options.graph = word;
        else stop("one graph is served, and '" + word + "' is a second one; see --help");
    }
    if (options.graph.empty()) stop("there must be a graph; see --help");
    // With two at least a route need not wait for a table.
    if (!options.handles) options.handles = std::max(2u, std::thread::hardware_concurrency());
    return options;
}
