// Graphs and questions read from files, block by block. Each number is held against its limit, and a file that breaks a rule
// is refused, though not with the rule's number.
#pragma once
#include "output.hpp"

#include <cstring>
#include <fcntl.h>
#include <unistd.h>

constexpr uint64_t MOST_VERTICES = 1 << 25, MOST_ARCS = 1 << 27, MOST_WEIGHT = 0xFFFFFFFF, MOST_QUESTIONS = 1 << 20;

// The fields of one line, from left to right.
class Fields {
    const char *at, *end;
    const string& place;

    void skip_spaces() {
        while (at < end && (*at == ' ' || *at == '\t')) at++;
    }

public:
    Fields(const char* begin, const char* end, const string& place) : at(begin), end(end), place(place) {
        if (begin < end && end[-1] == '\r') this->end--;
        skip_spaces();
    }

    [[noreturn]] void refuse(const char* why) const { stop(place + ": " + why); }

    // The first byte of the next field, or 0 at the end of the line.
    char first() const { return at < end ? *at : '\0'; }

    void word(const char* expected) {
        size_t length = std::strlen(expected);
        bool equal = size_t(end - at) >= length && std::memcmp(at, expected, length) == 0;
        if (!equal || (at + length < end && at[length] != ' ' && at[length] != '\t')) refuse("not the word that belongs here");
        at += length;
        skip_spaces();
    }

    uint64_t number(uint64_t least, uint64_t most) {
        const char* begin = at;
        uint64_t value = 0;
        for (; at < end && *at >= '0' && *at <= '9'; at++) {
            value = value * 10 + static_cast<uint64_t>(*at - '0');
            if (value > most) refuse("a number above its limit");
        }
        if (at == begin || (at < end && *at != ' ' && *at != '\t')) refuse("not a number");
        if (value < least) refuse("a number below its limit");
        skip_spaces();
        return value;
    }

    void finish() const {
        if (at < end) refuse("too many fields");
    }
};

// Calls `take` with the fields of each line of a file that is neither blank nor a comment.
template <class Take>
static void read_lines(const char* path, Take take) {
    int file = open(path, O_RDONLY);
    if (file < 0) stop(string(path) + ": could not be opened");
    string place = path;
    vector<char> buffer(BLOCK);
    size_t held = 0;
    auto take_line = [&](const char* begin, const char* end) {
        Fields fields(begin, end, place);
        if (fields.first() != '\0' && fields.first() != 'c') take(fields);
    };
    for (;;) {
        if (held == buffer.size()) buffer.resize(2 * held);
        ssize_t count = read(file, buffer.data() + held, buffer.size() - held);
        if (count < 0) stop(place + ": could not be read");
        const char *begin = buffer.data(), *end = begin + held + count;
        if (count == 0) {
            if (begin < end) take_line(begin, end);
            break;
        }
        while (auto* stop_at = static_cast<const char*>(std::memchr(begin, '\n', size_t(end - begin)))) {
            take_line(begin, stop_at);
            begin = stop_at + 1;
        }
        held = size_t(end - begin);
        std::memmove(buffer.data(), begin, held);
    }
    close(file);
}

struct Arc {
    uint32_t tail, head, weight;
};

struct ArcList {
    uint32_t vertices = 0;
    vector<Arc> arcs;
};

static inline ArcList read_graph(const char* path) {
    ArcList list;
    bool begun = false;
    uint64_t announced = 0;
    read_lines(path, [&](Fields& fields) {
        if (fields.first() == 'a') {
            fields.word("a");
            if (!begun || list.arcs.size() == announced) fields.refuse("an arc too many");
            auto tail = static_cast<uint32_t>(fields.number(1, list.vertices));
            auto head = static_cast<uint32_t>(fields.number(1, list.vertices));
            list.arcs.push_back({tail, head, static_cast<uint32_t>(fields.number(0, MOST_WEIGHT))});
        } else {
            fields.word("p");
            fields.word("sp");
            if (begun) fields.refuse("a second problem line");
            begun = true;
            list.vertices = static_cast<uint32_t>(fields.number(0, MOST_VERTICES));
            announced = fields.number(0, MOST_ARCS);
            list.arcs.reserve(announced);
        }
        fields.finish();
    });
    if (!begun || list.arcs.size() < announced) stop(string(path) + ": too few lines");
    return list;
}

// Reads a file of questions of a kind, each a line that begins with this word; `take` gives one from its other fields.
template <class Question, class Take>
static vector<Question> read_questions(const char* path, const char* word, const char* kind, Take take) {
    vector<Question> questions;
    bool begun = false;
    uint64_t announced = 0;
    read_lines(path, [&](Fields& fields) {
        if (fields.first() == *word) {
            fields.word(word);
            if (!begun || questions.size() == announced) fields.refuse("a question too many");
            questions.push_back(take(fields));
        } else {
            for (const char* expected : {"p", "aux", "sp", kind}) fields.word(expected);
            if (begun) fields.refuse("a second problem line");
            begun = true;
            announced = fields.number(0, MOST_QUESTIONS);
        }
        fields.finish();
    });
    if (!begun || questions.size() < announced) stop(string(path) + ": too few lines");
    return questions;
}

static inline vector<uint32_t> read_sources(const char* path, uint32_t vertices) {
    return read_questions<uint32_t>(path, "s", "ss", [&](Fields& fields) { return static_cast<uint32_t>(fields.number(1, vertices)); });
}
