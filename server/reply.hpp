// What a request is answered, and how much all long replies may hold.
#pragma once
#include "refused.hpp"
#include <atomic>

// A part of what all long replies that are not yet read may hold; it is given back with its owner.
class Share {
  public:
    static constexpr size_t MOST = 64 << 20, LONG = 1 << 16;

    ~Share() {
        if (all) *all -= size;
    }
    // Whether so many bytes are to be had.
    bool take(std::atomic<size_t> &of, size_t bytes) {
        if (bytes < LONG) return true;
        if ((of += bytes) > MOST) return of -= bytes, false;
        return all = &of, size = bytes, true;
    }

  private:
    std::atomic<size_t> *all = nullptr;
    size_t size = 0;
};

struct Reply {
    int http = 200;
    std::string text;

    // If even a refusal needs more memory than there is, it is one that needs none.
    void refuse(const Refused &why) noexcept {
        http = why.http;
        try {
            text = why.reply();
        } catch (...) {
            refuse_briefly();
        }
    }
    void refuse(int status, const char *why) noexcept {
        try {
            refuse(refusal(status, why));
        } catch (...) {
            refuse_briefly();
        }
    }
    void refuse_briefly() noexcept {
        http = 503;
        text = "{\"http\": 503}\n";  // no longer than a string without memory of its own may be
    }
};
