// How replies go out, and what is said of each.
#include "http.hpp"

namespace {

const char *const METHODS = "GET, HEAD, POST, OPTIONS";

}  // namespace

std::string shown_line(const Request &request) {
    return request.line.substr(0, 256) + (request.line.size() > 256 ? ".." : "");
}

MHD_Result Http::send(Request &request) {
    // It may be looked at elsewhere if it is answered already.
    if (request.state != Request::State::answered) request.state = Request::State::answered;
    request.is_last = request.is_last || is_draining || request.connection->is_spare;
    auto &reply = request.reply;
    auto *response = MHD_create_response_from_buffer(
        reply.text.size(), reply.text.data(), MHD_RESPMEM_PERSISTENT);
    if (!response) return MHD_NO;
    add_headers(response, request);
    bool is_open = request.connection->begin_reply();
    if (is_open) {
        request.is_sent = true;
        double seconds = seconds_since(request.came);
        metrics.answered(request.path, reply.http, seconds);
        log_request(request, seconds);
    }
    auto result = is_open ? MHD_queue_response(request.at, unsigned(reply.http), response) : MHD_NO;
    MHD_destroy_response(response);
    return result;
}

void Http::add_headers(MHD_Response *response, const Request &request) const {
    int status = request.reply.http;
    if (status != 204)
        MHD_add_response_header(response, "Content-Type",
            request.type && status == 200 ? request.type : "application/json");
    if (status == 503) MHD_add_response_header(response, "Retry-After", "1");
    if (status == 204 || status == 405) MHD_add_response_header(response, "Allow", METHODS);
    if (request.is_last) MHD_add_response_header(response, "Connection", "close");
    if (options.cors.empty()) return;
    MHD_add_response_header(response, "Access-Control-Allow-Origin", options.cors.c_str());
    if (options.cors != "*") MHD_add_response_header(response, "Vary", "Origin");
    if (request.method != "OPTIONS") return;
    MHD_add_response_header(response, "Access-Control-Allow-Methods", METHODS);
    MHD_add_response_header(response, "Access-Control-Allow-Headers", "Content-Type");
    MHD_add_response_header(response, "Access-Control-Max-Age", "86400");
}

void Http::log_request(const Request &request, double seconds) {
    log.note([&] {
        Object line;
        line.text("time", now_as_text()).text("client", request.connection->address);
        if (!request.forwarded.empty()) line.text("forwarded", request.forwarded);
        line.text("request", request.method + " " + shown_line(request));
        line.number("status", uint64_t(request.reply.http));
        line.number("bytes", request.reply.text.size()).raw("seconds", shown(seconds, 6));
        return line;
    });
}
