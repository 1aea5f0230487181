#include "http.hpp"
#include "heads.hpp"
#include "pages.hpp"
#include <climits>
#include <cstring>
#include <netdb.h>

namespace {

using State = Request::State;

std::string address_of(const sockaddr *from) {
    char host[64] = "";
    socklen_t size = from->sa_family == AF_INET6 ? sizeof(sockaddr_in6) : sizeof(sockaddr_in);
    getnameinfo(from, size, host, sizeof host, nullptr, 0, NI_NUMERICHOST);
    return host;
}

Connection *connection_of(MHD_Connection *at) {
    auto *info = MHD_get_connection_info(at, MHD_CONNECTION_INFO_SOCKET_CONTEXT);
    return info ? static_cast<Connection *>(info->socket_context) : nullptr;
}

uint64_t head_size(const Request &request) {
    return MHD_get_connection_info(request.at, MHD_CONNECTION_INFO_REQUEST_HEADER_SIZE)
        ->header_size;
}

}  // namespace

Http::Http(const Options &options, Log &log, Metrics &metrics, Connections &connections,
    Searches &searches)
    : options(options), log(log), metrics(metrics), connections(connections), searches(searches) {
    // Its own limit of connections is out of reach: met by connections that wait, it is for ever.
    const unsigned most = INT_MAX;
    daemon = MHD_start_daemon(MHD_USE_EPOLL_INTERNAL_THREAD | MHD_ALLOW_SUSPEND_RESUME
                                  | MHD_USE_NO_LISTEN_SOCKET | MHD_USE_ITC | MHD_USE_TURBO,
        0, nullptr, nullptr, go_on, this, MHD_OPTION_CONNECTION_LIMIT, most,
        MHD_OPTION_CONNECTION_MEMORY_LIMIT, size_t(16384), MHD_OPTION_STRICT_FOR_CLIENT, 0,
        MHD_OPTION_URI_LOG_CALLBACK, begin, this, MHD_OPTION_NOTIFY_COMPLETED, complete, this,
        MHD_OPTION_NOTIFY_CONNECTION, notify, this, MHD_OPTION_END);
    if (!daemon) throw std::runtime_error("libmicrohttpd does not start");
}

bool Http::take(int socket, const sockaddr *from, socklen_t size) {
    return MHD_add_connection(daemon, socket, from, size) == MHD_YES;
}

void Http::hold(Request &request) { MHD_suspend_connection(request.at); }

void Http::resume(Request &request) { MHD_resume_connection(request.at); }

void Http::notify(
    void *self, MHD_Connection *at, void **connection, MHD_ConnectionNotificationCode what) {
    auto &connections = static_cast<Http *>(self)->connections;
    if (what == MHD_CONNECTION_NOTIFY_CLOSED) {
        if (*connection) connections.close(static_cast<Connection *>(*connection));
        return;
    }
    int socket = MHD_get_connection_info(at, MHD_CONNECTION_INFO_CONNECTION_FD)->connect_fd;
    try {
        auto *from = MHD_get_connection_info(at, MHD_CONNECTION_INFO_CLIENT_ADDRESS);
        *connection = connections.open(socket, address_of(from->client_addr));
    } catch (const std::bad_alloc &) {
        shutdown(socket, SHUT_RDWR);
    }
}

// The first line, of which the library is left the path: its own reading of a query runs out of
// room at some hundred fields, and then there is neither a reply nor an end.
void *Http::begin(void *, const char *line, MHD_Connection *at) {
    try {
        auto request = std::make_unique<std::shared_ptr<Request>>(std::make_shared<Request>());
        (*request)->at = at;
        (*request)->connection = connection_of(at);
        (*request)->line = line;
        // The line is in the library's buffer, which is not constant.
        if (const char *query = std::strchr(line, '?')) const_cast<char *>(query)[1] = '\0';
        return request.release();
    } catch (const std::bad_alloc &) {
        return nullptr;
    }
}

void Http::complete(void *self, MHD_Connection *, void **held, MHD_RequestTerminationCode) {
    std::unique_ptr<std::shared_ptr<Request>> request(
        static_cast<std::shared_ptr<Request> *>(*held));
    *held = nullptr;
    if (!request) return;
    auto &http = *static_cast<Http *>(self);
    if ((*request)->connection) (*request)->connection->enter(Connection::State::idle);
    if ((*request)->is_sent) return;
    http.metrics.cut_requests++;
    http.log.note([&] {
        return event("cut off, or refused by libmicrohttpd").text("line", shown_line(**request));
    });
}

MHD_Result Http::go_on(void *self, MHD_Connection *, const char *, const char *method,
    const char *version, const char *data, size_t *size, void **held) {
    auto *request = static_cast<std::shared_ptr<Request> *>(*held);
    if (!request || !(*request)->connection) return MHD_NO;
    auto &http = *static_cast<Http *>(self);
    try {
        if (!(*request)->is_begun) return http.read_head(**request, method, version);
        return *size ? http.read_body(**request, data, size) : http.answer(*request);
    } catch (const Refused &why) {
        (*request)->reply.refuse(why);
    } catch (const std::exception &) {
        (*request)->reply.refuse_briefly();
    }
    // What else has come of a request that is refused before it was read is not read.
    (*request)->is_last |= (*request)->state == State::reading;
    return http.send(**request);
}

MHD_Result Http::read_head(Request &request, const char *method, const char *version) {
    request.is_begun = true;
    if (!request.connection->begin_request()) return MHD_NO;
    // The library has no room for a reply to a head that is much longer.
    if (head_size(request) > LONGEST_HEAD) {
        request.connection->send_alone(431, "a head has at most 15000 bytes");
        metrics.answered("other", 431, seconds_since(request.came));
        return MHD_NO;
    }
    request.method = method;
    request.path = path_of(request.line);
    check_head(request, version);
    return MHD_YES;
}

MHD_Result Http::read_body(Request &request, const char *data, size_t *size) {
    if (request.body.size() + *size > LONGEST_BODY) throw too_long_body();
    request.body.append(data, *size);
    *size = 0;
    return MHD_YES;
}

// The last call for a request comes again as long as there is neither a reply nor a pause. Only the
// second call makes the pause: by then the library waits for no more bytes. Otherwise it would read
// on afterwards, and drop a request whose client has closed its end.
MHD_Result Http::answer(const std::shared_ptr<Request> &request) {
    if (request->state == State::answered) return send(*request);
    if (request->state == State::reading) return read_fields(*request);
    if (request->state == State::asking) searches.add(request);
    return MHD_YES;
}

// The fields of a request that has come whole, and its reply if that takes no search.
MHD_Result Http::read_fields(Request &request) {
    if (!request.connection->enter(Connection::State::asking)) return MHD_NO;
    request.came = Clock::now();
    request.state = State::asking;
    bool is_own = request.method == "OPTIONS" || !is_question(request.path);
    if (request.connection->is_spare && !is_own) {
        metrics.refused_connections++;
        throw refusal(503, "there are too many connections");
    }
    if (request.method != "OPTIONS") {
        request.fields.add_query(query_of(request.line));
        if (!request.body.empty()) request.fields.add_body(request.body);
    }
    if (!is_own) return MHD_YES;
    answer_itself(request);
    return send(request);
}

void Http::answer_itself(Request &request) {
    if (request.method == "OPTIONS") {
        request.reply.http = 204;
        return;
    }
    request.fields.allow({});
    if (request.path == "/health") {
        if (is_ending) throw refusal(503, "the server is ending");
        request.reply.text = searches.now()->health();
    } else if (request.path == "/metrics") {
        request.reply.text = metrics_text();
        request.type = "text/plain; version=0.0.4";
    } else if (request.path == "/") {
        request.reply.text = MAP_PAGE;
        request.type = "text/html; charset=utf-8";
    } else if (request.path == "/openapi.json") request.reply.text = OPENAPI;
    else throw refusal(404, "there is no such path");
}
