// HTTP over libmicrohttpd: which requests are let in, and how replies go out.
#pragma once
#include "connections.hpp"
#include "searches.hpp"
#include <microhttpd.h>

class Http {
  public:
    // Starts the thread that reads and writes; throws std::runtime_error if it can't.
    Http(const Options &options, Log &log, Metrics &metrics, Connections &connections,
        Searches &searches);
    bool take(int socket, const sockaddr *from, socklen_t size);
    // From now on /health says that the server ends.
    void end() { is_ending = true; }
    // From now on each connection is closed with its next reply.
    void drain() { is_draining = true; }
    static void hold(Request &request);
    static void resume(Request &request);

  private:
    const Options &options;
    Log &log;
    Metrics &metrics;
    Connections &connections;
    Searches &searches;
    std::atomic<bool> is_ending{false}, is_draining{false};
    MHD_Daemon *daemon = nullptr;

    static void *begin(void *self, const char *line, MHD_Connection *at);
    static MHD_Result go_on(void *self, MHD_Connection *at, const char *url, const char *method,
        const char *version, const char *data, size_t *size, void **request);
    static void complete(
        void *self, MHD_Connection *at, void **request, MHD_RequestTerminationCode why);
    static void notify(
        void *self, MHD_Connection *at, void **connection, MHD_ConnectionNotificationCode what);

    MHD_Result read_head(Request &request, const char *method, const char *version);
    MHD_Result read_body(Request &request, const char *data, size_t *size);
    MHD_Result answer(const std::shared_ptr<Request> &request);
    MHD_Result read_fields(Request &request);
    void answer_itself(Request &request);
    MHD_Result send(Request &request);
    void add_headers(MHD_Response *response, const Request &request) const;
    std::string metrics_text() const;
    void log_request(const Request &request, double seconds);
};

// The path and the query of a request, as the log shows them.
std::string shown_line(const Request &request);
