/* Best values, routes, trees and tables in a road graph that is kept in memory. For C99, C++98 and later.

   What each call answers is proved of the library itself; docs/EMBEDDING.md says what that means.

   What a caller owes, since nothing checks it:
   - Each pointer is aligned for its type and valid for as many elements as the number after it says. What the pointers of one
     call point to does not overlap. NULL will do for a list of no elements, and for a single number that is not wanted: a line,
     a count, code, hops, vertex or reason. Callers that look a function up by its symbol, or call it by its address, must pass a
     valid pointer for each single number.
   - A handle, of a graph or a stop, starts as DIFFUSE_CLOSED, which is all zero, and is changed only by these calls. It may
     be moved in memory by assignment, if its old place is no longer used. Two copies of an open handle must not both be used.
   - One call at a time uses a handle, be it only to ask for a route: a call takes the graph out of its handle, may make what its
     answer needs, and puts all back, so no handle is const. A handle may be handed to another thread by whatever orders the
     two: the start or the end of a thread, a lock, a queue. For calls at the same time, give each thread a handle of its own
     by diffuse_graph_share.
   - No call but diffuse_stop_set is made from a signal handler, and none in the forked child of a process that has threads.
   - The stack has room: DIFFUSE_STACK bytes are enough for each call. No call recurses. */
#ifndef DIFFUSE_H
#define DIFFUSE_H
#include <stddef.h>
#include <stdint.h>
#ifndef __cplusplus
#include <stdbool.h>
#endif

/* The version of this header. diffuse_version() is that of the library: equal to DIFFUSE_VERSION if the two belong together. */
#define DIFFUSE_VERSION_MAJOR 1
#define DIFFUSE_VERSION_MINOR 2
#define DIFFUSE_VERSION_PATCH 0
#define DIFFUSE_VERSION (10000 * DIFFUSE_VERSION_MAJOR + 100 * DIFFUSE_VERSION_MINOR + DIFFUSE_VERSION_PATCH)

/* The limits: vertices and arcs of a graph, bytes of a text, and the limit of DIFFUSE_ALGEBRA_WITHIN. */
#define DIFFUSE_MAX_VERTICES (UINT32_C(1) << 25)
#define DIFFUSE_MAX_ARCS (UINT64_C(1) << 27)
#define DIFFUSE_MAX_TEXT (UINT64_C(1) << 32)
#define DIFFUSE_MAX_LIMIT (UINT64_C(1) << 63)

/* What a call takes of the stack at most; diffuse_graph_read needs more than half of it, for a buffer. */
#define DIFFUSE_STACK 98304

/* An arc from tail to head. Vertices are numbered from 1; a weight may be 0. */
struct diffuse_arc {
    uint32_t tail, head, weight;
};

/* A handle: closed, or open with a graph. */
struct diffuse_graph {
    void *at;
    bool is_open;
};
#define DIFFUSE_CLOSED { NULL, false }

/* A stop: closed, or open with a flag of the library's by which another thread ends a search. */
struct diffuse_stop {
    void *at;
    bool is_open;
};

/* What makes an enumeration hold any number of 32 bits, where a language can say so. */
#if defined(__cplusplus) && __cplusplus >= 201103L
#define DIFFUSE_32_BITS : uint32_t
#else
#define DIFFUSE_32_BITS
#endif

/* The status that a call returns: the first that applies of those listed with it, in their order.

   After DIFFUSE_STATUS_DONE the answer is written. After a refusal the handle is as it was, and only what explains the refusal
   is written: code and hops of a route that is longer than the room, the number of arcs or vertices that are more than there
   are places, vertex and reason of a wrong tree, the line of a text. diffuse_status_text says the faults of a text, 10 to 19. */
enum diffuse_status {
    DIFFUSE_STATUS_NONE = -1,           /* no status: so compilers take the enumeration for signed, as the statuses are */
    DIFFUSE_STATUS_DONE = 0,
    DIFFUSE_STATUS_NO_ROUTE = 1,        /* no walk from the source to the target has a value */
    DIFFUSE_STATUS_NO_ROOM = 2,         /* route, route_arcs, near and arcs_from: fewer places than are needed; tree, check and factor_by: a
                                           list does not have exactly one place for each vertex (for tree, or none); table: the list
                                           does not have exactly n_sources * n_targets elements; read: a text of more than 2^32
                                           bytes */
    DIFFUSE_STATUS_MEMORY = 3,          /* out of memory */
    DIFFUSE_STATUS_CLOSED = 4,          /* the handle has no graph */
    DIFFUSE_STATUS_OPEN = 5,            /* the handle that was to be opened has a graph already */
    DIFFUSE_STATUS_WRONG = 6,           /* check: the lists are not the tree */
    DIFFUSE_STATUS_DENSE = 7,           /* factor: factors would need too many links: no small separators */
    DIFFUSE_STATUS_HEAVY = 8,           /* factor, factor_by and reweigh: the weights are so great that a sum with its arcs may not fit into
                                           63 bits */
    DIFFUSE_STATUS_NO_FACTORS = 9,      /* factor and factor_by: the algebra has no factors */
    DIFFUSE_STATUS_NO_PROBLEM = 10,
    DIFFUSE_STATUS_SECOND_PROBLEM = 11,
    DIFFUSE_STATUS_BAD_PROBLEM = 12,
    DIFFUSE_STATUS_UNKNOWN_LINE = 13,
    DIFFUSE_STATUS_FIELDS = 14,
    DIFFUSE_STATUS_NOT_A_NUMBER = 15,
    DIFFUSE_STATUS_LIMIT = 16,          /* open and reweigh: too many vertices or arcs; read: a number above its limit */
    DIFFUSE_STATUS_NO_VERTEX = 17,      /* a source, a target, an end of an arc or the vertex of arcs_from is none of the graph */
    DIFFUSE_STATUS_TOO_MANY = 18,
    DIFFUSE_STATUS_TOO_FEW = 19,
    DIFFUSE_STATUS_NO_ALGEBRA = 43,     /* there is no such algebra, or its limit is above 2^63 */
    DIFFUSE_STATUS_NO_LINK = 44,        /* reweigh: an arc between vertices between which the factors have no link */
    DIFFUSE_STATUS_STOPPED = 45,        /* the handle's stop was set before the call was done */
    DIFFUSE_STATUS_OTHER_ARCS = 46,     /* number: the arcs are not those of the graph */
    DIFFUSE_STATUS_NO_NUMBERS = 47,     /* route_arcs: the arcs of the graph were not numbered */
    DIFFUSE_STATUS_NO_ORDER = 48        /* factor_by: the list does not have each place once */
};

/* What is best, and what a code is. Only DIFFUSE_ALGEBRA_WITHIN reads the limit of a call. Any number of 32 bits may be given;
   in C++ before C++11, one from 0 to 7. */
enum diffuse_algebra DIFFUSE_32_BITS {
    DIFFUSE_ALGEBRA_SHORTEST = 0, /* the least sum of weights; the code is the sum, in the unit of the weights, at most 2^63 */
    DIFFUSE_ALGEBRA_WIDEST = 1,   /* the greatest least weight; the code is that weight, and 2^32 at a source */
    DIFFUSE_ALGEBRA_REACH = 2,    /* any walk; the code is 0 */
    DIFFUSE_ALGEBRA_HOPS = 3,     /* the fewest arcs; the code is their number */
    DIFFUSE_ALGEBRA_RELIABLE = 4, /* the greatest product of probabilities; a weight is in millionths, the code in 10^-12 */
    DIFFUSE_ALGEBRA_WITHIN = 5    /* the least sum of weights that is at most the limit; the code is the sum */
};

/* Why the line of a vertex, its code, hops and parent, is wrong, as diffuse_reason_text says: the numbers of the program's checker. */
enum diffuse_reason {
    DIFFUSE_REASON_NOT_A_SOURCE_LINE = 1,
    DIFFUSE_REASON_NOT_BEST = 2,
    DIFFUSE_REASON_NO_PARENT = 3,
    DIFFUSE_REASON_OTHER_HOPS = 4,
    DIFFUSE_REASON_LESSER_PARENT = 5,
    DIFFUSE_REASON_HAS_WALK = 6
};

/* The code of a vertex to which no walk has a value; its hops and its parent are 0. */
#define DIFFUSE_UNREACHED UINT64_MAX

/* What compilers are told that know it: which pointers are not null, and that a status is not to be dropped. */
#if defined(__GNUC__)
#define DIFFUSE_NONNULL(places) __attribute__((nonnull places))
#define DIFFUSE_CHECKED(places) DIFFUSE_NONNULL(places) __attribute__((warn_unused_result))
#else
#define DIFFUSE_NONNULL(places)
#define DIFFUSE_CHECKED(places)
#endif

/* What the library takes for granted of the compiler. */
typedef char diffuse_words_have_64_bits[sizeof(void *) == 8 && sizeof(size_t) == 8 ? 1 : -1];
typedef char diffuse_an_arc_is_three_numbers[sizeof(struct diffuse_arc) == 12 && offsetof(struct diffuse_arc, tail) == 0
                                             && offsetof(struct diffuse_arc, head) == 4
                                             && offsetof(struct diffuse_arc, weight) == 8 ? 1 : -1];
typedef char diffuse_a_handle_is_two_words[sizeof(bool) == 1 && sizeof(struct diffuse_graph) == 16
                                           && offsetof(struct diffuse_graph, at) == 0
                                           && offsetof(struct diffuse_graph, is_open) == 8 ? 1 : -1];
typedef char diffuse_an_algebra_has_32_bits[sizeof(enum diffuse_algebra) == 4 ? 1 : -1];

#ifdef __cplusplus
extern "C" {
#endif

/* Opens a closed handle with the graph of these arcs, which may be changed or freed afterwards.
   OPEN, LIMIT, NO_VERTEX, MEMORY or DONE. Whether the arcs join vertices is found before memory is asked for. */
DIFFUSE_CHECKED((4))
enum diffuse_status diffuse_graph_open(uint32_t vertices, const struct diffuse_arc *arcs, size_t n_arcs,
    struct diffuse_graph *graph);

/* Opens a closed handle with the graph of a .gr text of the 9th DIMACS challenge, which may be changed or freed afterwards.
   OPEN, NO_ROOM, MEMORY, one of NO_PROBLEM to TOO_FEW, or DONE. A text of more than DIFFUSE_MAX_TEXT bytes is refused unread,
   with line 0. If the text has a fault, the status is the number of the first one, and *line its line, counted from 1. */
DIFFUSE_CHECKED((3))
enum diffuse_status diffuse_graph_read(const uint8_t *bytes, size_t n_bytes, struct diffuse_graph *graph, uint64_t *line);

/* Opens a second, closed handle with the graph of an open one, its factors and its numbers. Both have one copy of these, and of the
   arcs by head, which are made now if no call has needed them yet.
   OPEN, CLOSED, MEMORY or DONE. */
DIFFUSE_CHECKED((1, 2))
enum diffuse_status diffuse_graph_share(struct diffuse_graph *graph, struct diffuse_graph *second);

/* Closes a handle. The graph is freed with the last handle that has it; a closed handle stays closed. */
DIFFUSE_NONNULL((1)) void diffuse_graph_close(struct diffuse_graph *graph);

/* How many vertices and arcs the graph of a handle has; 0 if it is closed. */
DIFFUSE_NONNULL((1)) uint32_t diffuse_graph_vertices(struct diffuse_graph *graph);
DIFFUSE_NONNULL((1)) size_t diffuse_graph_arcs(struct diffuse_graph *graph);

/* Reads back the arcs that leave a vertex, in the order in which they were given, and counts them. The places after them are
   left as they are. If there are fewer places, only *count is written. CLOSED, NO_VERTEX, NO_ROOM or DONE. */
DIFFUSE_CHECKED((1))
enum diffuse_status diffuse_graph_arcs_from(struct diffuse_graph *graph, uint32_t vertex,
    struct diffuse_arc *arcs, size_t n_arcs, size_t *count);

/* The best value from a source to a target, as a code, the least hops of a walk of tight arcs (each gives its head's best
   value from its tail's), and the route along least parents: hops + 1 vertices, from the source on. The room after them is
   left as it is. If the room is shorter, code and hops are written all the same. The first search makes lists of all vertices; the
   handle keeps those of its last algebra, and goes on with the search of its last source.
   CLOSED, NO_VERTEX, NO_ALGEBRA, MEMORY, STOPPED, NO_ROUTE, NO_ROOM or DONE. */
DIFFUSE_CHECKED((1))
enum diffuse_status diffuse_graph_route(struct diffuse_graph *graph, enum diffuse_algebra algebra, uint64_t limit,
    uint32_t source, uint32_t target, uint64_t *code, uint32_t *hops, uint32_t *room, size_t n_room);

/* Numbers the arcs of the graph by their places in a list, counted from 0, so that diffuse_graph_route_arcs tells parallel arcs
   apart: the list is that which was given to open, or has the same arcs in another order, if those of one tail are in the order
   in which diffuse_graph_arcs_from reads them back. It may be changed or freed afterwards. A later call puts other numbers in
   their place. If they are other arcs, nothing changes.
   CLOSED, OTHER_ARCS, MEMORY, STOPPED or DONE. */
DIFFUSE_CHECKED((1))
enum diffuse_status diffuse_graph_number(struct diffuse_graph *graph, const struct diffuse_arc *arcs, size_t n_arcs);

/* What diffuse_graph_route writes, and the numbers of the hops arcs that the route takes: where parallel arcs join two
   vertices of the route, the one that gives the best value, and of equally good ones the one with the least number. The places
   after them are left as they are. If the room is shorter than hops + 1, or the places for arcs are fewer than hops, code and
   hops are written all the same, and neither list is. The handle of a graph that was opened by diffuse_graph_reweigh has no
   numbers until it is numbered.
   CLOSED, NO_NUMBERS, NO_VERTEX, NO_ALGEBRA, MEMORY, STOPPED, NO_ROUTE, NO_ROOM or DONE. */
DIFFUSE_CHECKED((1))
enum diffuse_status diffuse_graph_route_arcs(struct diffuse_graph *graph, enum diffuse_algebra algebra, uint64_t limit,
    uint32_t source, uint32_t target, uint64_t *code, uint32_t *hops, uint32_t *room, size_t n_room, uint32_t *arcs, size_t n_arcs);

/* For each vertex v, in place v - 1: the best value from the nearest of the sources, as a code, its least hops and its least
   parent. An unreached vertex has DIFFUSE_UNREACHED, 0 and 0; a source has parent 0. A list of no places is not wanted.
   CLOSED, NO_VERTEX, NO_ROOM, NO_ALGEBRA, MEMORY, STOPPED or DONE. */
DIFFUSE_CHECKED((1))
enum diffuse_status diffuse_graph_tree(struct diffuse_graph *graph, enum diffuse_algebra algebra, uint64_t limit,
    const uint32_t *sources, size_t n_sources, uint64_t *codes, size_t n_codes, uint32_t *hops, size_t n_hops,
    uint32_t *parents, size_t n_parents);

/* The vertices that are reached from the nearest of the sources, the best first: in the first *count places of each list, in
   this order, the vertices, and the code, the hops and the parent of each, as diffuse_graph_tree gives them. The places after
   them are left as they are. A list of no places is not wanted. If a list has fewer places, *count is written all the same, and
   the lists are left as they are. Equal codes are in the order of their hops, and then of the vertices: this is tested, and
   not proved. The time is that of what is reached, after the first call by an algebra, which makes lists of all vertices. Factors
   are not used.
   CLOSED, NO_VERTEX, NO_ALGEBRA, MEMORY, STOPPED, NO_ROOM or DONE. */
DIFFUSE_CHECKED((1))
enum diffuse_status diffuse_graph_near(struct diffuse_graph *graph, enum diffuse_algebra algebra, uint64_t limit,
    const uint32_t *sources, size_t n_sources, uint32_t *vertices, size_t n_vertices, uint64_t *codes, size_t n_codes,
    uint32_t *hops, size_t n_hops, uint32_t *parents, size_t n_parents, size_t *count);

/* Whether these lists are what diffuse_graph_tree writes, by the same algebra, limit and sources. Nothing is solved: each line
   is judged by itself and those of the vertices with an arc to it. If the lists are not the tree, the status is WRONG; then
   *vertex is the first vertex whose line the others refute, and *reason the first reason, an enum diffuse_reason.
   CLOSED, NO_VERTEX, NO_ROOM, NO_ALGEBRA, MEMORY, STOPPED, WRONG or DONE. */
DIFFUSE_CHECKED((1))
enum diffuse_status diffuse_graph_check(struct diffuse_graph *graph, enum diffuse_algebra algebra, uint64_t limit,
    const uint32_t *sources, size_t n_sources, const uint64_t *codes, size_t n_codes,
    const uint32_t *hops, size_t n_hops, const uint32_t *parents, size_t n_parents, uint32_t *vertex, uint32_t *reason);

/* The best value from each of the sources to each of the targets, as a code: from source i to target j, both counted from 0, in
   place i * n_targets + j; DIFFUSE_UNREACHED if no walk has a value. With factors each code is found by itself; without them
   there is a search from each source, as far as the targets, which goes on for the next row if its source is the same.
   CLOSED, NO_VERTEX, NO_ROOM, NO_ALGEBRA, MEMORY, STOPPED or DONE. */
DIFFUSE_CHECKED((1))
enum diffuse_status diffuse_graph_table(struct diffuse_graph *graph, enum diffuse_algebra algebra, uint64_t limit,
    const uint32_t *sources, size_t n_sources, const uint32_t *targets, size_t n_targets, uint64_t *codes, size_t n_codes);

/* Factors the graph for an algebra. Afterwards far routes, far trees and tables of this handle, and of those opened from it by
   diffuse_graph_share later, use the factors, and answer the same; a far route takes a fraction of a search. What is near is found
   by a search first.
   SHORTEST and WITHIN at every limit have one factoring, HOPS has its own, and the other algebras have none. Once it is done, a
   second call for the same factoring does nothing. After a refusal calls search, as before, and a second call tries again.
   CLOSED, NO_ALGEBRA, NO_FACTORS, MEMORY, STOPPED, HEAVY, DENSE or DONE. */
DIFFUSE_CHECKED((1))
enum diffuse_status diffuse_graph_factor(struct diffuse_graph *graph, enum diffuse_algebra algebra);

/* The same by an order of elimination: the place of each vertex in it, from 0, as `diffuse order` writes them; so one that was found
   with care is kept with a graph, and serves each time. Factors that the handle had for the algebra go; other handles keep theirs.
   Any order gives the same answers; a bad one takes much time and memory.
   CLOSED, NO_ALGEBRA, NO_FACTORS, NO_ROOM, NO_ORDER, MEMORY, STOPPED, HEAVY or DONE. */
DIFFUSE_CHECKED((1))
enum diffuse_status diffuse_graph_factor_by(struct diffuse_graph *graph, enum diffuse_algebra algebra, const uint32_t *places,
    size_t n_places);

/* Opens a second, closed handle with the graph of these arcs on the same vertices, factored as the first one is, over the links
   that it has, in about half the time of diffuse_graph_factor. Weights may change, and arcs may go, come back or have others
   beside them; two vertices that an arc of the first graph joins, this way or that, always have a link. The first handle and those
   that share it go on to answer about their graph, on other threads meanwhile too. The arcs may be changed or freed afterwards.
   OPEN, CLOSED, LIMIT, NO_VERTEX, MEMORY, STOPPED, HEAVY, NO_LINK or DONE. */
DIFFUSE_CHECKED((1, 4))
enum diffuse_status diffuse_graph_reweigh(struct diffuse_graph *graph, const struct diffuse_arc *arcs, size_t n_arcs,
    struct diffuse_graph *second);

/* Opens a closed stop, which is not set. OPEN, MEMORY or DONE. */
DIFFUSE_CHECKED((1)) enum diffuse_status diffuse_stop_new(struct diffuse_stop *stop);

/* Gives a handle a stop, in place of the one that it had: once the stop is set, calls of the handle that list STOPPED end with it,
   at the latest after a few thousand more steps of a search or of a pass over the factors, or after one pass over the arcs, and
   nothing is written. The stop stays with the handle, freed or not, until another takes its place; a closed one takes it away. A
   second handle, by share or reweigh, has none. Many handles may have one stop. CLOSED, MEMORY or DONE. */
DIFFUSE_CHECKED((1, 2)) enum diffuse_status diffuse_graph_stop_by(struct diffuse_graph *graph, struct diffuse_stop *stop);

/* Sets or clears a stop. It may be set while another thread is in a call of a handle that has it, or by a signal handler: its flag
   is an atomic byte, and no lock is taken and no memory asked for. Like a handle, the stop itself is used by one call at a time.
   CLOSED or DONE. */
DIFFUSE_NONNULL((1)) enum diffuse_status diffuse_stop_set(struct diffuse_stop *stop);
DIFFUSE_NONNULL((1)) enum diffuse_status diffuse_stop_clear(struct diffuse_stop *stop);

/* Closes a stop. Handles that have it keep it as it is; a closed stop stays closed. */
DIFFUSE_NONNULL((1)) void diffuse_stop_free(struct diffuse_stop *stop);

/* The library's version, as DIFFUSE_VERSION is made: 1.2.0 is 10200. */
uint32_t diffuse_version(void);

/* The library's own functions need a valid pointer for each single number. The inline functions below replace NULL by a local
   variable. For GCC that has no symbol of its own. Other compilers see it by macros; with one of these a caller that defines such a
   function itself, as a test double, undefines its macro first. What is DIFFUSE_ONE is there once in a program, so that a caller's
   inline functions may use it. */
#if defined(__GNUC__) && !defined(__cplusplus)
#pragma GCC diagnostic push
#pragma GCC diagnostic ignored "-Wmissing-prototypes"
#pragma GCC diagnostic ignored "-Wmissing-declarations"
#endif
#if defined(__cplusplus)
#define DIFFUSE_ONE inline
#elif defined(__GNUC__)
#define DIFFUSE_ONE __attribute__((weak, visibility("hidden")))
#else
#define DIFFUSE_ONE static inline
#endif
#if defined(__GNUC__) && !defined(__clang__)
#define DIFFUSE_INLINE extern inline __attribute__((gnu_inline, always_inline))
#define DIFFUSE_NULLABLE(name) name
DIFFUSE_CHECKED((3, 4))
enum diffuse_status diffuse_graph_read_of_library(const uint8_t *bytes, size_t n_bytes, struct diffuse_graph *graph, uint64_t *line)
    __asm__("diffuse_graph_read");
DIFFUSE_CHECKED((1, 5))
enum diffuse_status diffuse_graph_arcs_from_of_library(struct diffuse_graph *graph, uint32_t vertex, struct diffuse_arc *arcs,
    size_t n_arcs, size_t *count) __asm__("diffuse_graph_arcs_from");
DIFFUSE_CHECKED((1, 6, 7))
enum diffuse_status diffuse_graph_route_of_library(struct diffuse_graph *graph, enum diffuse_algebra algebra, uint64_t limit, uint32_t source, uint32_t target,
    uint64_t *code, uint32_t *hops, uint32_t *room, size_t n_room) __asm__("diffuse_graph_route");
DIFFUSE_CHECKED((1, 6, 7))
enum diffuse_status diffuse_graph_route_arcs_of_library(struct diffuse_graph *graph, enum diffuse_algebra algebra, uint64_t limit, uint32_t source, uint32_t target,
    uint64_t *code, uint32_t *hops, uint32_t *room, size_t n_room, uint32_t *arcs, size_t n_arcs) __asm__("diffuse_graph_route_arcs");
DIFFUSE_CHECKED((1, 14))
enum diffuse_status diffuse_graph_near_of_library(struct diffuse_graph *graph, enum diffuse_algebra algebra, uint64_t limit, const uint32_t *sources, size_t n_sources,
    uint32_t *vertices, size_t n_vertices, uint64_t *codes, size_t n_codes, uint32_t *hops, size_t n_hops, uint32_t *parents, size_t n_parents,
    size_t *count) __asm__("diffuse_graph_near");
DIFFUSE_CHECKED((1, 12, 13))
enum diffuse_status diffuse_graph_check_of_library(struct diffuse_graph *graph, enum diffuse_algebra algebra, uint64_t limit, const uint32_t *sources, size_t n_sources,
    const uint64_t *codes, size_t n_codes, const uint32_t *hops, size_t n_hops, const uint32_t *parents, size_t n_parents,
    uint32_t *vertex, uint32_t *reason) __asm__("diffuse_graph_check");
#else
#define DIFFUSE_INLINE DIFFUSE_ONE
#define DIFFUSE_NULLABLE(name) name##_nullable
#define diffuse_graph_read_of_library diffuse_graph_read
#define diffuse_graph_arcs_from_of_library diffuse_graph_arcs_from
#define diffuse_graph_route_of_library diffuse_graph_route
#define diffuse_graph_route_arcs_of_library diffuse_graph_route_arcs
#define diffuse_graph_near_of_library diffuse_graph_near
#define diffuse_graph_check_of_library diffuse_graph_check
#endif

DIFFUSE_INLINE DIFFUSE_CHECKED((3))
enum diffuse_status DIFFUSE_NULLABLE(diffuse_graph_read)(const uint8_t *bytes, size_t n_bytes, struct diffuse_graph *graph, uint64_t *line) {
    uint64_t unwanted = 0;
    return diffuse_graph_read_of_library(bytes, n_bytes, graph, line ? line : &unwanted);
}

DIFFUSE_INLINE DIFFUSE_CHECKED((1))
enum diffuse_status DIFFUSE_NULLABLE(diffuse_graph_arcs_from)(struct diffuse_graph *graph, uint32_t vertex,
    struct diffuse_arc *arcs, size_t n_arcs, size_t *count) {
    size_t unwanted = 0;
    return diffuse_graph_arcs_from_of_library(graph, vertex, arcs, n_arcs, count ? count : &unwanted);
}

DIFFUSE_INLINE DIFFUSE_CHECKED((1))
enum diffuse_status DIFFUSE_NULLABLE(diffuse_graph_route)(struct diffuse_graph *graph, enum diffuse_algebra algebra,
    uint64_t limit, uint32_t source, uint32_t target, uint64_t *code, uint32_t *hops, uint32_t *room, size_t n_room) {
    uint64_t unwanted_code = 0;
    uint32_t unwanted_hops = 0;
    return diffuse_graph_route_of_library(graph, algebra, limit, source, target, code ? code : &unwanted_code,
        hops ? hops : &unwanted_hops, room, n_room);
}

DIFFUSE_INLINE DIFFUSE_CHECKED((1))
enum diffuse_status DIFFUSE_NULLABLE(diffuse_graph_route_arcs)(struct diffuse_graph *graph, enum diffuse_algebra algebra,
    uint64_t limit, uint32_t source, uint32_t target, uint64_t *code, uint32_t *hops, uint32_t *room, size_t n_room, uint32_t *arcs,
    size_t n_arcs) {
    uint64_t unwanted_code = 0;
    uint32_t unwanted_hops = 0;
    return diffuse_graph_route_arcs_of_library(graph, algebra, limit, source, target, code ? code : &unwanted_code,
        hops ? hops : &unwanted_hops, room, n_room, arcs, n_arcs);
}

DIFFUSE_INLINE DIFFUSE_CHECKED((1))
enum diffuse_status DIFFUSE_NULLABLE(diffuse_graph_near)(struct diffuse_graph *graph, enum diffuse_algebra algebra,
    uint64_t limit, const uint32_t *sources, size_t n_sources, uint32_t *vertices, size_t n_vertices, uint64_t *codes,
    size_t n_codes, uint32_t *hops, size_t n_hops, uint32_t *parents, size_t n_parents, size_t *count) {
    size_t unwanted = 0;
    return diffuse_graph_near_of_library(graph, algebra, limit, sources, n_sources, vertices, n_vertices, codes, n_codes, hops,
        n_hops, parents, n_parents, count ? count : &unwanted);
}

DIFFUSE_INLINE DIFFUSE_CHECKED((1))
enum diffuse_status DIFFUSE_NULLABLE(diffuse_graph_check)(struct diffuse_graph *graph, enum diffuse_algebra algebra,
    uint64_t limit, const uint32_t *sources, size_t n_sources, const uint64_t *codes, size_t n_codes, const uint32_t *hops,
    size_t n_hops, const uint32_t *parents, size_t n_parents, uint32_t *vertex, uint32_t *reason) {
    uint32_t unwanted_vertex = 0, unwanted_reason = 0;
    return diffuse_graph_check_of_library(graph, algebra, limit, sources, n_sources, codes, n_codes, hops, n_hops, parents,
        n_parents, vertex ? vertex : &unwanted_vertex, reason ? reason : &unwanted_reason);
}

#if !defined(__GNUC__) || defined(__clang__)
#define diffuse_graph_read diffuse_graph_read_nullable
#define diffuse_graph_arcs_from diffuse_graph_arcs_from_nullable
#define diffuse_graph_route diffuse_graph_route_nullable
#define diffuse_graph_route_arcs diffuse_graph_route_arcs_nullable
#define diffuse_graph_near diffuse_graph_near_nullable
#define diffuse_graph_check diffuse_graph_check_nullable
#endif

#ifdef __cplusplus
}
#endif

/* A closed handle, to be assigned. */
DIFFUSE_ONE struct diffuse_graph diffuse_graph_closed(void) {
    struct diffuse_graph closed = DIFFUSE_CLOSED;
    return closed;
}

/* What a status means, in English and without a full stop. */
DIFFUSE_ONE const char *diffuse_status_text(int32_t status) {
    switch (status) {
    case DIFFUSE_STATUS_DONE: return "done";
    case DIFFUSE_STATUS_NO_ROUTE: return "no route";
    case DIFFUSE_STATUS_NO_ROOM: return "not the room that is needed, or a text of more than 4294967296 bytes";
    case DIFFUSE_STATUS_MEMORY: return "out of memory";
    case DIFFUSE_STATUS_CLOSED: return "the handle is closed";
    case DIFFUSE_STATUS_OPEN: return "the handle is open already";
    case DIFFUSE_STATUS_WRONG: return "not the tree";
    case DIFFUSE_STATUS_DENSE: return "factors would need too many links: no small separators";
    case DIFFUSE_STATUS_HEAVY: return "weights that are too great for factors";
    case DIFFUSE_STATUS_NO_FACTORS: return "an algebra without factors";
    case DIFFUSE_STATUS_NO_PROBLEM: return "no problem line before this line, or none at all";
    case DIFFUSE_STATUS_SECOND_PROBLEM: return "a second problem line";
    case DIFFUSE_STATUS_BAD_PROBLEM: return "a problem line with wrong fields or words";
    case DIFFUSE_STATUS_UNKNOWN_LINE: return "a line that begins with none of c, p and a";
    case DIFFUSE_STATUS_FIELDS: return "a wrong number of fields";
    case DIFFUSE_STATUS_NOT_A_NUMBER: return "not a number";
    case DIFFUSE_STATUS_LIMIT: return "a number that is too large";
    case DIFFUSE_STATUS_NO_VERTEX: return "no such vertex";
    case DIFFUSE_STATUS_TOO_MANY: return "more lines than the problem line announces";
    case DIFFUSE_STATUS_TOO_FEW: return "fewer lines than the problem line announces";
    case DIFFUSE_STATUS_NO_ALGEBRA: return "no such algebra, or a limit above 9223372036854775808";
    case DIFFUSE_STATUS_NO_LINK: return "an arc between vertices between which the factors have no link";
    case DIFFUSE_STATUS_STOPPED: return "stopped before there was an answer";
    case DIFFUSE_STATUS_OTHER_ARCS: return "arcs that are not those of the graph";
    case DIFFUSE_STATUS_NO_NUMBERS: return "a graph whose arcs were not numbered";
    case DIFFUSE_STATUS_NO_ORDER: return "a list that does not have each place once";
    default: return "no status";
    }
}

/* What is wrong at a vertex, by the reason that diffuse_graph_check wrote. */
DIFFUSE_ONE const char *diffuse_reason_text(uint32_t reason) {
    switch (reason) {
    case DIFFUSE_REASON_NOT_A_SOURCE_LINE: return "a source without the code of no arcs, 0 hops and parent 0";
    case DIFFUSE_REASON_NOT_BEST: return "an arc gives a better value";
    case DIFFUSE_REASON_NO_PARENT: return "the code is that of no value, or the parent does not give it";
    case DIFFUSE_REASON_OTHER_HOPS: return "the hops are not one more than the parent's, or not the least";
    case DIFFUSE_REASON_LESSER_PARENT: return "a lesser vertex could be the parent";
    case DIFFUSE_REASON_HAS_WALK: return "unreached, though an arc gives a value";
    default: return "no reason";
    }
}

#if defined(__GNUC__) && !defined(__cplusplus)
#pragma GCC diagnostic pop
#endif

#endif
