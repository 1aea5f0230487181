/* A library to be preloaded, by which a program meets refusals: growths of memory, starts of threads, reads, writes.
 *
 *   REFUSE_GROWTH=N    the Nth growth of memory is refused
 *   REFUSE_GROWTHS=N   the Nth growth of memory and all later ones are refused
 *   REFUSE_START=N     the Nth start of a thread is refused
 *   FAIL_READ=K        standard input fails once K bytes of it were read
 *   INTERRUPT_READ=K   one read of standard input is interrupted once K bytes of it were read
 *   FAIL_WRITE=K       standard output fails once K bytes of it were written
 *   TAKE_NOTHING=K     standard output takes 0 bytes once K bytes of it were written
 *   PIECE=K            standard input gives, and standard output takes, at most K bytes a call
 *   REFUSE_COUNTS=FILE a file of three numbers of eight bytes, which are counted up: growths asked, starts asked, refusals made
 */
#define _GNU_SOURCE
#include <dlfcn.h>
#include <errno.h>
#include <fcntl.h>
#include <pthread.h>
#include <stdatomic.h>
#include <stdlib.h>
#include <sys/mman.h>
#include <sys/syscall.h>
#include <unistd.h>

enum { GROWTHS, STARTS, REFUSALS, COUNTS };

static _Atomic long own_counts[COUNTS];
static _Atomic long *counts = own_counts;
static long growth = -1, growths = -1, start = -1;
static long fail_read = -1, interrupt_read = -1, fail_write = -1, take_nothing = -1, piece = -1;
static long bytes_read, bytes_written;

static long number(const char *name) {
    const char *value = getenv(name);
    return value ? atol(value) : -1;
}

__attribute__((constructor)) static void begin(void) {
    const char *file = getenv("REFUSE_COUNTS");
    int fd = file ? open(file, O_RDWR) : -1;
    if (fd >= 0) {
        void *shared = mmap(0, sizeof own_counts, PROT_READ | PROT_WRITE, MAP_SHARED, fd, 0);
        if (shared != MAP_FAILED) counts = shared;
        close(fd);
    }
    growth = number("REFUSE_GROWTH");
    growths = number("REFUSE_GROWTHS");
    start = number("REFUSE_START");
    fail_read = number("FAIL_READ");
    interrupt_read = number("INTERRUPT_READ");
    fail_write = number("FAIL_WRITE");
    take_nothing = number("TAKE_NOTHING");
    piece = number("PIECE");
}

static int refused(int what, long one, long all_from) {
    long asked = atomic_fetch_add(&counts[what], 1) + 1;
    if (asked != one && (all_from < 0 || asked < all_from)) return 0;
    atomic_fetch_add(&counts[REFUSALS], 1);
    return 1;
}

static int failed(int error) {
    atomic_fetch_add(&counts[REFUSALS], 1);
    errno = error;
    return -1;
}

extern void *__libc_malloc(size_t);
extern void *__libc_calloc(size_t, size_t);
extern void *__libc_realloc(void *, size_t);
extern void *__libc_memalign(size_t, size_t);

static int no_memory(void) {
    if (!refused(GROWTHS, growth, growths)) return 0;
    errno = ENOMEM;
    return 1;
}

void *malloc(size_t n) { return no_memory() ? 0 : __libc_malloc(n); }
void *calloc(size_t k, size_t n) { return no_memory() ? 0 : __libc_calloc(k, n); }
void *realloc(void *p, size_t n) { return no_memory() ? 0 : __libc_realloc(p, n); }
void *memalign(size_t a, size_t n) { return no_memory() ? 0 : __libc_memalign(a, n); }
void *aligned_alloc(size_t a, size_t n) { return no_memory() ? 0 : __libc_memalign(a, n); }

int posix_memalign(void **p, size_t a, size_t n) {
    void *got = no_memory() ? 0 : __libc_memalign(a, n);
    if (!got) return ENOMEM;
    *p = got;
    return 0;
}

int pthread_create(pthread_t *t, const pthread_attr_t *a, void *(*run)(void *), void *x) {
    static int (*real)(pthread_t *, const pthread_attr_t *, void *(*)(void *), void *);
    if (!real) real = dlsym(RTLD_NEXT, "pthread_create");
    return refused(STARTS, start, -1) ? EAGAIN : real(t, a, run, x);
}

/* The less of a length and what is left up to a limit, if there is one. */
static size_t up_to(size_t n, long limit, long done) {
    return limit >= 0 && n > (size_t)(limit - done) ? (size_t)(limit - done) : n;
}

ssize_t read(int fd, void *to, size_t n) {
    if (fd == 0) {
        if (fail_read >= 0 && bytes_read >= fail_read) return failed(EIO);
        if (interrupt_read >= 0 && bytes_read >= interrupt_read) {
            interrupt_read = -1;
            return failed(EINTR);
        }
        n = up_to(up_to(up_to(n, fail_read, bytes_read), interrupt_read, bytes_read), piece, 0);
    }
    ssize_t got = syscall(SYS_read, fd, to, n);
    if (fd == 0 && got > 0) bytes_read += got;
    return got;
}

static ssize_t written(int fd, const void *from, size_t n) {
    if (fd == 1 && n > 0) {
        if (fail_write >= 0 && bytes_written >= fail_write) return failed(ENOSPC);
        if (take_nothing >= 0 && bytes_written >= take_nothing) {
            failed(0);
            return 0;
        }
        n = up_to(up_to(up_to(n, fail_write, bytes_written), take_nothing, bytes_written), piece, 0);
    }
    ssize_t got = syscall(SYS_write, fd, from, n);
    if (fd == 1 && got > 0) bytes_written += got;
    return got;
}

ssize_t write(int fd, const void *from, size_t n) { return written(fd, from, n); }
ssize_t __write(int fd, const void *from, size_t n) { return written(fd, from, n); }
