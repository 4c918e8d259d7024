/* A library to be loaded before the C library: one call of a kind, or each from it on, fails. trials/refused-growth builds and uses it.
 *
 * REFUSE_KIND   grow (malloc, calloc, realloc), read, write, open or thread
 * REFUSE_ON     there where all later calls fail too
 * REFUSE_HOW    eio, eintr, eagain, enospc; one: one byte is moved; zero: none is
 * REFUSE_EACH   a file of numbers of eight bytes: the calls that fail, from 1, or 0 for none, each in a run of its own
 * REFUSE_INPUT  a file, the standard input of each run
 * REFUSE_TO     a file, to which each run adds seven numbers of eight bytes, the call that failed, the calls of that kind, the status (256 and the
 *               number of a signal), kilobytes, microseconds, and how many bytes of output and of standard error follow, and these bytes
 *
 * The program is loaded once: each run is a process that was forked before main, and is ended after REFUSE_SECONDS.
 */
#define _GNU_SOURCE
#include <dlfcn.h>
#include <errno.h>
#include <fcntl.h>
#include <pthread.h>
#include <stdarg.h>
#include <stdint.h>
#include <stdlib.h>
#include <string.h>
#include <sys/mman.h>
#include <sys/resource.h>
#include <sys/syscall.h>
#include <sys/time.h>
#include <sys/wait.h>
#include <unistd.h>

extern void *__libc_malloc(size_t);
extern void *__libc_calloc(size_t, size_t);
extern void *__libc_realloc(void *, size_t);

enum kind { NONE, GROW, READ, WRITE, OPEN, THREAD };
enum how { FAILS, MOVES_ONE, MOVES_NONE };

static uint64_t no_file, *calls = &no_file;
static enum kind refused = NONE;
static enum how how = FAILS;
static uint64_t first;
static int later_too;
static int error = EIO;

static int is(const char *text, const char *word) { return text && strcmp(text, word) == 0; }

static int opened(const char *name, int flags) { return syscall(SYS_openat, AT_FDCWD, name, flags, 0600); }

static void put(int to, const void *bytes, size_t n) {
    for (const char *at = bytes; n;) {
        ssize_t moved = syscall(SYS_write, to, at, n);
        if (moved <= 0) _exit(125);
        at += moved;
        n -= moved;
    }
}

/* adds what a file holds */
static void add_file(int to, int from, size_t n) {
    static char room[1 << 16];
    for (size_t at = 0; at < n;) {
        ssize_t moved = syscall(SYS_pread64, from, room, sizeof room, at);
        if (moved <= 0) _exit(125);
        put(to, room, moved);
        at += moved;
    }
}

/* one run: the parent adds what came of it, the child goes on to main */
static int is_child(int to, const char *input) {
    int out = syscall(SYS_memfd_create, "output", 0), err = syscall(SYS_memfd_create, "error", 0);
    const char *seconds = getenv("REFUSE_SECONDS");
    struct timeval begun, ended;
    *calls = 0;
    gettimeofday(&begun, 0);
    pid_t pid = fork();
    if (!pid) {
        int in = opened(input, O_RDONLY);
        if (in < 0 || dup2(in, 0) < 0 || dup2(out, 1) < 0 || dup2(err, 2) < 0) _exit(125);
        if (in > 2) close(in);
        if (out > 2) close(out);
        if (err > 2) close(err);
        close(to);
        alarm(seconds ? atoi(seconds) : 10);
        return 1;
    }
    int status = 0;
    struct rusage used;
    if (pid < 0 || wait4(pid, &status, 0, &used) != pid) _exit(125);
    gettimeofday(&ended, 0);
    uint64_t lengths[2] = {lseek(out, 0, SEEK_END), lseek(err, 0, SEEK_END)};
    uint64_t told[7] = {first, *calls, WIFEXITED(status) ? WEXITSTATUS(status) : 256 + WTERMSIG(status), used.ru_maxrss,
                        (ended.tv_sec - begun.tv_sec) * 1000000 + ended.tv_usec - begun.tv_usec, lengths[0], lengths[1]};
    put(to, told, sizeof told);
    add_file(to, out, lengths[0]);
    add_file(to, err, lengths[1]);
    close(out);
    close(err);
    return 0;
}

__attribute__((constructor)) static void begin(void) {
    const char *k = getenv("REFUSE_KIND"), *h = getenv("REFUSE_HOW");
    const char *each = getenv("REFUSE_EACH"), *input = getenv("REFUSE_INPUT"), *result = getenv("REFUSE_TO");
    if (!each || !input || !result) return;
    if (is(h, "one")) how = MOVES_ONE;
    if (is(h, "zero")) how = MOVES_NONE;
    if (is(h, "eintr")) error = EINTR;
    if (is(h, "eagain")) error = EAGAIN;
    if (is(h, "enospc")) error = ENOSPC;
    later_too = getenv("REFUSE_ON") != 0;
    enum kind kind = is(k, "grow") ? GROW : is(k, "read") ? READ : is(k, "write") ? WRITE : is(k, "open") ? OPEN : is(k, "thread") ? THREAD : NONE;
    void *place = mmap(0, sizeof *calls, PROT_READ | PROT_WRITE, MAP_SHARED | MAP_ANONYMOUS, -1, 0);
    int from = opened(each, O_RDONLY), to = opened(result, O_WRONLY | O_CREAT | O_TRUNC);
    if (place == MAP_FAILED || from < 0 || to < 0) _exit(125);
    calls = place;
    while (syscall(SYS_read, from, &first, sizeof first) == sizeof first)
        if (is_child(to, input)) {
            close(from);
            *calls = 0;
            refused = kind;
            return;
        }
    _exit(0);
}

/* counts a call, and says whether it is one that fails */
static int is_refused(enum kind kind) {
    if (kind != refused) return 0;
    uint64_t n = __atomic_add_fetch(calls, 1, __ATOMIC_SEQ_CST);
    return first && (n == first || (later_too && n > first));
}

void *malloc(size_t n) {
    if (!is_refused(GROW)) return __libc_malloc(n);
    errno = ENOMEM;
    return 0;
}

void *calloc(size_t n, size_t m) {
    if (!is_refused(GROW)) return __libc_calloc(n, m);
    errno = ENOMEM;
    return 0;
}

void *realloc(void *p, size_t n) {
    if (!is_refused(GROW)) return __libc_realloc(p, n);
    errno = ENOMEM;
    return 0;
}

/* a call that moves bytes */
static ssize_t moves(enum kind kind, long call, int fd, const void *bytes, size_t n) {
    if (is_refused(kind)) {
        if (how == FAILS) {
            errno = error;
            return -1;
        }
        if (how == MOVES_NONE) return 0;
        if (n > 1) n = 1;
    }
    return syscall(call, fd, bytes, n);
}

ssize_t read(int fd, void *to, size_t n) { return moves(READ, SYS_read, fd, to, n); }
ssize_t write(int fd, const void *from, size_t n) { return moves(WRITE, SYS_write, fd, from, n); }

int open(const char *name, int flags, ...) {
    va_list rest;
    va_start(rest, flags);
    int mode = va_arg(rest, int);
    va_end(rest);
    if (is_refused(OPEN)) {
        errno = error;
        return -1;
    }
    return syscall(SYS_openat, AT_FDCWD, name, flags, mode);
}

int pthread_create(pthread_t *thread, const pthread_attr_t *attributes, void *(*function)(void *), void *argument) {
    static int (*real)(pthread_t *, const pthread_attr_t *, void *(*)(void *), void *);
    if (!real) real = dlsym(RTLD_NEXT, "pthread_create");
    return is_refused(THREAD) ? EAGAIN : real(thread, attributes, function, argument);
}
