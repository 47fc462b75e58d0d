// Preloaded into the listener, this lets one of its system calls fail, by the environment:
//
//   FAILS=NAME:N:ERRNO   the N-th call of this name fails so, counted from 1
//   COUNTS=FILE          at its end the number of calls of each name is written there, one a line
//
//   HANGS=1              statvfs never comes back
//   JUMP=FILE            from the moment at which this file is there, it is a day and an hour later
//
// In the programs that the listener runs it does nothing; nor to what std does of itself as the listener runs the first one, between the first pipe and the poll.
#define _GNU_SOURCE
#include <dlfcn.h>
#include <errno.h>
#include <signal.h>
#include <stdio.h>
#include <stdlib.h>
#include <string.h>
#include <sys/epoll.h>
#include <sys/socket.h>
#include <sys/syscall.h>
#include <sys/types.h>
#include <time.h>
#include <unistd.h>

enum { NAMES = 32 };
static struct { const char *name; long count; } seen[NAMES];
static char name[32];
static long place;
static int wrong, is_listener, runs, has_begun;

__attribute__((constructor)) static void start(void) {
    char path[4096];
    ssize_t length = readlink("/proc/self/exe", path, sizeof path - 1);
    is_listener = length > 7 && !memcmp(path + length - 7, "/listen", 7);
    const char *fails = getenv("FAILS");
    if (fails && sscanf(fails, "%31[^:]:%ld:%d", name, &place, &wrong) != 3)
        _exit(99);
}

__attribute__((destructor)) static void tell(void) {
    const char *path = getenv("COUNTS");
    FILE *file = is_listener && path ? fopen(path, "w") : NULL;
    for (int each = 0; file && each < NAMES && seen[each].name; each++)
        fprintf(file, "%s %ld\n", seen[each].name, seen[each].count);
    if (file)
        fclose(file);
}

// Whether this call fails.
static int fails(const char *called) {
    if (!is_listener)
        return 0;
    runs |= !strcmp(called, "pipe2");
    has_begun |= !strcmp(called, "epoll_create1");
    if (runs && !has_begun && (!strcmp(called, "read") || !strcmp(called, "recv") || !strcmp(called, "waitpid")))
        return 0;
    int at = 0;
    while (seen[at].name && strcmp(seen[at].name, called))
        at++;
    seen[at].name = called;
    if (++seen[at].count != place || strcmp(called, name))
        return 0;
    errno = wrong;
    return 1;
}

#define CALL(result, called, parameters, arguments)                              \
    result called parameters {                                                   \
        static result(*real) parameters;                                         \
        if (!real)                                                               \
            real = (result(*) parameters)dlsym(RTLD_NEXT, #called);              \
        return fails(#called) ? (result)-1 : real arguments;                     \
    }

CALL(int, epoll_create1, (int flags), (flags))
CALL(int, epoll_ctl, (int poll, int what, int file, struct epoll_event *event), (poll, what, file, event))
CALL(int, epoll_wait, (int poll, struct epoll_event *events, int most, int time), (poll, events, most, time))
CALL(int, socket, (int family, int kind, int protocol), (family, kind, protocol))
CALL(int, bind, (int file, const struct sockaddr *at, socklen_t size), (file, at, size))
CALL(int, listen, (int file, int waiting), (file, waiting))
CALL(int, accept4, (int file, struct sockaddr *at, socklen_t *size, int flags), (file, at, size, flags))
CALL(int, getsockname, (int file, struct sockaddr *at, socklen_t *size), (file, at, size))
CALL(int, setsockopt, (int file, int level, int option, const void *value, socklen_t size), (file, level, option, value, size))
CALL(int, shutdown, (int file, int how), (file, how))
CALL(int, signalfd, (int file, const sigset_t *set, int flags), (file, set, flags))
CALL(pid_t, setsid, (void), ())
CALL(sighandler_t, signal, (int number, sighandler_t does), (number, does))
CALL(int, ioctl, (int file, unsigned long what, void *value), (file, what, value))
CALL(int, fcntl, (int file, int what, long value), (file, what, value))
CALL(int, sigprocmask, (int how, const sigset_t *set, sigset_t *before), (how, set, before))
CALL(int, getrlimit, (int what, void *limit), (what, limit))
CALL(int, setrlimit, (int what, const void *limit), (what, limit))
CALL(int, open64, (const char *path, int flags, mode_t mode), (path, flags, mode))
CALL(int, statx, (int folder, const char *path, int flags, unsigned what, void *told), (folder, path, flags, what, told))
CALL(off_t, lseek64, (int file, off_t place, int how), (file, place, how))
CALL(ssize_t, read, (int file, void *bytes, size_t most), (file, bytes, most))
CALL(ssize_t, write, (int file, const void *bytes, size_t size), (file, bytes, size))
CALL(ssize_t, recv, (int file, void *bytes, size_t most, int flags), (file, bytes, most, flags))
CALL(ssize_t, send, (int file, const void *bytes, size_t size, int flags), (file, bytes, size, flags))
CALL(ssize_t, splice, (int from, off_t *at, int to, off_t *place, size_t most, unsigned flags), (from, at, to, place, most, flags))
CALL(int, pipe2, (int ends[2], int flags), (ends, flags))
CALL(pid_t, waitpid, (pid_t of, int *status, int options), (of, status, options))

int clock_gettime(clockid_t clock, struct timespec *moment) {
    const char *path = is_listener ? getenv("JUMP") : NULL;
    long told = syscall(SYS_clock_gettime, clock, moment);
    if (!told && path && !access(path, F_OK))
        moment->tv_sec += 25 * 60 * 60;
    return (int)told;
}

// As on a file system that hangs.
int statvfs(const char *path, void *told) {
    static int (*real)(const char *, void *);
    if (!real)
        real = (int (*)(const char *, void *))dlsym(RTLD_NEXT, "statvfs");
    while (is_listener && getenv("HANGS"))
        pause();
    return real(path, told);
}

// A file is closed all the same.
int close(int file) {
    int fail = fails("close");
    long closed = syscall(SYS_close, file);
    if (fail)
        errno = wrong;
    return fail ? -1 : (int)closed;
}

// It tells that it fails by null.
void *dlopen(const char *path, int flags) {
    static void *(*real)(const char *, int);
    if (!real)
        real = (void *(*)(const char *, int))dlsym(RTLD_NEXT, "dlopen");
    return fails("dlopen") ? NULL : real(path, flags);
}
