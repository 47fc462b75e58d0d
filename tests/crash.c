// Preloaded into a program, this notes what it writes, and lets one of its calls fail, by the environment:
//
//   TRACE=FILE     each call is noted there, one a line, once it is done:
//                  "w INODE OFFSET RESULT HEX" a write at an offset, and all the bytes that were asked for; "s INODE RESULT" a sync; "t INODE LENGTH RESULT" a change of the length;
//                  "a HEX" what was written to standard output
//   FAIL=N:ERRNO   of the writes, syncs and changes of the length the N-th fails so, counted from 1
//   ALSO=1         these are noted, and counted, too: "p INODE RESULT" a read at an offset; "o INODE RESULT" a file or folder that is opened, "r INODE RESULT" a name that a file is given in
//                  place of its own, "l INODE RESULT" one that it is given beside it, "u INODE RESULT" a name that is removed, each with what had the name before
//   PART=BYTES     the write that fails has written so many of its bytes
//   PIECE=BYTES    each write moves at most so many bytes
//   LATE=MICROS    the first lock is asked for so much later
#define _GNU_SOURCE
#include <errno.h>
#include <fcntl.h>
#include <stdarg.h>
#include <stdio.h>
#include <stdlib.h>
#include <string.h>
#include <sys/stat.h>
#include <sys/syscall.h>
#include <unistd.h>

static int trace = -1, wrong, also;
static unsigned long first, part, piece, count, late;

static void start(void) __attribute__((constructor));

static void start(void) {
    const char *path = getenv("TRACE"), *fails = getenv("FAIL"), *front = getenv("PART"), *size = getenv("PIECE"), *waits = getenv("LATE");
    if (path)
        trace = syscall(SYS_openat, AT_FDCWD, path, O_WRONLY | O_CREAT | O_APPEND | O_CLOEXEC, 0600);
    if ((path && trace < 0) || (fails && sscanf(fails, "%lu:%d", &first, &wrong) != 2))
        _exit(99);
    also = getenv("ALSO") != NULL;
    part = front ? strtoul(front, NULL, 10) : 0;
    piece = size ? strtoul(size, NULL, 10) : 0;
    late = waits ? strtoul(waits, NULL, 10) : 0;
}

static void put(const char *bytes, size_t size) {
    while (size > 0) {
        long done = syscall(SYS_write, trace, bytes, size);
        if (done <= 0)
            _exit(98);
        bytes += done;
        size -= done;
    }
}

static unsigned long inode_of(int file) {
    struct stat found;
    return fstat(file, &found) ? 0 : found.st_ino;
}

// A line of the trace, and behind it bytes in hexadecimal.
static void note(const char *text, const unsigned char *bytes, size_t size) {
    static const char digits[] = "0123456789abcdef";
    int before = errno;
    if (trace >= 0) {
        char *line = malloc(strlen(text) + 2 * size + 2);
        if (!line)
            _exit(97);
        size_t end = strlen(text);
        memcpy(line, text, end);
        for (size_t place = 0; place < size; place++) {
            line[end++] = digits[bytes[place] >> 4];
            line[end++] = digits[bytes[place] & 15];
        }
        line[end++] = '\n';
        put(line, end);
        free(line);
    }
    errno = before;
}

// Whether this call is the one that fails.
static int fails(void) {
    count++;
    if (count != first)
        return 0;
    errno = wrong;
    return 1;
}

static long pwrite_now(int file, const void *bytes, size_t size, off_t at) {
    return syscall(SYS_pwrite64, file, bytes, size, at);
}

ssize_t pwrite(int file, const void *bytes, size_t size, off_t at) {
    char text[128];
    long done;
    if (fails()) {
        if (part)
            pwrite_now(file, bytes, part < size ? part : size, at);
        errno = wrong;
        done = -1;
    } else {
        done = pwrite_now(file, bytes, piece && piece < size ? piece : size, at);
    }
    snprintf(text, sizeof text, "w %lu %lld %ld ", inode_of(file), (long long)at, done);
    note(text, bytes, size);
    return done;
}

ssize_t pwrite64(int file, const void *bytes, size_t size, off_t at) {
    return pwrite(file, bytes, size, at);
}

static int sync_by(int number, int file) {
    char text[128];
    int done = fails() ? -1 : (int)syscall(number, file);
    snprintf(text, sizeof text, "s %lu %d", inode_of(file), done);
    note(text, NULL, 0);
    return done;
}

int fsync(int file) {
    return sync_by(SYS_fsync, file);
}

int fdatasync(int file) {
    return sync_by(SYS_fdatasync, file);
}

int ftruncate(int file, off_t length) {
    char text[128];
    int done = fails() ? -1 : (int)syscall(SYS_ftruncate, file, length);
    snprintf(text, sizeof text, "t %lu %lld %d", inode_of(file), (long long)length, done);
    note(text, NULL, 0);
    return done;
}

int ftruncate64(int file, off_t length) {
    return ftruncate(file, length);
}

ssize_t pread(int file, void *bytes, size_t size, off_t at) {
    char text[128];
    long done = also && fails() ? -1 : syscall(SYS_pread64, file, bytes, size, at);
    snprintf(text, sizeof text, "p %lu %ld", inode_of(file), done);
    if (also)
        note(text, NULL, 0);
    return done;
}

ssize_t pread64(int file, void *bytes, size_t size, off_t at) {
    return pread(file, bytes, size, at);
}

int fcntl(int file, int command, ...) {
    va_list more;
    va_start(more, command);
    long given = va_arg(more, long);
    va_end(more);
    if (late && command == F_OFD_SETLK)
        usleep(late);
    late = command == F_OFD_SETLK ? 0 : late;
    return syscall(SYS_fcntl, file, command, given);
}

static unsigned long named(const char *path) {
    struct stat found;
    return lstat(path, &found) ? 0 : found.st_ino;
}

// A call on a name that had such an inode before.
static int note_name(char kind, unsigned long inode, int done) {
    char text[128];
    snprintf(text, sizeof text, "%c %lu %d", kind, inode, done);
    if (also)
        note(text, NULL, 0);
    return done;
}

int rename(const char *old, const char *new) {
    unsigned long inode = named(old);
    return note_name('r', inode, also && fails() ? -1 : (int)syscall(SYS_rename, old, new));
}

int link(const char *old, const char *new) {
    unsigned long inode = named(old);
    return note_name('l', inode, also && fails() ? -1 : (int)syscall(SYS_link, old, new));
}

int unlink(const char *path) {
    unsigned long inode = named(path);
    return note_name('u', inode, also && fails() ? -1 : (int)syscall(SYS_unlink, path));
}

int open(const char *path, int flags, ...) {
    va_list more;
    va_start(more, flags);
    int mode = flags & O_CREAT ? va_arg(more, int) : 0;
    va_end(more);
    unsigned long inode = named(path);
    return note_name('o', inode, also && fails() ? -1 : (int)syscall(SYS_openat, AT_FDCWD, path, flags, mode));
}

ssize_t write(int file, const void *bytes, size_t size) {
    long done = syscall(SYS_write, file, bytes, size);
    if (file == 1 && done > 0)
        note("a ", bytes, done);
    return done;
}
