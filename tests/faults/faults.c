// Preloaded into a program, this lets one of its requests fail, by the environment:
//
//   FAULT=KIND:N        the N-th request of this kind fails, or moves one byte only
//   FAULT=KIND:N:EVERY  and from there on each EVERY-th
//   PIECE=BYTES         each read and write moves at most so many bytes
//   LISTENS=1           standard input is a file of frames: a read of it stops before a later "clock ", and where "more" was written last, the next read brings "none" instead
//   COUNTS=FILE         at the program's end its requests for memory, reads and writes are written there
//
// KIND is memory (malloc, calloc, realloc), read, write, short-read or short-write. The program's requests are counted from
// 1; those of the loader, before it starts, are not, nor is what it writes to standard error before it reads.
#define _GNU_SOURCE
#include <errno.h>
#include <fcntl.h>
#include <stdio.h>
#include <stdlib.h>
#include <string.h>
#include <unistd.h>

// What stands behind the names that are taken here.
void *__libc_malloc(size_t size);
void *__libc_calloc(size_t count, size_t size);
void *__libc_realloc(void *old, size_t size);
ssize_t __read(int file, void *bytes, size_t count);
ssize_t __write(int file, const void *bytes, size_t count);

enum kind { MEMORY, READ, WRITE, SHORT_READ, SHORT_WRITE, KINDS };
static const char *const names[KINDS] = {"memory", "read", "write", "short-read", "short-write"};

static int started;
static enum kind fault = KINDS;
static unsigned long first, every, piece;
static unsigned long counts[KINDS];
static int listens, has_read;
// The last bytes that were written.
static char written[5];

static void start(void) __attribute__((constructor));
static void end(void) __attribute__((destructor));

// A FAULT of another form ends the program at once.
static void start(void) {
    const char *asked = getenv("FAULT"), *size = getenv("PIECE");
    if (size)
        piece = strtoul(size, NULL, 10);
    if (asked) {
        const char *colon = strchr(asked, ':');
        size_t length = colon ? (size_t)(colon - asked) : 0;
        for (int kind = 0; kind < KINDS; kind++)
            if (strlen(names[kind]) == length && !strncmp(names[kind], asked, length))
                fault = kind;
        if (fault == KINDS || sscanf(colon, ":%lu:%lu", &first, &every) < 1)
            _exit(99);
    }
    listens = getenv("LISTENS") != NULL;
    started = 1;
}

static void end(void) {
    const char *path = getenv("COUNTS");
    started = 0;
    if (!path)
        return;
    char text[80];
    int length = snprintf(text, sizeof text, "%lu %lu %lu\n", counts[MEMORY], counts[READ], counts[WRITE]);
    int file = open(path, O_WRONLY | O_CREAT | O_TRUNC, 0666);
    if (file < 0 || __write(file, text, length) != length)
        _exit(99);
    close(file);
}

// Whether this request, which is counted, is one to fail.
static int fails(enum kind kind) {
    if (!started)
        return 0;
    unsigned long count = ++counts[kind];
    if (kind != fault || count < first)
        return 0;
    return count == first || (every && (count - first) % every == 0);
}

static size_t moved(size_t count, int is_short) {
    size_t most = is_short ? 1 : started && piece ? piece : count;
    return count < most ? count : most;
}

static void *no_memory(void) {
    errno = ENOMEM;
    return NULL;
}

void *malloc(size_t size) {
    return fails(MEMORY) ? no_memory() : __libc_malloc(size);
}

void *calloc(size_t count, size_t size) {
    return fails(MEMORY) ? no_memory() : __libc_calloc(count, size);
}

void *realloc(void *old, size_t size) {
    return fails(MEMORY) ? no_memory() : __libc_realloc(old, size);
}

// Where a clock is told in the midst of what was read, that and what lies behind it is put back, so that the program answers what came before, and then reads once more.
static ssize_t up_to_clock(int file, const char *bytes, ssize_t count) {
    const char *found = count > 1 ? memmem(bytes + 1, count - 1, "clock ", 6) : NULL;
    if (!found)
        return count;
    lseek(file, found - bytes - count, SEEK_CUR);
    return found - bytes;
}

ssize_t read(int file, void *bytes, size_t count) {
    has_read |= file == 0;
    if (listens && file == 0 && !memcmp(written, "more\n", 5)) {
        written[0] = 0;
        memcpy(bytes, "none\n", 5);
        return 5;
    }
    int is_short = fails(SHORT_READ);
    if (fails(READ)) {
        errno = EIO;
        return -1;
    }
    ssize_t got = __read(file, bytes, moved(count, is_short));
    return listens && file == 0 ? up_to_clock(file, bytes, got) : got;
}

ssize_t write(int file, const void *bytes, size_t count) {
    if (file == 2 && !has_read)
        return __write(file, bytes, count);
    int is_short = fails(SHORT_WRITE);
    if (fails(WRITE)) {
        errno = EIO;
        return -1;
    }
    ssize_t put = __write(file, bytes, moved(count, is_short));
    for (ssize_t each = put > 5 ? put - 5 : 0; listens && file == 1 && each < put; each++) {
        memmove(written, written + 1, 4);
        written[4] = ((const char *)bytes)[each];
    }
    return put;
}
