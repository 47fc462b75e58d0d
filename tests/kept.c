// Preloaded into davserve, this looks at what it writes to its store, and kills it there, by the environment:
//
//   STORE=FILE                  the store
//   COUNTS=FILE                 two numbers of eight bytes, which stay behind a kill: the syncs of the store, and the bytes that were written to it since the last one
//   KILL=SYNCS:WRITES:WHERE     it is killed behind so many syncs and so many writes behind them (those of the room's zeros don't count), or before the next sync where there are fewer; where
//                               WHERE is `before`, before the next call on the store
//   FAIL=ERRNO                  there a call fails so, once, instead: the next one, which does nothing then, or the one behind which it would be killed, which is done
//   HOLD=SEED                   what is written is held back until the next sync. So a kill drops it; where KILL kills, a random part of it is on the disk
//   DEAF=SEED                   one sync in three says that it is done, and does nothing
//   FULL=BYTES                  the disk is full once the file has so many bytes
#define _GNU_SOURCE
#include <errno.h>
#include <fcntl.h>
#include <signal.h>
#include <stdint.h>
#include <stdio.h>
#include <stdlib.h>
#include <string.h>
#include <sys/mman.h>
#include <sys/stat.h>
#include <sys/syscall.h>
#include <unistd.h>

struct write {
    off_t at;
    size_t size;
    unsigned char *bytes;
    struct write *next;
};

static struct { uint64_t syncs, unsynced; } none, *counts = &none;
static const char *store;
static struct write *held, **end = &held;
static uint64_t syncs, writes, written, chance, deaf;
static off_t most;
static int kills, is_before, holds, wrong;

__attribute__((constructor)) static void start(void) {
    const char *path = getenv("COUNTS"), *at = getenv("KILL"), *seed = getenv("HOLD"), *lies = getenv("DEAF"), *fails = getenv("FAIL"), *full = getenv("FULL");
    char where[16] = "";
    store = getenv("STORE");
    int file = path ? open(path, O_RDWR | O_CLOEXEC) : -1;
    if (file >= 0)
        counts = mmap(NULL, sizeof *counts, PROT_READ | PROT_WRITE, MAP_SHARED, file, 0);
    kills = at && sscanf(at, "%lu:%lu:%15s", &syncs, &writes, where) == 3;
    is_before = !strcmp(where, "before");
    holds = seed != NULL;
    chance = seed ? strtoul(seed, NULL, 10) : 0;
    wrong = fails ? atoi(fails) : 0;
    deaf = lies ? strtoul(lies, NULL, 10) : 0;
    most = full ? atol(full) : 0;
    if (!store || (path && (file < 0 || counts == MAP_FAILED)) || (at && !kills))
        _exit(99);
}

static int is_store(int file) {
    struct stat found, named;
    return !fstat(file, &found) && !stat(store, &named) && found.st_dev == named.st_dev && found.st_ino == named.st_ino;
}

// A number below another one.
static uint64_t draw(uint64_t *seed, uint64_t below) {
    *seed += 0x9e3779b97f4a7c15;
    uint64_t mixed = (*seed ^ *seed >> 30) * 0xbf58476d1ce4e5b9;
    mixed = (mixed ^ mixed >> 27) * 0x94d049bb133111eb;
    return below ? (mixed ^ mixed >> 31) % below : 0;
}

static void put(int file, const unsigned char *bytes, size_t size, off_t at) {
    while (size > 0) {
        long done = syscall(SYS_pwrite64, file, bytes, size, at);
        if (done <= 0)
            _exit(98);
        bytes += done;
        size -= done;
        at += done;
    }
}

// All that is held back goes to the file.
static void release(int file) {
    for (struct write *each = held, *next; each; each = next) {
        next = each->next;
        put(file, each->bytes, each->size, each->at);
        free(each->bytes);
        free(each);
    }
    held = NULL;
    end = &held;
}

// A random part of a write goes to the file: all of it, a front, an end, what stands between these, single bytes, or what was never written.
static void tear(int file, struct write *it) {
    size_t one = draw(&chance, it->size + 1), other = one + draw(&chance, it->size - one + 1);
    switch (draw(&chance, 6)) {
    case 0: put(file, it->bytes, it->size, it->at); break;
    case 1: put(file, it->bytes, one, it->at); break;
    case 2: put(file, it->bytes + one, it->size - one, it->at + one); break;
    case 3: put(file, it->bytes + one, other - one, it->at + one); break;
    case 4:
        for (size_t place = draw(&chance, 3); place < it->size && place < 4096; place += 1 + draw(&chance, 3))
            put(file, it->bytes + place, 1, it->at + place);
        break;
    default:
        for (size_t place = one; place < other; place++)
            it->bytes[place] = draw(&chance, 256);
        put(file, it->bytes, other, it->at);
    }
}

// Of what is held back some writes go to the file, torn, in any order.
static void scatter(int file) {
    size_t count = 0;
    for (struct write *each = held; each; each = each->next)
        count++;
    for (size_t left = count; left > 0; left--) {
        struct write **at = &held;
        for (size_t place = draw(&chance, left); place > 0; place--)
            at = &(*at)->next;
        struct write *it = *at;
        *at = it->next;
        if (draw(&chance, 5) < 3)
            tear(file, it);
    }
}

// Whether a call fails here. Where the program is to be killed, it does not return.
static int ends(int file, int is_due) {
    if (!kills || counts->syncs < syncs || !is_due)
        return 0;
    if (!wrong) {
        if (holds)
            scatter(file);
        syscall(SYS_kill, getpid(), SIGKILL);
    }
    kills = 0;
    errno = wrong;
    return 1;
}

static long write_at(int file, const void *bytes, size_t size, off_t at) {
    if (!is_store(file))
        return syscall(SYS_pwrite64, file, bytes, size, at);
    if (ends(file, is_before && written >= writes))
        return -1;
    if (most && at + (off_t)size > most) {
        if (at >= most) {
            errno = ENOSPC;
            return -1;
        }
        size = most - at;
    }
    long done = size;
    if (holds) {
        struct write *it = malloc(sizeof *it);
        unsigned char *copy = malloc(size + 1);
        if (!it || !copy)
            _exit(97);
        memcpy(copy, bytes, size);
        *it = (struct write){at, size, copy, NULL};
        *end = it;
        end = &it->next;
    } else {
        done = syscall(SYS_pwrite64, file, bytes, size, at);
    }
    if (done > 0) {
        counts->unsynced += done;
        static const char zeros[4096];
        written += size != sizeof zeros || memcmp(bytes, zeros, size);
    }
    return ends(file, !is_before && written >= writes) ? -1 : done;
}

ssize_t pwrite(int file, const void *bytes, size_t size, off_t at) {
    return write_at(file, bytes, size, at);
}

ssize_t pwrite64(int file, const void *bytes, size_t size, off_t at) {
    return write_at(file, bytes, size, at);
}

// The bytes of the file, with what is held back.
static long read_at(int file, void *bytes, size_t size, off_t at) {
    struct stat found;
    if (!held || !is_store(file) || fstat(file, &found))
        return syscall(SYS_pread64, file, bytes, size, at);
    off_t length = found.st_size, behind = at + size;
    for (struct write *each = held; each; each = each->next)
        length = each->at + (off_t)each->size > length ? each->at + (off_t)each->size : length;
    behind = behind < length ? behind : length;
    if (behind <= at)
        return 0;
    memset(bytes, 0, behind - at);
    if (syscall(SYS_pread64, file, bytes, behind - at, at) < 0)
        return -1;
    for (struct write *each = held; each; each = each->next) {
        off_t from = each->at > at ? each->at : at, to = each->at + (off_t)each->size < behind ? each->at + (off_t)each->size : behind;
        if (from < to)
            memcpy((char *)bytes + (from - at), each->bytes + (from - each->at), to - from);
    }
    return behind - at;
}

ssize_t pread(int file, void *bytes, size_t size, off_t at) {
    return read_at(file, bytes, size, at);
}

ssize_t pread64(int file, void *bytes, size_t size, off_t at) {
    return read_at(file, bytes, size, at);
}

static int sync_by(int number, int file) {
    if (!is_store(file))
        return (int)syscall(number, file);
    // (one that has written nothing is behind the sync that it is to be killed behind)
    if (ends(file, is_before || counts->unsynced > 0))
        return -1;
    int done = 0;
    if (!deaf || draw(&deaf, 3)) {
        release(file);
        done = (int)syscall(number, file);
    }
    if (!done) {
        counts->syncs++;
        counts->unsynced = written = 0;
    }
    return ends(file, !is_before && writes == 0) ? -1 : done;
}

int fsync(int file) {
    return sync_by(SYS_fsync, file);
}

int fdatasync(int file) {
    return sync_by(SYS_fdatasync, file);
}

// A store is written by the calls above alone.
static int refuses(int file) {
    if (is_store(file))
        _exit(96);
    return 0;
}

int ftruncate(int file, off_t length) {
    return refuses(file) ? -1 : (int)syscall(SYS_ftruncate, file, length);
}

int ftruncate64(int file, off_t length) {
    return ftruncate(file, length);
}

ssize_t write(int file, const void *bytes, size_t size) {
    return refuses(file) ? -1 : syscall(SYS_write, file, bytes, size);
}
