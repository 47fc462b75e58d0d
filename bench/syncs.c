// Preloaded into davserve, this counts the syncs of its store, and makes each of them take longer, by the environment:
//
//   SYNCS=FILE       a number of eight bytes, how many syncs there were
//   LATER=MICROS     each takes so many microseconds more
#define _GNU_SOURCE
#include <fcntl.h>
#include <stdint.h>
#include <stdlib.h>
#include <sys/mman.h>
#include <sys/syscall.h>
#include <time.h>
#include <unistd.h>

static uint64_t none, *syncs = &none;
static struct timespec later;

__attribute__((constructor)) static void start(void) {
    const char *path = getenv("SYNCS"), *micros = getenv("LATER");
    int file = path ? open(path, O_RDWR | O_CLOEXEC) : -1;
    void *found = file >= 0 ? mmap(NULL, sizeof *syncs, PROT_READ | PROT_WRITE, MAP_SHARED, file, 0) : MAP_FAILED;
    if (found != MAP_FAILED)
        syncs = found;
    later.tv_nsec = micros ? atol(micros) * 1000 : 0;
}

int fdatasync(int file) {
    __atomic_add_fetch(syncs, 1, __ATOMIC_SEQ_CST);
    nanosleep(&later, NULL);
    return syscall(SYS_fdatasync, file);
}
