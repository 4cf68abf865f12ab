// A library to be loaded before a program: each of its syncs takes as many nanoseconds more as SYNC_PAUSE says.
#define _GNU_SOURCE
#include <dlfcn.h>
#include <stdlib.h>
#include <time.h>

static int slowly(const char *name, int file) {
    const char *pause = getenv("SYNC_PAUSE");
    struct timespec time = {0, pause ? atol(pause) : 0};
    nanosleep(&time, 0);
    int (*sync)(int) = (int (*)(int))dlsym(RTLD_NEXT, name);
    return sync(file);
}

int fsync(int file) { return slowly("fsync", file); }

int fdatasync(int file) { return slowly("fdatasync", file); }
