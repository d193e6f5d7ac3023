/* Makes each fsync and fdatasync longer by SYNC_MICROSECONDS, as on a slower disk. It is preloaded. */
#define _GNU_SOURCE
#include <dlfcn.h>
#include <stdlib.h>
#include <time.h>

static int later(const char *name, int file) {
    long all = atol(getenv("SYNC_MICROSECONDS"));
    struct timespec time = {all / 1000000, all % 1000000 * 1000};
    int (*sync)(int) = (int (*)(int))dlsym(RTLD_NEXT, name);
    nanosleep(&time, NULL);
    return sync(file);
}

int fsync(int file) {
    return later("fsync", file);
}

int fdatasync(int file) {
    return later("fdatasync", file);
}
