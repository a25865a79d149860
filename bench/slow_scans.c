/* Makes each read of a scan as slow as a disk does that gives 120 MB a second to one reader at a time, wherever the scan lies: a
   scan is a file below a folder `scans`. bench/adopt loads it before a run. */
#define _GNU_SOURCE
#include <dlfcn.h>
#include <pthread.h>
#include <stdio.h>
#include <string.h>
#include <sys/types.h>
#include <unistd.h>

static pthread_mutex_t turn = PTHREAD_MUTEX_INITIALIZER;

static void wait_for(int file, ssize_t count)
{
    char link[40], path[4096];
    ssize_t length;
    snprintf(link, sizeof link, "/proc/self/fd/%d", file);
    if (count <= 0 || (length = readlink(link, path, sizeof path - 1)) <= 0) return;
    path[length] = 0;
    if (strstr(path, "/scans/") == NULL) return;
    pthread_mutex_lock(&turn);
    usleep(count / 120);
    pthread_mutex_unlock(&turn);
}

ssize_t read(int file, void *bytes, size_t count)
{
    ssize_t (*own)(int, void *, size_t) = (ssize_t (*)(int, void *, size_t)) dlsym(RTLD_NEXT, "read");
    ssize_t got = own(file, bytes, count);
    wait_for(file, got);
    return got;
}
