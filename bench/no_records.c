/* Leaves out what a finish of a frame does for its digest: the write of 32 bytes, and the syncs of the file and of the folder behind
   it. bench/ledger loads it beside a program that makes no SHA-256, which then makes the calls of the ledger's first version. */
#define _GNU_SOURCE
#include <dlfcn.h>
#include <sys/types.h>

static __thread int syncs;

ssize_t write(int file, const void *bytes, size_t count)
{
    ssize_t (*own)(int, const void *, size_t) = (ssize_t (*)(int, const void *, size_t)) dlsym(RTLD_NEXT, "write");
    if (count != 32) return own(file, bytes, count);
    syncs = 2;
    return count;
}

int fsync(int file)
{
    int (*own)(int) = (int (*)(int)) dlsym(RTLD_NEXT, "fsync");
    if (syncs == 0) return own(file);
    syncs--;
    return 0;
}
