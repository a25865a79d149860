/* Makes each sync of a file take as many milliseconds as the variable SLOW_SYNC says, so that a run of a few frames is at work for
   some seconds. */
#define _GNU_SOURCE
#include <dlfcn.h>
#include <stdlib.h>
#include <sys/stat.h>
#include <unistd.h>

static void wait_for(int file)
{
    struct stat it;
    const char *time = getenv("SLOW_SYNC");
    if (time && fstat(file, &it) == 0 && S_ISREG(it.st_mode)) usleep(1000 * atoi(time));
}

int fsync(int file)
{
    int (*own)(int) = (int (*)(int)) dlsym(RTLD_NEXT, "fsync");
    wait_for(file);
    return own(file);
}

int fdatasync(int file)
{
    int (*own)(int) = (int (*)(int)) dlsym(RTLD_NEXT, "fdatasync");
    wait_for(file);
    return own(file);
}
