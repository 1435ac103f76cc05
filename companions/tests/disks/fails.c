/* Makes the writes or the syncs of a program that it is loaded into fail with EIO, while the file that FAILS names is
   there with `.write` or `.sync` behind its name. */
#define _GNU_SOURCE
#include <dlfcn.h>
#include <errno.h>
#include <stdio.h>
#include <stdlib.h>
#include <unistd.h>

static int fails(const char *call)
{
    char name[4096];
    int before = errno;
    snprintf(name, sizeof name, "%s.%s", getenv("FAILS"), call);
    if (access(name, F_OK) == 0) {
        errno = EIO;
        return 1;
    }
    errno = before;
    return 0;
}

ssize_t pwrite(int file, const void *bytes, size_t length, off_t at)
{
    ssize_t (*real)(int, const void *, size_t, off_t) = dlsym(RTLD_NEXT, "pwrite");
    return fails("write") ? -1 : real(file, bytes, length, at);
}

int fsync(int file)
{
    int (*real)(int) = dlsym(RTLD_NEXT, "fsync");
    return fails("sync") ? -1 : real(file);
}

int fdatasync(int file)
{
    int (*real)(int) = dlsym(RTLD_NEXT, "fdatasync");
    return fails("sync") ? -1 : real(file);
}
