/* Counts the syncs of a program that it is loaded into, in the file SYNCS, and has each take SYNC_MICROSECONDS: a disk
   of that speed beneath files that are in memory. */
#include <fcntl.h>
#include <stdint.h>
#include <stdlib.h>
#include <sys/mman.h>
#include <time.h>
#include <unistd.h>

static uint64_t *count;
static long nanoseconds;

__attribute__((constructor)) static void begin(void)
{
    const char *path = getenv("SYNCS"), *taken = getenv("SYNC_MICROSECONDS");
    int file = path ? open(path, O_RDWR | O_CREAT, 0600) : -1;

    if (file < 0 || ftruncate(file, sizeof *count))
        _exit(127);
    count = mmap(NULL, sizeof *count, PROT_READ | PROT_WRITE, MAP_SHARED, file, 0);
    if (count == MAP_FAILED)
        _exit(127);
    nanoseconds = taken ? 1000 * atol(taken) : 0;
}

/* Waits by looking at the clock: a sleep of a tenth of a millisecond would take longer than it says. */
static int synced(void)
{
    struct timespec begun, now;

    ++*count;
    clock_gettime(CLOCK_MONOTONIC, &begun);
    do
        clock_gettime(CLOCK_MONOTONIC, &now);
    while ((now.tv_sec - begun.tv_sec) * 1000000000L + now.tv_nsec - begun.tv_nsec < nanoseconds);
    return 0;
}

int fsync(int file)
{
    (void)file;
    return synced();
}

int fdatasync(int file)
{
    (void)file;
    return synced();
}
