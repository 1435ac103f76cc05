/* Refuses one request for memory of a program that it is loaded into: the one that REFUSED counts, from 1. It writes a
   byte to the descriptor MET when it does. */
#include <stdlib.h>
#include <unistd.h>

extern void *__libc_malloc(size_t size);
extern void *__libc_realloc(void *old, size_t size);

static long left;
static int met = -1;

__attribute__((constructor)) static void begin(void)
{
    const char *refused = getenv("REFUSED"), *told = getenv("MET");
    if (refused && told) {
        met = atoi(told);
        left = atol(refused);
    }
}

static int is_refused(void)
{
    if (left == 0 || --left > 0)
        return 0;
    return write(met, "!", 1) == 1;
}

void *malloc(size_t size)
{
    return is_refused() ? NULL : __libc_malloc(size);
}

void *realloc(void *old, size_t size)
{
    return is_refused() ? NULL : __libc_realloc(old, size);
}
