/* Refuses one of a program's requests for memory, by LD_PRELOAD: the one whose number, from 1, is in REFUSED_REQUEST. */
#define _GNU_SOURCE
#include <dlfcn.h>
#include <errno.h>
#include <stddef.h>
#include <stdlib.h>

static unsigned long requests;

static int is_refused(void)
{
    const char *number = getenv("REFUSED_REQUEST");

    requests++;
    if (number == NULL || strtoul(number, NULL, 10) != requests)
        return 0;
    errno = ENOMEM;
    return 1;
}

void *malloc(size_t size)
{
    static void *(*next)(size_t);

    if (next == NULL)
        next = (void *(*)(size_t))dlsym(RTLD_NEXT, "malloc");
    return is_refused() ? NULL : next(size);
}

void *realloc(void *block, size_t size)
{
    static void *(*next)(void *, size_t);

    if (next == NULL)
        next = (void *(*)(void *, size_t))dlsym(RTLD_NEXT, "realloc");
    return is_refused() ? NULL : next(block, size);
}
