/* Reports a program's allocations, and makes one fail. `cc -shared` makes a library of it, which
   LD_PRELOAD loads before the C library. Each allocation writes its size to descriptor 9, as a
   line. The variable REFUSED is the number of the allocation that fails, counted from 1; without it
   none fails. The tested programs allocate by `malloc` and `realloc` alone. tests/requests.sh,
   tests/memory.sh and tests/run_examples.sh use this file. */

#define _GNU_SOURCE
#include <dlfcn.h>
#include <errno.h>
#include <stddef.h>
#include <stdlib.h>
#include <unistd.h>

static long requests;

/* Writes the size as a line, without functions of the C library, since these may allocate. */
static void report(size_t size)
{
    char line[21];
    size_t start = sizeof line;
    line[--start] = '\n';
    do {
        line[--start] = (char)('0' + size % 10);
        size /= 10;
    } while (size != 0);
    if (write(9, line + start, sizeof line - start) != (ssize_t)(sizeof line - start))
        abort();
}

/* Reports an allocation of this size, and returns whether it may succeed. */
static int is_granted(size_t size)
{
    const char *refused = getenv("REFUSED");
    requests += 1;
    report(size);
    if (refused == NULL || atol(refused) != requests)
        return 1;
    errno = ENOMEM;
    return 0;
}

void *malloc(size_t size)
{
    void *(*next)(size_t) = (void *(*)(size_t))dlsym(RTLD_NEXT, "malloc");
    return is_granted(size) ? next(size) : NULL;
}

void *realloc(void *block, size_t size)
{
    void *(*next)(void *, size_t) = (void *(*)(void *, size_t))dlsym(RTLD_NEXT, "realloc");
    return is_granted(size) ? next(block, size) : NULL;
}
