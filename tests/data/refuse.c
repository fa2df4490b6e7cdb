/* A preloaded allocator that refuses request REFUSE to `malloc` or `realloc`, counted from 1; with a plus after the number, all later
   requests too. When a request is refused, the file REFUSED is created. */
#define _GNU_SOURCE
#include <dlfcn.h>
#include <errno.h>
#include <fcntl.h>
#include <stdlib.h>
#include <string.h>
#include <unistd.h>

static int is_refused(void)
{
    static long number;
    const char *wanted = getenv("REFUSE"), *mark = getenv("REFUSED");
    if (!wanted || ++number < atol(wanted) || (number > atol(wanted) && !strchr(wanted, '+')))
        return 0;
    if (mark)
        close(open(mark, O_CREAT | O_WRONLY, 0600));
    errno = ENOMEM;
    return 1;
}

void *malloc(size_t size)
{
    static void *(*real)(size_t);
    if (!real)
        *(void **)&real = dlsym(RTLD_NEXT, "malloc");
    return is_refused() ? NULL : real(size);
}

void *realloc(void *old, size_t size)
{
    static void *(*real)(void *, size_t);
    if (!real)
        *(void **)&real = dlsym(RTLD_NEXT, "realloc");
    return is_refused() ? NULL : real(old, size);
}
