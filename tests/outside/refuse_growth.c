/* Counts the growths of memory of a program that it is preloaded into, and refuses one of them.
 *
 * A growth is a call of malloc or realloc, from 1 on. REFUSED is the number of the one that is refused, 0 for none. At the
 * end a line is written to the file COUNTED: how many there were, and how many before the first file was opened to be
 * written, or -1 where none was.
 */
#define _GNU_SOURCE
#include <dlfcn.h>
#include <fcntl.h>
#include <stdarg.h>
#include <stdio.h>
#include <stdlib.h>

static long growths, stored_at = -1, refused;
static int begun;

static void *(*real_malloc)(size_t);
static void *(*real_realloc)(void *, size_t);
static int (*real_openat)(int, const char *, int, ...);

__attribute__((constructor)) static void begin(void)
{
    const char *number = getenv("REFUSED");
    real_malloc = (void *(*)(size_t))dlsym(RTLD_NEXT, "malloc");
    real_realloc = (void *(*)(void *, size_t))dlsym(RTLD_NEXT, "realloc");
    real_openat = (int (*)(int, const char *, int, ...))dlsym(RTLD_NEXT, "openat");
    refused = number ? atol(number) : 0;
    begun = 1;
}

__attribute__((destructor)) static void end(void)
{
    const char *name = getenv("COUNTED");
    FILE *file;
    begun = 0;
    if (name && (file = fopen(name, "w"))) {
        fprintf(file, "%ld %ld\n", growths, stored_at);
        fclose(file);
    }
}

static int is_refused(void)
{
    return begun && ++growths == refused;
}

void *malloc(size_t size)
{
    if (!real_malloc)
        real_malloc = (void *(*)(size_t))dlsym(RTLD_NEXT, "malloc");
    return is_refused() ? NULL : real_malloc(size);
}

void *realloc(void *block, size_t size)
{
    if (!real_realloc)
        real_realloc = (void *(*)(void *, size_t))dlsym(RTLD_NEXT, "realloc");
    return is_refused() ? NULL : real_realloc(block, size);
}

int openat(int folder, const char *name, int flags, ...)
{
    va_list rest;
    int mode;
    va_start(rest, flags);
    mode = va_arg(rest, int);
    va_end(rest);
    if (begun && stored_at < 0 && (flags & (O_WRONLY | O_RDWR)))
        stored_at = growths;
    return real_openat(folder, name, flags, mode);
}
