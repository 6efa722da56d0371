// Refuses one allocation of a program that it is loaded into: the one of the number REFUSE_ALLOC, counted from 1. Where that one
// comes, it makes the file REFUSE_REPORT. scripts/refusals.py builds and uses it.
#define _GNU_SOURCE
#include <dlfcn.h>
#include <errno.h>
#include <fcntl.h>
#include <stdlib.h>
#include <unistd.h>

static long made;

static int refuses(void) {
    const char *number = getenv("REFUSE_ALLOC");
    if (!number || ++made != atol(number)) return 0;
    const char *report = getenv("REFUSE_REPORT");
    if (report) close(open(report, O_CREAT | O_WRONLY, 0600));
    errno = ENOMEM;
    return 1;
}

void *malloc(size_t size) {
    static void *(*real)(size_t);
    if (!real) real = (void *(*)(size_t))dlsym(RTLD_NEXT, "malloc");
    return refuses() ? NULL : real(size);
}

void *realloc(void *old, size_t size) {
    static void *(*real)(void *, size_t);
    if (!real) real = (void *(*)(void *, size_t))dlsym(RTLD_NEXT, "realloc");
    return refuses() ? NULL : real(old, size);
}

void *aligned_alloc(size_t align, size_t size) {
    static void *(*real)(size_t, size_t);
    if (!real) real = (void *(*)(size_t, size_t))dlsym(RTLD_NEXT, "aligned_alloc");
    return refuses() ? NULL : real(align, size);
}

int posix_memalign(void **to, size_t align, size_t size) {
    static int (*real)(void **, size_t, size_t);
    if (!real) real = (int (*)(void **, size_t, size_t))dlsym(RTLD_NEXT, "posix_memalign");
    return refuses() ? ENOMEM : real(to, align, size);
}
