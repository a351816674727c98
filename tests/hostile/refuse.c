/* Preloaded: refuses call number REFUSE of those that take memory, and the threads whose numbers stand in
 * REFUSE_THREADS, with commas between them. At the end it writes how many calls there were to the files that COUNT and
 * THREADS_COUNT name. */
#define _GNU_SOURCE
#include <dlfcn.h>
#include <errno.h>
#include <pthread.h>
#include <stdio.h>
#include <stdlib.h>

static long calls, threads;

static int refused(void) {
    const char *number = getenv("REFUSE");
    long call = __atomic_add_fetch(&calls, 1, __ATOMIC_RELAXED);
    return call == (number ? atol(number) : 0);
}

void *malloc(size_t size) {
    static void *(*next)(size_t);
    if (!next) next = dlsym(RTLD_NEXT, "malloc");
    return refused() ? 0 : next(size);
}

void *realloc(void *block, size_t size) {
    static void *(*next)(void *, size_t);
    if (!next) next = dlsym(RTLD_NEXT, "realloc");
    return refused() ? 0 : next(block, size);
}

int posix_memalign(void **block, size_t alignment, size_t size) {
    static int (*next)(void **, size_t, size_t);
    if (!next) next = dlsym(RTLD_NEXT, "posix_memalign");
    return refused() ? ENOMEM : next(block, alignment, size);
}

/* whether a number stands in a list */
static int stands(long number, const char *list) {
    while (list && *list) {
        char *end;
        if (strtol(list, &end, 10) == number) return 1;
        list = *end ? end + 1 : end;
    }
    return 0;
}

int pthread_create(pthread_t *thread, const pthread_attr_t *how, void *(*run)(void *), void *given) {
    static int (*next)(pthread_t *, const pthread_attr_t *, void *(*)(void *), void *);
    if (!next) next = dlsym(RTLD_NEXT, "pthread_create");
    return stands(++threads, getenv("REFUSE_THREADS")) ? EAGAIN : next(thread, how, run, given);
}

static void tell(const char *name, long count) {
    const char *path = getenv(name);
    FILE *file = path ? fopen(path, "w") : 0;
    if (file) {
        fprintf(file, "%ld\n", count);
        fclose(file);
    }
}

__attribute__((destructor)) static void tell_both(void) {
    const long count = calls;
    tell("COUNT", count);
    tell("THREADS_COUNT", threads);
}

/* a program may end by this call, which runs no destructor */
void _exit(int status) {
    static void (*next)(int);
    if (!next) next = dlsym(RTLD_NEXT, "_exit");
    tell_both();
    next(status);
    __builtin_unreachable();
}
