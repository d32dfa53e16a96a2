/* Stands before the C library (LD_PRELOAD) and refuses or shortens some of a program's calls.
 *
 * REFUSE_MALLOC, REFUSE_THREAD, REFUSE_OPEN, REFUSE_READ, REFUSE_WRITE = "N ERROR": the N-th call (each one where N is 0)
 * fails with that error number; malloc and realloc count as one. SHORT_READ, SHORT_WRITE = "K": a call moves at most K bytes.
 * PAUSE_READ = "K": a read waits K microseconds first. COUNT_MALLOC = "FILE": at the end it has the number of requests for memory.
 */
#define _GNU_SOURCE
#include <dlfcn.h>
#include <errno.h>
#include <fcntl.h>
#include <pthread.h>
#include <stdarg.h>
#include <stdatomic.h>
#include <stdio.h>
#include <stdlib.h>
#include <unistd.h>

struct rule {
    const char *name;
    atomic_long calls;
};

static struct rule memory = {"REFUSE_MALLOC"}, threads = {"REFUSE_THREAD"}, opens = {"REFUSE_OPEN"};
static struct rule reads = {"REFUSE_READ"}, writes = {"REFUSE_WRITE"};

/* The error of this call, or 0 where it is let through. */
static int refused(struct rule *rule) {
    const char *words = getenv(rule->name);
    long number = atomic_fetch_add(&rule->calls, 1) + 1;
    if (!words) return 0;
    char *rest;
    long which = strtol(words, &rest, 10);
    return which == 0 || which == number ? (int)strtol(rest, 0, 10) : 0;
}

static size_t shortened(const char *name, size_t size) {
    const char *most = getenv(name);
    return most && size > (size_t)atol(most) ? (size_t)atol(most) : size;
}

#define NEXT(type, name, ...) \
    static type (*next)(__VA_ARGS__); \
    if (!next) next = (type (*)(__VA_ARGS__))dlsym(RTLD_NEXT, name)

void *malloc(size_t size) {
    NEXT(void *, "malloc", size_t);
    int error = refused(&memory);
    if (error) { errno = error; return 0; }
    return next(size);
}

void *realloc(void *old, size_t size) {
    NEXT(void *, "realloc", void *, size_t);
    int error = refused(&memory);
    if (error) { errno = error; return 0; }
    return next(old, size);
}

int pthread_create(pthread_t *thread, const pthread_attr_t *attributes, void *(*start)(void *), void *argument) {
    NEXT(int, "pthread_create", pthread_t *, const pthread_attr_t *, void *(*)(void *), void *);
    int error = refused(&threads);
    return error ? error : next(thread, attributes, start, argument);
}

int open(const char *path, int flags, ...) {
    NEXT(int, "open", const char *, int, ...);
    int error = refused(&opens), mode = 0;
    if (error) { errno = error; return -1; }
    if (flags & O_CREAT) {
        va_list more;
        va_start(more, flags);
        mode = va_arg(more, int);
        va_end(more);
    }
    return next(path, flags, mode);
}

ssize_t read(int file, void *bytes, size_t size) {
    NEXT(ssize_t, "read", int, void *, size_t);
    int error = refused(&reads);
    if (error) { errno = error; return -1; }
    const char *pause = getenv("PAUSE_READ");
    if (pause) usleep((useconds_t)atol(pause));
    return next(file, bytes, shortened("SHORT_READ", size));
}

ssize_t write(int file, const void *bytes, size_t size) {
    NEXT(ssize_t, "write", int, const void *, size_t);
    int error = refused(&writes);
    if (error) { errno = error; return -1; }
    return next(file, bytes, shortened("SHORT_WRITE", size));
}

/* The program's way to end. */
_Noreturn void _exit(int status) {
    NEXT(void, "_exit", int);
    long requests = atomic_load(&memory.calls);
    const char *path = getenv("COUNT_MALLOC");
    FILE *file = path ? fopen(path, "w") : 0;
    if (file) {
        fprintf(file, "%ld\n", requests);
        fclose(file);
    }
    for (;;) next(status);
}
