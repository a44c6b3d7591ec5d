/* A library to be put before a program by LD_PRELOAD. It hinders the calls HINDER_CALL (statx, open, fchmod, read,
 * write, rename, unlink, or `end` for a read that finds the end) of files whose names have HINDER_NAME in them. Where
 * HINDER_ERROR is set, the first HINDER_COUNT of them fail with this number of an error. Else the program stops before
 * the first one, until a signal has it go on. And it refuses the request for memory of number REFUSE_AT (from 1), and
 * where REFUSE_COUNT names a file, it writes there how many requests came, over all threads in their order. */
#define _GNU_SOURCE
#include <errno.h>
#include <limits.h>
#include <signal.h>
#include <stdatomic.h>
#include <stdio.h>
#include <stdlib.h>
#include <string.h>
#include <sys/stat.h>
#include <sys/syscall.h>
#include <unistd.h>

static atomic_long calls, requests;

static int is_failing(const char *call, const char *path) {
    const char *wanted = getenv("HINDER_CALL"), *error = getenv("HINDER_ERROR");
    if (wanted == NULL || strcmp(wanted, call) != 0 || strstr(path, getenv("HINDER_NAME")) == NULL)
        return 0;
    long number = atomic_fetch_add(&calls, 1);
    if (error == NULL && number == 0)
        raise(SIGSTOP);
    if (error == NULL || number >= atol(getenv("HINDER_COUNT")))
        return 0;
    errno = atoi(error);
    return 1;
}

static const char *name_of(int file) {
    static _Thread_local char link[64], path[PATH_MAX];
    snprintf(link, sizeof link, "/proc/self/fd/%d", file);
    ssize_t length = readlink(link, path, sizeof path - 1);
    path[length < 0 ? 0 : length] = 0;
    return path;
}

// A function of the C library, which fails where the call at this path does, and else asks the kernel.
#define HINDERED(result, call, parameters, path, ...) \
    result call parameters { return is_failing(#call, path) ? -1 : (result)syscall(SYS_##call, __VA_ARGS__); }

HINDERED(int, fchmod, (int file, mode_t mode), name_of(file), file, mode)
HINDERED(ssize_t, write, (int file, const void *bytes, size_t count), name_of(file), file, bytes, count)
HINDERED(int, rename, (const char *from, const char *to), from, from, to)
HINDERED(int, unlink, (const char *path), path, path)
HINDERED(int, open, (const char *path, int flags, mode_t mode), path, path, flags, mode) // the mode may not be given
HINDERED(int, statx, (int folder, const char *path, int flags, unsigned mask, struct statx *found), path, folder, path,
         flags, mask, found)

ssize_t read(int file, void *bytes, size_t count) {
    ssize_t length = is_failing("read", name_of(file)) ? -1 : syscall(SYS_read, file, bytes, count);
    return length == 0 && is_failing("end", name_of(file)) ? -1 : length;
}

ssize_t __write(int file, const void *bytes, size_t count) { return write(file, bytes, count); }

static int is_refused(void) {
    const char *at = getenv("REFUSE_AT");
    long number = atomic_fetch_add(&requests, 1) + 1;
    if (at == NULL || atol(at) != number)
        return 0;
    errno = ENOMEM;
    return 1;
}

// What the C library calls its own functions that find memory.
void *__libc_malloc(size_t), *__libc_calloc(size_t, size_t), *__libc_realloc(void *, size_t);
void *__libc_memalign(size_t, size_t);

void *malloc(size_t size) { return is_refused() ? NULL : __libc_malloc(size); }
void *calloc(size_t count, size_t size) { return is_refused() ? NULL : __libc_calloc(count, size); }
void *realloc(void *old, size_t size) { return is_refused() ? NULL : __libc_realloc(old, size); }
void *aligned_alloc(size_t alignment, size_t size) { return is_refused() ? NULL : __libc_memalign(alignment, size); }

int posix_memalign(void **made, size_t alignment, size_t size) {
    return is_refused() || (*made = __libc_memalign(alignment, size)) == NULL ? ENOMEM : 0;
}

__attribute__((destructor)) static void report(void) {
    const char *path = getenv("REFUSE_COUNT");
    long count = requests;
    int file = path == NULL ? -1 : (int)syscall(SYS_creat, path, 0600);
    if (file >= 0)
        dprintf(file, "%ld\n", count);
}

/* A program that may have threads ends by this, and no destructor is called. */
void _exit(int status) {
    report();
    syscall(SYS_exit_group, status);
    __builtin_unreachable();
}
