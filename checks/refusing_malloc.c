/* A stand-in for the C library's allocation, to be loaded before it (LD_PRELOAD). It refuses the REFUSE-th request for
 * memory, counted from 1 over all threads; none if REFUSE is not set. At the end it writes the number of requests to the
 * file descriptor REQUESTS, if that is set. */
#define _GNU_SOURCE
#include <dlfcn.h>
#include <errno.h>
#include <stdatomic.h>
#include <stdio.h>
#include <stdlib.h>
#include <sys/syscall.h>
#include <unistd.h>

static atomic_ulong requests, refused;

__attribute__((constructor)) static void begin(void) {
    const char *number = getenv("REFUSE");
    atomic_store(&refused, number ? strtoul(number, NULL, 10) : 0);
    atomic_store(&requests, 0);
}

__attribute__((destructor)) static void end(void) {
    const char *number = getenv("REQUESTS");
    if (number)
        dprintf(atoi(number), "%lu\n", atomic_load(&requests));
}

/* A program that may have threads ends by this call, which runs no destructor. */
void _exit(int status) {
    end();
    syscall(SYS_exit_group, status);
    __builtin_unreachable();
}

static int refuses(void) {
    if (atomic_fetch_add(&requests, 1) + 1 != atomic_load(&refused))
        return 0;
    errno = ENOMEM;
    return 1;
}

/* The C library's own function, looked up at the first call. Threads that look at the same time find the same function. */
#define NEXT(next, name)                                                                                              \
    do {                                                                                                              \
        if (!atomic_load(&next))                                                                                      \
            atomic_store(&next, dlsym(RTLD_NEXT, name));                                                              \
    } while (0)

void *malloc(size_t size) {
    static void *_Atomic next;
    NEXT(next, "malloc");
    return refuses() ? NULL : ((void *(*)(size_t))atomic_load(&next))(size);
}

void *calloc(size_t count, size_t size) {
    static void *_Atomic next;
    NEXT(next, "calloc");
    return refuses() ? NULL : ((void *(*)(size_t, size_t))atomic_load(&next))(count, size);
}

void *realloc(void *old, size_t size) {
    static void *_Atomic next;
    NEXT(next, "realloc");
    return refuses() ? NULL : ((void *(*)(void *, size_t))atomic_load(&next))(old, size);
}

void *aligned_alloc(size_t alignment, size_t size) {
    static void *_Atomic next;
    NEXT(next, "aligned_alloc");
    return refuses() ? NULL : ((void *(*)(size_t, size_t))atomic_load(&next))(alignment, size);
}

int posix_memalign(void **place, size_t alignment, size_t size) {
    static void *_Atomic next;
    NEXT(next, "posix_memalign");
    return refuses() ? ENOMEM : ((int (*)(void **, size_t, size_t))atomic_load(&next))(place, alignment, size);
}
