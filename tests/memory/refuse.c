/* Loaded before the C library: refuses one allocation of a program, the one whose number is in REFUSED, counted from 1, and
   the start of one thread, by its number in REFUSED_THREAD. At the end it writes how many allocations there were into the
   file that REFUSED_COUNT names. */
#define _GNU_SOURCE
#include <dlfcn.h>
#include <errno.h>
#include <pthread.h>
#include <stddef.h>
#include <stdio.h>
#include <stdlib.h>
#include <sys/syscall.h>
#include <unistd.h>

extern void *__libc_malloc(size_t size);
extern void *__libc_calloc(size_t count, size_t size);
extern void *__libc_realloc(void *block, size_t size);
extern void *__libc_memalign(size_t alignment, size_t size);

static long count, refused = -1, threads;

static long number_in(const char *name) {
    const char *number = getenv(name);
    return number ? atol(number) : 0;
}

/* Several threads may ask at once. */
static int is_refused(void) {
    if (__atomic_load_n(&refused, __ATOMIC_SEQ_CST) < 0) {
        __atomic_store_n(&refused, number_in("REFUSED"), __ATOMIC_SEQ_CST);
    }
    if (__atomic_add_fetch(&count, 1, __ATOMIC_SEQ_CST) != __atomic_load_n(&refused, __ATOMIC_SEQ_CST)) {
        return 0;
    }
    errno = ENOMEM;
    return 1;
}

void *malloc(size_t size) { return is_refused() ? NULL : __libc_malloc(size); }

void *calloc(size_t items, size_t size) { return is_refused() ? NULL : __libc_calloc(items, size); }

void *realloc(void *block, size_t size) { return is_refused() ? NULL : __libc_realloc(block, size); }

void *aligned_alloc(size_t alignment, size_t size) { return is_refused() ? NULL : __libc_memalign(alignment, size); }

int posix_memalign(void **block, size_t alignment, size_t size) {
    *block = is_refused() ? NULL : __libc_memalign(alignment, size);
    return *block ? 0 : 12;
}

int pthread_create(pthread_t *thread, const pthread_attr_t *attributes, void *(*start)(void *), void *argument) {
    static int (*create)(pthread_t *, const pthread_attr_t *, void *(*)(void *), void *);
    if (++threads == number_in("REFUSED_THREAD")) {
        return EAGAIN;
    }
    if (!create) {
        create = (int (*)(pthread_t *, const pthread_attr_t *, void *(*)(void *), void *))dlsym(RTLD_NEXT, "pthread_create");
    }
    return create(thread, attributes, start, argument);
}

__attribute__((destructor)) static void tell(void) {
    long made = count;
    const char *path = getenv("REFUSED_COUNT");
    FILE *file = path ? fopen(path, "w") : NULL;
    if (file) {
        fprintf(file, "%ld\n", made);
        fclose(file);
    }
}

/* A program that may start threads ends so, and no destructor runs. */
void _exit(int status) {
    tell();
    syscall(SYS_exit_group, status);
    __builtin_unreachable();
}
