// Loaded before the C library, it refuses one call for memory, or one new thread: the one of the number that REFUSE_MEMORY
// or REFUSE_THREAD has, counted from 1 over all threads; and each call for memory from the one on that REFUSE_FROM has. At
// the end it writes how many of both there were to the file that REFUSE_TOLD names. bench/memory.py compiles and loads it.
#define _GNU_SOURCE
#include <dlfcn.h>
#include <errno.h>
#include <pthread.h>
#include <stdatomic.h>
#include <stdio.h>
#include <stdlib.h>
#include <sys/syscall.h>
#include <unistd.h>

void *__libc_malloc(size_t);
void *__libc_calloc(size_t, size_t);
void *__libc_realloc(void *, size_t);
void *__libc_memalign(size_t, size_t);

static atomic_ulong calls, threads;
static unsigned long refused_call, first_refused, refused_thread;

static unsigned long number(const char *name) {
    const char *text = getenv(name);
    return text ? strtoul(text, NULL, 10) : 0;
}

__attribute__((constructor)) static void begin(void) {
    refused_call = number("REFUSE_MEMORY");
    first_refused = number("REFUSE_FROM");
    refused_thread = number("REFUSE_THREAD");
    atomic_store(&calls, 0);
}

static void tell(void) {
    unsigned long all = atomic_load(&calls);
    const char *name = getenv("REFUSE_TOLD");
    first_refused = refused_call = 0;
    FILE *file = name ? fopen(name, "w") : NULL;
    if (file) {
        fprintf(file, "%lu %lu\n", all, atomic_load(&threads));
        fclose(file);
    }
}

// the program ends by this call
void _exit(int status) {
    tell();
    for (;;)
        syscall(SYS_exit_group, status);
}

static int is_refused(void) {
    unsigned long call = atomic_fetch_add(&calls, 1) + 1;
    if (call != refused_call && (!first_refused || call < first_refused))
        return 0;
    errno = ENOMEM;
    return 1;
}

void *malloc(size_t size) { return is_refused() ? NULL : __libc_malloc(size); }
void *calloc(size_t count, size_t size) { return is_refused() ? NULL : __libc_calloc(count, size); }
void *realloc(void *old, size_t size) { return is_refused() ? NULL : __libc_realloc(old, size); }
void *memalign(size_t align, size_t size) { return is_refused() ? NULL : __libc_memalign(align, size); }
void *aligned_alloc(size_t align, size_t size) { return is_refused() ? NULL : __libc_memalign(align, size); }

int posix_memalign(void **to, size_t align, size_t size) {
    void *found = is_refused() ? NULL : __libc_memalign(align, size);
    if (!found)
        return ENOMEM;
    *to = found;
    return 0;
}

int pthread_create(pthread_t *thread, const pthread_attr_t *how, void *(*start)(void *), void *with) {
    static int (*create)(pthread_t *, const pthread_attr_t *, void *(*)(void *), void *);
    if (atomic_fetch_add(&threads, 1) + 1 == refused_thread)
        return EAGAIN;
    if (!create)
        create = (int (*)(pthread_t *, const pthread_attr_t *, void *(*)(void *), void *))dlsym(RTLD_NEXT, "pthread_create");
    return create(thread, how, start, with);
}
