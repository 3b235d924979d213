/* An allocator to be loaded before the C library's. It counts the calls for memory of the process, of all its threads
   together, and the threads that it starts, and refuses those that the environment names:

     REFUSE_CALL=N     the Nth call for memory
     REFUSE_FROM=N     the Nth call for memory and each one after it
     REFUSE_THREAD=N   the Nth start of a thread
     REFUSE_COUNTS=F   a file of 16 bytes, where the two numbers of calls are kept as they grow, in the machine's order

   Calls before the C library's constructors have run are not counted. */

#define _GNU_SOURCE
#include <dlfcn.h>
#include <errno.h>
#include <fcntl.h>
#include <pthread.h>
#include <stdatomic.h>
#include <stddef.h>
#include <stdlib.h>
#include <sys/mman.h>
#include <unistd.h>

extern void *__libc_malloc(size_t);
extern void *__libc_calloc(size_t, size_t);
extern void *__libc_realloc(void *, size_t);
extern void *__libc_memalign(size_t, size_t);

struct counts {
    atomic_ulong memory;
    atomic_ulong threads;
};

static struct counts unused;
static struct counts *counts;
static unsigned long refused_call, refused_from, refused_thread;

static unsigned long number_of(const char *name) {
    const char *word = getenv(name);
    return word ? strtoul(word, NULL, 10) : 0;
}

__attribute__((constructor)) static void begin(void) {
    const char *path = getenv("REFUSE_COUNTS");
    int file = path ? open(path, O_RDWR | O_CLOEXEC) : -1;
    refused_call = number_of("REFUSE_CALL");
    refused_from = number_of("REFUSE_FROM");
    refused_thread = number_of("REFUSE_THREAD");
    counts = &unused;
    if (file >= 0) {
        void *shared = mmap(NULL, sizeof *counts, PROT_READ | PROT_WRITE, MAP_SHARED, file, 0);
        if (shared != MAP_FAILED)
            counts = shared;
        close(file);
    }
}

/* Counts a call for memory, and whether it is one to refuse. */
static int refuses(void) {
    unsigned long number;
    if (!counts)
        return 0;
    number = atomic_fetch_add(&counts->memory, 1) + 1;
    if (number != refused_call && (!refused_from || number < refused_from))
        return 0;
    errno = ENOMEM;
    return 1;
}

void *malloc(size_t size) {
    return refuses() ? NULL : __libc_malloc(size);
}

void *calloc(size_t count, size_t size) {
    return refuses() ? NULL : __libc_calloc(count, size);
}

void *realloc(void *old, size_t size) {
    return refuses() ? NULL : __libc_realloc(old, size);
}

void *memalign(size_t align, size_t size) {
    return refuses() ? NULL : __libc_memalign(align, size);
}

void *aligned_alloc(size_t align, size_t size) {
    return refuses() ? NULL : __libc_memalign(align, size);
}

int posix_memalign(void **out, size_t align, size_t size) {
    void *made = refuses() ? NULL : __libc_memalign(align, size);
    if (!made)
        return ENOMEM;
    *out = made;
    return 0;
}

int pthread_create(pthread_t *thread, const pthread_attr_t *attr, void *(*start)(void *), void *given) {
    int (*real)(pthread_t *, const pthread_attr_t *, void *(*)(void *), void *) = dlsym(RTLD_NEXT, "pthread_create");
    if (counts && atomic_fetch_add(&counts->threads, 1) + 1 == refused_thread)
        return EAGAIN;
    return real(thread, attr, start, given);
}
