/* A library that goes between a program and the system (LD_PRELOAD), and refuses what the environment names, numbered from 1:
     REFUSE_MEMORY_AT=N      the program's Nth allocation
     REFUSE_MEMORY_FROM=N    that one and all after it
     REFUSE_THREAD_AT=N      its Nth start of a thread
   A program that marks its calls (smq_marks) asks for more memory than a machine has: for FIRST octets where a call has ended, for one
   more where it has ended and told that it was refused, and for N + 2 more where call N begins. With REFUSE_IN_CALLS=1 the numbers
   count what marked calls ask for alone, and all after an allocation are those of the same call.
   Where REFUSE_COUNTS names a file of numbers of 64 bits, in it stand how many allocations and starts of threads were counted so far,
   and then of each call how often it began, how many of both it asked for, how many of them were refused, and how often it told so. It
   is a mapped file, since a program may end without a word to its libraries. gate/out_of_memory.py builds and uses it. */
#define _GNU_SOURCE
#include <dlfcn.h>
#include <errno.h>
#include <fcntl.h>
#include <pthread.h>
#include <stdatomic.h>
#include <stdlib.h>
#include <sys/mman.h>
#include <unistd.h>

extern void *__libc_malloc(size_t);
extern void *__libc_calloc(size_t, size_t);
extern void *__libc_realloc(void *, size_t);
extern void *__libc_memalign(size_t, size_t);

#define FIRST 0x400000000000UL
#define CALLS 32

static struct counts {
    atomic_ulong allocations, threads;
    struct {
        atomic_ulong begun, asked, refused, told;
    } calls[CALLS];
} own, *counts = &own;
static unsigned long memory_at, memory_from, thread_at, in_calls;
static atomic_ulong call; /* the number of the marked call, and 1 more; 0 outside of one */
static atomic_int is_from; /* whether all is refused up to the end of the call */

static unsigned long number_in(const char *name) {
    const char *value = getenv(name);
    return value ? strtoul(value, NULL, 10) : 0;
}

__attribute__((constructor)) static void begin(void) {
    const char *path = getenv("REFUSE_COUNTS");
    int file = path ? open(path, O_RDWR) : -1;
    if (file >= 0) {
        void *mapped = mmap(NULL, sizeof own, PROT_READ | PROT_WRITE, MAP_SHARED, file, 0);
        if (mapped != MAP_FAILED) counts = mapped;
        close(file);
    }
    memory_at = number_in("REFUSE_MEMORY_AT");
    memory_from = number_in("REFUSE_MEMORY_FROM");
    thread_at = number_in("REFUSE_THREAD_AT");
    in_calls = number_in("REFUSE_IN_CALLS");
}

/* Reads a mark, if an allocation of this size is one. */
static int is_mark(size_t size) {
    if (size < FIRST || size >= FIRST + 2 + CALLS) return 0;
    unsigned long ended = atomic_load(&call), begins = size >= FIRST + 2 ? size - FIRST - 1 : 0;
    if (size == FIRST + 1 && ended) atomic_fetch_add(&counts->calls[ended - 1].told, 1);
    if (begins) atomic_fetch_add(&counts->calls[begins - 1].begun, 1);
    atomic_store(&call, begins);
    atomic_store(&is_from, 0);
    return 1;
}

/* Counts an allocation or a start of a thread, and says whether it is refused: it has the first number, or comes from the second on. */
static int is_refused(atomic_ulong *count, unsigned long at, unsigned long from) {
    unsigned long now = atomic_load(&call);
    if (in_calls && !now) return 0;
    unsigned long number = atomic_fetch_add(count, 1) + 1;
    if (from && number == from) atomic_store(&is_from, 1);
    int refused = number == at || (from && number >= from && (!in_calls || atomic_load(&is_from)));
    if (now) {
        atomic_fetch_add(&counts->calls[now - 1].asked, 1);
        atomic_fetch_add(&counts->calls[now - 1].refused, refused);
    }
    return refused;
}

static int is_memory_refused(size_t size) {
    if (!is_mark(size) && !is_refused(&counts->allocations, memory_at, memory_from)) return 0;
    errno = ENOMEM;
    return 1;
}

void *malloc(size_t size) { return is_memory_refused(size) ? NULL : __libc_malloc(size); }

void *calloc(size_t count, size_t size) { return is_memory_refused(size) ? NULL : __libc_calloc(count, size); }

void *realloc(void *old, size_t size) { return is_memory_refused(size) ? NULL : __libc_realloc(old, size); }

void *aligned_alloc(size_t alignment, size_t size) { return is_memory_refused(size) ? NULL : __libc_memalign(alignment, size); }

int posix_memalign(void **place, size_t alignment, size_t size) {
    if (is_memory_refused(size) || !(*place = __libc_memalign(alignment, size))) return ENOMEM;
    return 0;
}

int pthread_create(pthread_t *thread, const pthread_attr_t *attributes, void *(*start)(void *), void *argument) {
    static int (*next)(pthread_t *, const pthread_attr_t *, void *(*)(void *), void *);
    if (!next) next = (int (*)(pthread_t *, const pthread_attr_t *, void *(*)(void *), void *))dlsym(RTLD_NEXT, "pthread_create");
    if (is_refused(&counts->threads, thread_at, 0)) return EAGAIN;
    return next(thread, attributes, start, argument);
}
