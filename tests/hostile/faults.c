/* Stands between a program and the C library (LD_PRELOAD), and has one call of a kind go wrong: the one whose number is
   in AT. FAULT is memory (a request is refused), thread (no thread is started), io (an open, seek, read or write fails)
   or short (a read or write of several bytes moves one). With a minus in front of AT each call from that number on goes
   wrong. The number of such calls is left in the file that ASKED names. */
#define _GNU_SOURCE
#include <dlfcn.h>
#include <errno.h>
#include <fcntl.h>
#include <pthread.h>
#include <stdarg.h>
#include <stdatomic.h>
#include <stdlib.h>
#include <string.h>
#include <sys/mman.h>
#include <sys/types.h>
#include <unistd.h>

static atomic_long here, *asked = &here;
static long at;
static int memory, thread, io, brief;

__attribute__((constructor)) static void begin(void) {
    const char *number = getenv("AT"), *kind = getenv("FAULT"), *name = getenv("ASKED");
    if (name) {
        int file = openat(AT_FDCWD, name, O_RDWR | O_CREAT | O_TRUNC, 0600);
        if (file < 0 || ftruncate(file, sizeof here)) _exit(99);
        asked = mmap(NULL, sizeof here, PROT_READ | PROT_WRITE, MAP_SHARED, file, 0);
        close(file);
    }
    at = number ? atol(number) : 0;
    memory = kind && !strcmp(kind, "memory");
    thread = kind && !strcmp(kind, "thread");
    io = kind && !strcmp(kind, "io");
    brief = kind && !strcmp(kind, "short");
}

/* Whether a call of a kind that is counted goes wrong. */
static int strikes(int counted) {
    if (!counted) return 0;
    long number = atomic_fetch_add(asked, 1) + 1;
    return number == at || (at < 0 && number >= -at);
}

#define REAL(function)                       \
    static __typeof__(&function) real;       \
    if (!real) real = (__typeof__(&function))dlsym(RTLD_NEXT, #function)

void *malloc(size_t n) {
    REAL(malloc);
    if (strikes(memory)) { errno = ENOMEM; return NULL; }
    return real(n);
}
void *realloc(void *p, size_t n) {
    REAL(realloc);
    if (strikes(memory)) { errno = ENOMEM; return NULL; }
    return real(p, n);
}
void *aligned_alloc(size_t a, size_t n) {
    REAL(aligned_alloc);
    if (strikes(memory)) { errno = ENOMEM; return NULL; }
    return real(a, n);
}
int posix_memalign(void **p, size_t a, size_t n) {
    REAL(posix_memalign);
    return strikes(memory) ? ENOMEM : real(p, a, n);
}

int pthread_create(pthread_t *made, const pthread_attr_t *how, void *(*job)(void *), void *with) {
    REAL(pthread_create);
    return strikes(thread) ? EAGAIN : real(made, how, job, with);
}

#define OPEN(function)                                              \
    int function(const char *name, int flags, ...) {                \
        REAL(function);                                             \
        va_list rest;                                               \
        va_start(rest, flags);                                      \
        int mode = va_arg(rest, int);                               \
        va_end(rest);                                               \
        if (strikes(io)) { errno = EIO; return -1; }                \
        return real(name, flags, mode);                             \
    }
OPEN(open)
OPEN(open64)
off_t lseek(int file, off_t to, int from) {
    REAL(lseek);
    if (strikes(io)) { errno = EIO; return -1; }
    return real(file, to, from);
}
off64_t lseek64(int file, off64_t to, int from) {
    REAL(lseek64);
    if (strikes(io)) { errno = EIO; return -1; }
    return real(file, to, from);
}
ssize_t read(int file, void *bytes, size_t n) {
    REAL(read);
    if (strikes(io)) { errno = EIO; return -1; }
    return real(file, bytes, strikes(brief && n > 1) ? 1 : n);
}
ssize_t write(int file, const void *bytes, size_t n) {
    REAL(write);
    if (strikes(io)) { errno = EIO; return -1; }
    return real(file, bytes, strikes(brief && n > 1) ? 1 : n);
}
