/* Stands between a program and the C library (LD_PRELOAD), and writes into the file that BUSIEST names the processor
   seconds of the thread that took the most: the first one, or one that was started. On free processors a run takes at
   least as long. */
#define _GNU_SOURCE
#include <dlfcn.h>
#include <pthread.h>
#include <stdatomic.h>
#include <stdio.h>
#include <stdlib.h>
#include <sys/syscall.h>
#include <time.h>
#include <unistd.h>

static atomic_long most;

struct work {
    void *(*run)(void *);
    void *with;
};

/* Counts what this thread took so far. */
static void count(void) {
    struct timespec t;
    clock_gettime(CLOCK_THREAD_CPUTIME_ID, &t);
    long took = t.tv_sec * 1000000000 + t.tv_nsec, seen = atomic_load(&most);
    while (took > seen && !atomic_compare_exchange_weak(&most, &seen, took)) {}
}

static void *counted(void *p) {
    struct work work = *(struct work *)p;
    free(p);
    void *result = work.run(work.with);
    count();
    return result;
}

int pthread_create(pthread_t *t, const pthread_attr_t *a, void *(*run)(void *), void *with) {
    static int (*real)(pthread_t *, const pthread_attr_t *, void *(*)(void *), void *);
    if (!real) real = (__typeof__(real))dlsym(RTLD_NEXT, "pthread_create");
    struct work *work = malloc(sizeof *work);
    if (!work) abort();
    *work = (struct work){run, with};
    return real(t, a, counted, work);
}

/* The program ends by this call. */
void _exit(int status) {
    const char *name = getenv("BUSIEST");
    FILE *file = name ? fopen(name, "w") : NULL;
    count();
    if (file) {
        fprintf(file, "%.4f\n", atomic_load(&most) / 1e9);
        fclose(file);
    }
    syscall(SYS_exit_group, status);
    __builtin_unreachable();
}
