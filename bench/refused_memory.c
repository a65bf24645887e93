/* Refuses one allocation of a program: REFUSE=N refuses the Nth call of malloc or realloc, counted
 * from 1. REFUSE=0 refuses none, and prints the number of calls on standard error at the end. Built as
 * a shared object and put before the C library by LD_PRELOAD; see refused_memory.py. */
#define _GNU_SOURCE
#include <dlfcn.h>
#include <stdio.h>
#include <stdlib.h>
#include <sys/syscall.h>
#include <unistd.h>

static void *(*next_malloc)(size_t);
static void *(*next_realloc)(void *, size_t);
static unsigned long calls, refused;

__attribute__((constructor)) static void begin(void) {
    const char *word = getenv("REFUSE");
    refused = word ? strtoul(word, NULL, 10) : 0;
    calls = 0;
}

__attribute__((destructor)) static void end(void) {
    if (refused == 0)
        dprintf(2, "%lu\n", calls);
}

/* A program may end by this, and then nothing is called at its end. */
__attribute__((noreturn)) void _exit(int status) {
    end();
    syscall(SYS_exit_group, status);
    __builtin_unreachable();
}

/* Threads share the count. */
static unsigned long next_call(void) {
    return __atomic_add_fetch(&calls, 1, __ATOMIC_SEQ_CST);
}

void *malloc(size_t size) {
    if (next_malloc == NULL)
        next_malloc = (void *(*)(size_t))dlsym(RTLD_NEXT, "malloc");
    return next_call() == refused ? NULL : next_malloc(size);
}

void *realloc(void *old, size_t size) {
    if (next_realloc == NULL)
        next_realloc = (void *(*)(void *, size_t))dlsym(RTLD_NEXT, "realloc");
    return next_call() == refused ? NULL : next_realloc(old, size);
}
