/* Holds one thread of a program before it does anything. test_threads.py has it loaded by LD_PRELOAD.
 *
 *     HELD_THREAD    which of the threads that the program starts is held, from 1 on; 0 for none
 *     HELD_UNTIL     the reading end of a pipe: the thread goes on when the writing end is closed
 */
#define _GNU_SOURCE
#include <dlfcn.h>
#include <pthread.h>
#include <stdatomic.h>
#include <stdlib.h>
#include <unistd.h>

static atomic_int started;
static void *(*held_start)(void *);
static void *held_with;

static int number_in(const char *name) { return getenv(name) ? atoi(getenv(name)) : 0; }

static void *hold(void *unused) {
    char byte;
    (void)unused;
    while (read(number_in("HELD_UNTIL"), &byte, 1) > 0) {}
    return held_start(held_with);
}

int pthread_create(pthread_t *thread, const pthread_attr_t *how, void *(*start)(void *), void *with) {
    int (*usual)(pthread_t *, const pthread_attr_t *, void *(*)(void *), void *) = dlsym(RTLD_NEXT, "pthread_create");
    if (atomic_fetch_add(&started, 1) + 1 != number_in("HELD_THREAD")) return usual(thread, how, start, with);
    held_start = start, held_with = with;
    return usual(thread, how, hold, NULL);
}
