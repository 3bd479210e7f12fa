/* Makes one call of a program fail, or each from one on, and counts such calls. failing_calls.py has it loaded by
 * LD_PRELOAD.
 *
 *     FAILING_CALL    memory (malloc, calloc, realloc and the like), thread (pthread_create), read (of standard input),
 *                     write (to standard output) or told (a write to standard error)
 *     FAILING_AT      which of these calls fails, from 1 on; 0 for none
 *     FAILING_FROM    where it is set, each later one fails too
 *     FAILING_SHORT   where it is set, a read or write moves one byte at most
 *     FAILING_MARK    a file, which is made when a call fails
 *     FAILING_COUNT   a file, to which the number of these calls is written at the program's end
 *     FAILING_TRACE   a file, which gets a line before each write to standard output: the number of bytes written
 *                     before it, and the number of these calls
 */
#define _GNU_SOURCE
#include <dlfcn.h>
#include <errno.h>
#include <fcntl.h>
#include <pthread.h>
#include <stdatomic.h>
#include <stddef.h>
#include <stdio.h>
#include <stdlib.h>
#include <string.h>
#include <sys/syscall.h>
#include <unistd.h>

extern void *__libc_malloc(size_t);
extern void *__libc_calloc(size_t, size_t);
extern void *__libc_realloc(void *, size_t);
extern void *__libc_memalign(size_t, size_t);

static const char *failing = "";
static unsigned long failing_at;
static int failing_from, moves_one;
static const char *mark, *counted;
static int trace = -1;
static unsigned long moved_out;
static atomic_ulong calls;

__attribute__((constructor)) static void begin(void) {
    const char *at = getenv("FAILING_AT");
    failing_at = at ? strtoul(at, NULL, 10) : 0;
    failing_from = getenv("FAILING_FROM") != NULL;
    moves_one = getenv("FAILING_SHORT") != NULL;
    mark = getenv("FAILING_MARK");
    counted = getenv("FAILING_COUNT");
    const char *path = getenv("FAILING_TRACE");
    trace = path ? (int)syscall(SYS_openat, AT_FDCWD, path, O_CREAT | O_WRONLY | O_TRUNC, 0600) : -1;
    failing = getenv("FAILING_CALL") ? getenv("FAILING_CALL") : "";
}

__attribute__((destructor)) static void end(void) {
    unsigned long found = atomic_load(&calls);
    FILE *file = counted ? fopen(counted, "w") : NULL;
    if (file) fprintf(file, "%lu", found), fclose(file);
    counted = NULL;
}

/* The program ends by this call, past the destructors. */
void _exit(int status) {
    end();
    for (;;) syscall(SYS_exit_group, status);
}

/* Whether this call, of the kind of that name, is to fail. */
static int fails(const char *kind) {
    if (strcmp(failing, kind) != 0) return 0;
    unsigned long call = atomic_fetch_add(&calls, 1) + 1;
    if (failing_at == 0) return 0;
    if (call != failing_at && !(failing_from && call > failing_at)) return 0;
    int file = mark ? syscall(SYS_openat, AT_FDCWD, mark, O_CREAT | O_WRONLY, 0600) : -1;
    if (file >= 0) syscall(SYS_close, file);
    return 1;
}

static void *no_memory(void) {
    errno = ENOMEM;
    return NULL;
}

void *malloc(size_t size) { return fails("memory") ? no_memory() : __libc_malloc(size); }

void *calloc(size_t count, size_t size) { return fails("memory") ? no_memory() : __libc_calloc(count, size); }

void *realloc(void *block, size_t size) { return fails("memory") ? no_memory() : __libc_realloc(block, size); }

void *aligned_alloc(size_t align, size_t size) { return fails("memory") ? no_memory() : __libc_memalign(align, size); }

void *memalign(size_t align, size_t size) { return fails("memory") ? no_memory() : __libc_memalign(align, size); }

int posix_memalign(void **block, size_t align, size_t size) {
    void *found = fails("memory") ? NULL : __libc_memalign(align, size);
    if (!found) return ENOMEM;
    *block = found;
    return 0;
}

int pthread_create(pthread_t *thread, const pthread_attr_t *how, void *(*start)(void *), void *with) {
    if (fails("thread")) return EAGAIN;
    int (*usual)(pthread_t *, const pthread_attr_t *, void *(*)(void *), void *) = dlsym(RTLD_NEXT, "pthread_create");
    return usual(thread, how, start, with);
}

static ssize_t failed(void) {
    errno = EIO;
    return -1;
}

static size_t moved(size_t length) { return moves_one && length > 1 ? 1 : length; }

ssize_t read(int file, void *bytes, size_t length) {
    return file == 0 && fails("read") ? failed() : syscall(SYS_read, file, bytes, moved(length));
}

/* Adds a line to the trace. It takes no memory. */
static void add_line(void) {
    char line[64];
    int length = snprintf(line, sizeof line, "%lu %lu\n", moved_out, atomic_load(&calls));
    syscall(SYS_write, trace, line, length);
}

static ssize_t written(int file, const void *bytes, size_t length) {
    if ((file == 1 && fails("write")) || (file == 2 && fails("told"))) return failed();
    if (file == 1 && trace >= 0) add_line();
    ssize_t took = syscall(SYS_write, file, bytes, moved(length));
    if (file == 1 && took > 0) moved_out += took;
    return took;
}

ssize_t write(int file, const void *bytes, size_t length) { return written(file, bytes, length); }

ssize_t __write(int file, const void *bytes, size_t length) { return written(file, bytes, length); }
