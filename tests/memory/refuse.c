/*
 * Preloaded into a program, this refuses one of its requests for memory: the
 * Nth call of malloc, calloc, realloc, aligned_alloc, memalign or
 * posix_memalign, counted from 1 over all threads, where N is the number in
 * the environment variable REFUSE. Without it, or with 0, none is refused.
 *
 * Where that request was met, a line is written to the file that the variable
 * REFUSE_NOTE names, so that a driver knows when it has seen them all: "start"
 * where it was made to start a thread, within pthread_create, else "request".
 *
 * Where REQUESTS names a file, its first eight bytes are at each moment the
 * number of requests so far, as a long of this machine.
 *
 * A program that runs on for 100 seconds is ended by a signal.
 */
#define _GNU_SOURCE
#include <dlfcn.h>
#include <errno.h>
#include <fcntl.h>
#include <pthread.h>
#include <stdatomic.h>
#include <stddef.h>
#include <stdlib.h>
#include <string.h>
#include <sys/mman.h>
#include <unistd.h>

extern void *__libc_malloc(size_t size);
extern void *__libc_calloc(size_t count, size_t size);
extern void *__libc_realloc(void *block, size_t size);
extern void *__libc_memalign(size_t alignment, size_t size);

typedef int create(pthread_t *thread, const pthread_attr_t *attributes, void *(*run)(void *), void *argument);

static long refused_request;
static const char *note;
static atomic_long own_requests;
static atomic_long *requests = &own_requests;
static create *start_thread;
static _Thread_local int is_starting;

/* The number of requests in a file of this name, from 0. */
static atomic_long *requests_in(const char *name)
{
    int file = open(name, O_RDWR | O_CREAT | O_TRUNC, 0600);
    if (file < 0 || ftruncate(file, sizeof *requests) != 0)
        _exit(99);
    void *place = mmap(NULL, sizeof *requests, PROT_READ | PROT_WRITE, MAP_SHARED, file, 0);
    close(file);
    if (place == MAP_FAILED)
        _exit(99);
    return place;
}

/* Runs before main. What the loader asked for before is not counted. */
__attribute__((constructor)) static void read_environment(void)
{
    const char *number = getenv("REFUSE");
    const char *name = getenv("REQUESTS");
    start_thread = (create *)dlsym(RTLD_NEXT, "pthread_create");
    note = getenv("REFUSE_NOTE");
    refused_request = number ? strtol(number, NULL, 10) : 0;
    alarm(100);
    atomic_store(&own_requests, 0);
    if (name)
        requests = requests_in(name);
}

/* Whether this request is the one to refuse. */
static int is_refused(void)
{
    if (atomic_fetch_add(requests, 1) + 1 != refused_request)
        return 0;
    if (note) {
        const char *line = is_starting ? "start\n" : "request\n";
        ssize_t size = (ssize_t)strlen(line);
        int file = open(note, O_WRONLY | O_CREAT | O_APPEND, 0600);
        if (file < 0 || write(file, line, (size_t)size) != size)
            _exit(99);
        close(file);
    }
    errno = ENOMEM;
    return 1;
}

int pthread_create(pthread_t *thread, const pthread_attr_t *attributes, void *(*run)(void *), void *argument)
{
    is_starting = 1;
    int error = start_thread(thread, attributes, run, argument);
    is_starting = 0;
    return error;
}

void *malloc(size_t size)
{
    return is_refused() ? NULL : __libc_malloc(size);
}

void *calloc(size_t count, size_t size)
{
    return is_refused() ? NULL : __libc_calloc(count, size);
}

void *realloc(void *block, size_t size)
{
    return is_refused() ? NULL : __libc_realloc(block, size);
}

void *memalign(size_t alignment, size_t size)
{
    return is_refused() ? NULL : __libc_memalign(alignment, size);
}

void *aligned_alloc(size_t alignment, size_t size)
{
    return is_refused() ? NULL : __libc_memalign(alignment, size);
}

int posix_memalign(void **block, size_t alignment, size_t size)
{
    void *given = is_refused() ? NULL : __libc_memalign(alignment, size);
    if (given == NULL)
        return ENOMEM;
    *block = given;
    return 0;
}
