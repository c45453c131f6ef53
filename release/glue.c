/*
 * What the object of a Rattle program takes from C beside the C library: memory, the number of the last error, the words of
 * the command line, and the name of a thread. It does what the kit's own archives libos_c.a and liblibc_c.a do for these
 * names. Nothing proves it: docs/proofs.md says of each line why it is right, and the contracts that it has to meet are those
 * of the kit's crates libc (src/heap.rt) and os (src/c.rt). Beyond that it refuses memory where all blocks together would have
 * more bytes than the option -m says.
 */
#include <errno.h>
#include <malloc.h>
#include <stdatomic.h>
#include <stdbool.h>
#include <stddef.h>
#include <stdlib.h>
#include <string.h>
#include <sys/prctl.h>

#ifndef __GLIBC__
#error "pawk needs the GNU C library: it hands the words of the command line to constructors"
#endif

/* A caller asks for an alignment of at most 16, which malloc gives each block. */
_Static_assert(_Alignof(max_align_t) == 16, "malloc has to align each block to 16 bytes");

/* Whether there is memory, and where; where there is none, the pointer is to a byte that is kept here. */
struct tried {
    bool ok;
    void *p;
};
static char nothing;

static struct tried answer(void *block)
{
    return (struct tried){block != NULL, block != NULL ? block : &nothing};
}

/* How many bytes all blocks may have together, 0 where -m is not given; how many they have is counted only where it is. */
static size_t limit;
static _Atomic size_t held;

/* Counts bytes more, where that does not pass the limit. */
static bool takes(size_t bytes)
{
    size_t now = atomic_load(&held);
    do {
        if (now > limit || bytes > limit - now)
            return false;
    } while (!atomic_compare_exchange_weak(&held, &now, now + bytes));
    return true;
}

/* A block of no bytes has the room of its alignment, so that it has a place of its own. */
struct tried rattle_alloc(size_t size, size_t alignment)
{
    void *block = malloc(size != 0 ? size : alignment);
    if (limit != 0 && block != NULL && !takes(malloc_usable_size(block))) {
        free(block);
        block = NULL;
    }
    return answer(block);
}

/* Under a limit what a block is to have more is counted first, and in the end what it has. */
struct tried rattle_realloc(void *block, size_t kept, size_t size, size_t alignment)
{
    size_t wanted = size != 0 ? size : alignment;
    size_t before = limit != 0 ? malloc_usable_size(block) : 0;
    (void)kept;
    if (limit != 0 && wanted > before && !takes(wanted - before))
        return answer(NULL);
    void *other = realloc(block, wanted);
    if (limit != 0) {
        size_t counted = wanted > before ? wanted : before;
        atomic_fetch_add(&held, (other != NULL ? malloc_usable_size(other) : before) - counted);
    }
    return answer(other);
}

void rattle_dealloc(void *block)
{
    if (limit != 0)
        atomic_fetch_sub(&held, malloc_usable_size(block));
    free(block);
}

int rattle_errno(void)
{
    return errno;
}

void rattle_set_errno(int error)
{
    errno = error;
}

int rattle_set_thread_name(const char *name)
{
    return prctl(PR_SET_NAME, name, 0, 0, 0);
}

static size_t count;
static char **words;

/* The number after -m in a word, or in the word after it; the program reads its words again, and refuses all but digits. A word
   that begins with - is an option up to the word --, since no value of an option begins so. */
static void read_limit(void)
{
    for (size_t i = 1; i < count && strcmp(words[i], "--") != 0; i++) {
        if (strncmp(words[i], "-m", 2) != 0)
            continue;
        if (words[i][2] != 0)
            limit = strtoull(words[i] + 2, NULL, 10);
        else if (i + 1 < count)
            limit = strtoull(words[i + 1], NULL, 10);
    }
}

/* The GNU C library calls constructors with the words of main, before main. */
__attribute__((constructor)) static void keep(int argc, char **argv)
{
    count = argc > 0 ? (size_t)argc : 0;
    words = argv;
    read_limit();
}

/* Copies a word without its last 0 to the beginning of a room. It answers the word's length, -1 where there is no such
   word, or -2 where it does not fit, and then the room is full. */
ptrdiff_t rattle_arg(size_t number, char *room, size_t size)
{
    size_t length = 0;
    if (number >= count)
        return -1;
    for (; words[number][length] != 0; length++) {
        if (length == size)
            return -2;
        room[length] = words[number][length];
    }
    return (ptrdiff_t)length;
}
