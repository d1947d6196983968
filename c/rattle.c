/* The C functions that a program of Rattle's calls beside those of the C library. The kit has them compiled for x86-64 alone: these are the
   same for every processor, written anew after what the kit's os/src/c.rt and libc/src/heap.rt say of them. Nothing proves them:
   tests/processors.py gives them and the kit's the same arguments.

   The library for C needs those of memory alone: with MEMORY_ALONE there are no others, and nothing runs before a program's main. */
#include <stddef.h>
#include <stdlib.h>

#ifndef MEMORY_ALONE
#include <errno.h>
#include <sys/prctl.h>

/* ---- the words of the command line */

static size_t count;
static char **words;

/* The C library calls this before main, and gives it what it gives main. */
__attribute__((constructor)) static void keep(int argc, char **argv) {
    count = (size_t)argc;
    words = argv;
}

/* How many words there are, the program's name too. */
size_t rattle_arg_count(void) {
    return count;
}

/* Puts the bytes of a word at the start of `to`, without the zero that ends it, and answers how many they are: -1 where there is no such word,
   and -2 where it has more bytes than there is room for; then `to` is full of its first ones. */
ptrdiff_t rattle_arg(size_t number, unsigned char *to, size_t room) {
    if (number >= count || words[number] == NULL)
        return -1;
    size_t length = 0;
    for (const char *from = words[number]; from[length] != 0; length++) {
        if (length == room)
            return -2;
        to[length] = (unsigned char)from[length];
    }
    return (ptrdiff_t)length;
}

/* ---- the error of the last call of the C library in this thread */

int rattle_errno(void) {
    return errno;
}

void rattle_set_errno(int error) {
    errno = error;
}

/* ---- threads */

/* Names the calling thread by the bytes before the first zero of 16, and answers 0, or -1 with errno. */
int rattle_set_thread_name(const char *name) {
    return prctl(PR_SET_NAME, name, 0, 0, 0);
}
#endif

/* ---- memory */

/* What a request for memory came to: 1 and the block's address; or 0 and the address of some byte, which is not read. */
struct tried {
    size_t done;
    void *at;
};

static unsigned char nothing;

static struct tried tried(void *at) {
    return at == NULL ? (struct tried){0, &nothing} : (struct tried){1, at};
}

/* A block of `size` bytes, of `least` where that is 0, aligned for what divides 16. */
struct tried rattle_alloc(size_t size, size_t least) {
    return tried(malloc(size == 0 ? least : size));
}

/* The block with `size` bytes, of `least` where that is 0: as many of the first `kept` as fit are as they were, and it may be elsewhere. Where
   it is refused, the block is as it was. */
struct tried rattle_realloc(void *at, size_t kept, size_t size, size_t least) {
    (void)kept;
    return tried(realloc(at, size == 0 ? least : size));
}

/* Gives a block back. */
void rattle_dealloc(void *at) {
    free(at);
}
