/* malloc, realloc and free for a program whose library cannot be compiled with a sanitizer. It is linked with --wrap for the three, so that the library
   and the test get their memory here.

   Each block ends where a page does, with a page after it that nobody can read or write: a read of the first byte after it ends the program. With
   GUARDED_BELOW in the environment it begins where a page does, after such a page. A block that was given back is such pages from then on, and its
   addresses are given to no other block. A block of 16, 8, 4 or 2 bytes, or of some times that, is aligned for as much, which is what an array of such
   things may have: what has other sizes is bytes. So no byte is between a block's end and the page after it.

   Before a block, and after it with GUARDED_BELOW, are the other bytes of its pages: they are looked at when it is given back. A new block is full of
   0xa5, or of 0x5a, by turns. Nothing is locked but the next address, so each block is of one thread at a time. */
#include <errno.h>
#include <stdint.h>
#include <stdio.h>
#include <stdlib.h>
#include <string.h>
#include <sys/mman.h>
#include <unistd.h>

void *__wrap_malloc(size_t size);
void *__wrap_realloc(void *at, size_t size);
void __wrap_free(void *at);

enum { PAGE = 4096, LEAST = 1 };
/* How many addresses there are for all blocks that are ever given. Only pages in use are memory. */
#define ALL ((size_t)1 << 44)

/* What the page before a block says of it: that page can be read only while the block is given back. */
struct head {
    unsigned char *block;
    size_t size, pages;
    unsigned char fill;
};

static void fail(const char *what, const void *at) {
    dprintf(STDERR_FILENO, "guarded: %s, block %p\n", what, at);
    abort();
}

static unsigned char *next_pages(size_t count) {
    static unsigned char *first;
    static size_t used;
    if (first == NULL) {
        void *at = mmap(NULL, ALL, PROT_NONE, MAP_PRIVATE | MAP_ANONYMOUS | MAP_NORESERVE, -1, 0);
        if (at == MAP_FAILED)
            fail("there are no addresses", NULL);
        first = at;
    }
    size_t from = __atomic_fetch_add(&used, count * PAGE, __ATOMIC_RELAXED);
    return from > ALL - count * PAGE ? NULL : first + from;
}

static unsigned char next_fill(void) {
    static unsigned count;
    return __atomic_fetch_add(&count, 1, __ATOMIC_RELAXED) % 2 == 0 ? 0xa5 : 0x5a;
}

static int is_below(void) {
    static int is = -1;
    if (is < 0)
        is = getenv("GUARDED_BELOW") != NULL;
    return is;
}

/* The other bytes of a block's pages, before it or after it, are as they were. */
static void check(const struct head *head) {
    const unsigned char *pages = (const unsigned char *)((uintptr_t)head->block / PAGE * PAGE), *end = pages + head->pages * PAGE;
    for (const unsigned char *at = pages; at < end; at++)
        if ((at < head->block || at >= head->block + head->size) && *at != head->fill)
            fail(at < head->block ? "a byte before it was written" : "a byte after it was written", head->block);
}

/* What is said of a block. */
static struct head head_of(void *block) {
    unsigned char *page = (unsigned char *)((uintptr_t)block / PAGE * PAGE) - PAGE;
    if (mprotect(page, PAGE, PROT_READ) != 0)
        fail("it is none", block);
    struct head head = *(struct head *)page;
    if (head.block != block)
        fail("it is none, or was given back before", block);
    return head;
}

void *__wrap_malloc(size_t size) {
    if (size > ALL / 2) {
        errno = ENOMEM;
        return NULL;
    }
    struct head head = {.size = size < LEAST ? LEAST : size, .fill = next_fill()};
    head.pages = (head.size + PAGE - 1) / PAGE;
    unsigned char *page = next_pages(head.pages + 2);
    if (page == NULL || mprotect(page, (head.pages + 1) * PAGE, PROT_READ | PROT_WRITE) != 0) {
        errno = ENOMEM;
        return NULL;
    }
    head.block = page + PAGE + (is_below() ? 0 : head.pages * PAGE - head.size);
    memset(page + PAGE, head.fill, head.pages * PAGE);
    *(struct head *)page = head;
    if (mprotect(page, PAGE, PROT_NONE) != 0)
        fail("there is no fence before it", head.block);
    return head.block;
}

void __wrap_free(void *at) {
    if (at == NULL)
        return;
    struct head head = head_of(at);
    check(&head);
    unsigned char *page = (unsigned char *)((uintptr_t)at / PAGE * PAGE) - PAGE;
    if (mmap(page, (head.pages + 1) * PAGE, PROT_NONE, MAP_PRIVATE | MAP_ANONYMOUS | MAP_NORESERVE | MAP_FIXED, -1, 0) == MAP_FAILED)
        fail("it stays", at);
}

/* A block elsewhere, always. */
void *__wrap_realloc(void *at, size_t size) {
    void *to = __wrap_malloc(size);
    if (to == NULL || at == NULL)
        return to;
    struct head head = head_of(at);
    memcpy(to, at, head.size < size ? head.size : size);
    __wrap_free(at);
    return to;
}
