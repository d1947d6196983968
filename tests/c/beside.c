/* Gives the functions of c/rattle.c, here named own_.., and the kit's the same arguments, and says where their answers differ. The words of its
   command line are part of it. The last line is `N the same, M differ`. */
#include <errno.h>
#include <stddef.h>
#include <stdint.h>
#include <stdio.h>
#include <stdlib.h>
#include <string.h>
#include <sys/prctl.h>
#include <sys/resource.h>

struct tried {
    size_t done;
    unsigned char *at;
};

#define BOTH(type, name, ...) type name(__VA_ARGS__); type own_##name(__VA_ARGS__);
BOTH(size_t, rattle_arg_count, void)
BOTH(ptrdiff_t, rattle_arg, size_t, unsigned char *, size_t)
BOTH(int, rattle_errno, void)
BOTH(void, rattle_set_errno, int)
BOTH(int, rattle_set_thread_name, const char *)
BOTH(struct tried, rattle_alloc, size_t, size_t)
BOTH(struct tried, rattle_realloc, void *, size_t, size_t, size_t)
BOTH(void, rattle_dealloc, void *)

static int same, others;

static void alike(const char *what, size_t one, size_t two, int is_alike) {
    if (is_alike) {
        same++;
        return;
    }
    others++;
    printf("%s %zu %zu: another answer\n", what, one, two);
}

enum { ROOM = 300 };

static void words(size_t count) {
    alike("arg_count", 0, 0, rattle_arg_count() == own_rattle_arg_count() && own_rattle_arg_count() == count);
    for (size_t number = 0; number < count + 3; number++)
        for (size_t room = 0; room <= ROOM; room++) {
            unsigned char theirs[ROOM + 1], own[ROOM + 1];
            memset(theirs, 0xa5, sizeof theirs);
            memset(own, 0xa5, sizeof own);
            ptrdiff_t one = rattle_arg(number, theirs, room), other = own_rattle_arg(number, own, room);
            alike("arg", number, room, one == other && memcmp(theirs, own, sizeof own) == 0);
        }
    unsigned char byte = 0;
    alike("arg of no such word", SIZE_MAX, 1, rattle_arg(SIZE_MAX, &byte, 1) == own_rattle_arg(SIZE_MAX, &byte, 1));
}

static void errors(void) {
    int some[] = {0, 1, ENOMEM, EINTR, 4095, -1, 2147483647, -2147483647 - 1};
    for (size_t number = 0; number < sizeof some / sizeof *some; number++) {
        rattle_set_errno(some[number]);
        int first = own_rattle_errno();
        errno = 77;
        own_rattle_set_errno(some[number]);
        alike("errno", number, 0, first == some[number] && rattle_errno() == some[number] && errno == some[number]);
    }
}

static void names(void) {
    const char some[][16] = {"", "worker 1", "fifteen letters", "a\0b", {'s', 'i', 'x', 't', 'e', 'e', 'n', ' ', 'l', 'e', 't', 't', 'e', 'r', 's', '!'}, "\xc3\xa9"};
    for (size_t number = 0; number < sizeof some / sizeof *some; number++) {
        char theirs[16] = "", own[16] = "";
        int one = rattle_set_thread_name(some[number]);
        prctl(PR_GET_NAME, theirs, 0, 0, 0);
        prctl(PR_SET_NAME, "between", 0, 0, 0);
        int other = own_rattle_set_thread_name(some[number]);
        prctl(PR_GET_NAME, own, 0, 0, 0);
        alike("set_thread_name", number, 0, one == other && memcmp(theirs, own, 16) == 0);
    }
}

static int holds(const unsigned char *at, size_t from, size_t length) {
    for (size_t place = 0; place < length; place++)
        if (at[place] != (unsigned char)((from + place) * 7))
            return 0;
    return 1;
}

static void fill(unsigned char *at, size_t length) {
    for (size_t place = 0; place < length; place++)
        at[place] = (unsigned char)(place * 7);
}

/* A block is had of either, is aligned, keeps its bytes as it grows and shrinks, and is given back by the other. */
static void memory(void) {
    size_t some[] = {0, 1, 7, 8, 15, 16, 17, 100, 4095, 4096, 4097, 1 << 20, (size_t)33 << 20};
    size_t count = sizeof some / sizeof *some;
    for (size_t one = 0; one < count; one++)
        for (size_t two = 0; two < count; two++) {
            size_t kept = some[one] < some[two] ? some[one] : some[two];
            struct tried theirs = rattle_alloc(some[one], 16), own = own_rattle_alloc(some[one], 16);
            int is_alike = theirs.done == 1 && own.done == 1 && (uintptr_t)own.at % 16 == 0;
            fill(theirs.at, some[one]);
            fill(own.at, some[one]);
            theirs = own_rattle_realloc(theirs.at, some[one], some[two], 16);
            own = rattle_realloc(own.at, some[one], some[two], 16);
            is_alike = is_alike && theirs.done == 1 && own.done == 1 && (uintptr_t)theirs.at % 16 == 0;
            alike("alloc and realloc", some[one], some[two], is_alike && holds(theirs.at, 0, kept) && holds(own.at, 0, kept));
            own_rattle_dealloc(own.at);
            rattle_dealloc(theirs.at);
        }
    size_t too_much[] = {(size_t)1 << 62, PTRDIFF_MAX, (size_t)1 << 46};
    for (size_t number = 0; number < sizeof too_much / sizeof *too_much; number++) {
        struct tried theirs = rattle_alloc(too_much[number], 16), own = own_rattle_alloc(too_much[number], 16);
        alike("too much", number, 0, theirs.done == 0 && own.done == 0 && theirs.at != NULL && own.at != NULL);
        own = own_rattle_alloc(100, 16);
        fill(own.at, 100);
        struct tried more = own_rattle_realloc(own.at, 100, too_much[number], 16);
        alike("too much more", number, 0, more.done == 0 && more.at != NULL && holds(own.at, 0, 100));
        own_rattle_dealloc(own.at);
    }
}

int main(int count, char **given) {
    (void)given;
    words((size_t)count);
    errors();
    names();
    memory();
    printf("%d the same, %d differ\n", same, others);
    return others != 0;
}
