/* Shows that guarded.c sees what it is for: each way to misuse a block ends a program of its own by a signal, and no right use does. The last line is
   `N as they should be, M not`. */
#include <signal.h>
#include <stdbool.h>
#include <stdio.h>
#include <stdlib.h>
#include <string.h>
#include <sys/resource.h>
#include <sys/wait.h>
#include <unistd.h>

static volatile unsigned char seen;

/* The three functions, of which the compiler does not know that they are these: else it leaves calls out. */
static void *(*volatile take)(size_t size) = malloc;
static void *(*volatile take_anew)(void *at, size_t size) = realloc;
static void (*volatile give)(void *at) = free;

static volatile unsigned char *block(size_t size) {
    return take(size);
}

static void give_back(volatile unsigned char *at) {
    give((void *)at);
}

static void read_after(size_t size) { seen = block(size)[size]; }

static void write_after(size_t size) {
    volatile unsigned char *at = block(size);
    at[size] = 1;
    give_back(at);
}

static void read_before(size_t size) { seen = block(size)[-1]; }

static void write_before(size_t size) {
    volatile unsigned char *at = block(size);
    at[-1] = 0;
    give_back(at);
}

static void read_late(size_t size) {
    volatile unsigned char *at = block(size);
    give_back(at);
    give_back(block(size));
    seen = at[size / 2];
}

static void give_back_twice(size_t size) {
    volatile unsigned char *at = block(size);
    void *again = (void *)at;
    give_back(at);
    give_back(again);
}

static void read_moved(size_t size) {
    volatile unsigned char *at = block(size), *kept = at;
    give_back(take_anew((void *)at, 2 * size));
    seen = kept[0];
}

/* What is right: blocks keep their bytes, also where they are made longer and shorter, and none is another's. */
static void use(size_t size) {
    volatile unsigned char *at = block(size), *other = block(size);
    for (size_t i = 0; i < size; i++)
        at[i] = (unsigned char)i, other[i] = 7;
    for (size_t length = 2 * size; length >= size; length -= (size + 1) / 2) {
        at = take_anew((void *)at, length);
        for (size_t i = 0; i < size; i++)
            if (at[i] != (unsigned char)i)
                abort();
    }
    give_back(at);
    give_back(other);
    give_back(NULL);
    if ((size_t)block(48) % 16 != 0 || (size_t)block(24) % 8 != 0 || take((size_t)1 << 62) != NULL)
        abort();
}

static const struct try {
    const char *name;
    void (*make)(size_t size);
    bool is_right;
} tries[] = {
    {"read after", read_after, false}, {"write after", write_after, false}, {"read before", read_before, false}, {"write before", write_before, false},
    {"read late", read_late, false}, {"give back twice", give_back_twice, false}, {"read moved", read_moved, false}, {"use", use, true},
};

/* Whether a try ends by a signal, in a program of its own. */
static bool is_ended(const struct try *try, size_t size) {
    fflush(stdout);
    pid_t child = fork();
    if (child == 0) {
        struct rlimit none = {0, 0};
        setrlimit(RLIMIT_CORE, &none);
        fclose(stderr);
        try->make(size);
        _exit(0);
    }
    int status = 0;
    return child > 0 && waitpid(child, &status, 0) == child && WIFSIGNALED(status);
}

/* Whether nobody sees it: a read of the other bytes of a block's pages. */
static bool is_unseen(const struct try *try, size_t size) {
    return try->make == (getenv("GUARDED_BELOW") != NULL ? read_after : read_before) && size % 4096 != 0;
}

int main(void) {
    static const size_t sizes[] = {1, 2, 7, 16, 100, 4095, 4096, 4097, 70000};
    int right = 0, wrong = 0;
    for (size_t i = 0; i < sizeof tries / sizeof tries[0]; i++)
        for (size_t k = 0; k < sizeof sizes / sizeof sizes[0]; k++) {
            if (is_unseen(&tries[i], sizes[k]))
                continue;
            bool is = is_ended(&tries[i], sizes[k]) != tries[i].is_right;
            right += is;
            wrong += !is;
            if (!is)
                fprintf(stderr, "WRONG: %s, %zu bytes\n", tries[i].name, sizes[k]);
        }
    printf("%d as they should be, %d not\n", right, wrong);
    return wrong > 0;
}
