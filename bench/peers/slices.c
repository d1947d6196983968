/* The work that bench/peers.py times: PROGRAM SLICES, with 64 pages on standard input.
 *
 * It takes slices of each kind of work in turn: the 64 pages, and 256 descriptors in chains, each of which begins with the first
 * bytes of a page. It prints the library's version, and a line for each kind: the pages or chains, the algorithm, the least time of a
 * slice in nanoseconds, and the digests of the last slice. */
#include "slices.h"
#include <stdio.h>
#include <stdlib.h>
#include <string.h>
#include <time.h>

/* Where a descriptor has the measurement before it. */
enum { MEASUREMENT = 16 };

static const size_t SIZES[] = {[SHA256] = 32, [SHA512] = 64};
static const char *const NAMES[] = {[SHA256] = "sha256", [SHA512] = "sha512"};

static unsigned char pages[MESSAGES * PAGE];
static unsigned char descriptors[MESSAGES * DESCRIPTOR];
static unsigned char digests[MESSAGES][DIGEST];

static long long nanoseconds(void)
{
    struct timespec time;
    clock_gettime(CLOCK_MONOTONIC, &time);
    return time.tv_sec * 1000000000LL + time.tv_nsec;
}

/* The time of a slice of pages. */
static long long time_pages(enum algo algo)
{
    long long began = nanoseconds();
    hash(algo, pages, MESSAGES, PAGE, digests);
    return nanoseconds() - began;
}

/* The time of a slice of descriptors, each with the digest of the one before it in its chain. */
static long long time_chains(enum algo algo)
{
    for (int chain = 0; chain < CHAINS; chain++)
        memcpy(descriptors + chain * DESCRIPTOR, pages + chain * PAGE, DESCRIPTOR);
    long long began = nanoseconds();
    for (int step = 0; step < DESCRIPTORS / CHAINS; step++) {
        hash(algo, descriptors, CHAINS, DESCRIPTOR, digests);
        for (int chain = 0; chain < CHAINS; chain++)
            memcpy(descriptors + chain * DESCRIPTOR + MEASUREMENT, digests[chain], SIZES[algo]);
    }
    return nanoseconds() - began;
}

static void print(const char *what, enum algo algo, long long least, int count)
{
    printf("%s %s %lld", what, NAMES[algo], least);
    for (int each = 0; each < count; each++) {
        putchar(' ');
        for (size_t at = 0; at < SIZES[algo]; at++)
            printf("%02x", digests[each][at]);
    }
    putchar('\n');
}

int main(int count, char **words)
{
    int slices = count == 2 ? atoi(words[1]) : 0;
    if (slices < 1 || fread(pages, 1, sizeof pages, stdin) != sizeof pages) {
        fprintf(stderr, "usage: %s SLICES, with %d bytes on standard input\n", words[0], MESSAGES * PAGE);
        return 2;
    }
    const char *lack = make_ready();
    if (lack != NULL) {
        fprintf(stderr, "%s\n", lack);
        return 1;
    }
    printf("%s\n", version());
    long long of_pages[] = {-1, -1}, of_chains[] = {-1, -1};
    for (int slice = 1; slice <= slices; slice++) {
        for (enum algo algo = SHA256; algo <= SHA512; algo++) {
            long long took = time_pages(algo);
            if (of_pages[algo] < 0 || took < of_pages[algo])
                of_pages[algo] = took;
            if (slice == slices)
                print("pages", algo, of_pages[algo], MESSAGES);
            took = time_chains(algo);
            if (of_chains[algo] < 0 || took < of_chains[algo])
                of_chains[algo] = took;
            if (slice == slices)
                print("chains", algo, of_chains[algo], CHAINS);
        }
    }
    return 0;
}
