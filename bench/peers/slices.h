/* What the programs of bench/peers.py hash and time, and what each library does for it. */
#include <stddef.h>

enum { MESSAGES = 64, PAGE = 4096, DESCRIPTOR = 256, DESCRIPTORS = 256, DIGEST = 64 };
enum algo { SHA256, SHA512 };

/* The chains of descriptors that the library is given side by side. */
extern const int CHAINS;

/* Makes the library ready. What it lacks, or NULL. */
const char *make_ready(void);

const char *version(void);

/* Hashes messages of one size, which lie one after another. */
void hash(enum algo algo, const unsigned char *messages, int count, size_t size, unsigned char (*digests)[DIGEST]);
