/* OpenSSL's libcrypto, one message after another. */
#include "slices.h"
#include <openssl/crypto.h>
#include <openssl/evp.h>

const int CHAINS = 1;

static EVP_MD *algos[2];
static EVP_MD_CTX *context;

/* Algorithms are fetched once, since fetching takes longer than hashing a descriptor. */
const char *make_ready(void)
{
    algos[SHA256] = EVP_MD_fetch(NULL, "SHA256", NULL);
    algos[SHA512] = EVP_MD_fetch(NULL, "SHA512", NULL);
    context = EVP_MD_CTX_new();
    return algos[SHA256] && algos[SHA512] && context ? NULL : "no SHA-256, SHA-512 or memory";
}

const char *version(void)
{
    return OpenSSL_version(OPENSSL_VERSION);
}

void hash(enum algo algo, const unsigned char *messages, int count, size_t size, unsigned char (*digests)[DIGEST])
{
    for (int each = 0; each < count; each++) {
        EVP_DigestInit_ex2(context, algos[algo], NULL);
        EVP_DigestUpdate(context, messages + each * size, size);
        EVP_DigestFinal_ex(context, digests[each], NULL);
    }
}
