/* Intel's multi-buffer library, by AVX2: each call submits all messages, and flushes. */
#include "slices.h"
#include <intel-ipsec-mb.h>

const int CHAINS = MESSAGES;

static IMB_MGR *manager;

const char *make_ready(void)
{
    manager = alloc_mb_mgr(0);
    if (manager == NULL)
        return "no memory";
    if ((manager->features & IMB_FEATURE_AVX2) == 0)
        return "this processor has no AVX2";
    init_mb_mgr_avx2(manager);
    int error = imb_get_errno(manager);
    return error == 0 ? NULL : imb_get_strerror(error);
}

const char *version(void)
{
    return imb_get_version_str();
}

void hash(enum algo algo, const unsigned char *messages, int count, size_t size, unsigned char (*digests)[DIGEST])
{
    for (int each = 0; each < count; each++) {
        IMB_JOB *job = IMB_GET_NEXT_JOB(manager);
        job->cipher_mode = IMB_CIPHER_NULL;
        job->cipher_direction = IMB_DIR_ENCRYPT;
        job->chain_order = IMB_ORDER_HASH_CIPHER;
        job->hash_alg = algo == SHA256 ? IMB_AUTH_SHA_256 : IMB_AUTH_SHA_512;
        job->src = messages + each * size;
        job->hash_start_src_offset_in_bytes = 0;
        job->msg_len_to_hash_in_bytes = size;
        job->auth_tag_output = digests[each];
        job->auth_tag_output_len_in_bytes = algo == SHA256 ? 32 : 64;
        IMB_SUBMIT_JOB(manager);
    }
    /* The queue has room for all jobs, and those that are done are taken out of it here too. */
    while (IMB_FLUSH_JOB(manager) != NULL)
        ;
}
