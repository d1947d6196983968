/* Refuses memory to calls of the library: first the first request of a call, then the second, and so on until a call has all that it asks for; and
   once more with all requests from there on refused. A call that is refused ends with RIM_NO_MEMORY, writes nothing, and keeps no memory.

   It is linked with the archive and --wrap for malloc, realloc and free, so it counts what the library asks for. Its words are those of call.c for
   one call. What is wrong are lines on standard error, and the last line is `N refused, M wrong`. */
#include "given.h"

#include <stdio.h>
#include <stdlib.h>
#include <string.h>

void *__real_malloc(size_t size);
void *__real_realloc(void *at, size_t size);
void __real_free(void *at);
void *__wrap_malloc(size_t size);
void *__wrap_realloc(void *at, size_t size);
void __wrap_free(void *at);

/* While a call is made: how many requests there were, which of them are refused, and how many blocks are held. */
static bool is_watched, is_refused, is_all_after;
static long requests, refused_at, held;

static bool is_refused_now(void) {
    if (!is_watched)
        return false;
    requests++;
    bool is = requests == refused_at || (is_all_after && refused_at > 0 && requests > refused_at);
    is_refused = is_refused || is;
    return is;
}

void *__wrap_malloc(size_t size) {
    void *at = is_refused_now() ? NULL : __real_malloc(size);
    held += is_watched && at != NULL;
    return at;
}

void *__wrap_realloc(void *at, size_t size) {
    void *to = is_refused_now() ? NULL : __real_realloc(at, size);
    held += is_watched && at == NULL && to != NULL;
    return to;
}

void __wrap_free(void *at) {
    held -= is_watched && at != NULL;
    __real_free(at);
}

/* ---- tries */

enum { MOST = 1 << 20 };

static unsigned char room[MOST], answer[MOST];
static struct ended ample;

static struct ended watched(const struct asked *asked, const struct given *given, unsigned char *out, long refused) {
    refused_at = refused;
    requests = held = 0;
    is_refused = false;
    is_watched = true;
    struct ended ended = ask(asked, given, out, MOST);
    is_watched = false;
    return ended;
}

static bool is_untouched(void) {
    for (size_t i = 0; i < MOST; i++)
        if (room[i] != 0x5a)
            return false;
    return true;
}

/* Whether a call has answered as with ample memory: some requests are for what it does without. */
static bool is_ample(const struct ended *ended) {
    return ended->code == ample.code && ended->length == ample.length && ended->algorithm == ample.algorithm && memcmp(room, answer, ample.length) == 0;
}

/* A call whose request of this number is refused; whether there was such a request. */
static bool is_starved(const struct asked *asked, const struct given *given, long number) {
    struct ended ended = watched(asked, given, room, number);
    const char *what = is_all_after ? "and all after it" : "alone";
    if (held != 0)
        wrong("%s, request %ld refused %s: %ld blocks are kept", asked->command, number, what, held);
    if (!is_refused)
        return false;
    if (is_ample(&ended))
        memset(room, 0x5a, ended.length);
    else if (ended.code != RIM_NO_MEMORY)
        wrong("%s, request %ld refused %s: code %d", asked->command, number, what, (int)ended.code);
    else if (ended.length != UNSAID || ended.algorithm != NO_ALGORITHM || !is_untouched())
        wrong("%s, request %ld refused %s: something is written", asked->command, number, what);
    return true;
}

static long starve(const struct asked *asked, const struct given *given) {
    long number = 1;
    memset(room, 0x5a, sizeof room);
    while (wrong_count < 10 && is_starved(asked, given, number))
        number++;
    if (wrong_count < 10 && (!is_answer(ample.code) || memcmp(room, answer, ample.length) != 0))
        wrong("%s: the call that is refused nothing has another answer", asked->command);
    return number - 1;
}

int main(int count, char **words) {
    struct asked asked = {0};
    struct given given;
    int at = 1;
    if (at < count)
        asked.command = words[at++];
    if (at < count && strcmp(words[at], "--json") == 0)
        asked.json = at++ > 0;
    if (at >= count || !read_given(words[at], is_of_manifest(asked.command), &given))
        return 2;
    asked.launch = at + 1 < count ? words[at + 1] : NULL;
    ample = watched(&asked, &given, answer, 0);
    if (!is_answer(ample.code) || held != 0)
        wrong("%s: with ample memory code %d, and %ld blocks are kept", asked.command, (int)ample.code, held);
    long refused = starve(&asked, &given);
    is_all_after = true;
    refused += starve(&asked, &given);
    printf("%ld refused, %d wrong\n", refused, wrong_count);
    return wrong_count > 0;
}
