/* Gives the library manifests that are no longer what they were:

     fuzz SEED COUNT MANIFEST..

   COUNT calls are made, each about a manifest that was changed at some places. SEED and the call's number alone decide which, so a run can be made
   again. A line of what is wrong has the number of the call. With FUZZ_ONLY=NUMBER in the environment that call alone is made, and its manifest is
   written to standard output. Each call is looked at as call.c does: its code is one of rim.h, what is said belongs to it, and no other byte is
   written. With GUARDED, for a program with guarded.c, what ends by a signal says in which call. The last line is
   `N calls, M wrong: A answered, R refused`. */
#include "given.h"

#include <signal.h>
#include <stdint.h>
#include <stdio.h>
#include <stdlib.h>
#include <string.h>
#include <time.h>
#include <unistd.h>

enum { MANIFESTS = 32, MOST = 1 << 16, SLOW = 10 };

static struct given manifests[MANIFESTS];
static size_t manifest_count;
static char text[2 * MOST];
static size_t length;

/* ---- numbers */

static uint64_t state;

/* xorshift64* */
static uint64_t next(void) {
    state ^= state >> 12;
    state ^= state << 25;
    state ^= state >> 27;
    return state * 0x2545f4914f6cdd1d;
}

static size_t below(size_t limit) {
    return limit == 0 ? 0 : (size_t)(next() >> 11) % limit;
}

/* ---- changes */

static const char *const parts[] = {
    "[", "]", "[[", "]]", "{", "}", "=", ",", ".", "\"", "'", "\"\"\"", "\n", "#", "\\u0000", "\\U0001F600", "\xff", "\xc3", "\xe2\x80\xae", "\t", "\r\n",
    "[[launch]]\n", "[[file]]\n", "[[launch.item]]\n", "[[launch.rec]]\n", "name = \"a\"\n", "path = \"gone\"\n", "algo = \"sha512\"\n", "algo = \"md5\"\n",
    "s2sz = 48\n", "s2sz = 49\n", "ram = [[0x40000000, 0x40200000]]\n", "ram = []\n",
    "kind = \"raw\"\n", "kind = \"unknown\"\nsize = 4096\n", "kind = \"dtb\"\n",
    "at = 0x40000000\n", "measured = false\n", "bootargs = \"quiet\"\n", "memory = true\n", "initrd = true\n", "rec = [{}, { runnable = false }]\n",
    "rec_rule = \"runnable\"\n", "rec_rule = \"all\"\n", "rim_manifest = 1\n", "rim_manifest = 2\n", "steps = [\"ram 0\"]\n", "steps = [\"recs\", \"items\"]\n",
    "pool_count = 1\n", "pool_base = 65536\n", "num_aux = 16\n", "block_level = 3\n", "sve = true\n", "pmu = true\n", "rpv = \"00\"\n",
    "0", "1", "-1", "4096", "0x40000000", "0x8000000000000000", "9223372036854775807", "18446744073709551616", "1e400", "nan", "true",
    "1979-05-27", "0o7", "0b1",
};
enum { PARTS = sizeof parts / sizeof parts[0] };

static void take_out(size_t at, size_t count) {
    memmove(text + at, text + at + count, length - at - count);
    length -= count;
}

static void put_in(size_t at, const char *part, size_t count) {
    if (length + count > sizeof text)
        return;
    memmove(text + at + count, text + at, length - at);
    memcpy(text + at, part, count);
    length += count;
}

/* Some of the text again elsewhere. */
static void copy_some(size_t from, size_t count, size_t to) {
    static char some[256];
    if (count > sizeof some)
        count = sizeof some;
    memcpy(some, text + from, count);
    put_in(to, some, count);
}

static size_t digit_from(size_t at) {
    for (size_t i = 0; i < length; i++, at = at + 1 == length ? 0 : at + 1)
        if (text[at] >= '0' && text[at] <= '9')
            return at;
    return at;
}

static void change(void) {
    size_t at = below(length + 1), left = length - at;
    const char *part = parts[below(PARTS)];
    switch (below(8)) {
    case 0:
        if (left > 0)
            text[at] = (char)(text[at] ^ (1 << below(8)));
        break;
    case 1: take_out(at, below(left < 40 ? left + 1 : 40)); break;
    case 2: copy_some(at, below(left + 1), below(length + 1)); break;
    case 3:
    case 4: put_in(at, part, strlen(part)); break;
    case 5:
        if (length > 0)
            text[digit_from(at % length)] = (char)('0' + below(10));
        break;
    case 6:
        if (left > 0)
            text[at] = (char)next();
        break;
    default:
        if (below(20) == 0)
            length = at;
        break;
    }
}

static void change_manifest(const struct given *given) {
    length = given->subject.length;
    memcpy(text, given->subject.bytes, length);
    for (size_t count = 1 + below(below(8) + 1); count > 0; count--)
        change();
}

/* ---- calls */

static const struct asked asks[] = {
    {.command = "measure"}, {.command = "check"}, {.command = "measure", .json = true}, {.command = "check", .json = true}, {.command = "audit"},
    {.command = "paths"}, {.command = "check", .quiet = true}, {.command = "rim", .launch = "a"}, {.command = "list", .launch = "a"},
    {.command = "trace", .launch = "a"}, {.command = "map", .launch = "a"}, {.command = "map", .launch = "a", .json = true}, {.command = "dtb", .launch = "a"},
    {.command = "replay"}, {.command = "image"}, {.command = "fdt"},
};
enum { ASKS = sizeof asks / sizeof asks[0] };

/* The name of the first launch, mostly, since most changes leave it. */
static const char *launch_of(const struct given *given) {
    static char name[65];
    const char *from = strstr(given->subject.bytes, "[[launch]]"), *quote = from == NULL ? NULL : strchr(from, '"');
    size_t count = quote == NULL ? 0 : strcspn(quote + 1, "\"");
    if (count == 0 || count >= sizeof name || below(16) == 0)
        return "a";
    memcpy(name, quote + 1, count);
    name[count] = 0;
    return name;
}

static bool is_code(rim_code code) {
    bool is_known = code <= RIM_TOO_MANY_PAGES || (code >= RIM_SYNTAX && code <= RIM_REC_NOT_RUNNABLE);
    return is_known && code != RIM_NULL && code != RIM_NO_MEMORY && code != RIM_NEVER;
}

/* Makes a call without room, and one with it where there is an answer. Whether there is. */
static bool call(long number, const struct given *given) {
    struct asked asked = asks[below(ASKS)];
    if (asked.launch != NULL)
        asked.launch = launch_of(given);
    const void *manifest = fenced(text, length);
    struct given changed = {{given->subject.path, given->subject.path_length, manifest, length}, given->files, given->count};
    unsigned char *answer;
    int before = wrong_count;
    time_t begun = time(NULL);
    struct ended first = ask_guarded(&asked, &changed, 0, &answer), ended = first;
    free(answer);
    if (first.code == RIM_ROOM) {
        ended = ask_guarded(&asked, &changed, first.length, &answer);
        free(answer);
        if (!is_answer(ended.code) || ended.length != first.length)
            wrong("%s: code %d and length %zu, where %zu bytes are said to be enough", asked.command, (int)ended.code, ended.length, first.length);
    }
    if (!is_code(ended.code))
        wrong("%s: code %d", asked.command, (int)ended.code);
    if (time(NULL) - begun > SLOW)
        fprintf(stderr, "call %ld, %s: it took %ld s\n", number, asked.command, (long)(time(NULL) - begun));
    unfenced(manifest, length);
    if (wrong_count > before)
        fprintf(stderr, "  in call %ld\n", number);
    return is_answer(ended.code);
}

static long last_call;

#ifdef GUARDED
/* Says it, and lets the signal end the program. */
static void say_call(int number) {
    dprintf(STDERR_FILENO, "signal %d in call %ld\n", number, last_call);
    signal(number, SIG_DFL);
    raise(number);
}
#endif

static bool call_changed(uint64_t seed, long number) {
    last_call = number;
    state = seed * 0x9e3779b97f4a7c15 + (uint64_t)number * 0xbf58476d1ce4e5b9 + 1;
    for (int i = 0; i < 8; i++)
        next();
    const struct given *given = &manifests[below(manifest_count)];
    change_manifest(given);
    return call(number, given);
}

static bool read_manifests(char **paths) {
    for (; *paths != NULL && manifest_count < MANIFESTS; paths++) {
        struct given *to = &manifests[manifest_count++];
        if (!read_given(*paths, true, to) || to->subject.length == 0 || to->subject.length > MOST)
            return false;
        char *copy = malloc(to->subject.length + 1);
        if (copy == NULL)
            return false;
        memcpy(copy, to->subject.bytes, to->subject.length);
        copy[to->subject.length] = 0;
        to->subject.bytes = copy;
    }
    return manifest_count > 0;
}

int main(int count, char **words) {
#ifdef GUARDED
    signal(SIGSEGV, say_call);
    signal(SIGABRT, say_call);
#endif
    const char *only = getenv("FUZZ_ONLY");
    if (count < 4 || !read_manifests(words + 3))
        return 2;
    uint64_t seed = strtoull(words[1], NULL, 10);
    long calls = strtol(words[2], NULL, 10), answered = 0;
    if (only != NULL) {
        call_changed(seed, strtol(only, NULL, 10));
        fwrite(text, 1, length, stdout);
        return wrong_count > 0;
    }
    for (long number = 0; number < calls; number++)
        answered += call_changed(seed, number);
    printf("%ld calls, %d wrong: %ld answered, %ld refused\n", calls, wrong_count, answered, calls - answered);
    return wrong_count > 0;
}
