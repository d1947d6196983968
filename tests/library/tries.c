/* What callers of the library may do, and what they get: files in any order, more of them, two of one path, none; what is no text; null pointers;
   files that are too large. Its words are the library's version and a manifest with a devicetree and several files. What is wrong are lines on
   standard error, and the last line is `N tried, M wrong`. */
#include "given.h"

#include <stdio.h>
#include <stdlib.h>
#include <string.h>
#include <sys/mman.h>
#include <sys/resource.h>

static int tried;

static void look(const char *what, bool is) {
    tried++;
    if (!is)
        wrong("%s", what);
}

static struct asked measure = {.command = "measure"};

/* An answer, which the caller frees. */
struct answer {
    rim_code code;
    size_t length;
    unsigned char *bytes;
};

static struct answer answer_to(const struct asked *asked, const struct given *given) {
    struct ended first = ask(asked, given, NULL, 0);
    if (first.code != RIM_ROOM)
        return (struct answer){first.code, 0, NULL};
    unsigned char *bytes = malloc(first.length);
    if (bytes == NULL)
        return (struct answer){RIM_NO_MEMORY, 0, NULL};
    struct ended ended = ask(asked, given, bytes, first.length);
    return (struct answer){ended.code, ended.length, bytes};
}

/* Whether a call of other files ends with the same. */
static bool is_same(const struct asked *asked, const struct given *one, const struct given *other) {
    struct answer a = answer_to(asked, one), b = answer_to(asked, other);
    bool is = a.code == b.code && a.length == b.length && (a.length == 0 || memcmp(a.bytes, b.bytes, a.length) == 0);
    free(a.bytes);
    free(b.bytes);
    return is;
}

static rim_code code_of(const struct asked *asked, const struct given *given) {
    struct answer answer = answer_to(asked, given);
    free(answer.bytes);
    return answer.code;
}

/* ---- files */

enum { MOST = 64 };

static const char junk[] = "of no use";
static const rim_file other = {"no such name", 12, junk, sizeof junk};

static void in_any_order(const struct given *given) {
    rim_file files[MOST];
    struct given turned = {given->subject, files, given->count};
    for (size_t i = 0; i < given->count; i++)
        files[i] = given->files[given->count - 1 - i];
    look("files in the other order", is_same(&measure, given, &turned));
}

static void more_than_are_named(const struct given *given) {
    rim_file files[MOST];
    struct given more = {given->subject, files, given->count + 2};
    files[0] = files[given->count + 1] = other;
    memcpy(files + 1, given->files, given->count * sizeof *files);
    look("more files than are named", is_same(&measure, given, &more));
}

static void two_of_one_path(const struct given *given) {
    rim_file files[MOST];
    struct given twice = {given->subject, files, given->count + 1};
    rim_file second = given->files[0];
    second.bytes = junk;
    second.length = sizeof junk;
    memcpy(files, given->files, given->count * sizeof *files);
    files[given->count] = second;
    look("two files of one path: the first counts", is_same(&measure, given, &twice));
    memmove(files + 1, files, given->count * sizeof *files);
    files[0] = second;
    look("two files of one path: the second does not", !is_same(&measure, given, &twice));
}

static void each_is_needed(const struct given *given) {
    rim_file files[MOST];
    struct given fewer = {given->subject, files, given->count - 1};
    for (size_t left_out = 0; left_out < given->count; left_out++) {
        for (size_t i = 0; i + 1 < given->count; i++)
            files[i] = given->files[i < left_out ? i : i + 1];
        look("a file that is named is not given", code_of(&measure, &fewer) == RIM_NO_FILE);
    }
    struct given none = {given->subject, NULL, 0};
    look("no files", code_of(&measure, &none) == RIM_NO_FILE);
}

/* The manifest's path is one of a file too. */
static void of_no_path(const struct given *given) {
    struct given nameless = *given;
    nameless.subject.path = NULL;
    nameless.subject.path_length = 0;
    look("a manifest of no path", is_same(&measure, given, &nameless));
}

/* The largest amount of memory that the process has had, in KiB. */
static long most_memory(void) {
    struct rusage used;
    return getrusage(RUSAGE_SELF, &used) == 0 ? used.ru_maxrss : 0;
}

/* A file that is too large is refused by its length, and an Image of the limit is read where it is: neither is copied. */
static void too_large(const struct given *given) {
    long before = most_memory();
    size_t length = ((size_t)256 << 20) + 1;
    rim_file files[MOST];
    struct given larger = {given->subject, files, given->count};
    void *zeros = mmap(NULL, length, PROT_READ, MAP_PRIVATE | MAP_ANONYMOUS | MAP_NORESERVE, -1, 0);
    look("there are many zeros", zeros != MAP_FAILED);
    memcpy(files, given->files, given->count * sizeof *files);
    files[0].bytes = zeros;
    files[0].length = length;
    look("a file of a byte too many", code_of(&measure, &larger) == RIM_FILE_TOO_LARGE);
    struct given manifest = {{"m", 1, zeros, length}, NULL, 0};
    look("a manifest of a byte too many", code_of(&measure, &manifest) == RIM_FILE_TOO_LARGE);
    struct asked image = {.command = "image"};
    look("an Image of a byte too many", code_of(&image, &manifest) == RIM_FILE_TOO_LARGE);
    manifest.subject.length--;
    look("an Image of as many bytes as a file may have", code_of(&image, &manifest) == RIM_KERNEL_BAD_MAGIC);
    look("nothing large is copied", most_memory() < before + (128 << 10));
    munmap(zeros, length);
}

/* ---- texts */

static const char no_text[] = "\xff";
static const char *const of_launch[] = {"rim", "list", "trace", "map", "dtb"};
static const char *const of_manifest[] = {"measure", "audit", "check"};
static const char *const of_file[] = {"replay", "image", "fdt"};
#define COUNT(of) (sizeof of / sizeof of[0])

static void look_at(const char *command, const char *launch, const struct given *given, rim_code wanted) {
    struct asked asked = {.command = command, .launch = launch};
    rim_code code = code_of(&asked, given);
    tried++;
    if (code != wanted)
        wrong("%s: code %d, expected %d", command, (int)code, (int)wanted);
}

static void what_is_no_text(const struct given *given, const char *launch) {
    struct given nameless = *given;
    nameless.subject.path = no_text;
    nameless.subject.path_length = 1;
    for (size_t i = 0; i < COUNT(of_launch); i++) {
        look_at(of_launch[i], no_text, given, RIM_NO_TEXT);
        look_at(of_launch[i], launch, &nameless, RIM_NO_TEXT);
        look_at(of_launch[i], "", given, RIM_NO_SUCH_LAUNCH);
        look_at(of_launch[i], "no-such-launch", given, RIM_NO_SUCH_LAUNCH);
    }
    for (size_t i = 0; i < COUNT(of_manifest); i++)
        look_at(of_manifest[i], NULL, &nameless, RIM_NO_TEXT);
    for (size_t i = 0; i < COUNT(of_file); i++)
        look_at(of_file[i], NULL, &nameless, RIM_NO_TEXT);
}

static void smallest(void) {
    static const char text[] = "rim_manifest = 1\n[[launch]]\nname = \"small\"\nalgo = \"sha256\"\ns2sz = 33\n";
    struct given given = {{"m", 1, text, sizeof text - 1}, NULL, 0};
    look_at("measure", NULL, &given, RIM_OK);
    look_at("check", NULL, &given, RIM_OK);
    look_at("paths", NULL, &given, RIM_OK);
    look_at("rim", "small", &given, RIM_OK);
    look_at("dtb", "small", &given, RIM_NO_DEVICETREE);
    struct given nothing = {0};
    look_at("measure", NULL, &nothing, RIM_VERSION);
    look_at("check", NULL, &nothing, RIM_FAULTY);
    look_at("image", NULL, &nothing, RIM_KERNEL_SHORT);
    look_at("fdt", NULL, &nothing, RIM_DTB_SHORT);
    look_at("replay", NULL, &nothing, RIM_REFUSED);
}

/* ---- null pointers */

static void null_pointers(const struct given *given, const char *launch) {
    size_t length = UNSAID, size = strlen(launch);
    rim_algorithm algorithm = NO_ALGORITHM;
    char out[8];
    look("no manifest", rim_measure(NULL, given->files, given->count, RIM_LINES, out, sizeof out, &length) == RIM_NULL);
    look("no files", rim_audit(&given->subject, NULL, 1, out, sizeof out, &length) == RIM_NULL);
    look("no room", rim_list(&given->subject, given->files, given->count, launch, size, NULL, 1, &length) == RIM_NULL);
    look("no length", rim_replay(&given->subject, out, sizeof out, NULL) == RIM_NULL);
    look("no name", rim_dtb(&given->subject, given->files, given->count, NULL, 1, out, sizeof out, &length) == RIM_NULL);
    look("no algorithm", rim_launch_rim(&given->subject, given->files, given->count, launch, size, NULL, out, sizeof out, &length) == RIM_NULL);
    look("no room for the version", rim_version(NULL, 1, &length) == RIM_NULL);
    look("nothing is said", length == UNSAID && algorithm == NO_ALGORITHM);
}

/* ---- the version */

static void version(const char *expected) {
    size_t length = UNSAID, size = strlen(expected);
    char out[100];
    look("the version's length", rim_version(NULL, 0, &length) == RIM_ROOM && length == size);
    look("the version", rim_version(out, sizeof out, &length) == RIM_OK && length == size && memcmp(out, expected, size) == 0);
}

int main(int count, char **words) {
    struct given given;
    if (count != 4 || !read_given(words[2], true, &given) || given.count < 2 || given.count + 2 > MOST)
        return 2;
    version(words[1]);
    smallest();
    in_any_order(&given);
    more_than_are_named(&given);
    two_of_one_path(&given);
    each_is_needed(&given);
    of_no_path(&given);
    too_large(&given);
    what_is_no_text(&given, words[3]);
    null_pointers(&given, words[3]);
    printf("%d tried, %d wrong\n", tried, wrong_count);
    return wrong_count > 0;
}
