/* Gives each call of library/rim.c other things for each of its words, and looks at what the proved call behind it gets: here are calls of the proved
   ones' names that keep what they are given. It is compiled together with library/rim.c. The last line is `N as they should be, M not`. */
#include "rim.h"

#include <stdbool.h>
#include <stdio.h>
#include <string.h>

#ifdef __AVX2__
#define LANES 8
#else
#define LANES 4
#endif

/* What a proved call got. */
static struct got {
    const char *name;
    uint32_t lanes;
    rim_file subject;
    const rim_file *files;
    size_t count;
    const uint8_t *launch;
    size_t launch_length;
    bool json, quiet;
    uint8_t *out;
    size_t room;
    size_t *length;
} got;

/* What it answers, and the number of the algorithm. */
static uint32_t code, number;

#define OUT uint8_t *out, size_t room, size_t *length
#define FILES uint32_t lanes, const rim_file *subject, const rim_file *files, size_t count
#define LAUNCH const uint8_t *launch, size_t launch_length
#define KEEP_OUT .out = out, .room = room, .length = length
#define KEEP_FILES .lanes = lanes, .subject = *subject, .files = files, .count = count
#define KEEP_LAUNCH .launch = launch, .launch_length = launch_length
#define KEPT(called, ...) got = (struct got){.name = called, KEEP_OUT, __VA_ARGS__}; return code

uint32_t rim_proved_measure(FILES, bool json, OUT) { KEPT("measure", KEEP_FILES, .json = json); }
uint32_t rim_proved_audit(FILES, OUT) { KEPT("audit", KEEP_FILES); }
uint32_t rim_proved_check(FILES, bool quiet, bool json, OUT) { KEPT("check", KEEP_FILES, .quiet = quiet, .json = json); }
uint32_t rim_proved_paths(const rim_file *subject, OUT) { KEPT("paths", .subject = *subject); }
uint32_t rim_proved_list(FILES, LAUNCH, OUT) { KEPT("list", KEEP_FILES, KEEP_LAUNCH); }
uint32_t rim_proved_trace(FILES, LAUNCH, OUT) { KEPT("trace", KEEP_FILES, KEEP_LAUNCH); }
uint32_t rim_proved_map(FILES, LAUNCH, bool json, OUT) { KEPT("map", KEEP_FILES, KEEP_LAUNCH, .json = json); }
uint32_t rim_proved_dtb(FILES, LAUNCH, OUT) { KEPT("dtb", KEEP_FILES, KEEP_LAUNCH); }
uint32_t rim_proved_replay(const rim_file *subject, const rim_file *files, size_t count, OUT) { KEPT("replay", .subject = *subject, .files = files, .count = count); }
uint32_t rim_proved_image(const rim_file *subject, const rim_file *files, size_t count, OUT) { KEPT("image", .subject = *subject, .files = files, .count = count); }
uint32_t rim_proved_fdt(const rim_file *subject, const rim_file *files, size_t count, OUT) { KEPT("fdt", .subject = *subject, .files = files, .count = count); }
uint32_t rim_proved_version(OUT) { KEPT("version", .lanes = 0); }
uint32_t rim_proved_rim(FILES, LAUNCH, uint32_t *algorithm, OUT) {
    *algorithm = number;
    KEPT("rim", KEEP_FILES, KEEP_LAUNCH);
}

/* ---- the calls, each with all words that any of them has */

struct words {
    const rim_file *subject, *files;
    size_t count;
    const char *launch;
    size_t launch_length;
    int quiet;
    rim_format format;
    rim_algorithm *algorithm;
    void *out;
    size_t room, *length;
};

#define ALL w->subject, w->files, w->count
#define NAME w->launch, w->launch_length
#define ROOM w->out, w->room, w->length
static rim_code measure(const struct words *w) { return rim_measure(ALL, w->format, ROOM); }
static rim_code audit(const struct words *w) { return rim_audit(ALL, ROOM); }
static rim_code check(const struct words *w) { return rim_check(ALL, w->quiet, w->format, ROOM); }
static rim_code paths(const struct words *w) { return rim_manifest_paths(w->subject, ROOM); }
static rim_code launch_rim(const struct words *w) { return rim_launch_rim(ALL, NAME, w->algorithm, ROOM); }
static rim_code list(const struct words *w) { return rim_list(ALL, NAME, ROOM); }
static rim_code trace(const struct words *w) { return rim_trace(ALL, NAME, ROOM); }
static rim_code map(const struct words *w) { return rim_map(ALL, NAME, w->format, ROOM); }
static rim_code dtb(const struct words *w) { return rim_dtb(ALL, NAME, ROOM); }
static rim_code replay(const struct words *w) { return rim_replay(w->subject, ROOM); }
static rim_code image(const struct words *w) { return rim_image(w->subject, ROOM); }
static rim_code fdt(const struct words *w) { return rim_fdt(w->subject, ROOM); }
static rim_code version(const struct words *w) { return rim_version(ROOM); }

/* Which words a call has beside its room. */
enum { SUBJECT = 1, OTHERS = 2, NAMED = 4, JSON = 8, QUIET = 16, ALGORITHM = 32 };
static const struct call {
    const char *name;
    rim_code (*call)(const struct words *);
    int has;
} calls[] = {
    {"measure", measure, SUBJECT | OTHERS | JSON},
    {"audit", audit, SUBJECT | OTHERS},
    {"check", check, SUBJECT | OTHERS | JSON | QUIET},
    {"paths", paths, SUBJECT},
    {"rim", launch_rim, SUBJECT | OTHERS | NAMED | ALGORITHM},
    {"list", list, SUBJECT | OTHERS | NAMED},
    {"trace", trace, SUBJECT | OTHERS | NAMED},
    {"map", map, SUBJECT | OTHERS | NAMED | JSON},
    {"dtb", dtb, SUBJECT | OTHERS | NAMED},
    {"replay", replay, SUBJECT},
    {"image", image, SUBJECT},
    {"fdt", fdt, SUBJECT},
    {"version", version, 0},
};
enum { CALLS = sizeof calls / sizeof calls[0] };

/* ---- tries */

static int as_should, not;

static void look(const char *call, const char *what, bool is) {
    as_should += is;
    not += !is;
    if (!is)
        printf("%s: %s\n", call, what);
}

static rim_file subject, files[3];
static uint8_t out[8];
static size_t length;
static rim_algorithm algorithm;
static const char launch[] = "launch";

static struct words whole(void) {
    subject = (rim_file){"manifest", 8, "bytes of it", 11};
    files[0] = (rim_file){"one", 3, "first", 5};
    files[1] = (rim_file){"two", 3, "second", 6};
    files[2] = (rim_file){"", 0, "", 0};
    return (struct words){&subject, files, 3, launch, 6, 0, RIM_LINES, &algorithm, out, sizeof out, &length};
}

static bool is_file(const rim_file *one, const rim_file *other) {
    return one->path == other->path && one->path_length == other->path_length && one->bytes == other->bytes && one->length == other->length;
}

/* All that a call is given gets to the proved call of its name. */
static void passes(const struct call *call) {
    struct words w = whole();
    got = (struct got){0};
    look(call->name, "the code", call->call(&w) == (rim_code)code && got.name != NULL && strcmp(got.name, call->name) == 0);
    look(call->name, "the room", got.out == out && got.room == sizeof out && got.length == &length);
    look(call->name, "the file", !(call->has & SUBJECT) || is_file(&got.subject, &subject));
    look(call->name, "the files", !(call->has & OTHERS) || (got.files == files && got.count == 3 && got.lanes == LANES));
    look(call->name, "the launch", !(call->has & NAMED) || (got.launch == (const uint8_t *)launch && got.launch_length == 6));
}

static void passes_flags(const struct call *call) {
    for (int flags = 0; flags < 4; flags++) {
        struct words w = whole();
        w.format = flags & 1 ? RIM_JSON : RIM_LINES;
        w.quiet = flags & 2 ? 256 : 0; /* any number but 0 */
        call->call(&w);
        look(call->name, "the format", got.json == (call->has & JSON && flags & 1));
        look(call->name, "quiet", got.quiet == (call->has & QUIET && flags & 2));
    }
}

/* A call of each code ends with it, and the algorithm is said with an answer alone. */
static void passes_codes(const struct call *call) {
    for (code = 0; code < 100; code++) {
        struct words w = whole();
        algorithm = (rim_algorithm)7;
        number = code % 2;
        look(call->name, "a code", call->call(&w) == (rim_code)code);
        look(call->name, "the algorithm", algorithm == (call->has & ALGORITHM && code == 0 ? RIM_SHA256 : (rim_algorithm)7));
    }
    code = 0;
    number = 1;
    struct words w = whole();
    call->call(&w);
    look(call->name, "the other algorithm", !(call->has & ALGORITHM) || algorithm == RIM_SHA512);
    number = 0;
}

/* A null pointer of no bytes becomes one that is none. */
static void takes_nothing(const struct call *call) {
    struct words w = whole();
    subject = (rim_file){0};
    w.files = NULL;
    w.count = w.launch_length = w.room = 0;
    w.launch = NULL;
    w.out = NULL;
    got = (struct got){0};
    look(call->name, "nothing is taken", call->call(&w) == RIM_OK && got.name != NULL);
    look(call->name, "no room", got.out != NULL && got.room == 0);
    look(call->name, "a file of nothing", !(call->has & SUBJECT) || (got.subject.path != NULL && got.subject.bytes != NULL));
    look(call->name, "of no bytes", got.subject.path_length + got.subject.length == 0);
    look(call->name, "no files", !(call->has & OTHERS) || (got.files != NULL && got.count == 0));
    look(call->name, "no name", !(call->has & NAMED) || (got.launch != NULL && got.launch_length == 0));
    look(call->name, "the caller's file stays", subject.path == NULL && subject.bytes == NULL);
}

/* Ways of a null pointer where there has to be one, each with what a call has that is refused for it. */
enum way { NO_SUBJECT, NO_PATH, NO_BYTES, NO_FILES, NO_PATH_IN_FILES, NO_BYTES_IN_FILES, NO_LAUNCH, NO_ALGORITHM_AT, NO_OUT, NO_LENGTH, WAYS };
static const int ways[WAYS] = {SUBJECT, SUBJECT, SUBJECT, OTHERS, OTHERS, OTHERS, NAMED, ALGORITHM, 0, 0};

static void take_away(enum way way, struct words *w) {
    switch (way) {
    case NO_SUBJECT: w->subject = NULL; break;
    case NO_PATH: subject.path = NULL; break;
    case NO_BYTES: subject.bytes = NULL; break;
    case NO_FILES: w->files = NULL; break;
    case NO_PATH_IN_FILES: files[2].path = NULL; break;
    case NO_BYTES_IN_FILES: files[2].bytes = NULL; break;
    case NO_LAUNCH: w->launch = NULL; break;
    case NO_ALGORITHM_AT: w->algorithm = NULL; break;
    case NO_OUT: w->out = NULL; break;
    default: w->length = NULL; break;
    }
}

static void refuses_null(const struct call *call) {
    for (int way = 0; way < WAYS; way++) {
        struct words w = whole();
        bool is_refused = ways[way] == 0 || (call->has & ways[way]) != 0;
        take_away((enum way)way, &w);
        got = (struct got){0};
        length = 77;
        rim_code ended = call->call(&w);
        look(call->name, "null", ended == (is_refused ? RIM_NULL : RIM_OK) && (got.name == NULL) == is_refused);
        look(call->name, "nothing is written", length == 77);
    }
}

int main(void) {
    for (int i = 0; i < CALLS; i++) {
        passes(&calls[i]);
        passes_flags(&calls[i]);
        passes_codes(&calls[i]);
        takes_nothing(&calls[i]);
        refuses_null(&calls[i]);
    }
    printf("%d as they should be, %d not\n", as_should, not);
    return not > 0;
}
