#include "given.h"

#include <fcntl.h>
#include <stdarg.h>
#include <stdint.h>
#include <stdio.h>
#include <stdlib.h>
#include <string.h>
#include <sys/mman.h>
#include <sys/stat.h>
#include <unistd.h>

int wrong_count;

void wrong(const char *format, ...) {
    va_list values;
    va_start(values, format);
    fputs("WRONG: ", stderr);
    vfprintf(stderr, format, values);
    fputc('\n', stderr);
    va_end(values);
    wrong_count++;
}

static void *taken(size_t size) {
    void *at = malloc(size == 0 ? 1 : size);
    if (at == NULL) {
        fputs("no memory for the test\n", stderr);
        exit(70);
    }
    return at;
}

/* ---- files */

enum { FILE_LIMIT = 256 << 20, FENCED = 4 << 20 };

static size_t pages_of(size_t length) {
    size_t page = (size_t)sysconf(_SC_PAGESIZE);
    return (length + page - 1) / page * page;
}

static void *mapped(size_t length) {
    void *at = mmap(NULL, length, PROT_READ | PROT_WRITE, MAP_PRIVATE | MAP_ANONYMOUS | MAP_NORESERVE, -1, 0);
    if (at == MAP_FAILED) {
        fputs("no memory for the test\n", stderr);
        exit(70);
    }
    return at;
}

void *fenced(const void *bytes, size_t length) {
    size_t pages = pages_of(length), fence = pages_of(1);
    unsigned char *block = mapped(pages + fence), *at = block + pages - length;
    if (length > 0)
        memcpy(at, bytes, length);
    if (mprotect(block, pages + fence, PROT_READ) != 0 || mprotect(block + pages, fence, PROT_NONE) != 0)
        wrong("there is no fence after %zu bytes", length);
    return at;
}

void unfenced(const void *at, size_t length) {
    size_t pages = pages_of(length);
    munmap((unsigned char *)at + length - pages, pages + pages_of(1));
}

static bool read_all(int file, rim_file *to) {
    unsigned char *bytes = mapped((size_t)FILE_LIMIT + 1);
    size_t length = 0;
    ssize_t count = 1;
    while (length <= FILE_LIMIT && (count = read(file, bytes + length, (size_t)FILE_LIMIT + 1 - length)) > 0)
        length += (size_t)count;
    to->bytes = bytes;
    to->length = length;
    return count >= 0;
}

static bool map_all(int file, size_t size, rim_file *to) {
    to->bytes = mmap(NULL, size, PROT_READ, MAP_PRIVATE, file, 0);
    to->length = size;
    return to->bytes != MAP_FAILED;
}

/* What is not large gets a fence. */
static void fence(rim_file *file, size_t of_pages) {
    if (file->length > FENCED)
        return;
    const void *bytes = fenced(file->bytes, file->length);
    munmap((void *)file->bytes, of_pages);
    file->bytes = bytes;
}

bool read_file(const char *path, rim_file *to) {
    struct stat said;
    int file = open(path, O_RDONLY | O_CLOEXEC);
    if (file < 0)
        return false;
    bool is_found = fstat(file, &said) == 0, is_mapped = is_found && S_ISREG(said.st_mode) && said.st_size > 0;
    bool is_read = is_found && (is_mapped ? map_all(file, (size_t)said.st_size, to) : read_all(file, to));
    close(file);
    if (is_read)
        fence(to, is_mapped ? to->length : (size_t)FILE_LIMIT + 1);
    to->path = fenced(path, strlen(path));
    to->path_length = strlen(path);
    return is_read;
}

static size_t count_paths(const char *paths, size_t length) {
    size_t count = 0;
    for (size_t i = 0; i < length; i++)
        count += paths[i] == 0;
    return count;
}

static void read_named(const char *paths, size_t length, struct given *to) {
    rim_file *files = taken((count_paths(paths, length) + 1) * sizeof *files);
    for (size_t at = 0; at < length; at += strlen(paths + at) + 1)
        if (read_file(paths + at, &files[to->count]))
            to->count++;
    to->files = fenced(files, to->count * sizeof *files);
    free(files);
}

bool read_given(const char *path, bool is_manifest, struct given *to) {
    size_t length = 0;
    *to = (struct given){0};
    if (!read_file(path, &to->subject))
        return false;
    if (!is_manifest || rim_manifest_paths(&to->subject, NULL, 0, &length) != RIM_ROOM)
        return true;
    char *paths = taken(length);
    if (rim_manifest_paths(&to->subject, paths, length, &length) != RIM_OK)
        wrong("the paths of %s: no answer in the room that was said", path);
    else
        read_named(paths, length, to);
    free(paths);
    return true;
}

/* ---- calls */

bool is_of_manifest(const char *command) {
    return strcmp(command, "replay") != 0 && strcmp(command, "image") != 0 && strcmp(command, "fdt") != 0;
}

static bool is(const struct asked *asked, const char *command) {
    return strcmp(asked->command, command) == 0;
}

static rim_code ask_file(const struct asked *asked, const rim_file *subject, void *out, size_t room, size_t *length) {
    if (is(asked, "replay"))
        return rim_replay(subject, out, room, length);
    if (is(asked, "image"))
        return rim_image(subject, out, room, length);
    if (is(asked, "fdt"))
        return rim_fdt(subject, out, room, length);
    return is(asked, "paths") ? rim_manifest_paths(subject, out, room, length) : RIM_NEVER;
}

static rim_code ask_launch(const struct asked *asked, const struct given *given, void *out, size_t room, struct ended *ended) {
    const rim_file *subject = &given->subject, *files = given->files;
    size_t count = given->count, *length = &ended->length, launch_length = strlen(asked->launch);
    if (is(asked, "rim"))
        return rim_launch_rim(subject, files, count, asked->launch, launch_length, &ended->algorithm, out, room, length);
    if (is(asked, "list"))
        return rim_list(subject, files, count, asked->launch, launch_length, out, room, length);
    if (is(asked, "trace"))
        return rim_trace(subject, files, count, asked->launch, launch_length, out, room, length);
    if (is(asked, "dtb"))
        return rim_dtb(subject, files, count, asked->launch, launch_length, out, room, length);
    if (is(asked, "map"))
        return rim_map(subject, files, count, asked->launch, launch_length, asked->json ? RIM_JSON : RIM_LINES, out, room, length);
    return RIM_NEVER;
}

static rim_code ask_manifest(const struct asked *asked, const struct given *given, void *out, size_t room, size_t *length) {
    const rim_file *subject = &given->subject, *files = given->files;
    rim_format format = asked->json ? RIM_JSON : RIM_LINES;
    if (is(asked, "measure"))
        return rim_measure(subject, files, given->count, format, out, room, length);
    if (is(asked, "audit"))
        return rim_audit(subject, files, given->count, out, room, length);
    if (is(asked, "check"))
        return rim_check(subject, files, given->count, asked->quiet, format, out, room, length);
    return ask_file(asked, subject, out, room, length);
}

struct ended ask(const struct asked *asked, const struct given *given, void *out, size_t room) {
    struct ended ended = {RIM_NEVER, UNSAID, NO_ALGORITHM};
    ended.code = asked->launch != NULL ? ask_launch(asked, given, out, room, &ended) : ask_manifest(asked, given, out, room, &ended.length);
    return ended;
}

bool is_answer(rim_code code) {
    return code == RIM_OK || code == RIM_REFUSED || code == RIM_FAULTY;
}

/* ---- guards */

enum { GUARD = 64 };

/* How many bytes of a block are other ones than they were filled with, of which some are an answer. */
static size_t changed(const unsigned char *block, size_t size, unsigned char fill, size_t answer) {
    size_t count = 0;
    for (size_t i = 0; i < size; i++)
        count += block[i] != fill && (i < GUARD || i >= GUARD + answer);
    return count;
}

static void check_numbers(const struct asked *asked, const struct ended *ended, size_t room) {
    bool is_said = is_answer(ended->code) || ended->code == RIM_ROOM;
    if (is_said == (ended->length == UNSAID))
        wrong("%s, room %zu: code %d, and the length is %s", asked->command, room, (int)ended->code, is_said ? "not said" : "written");
    if (is_said && (ended->code == RIM_ROOM) != (ended->length > room))
        wrong("%s, room %zu: code %d, and the length is %zu", asked->command, room, (int)ended->code, ended->length);
    if ((ended->algorithm != NO_ALGORITHM) != (is(asked, "rim") && ended->code == RIM_OK))
        wrong("%s, room %zu: code %d, and the algorithm is %d", asked->command, room, (int)ended->code, (int)ended->algorithm);
}

struct ended ask_guarded(const struct asked *asked, const struct given *given, size_t room, unsigned char **answer) {
    size_t size = room + 2 * GUARD;
    unsigned char *block = taken(size), fill = (unsigned char)(0xa5 + room);
    memset(block, fill, size);
    struct ended ended = ask(asked, given, room == 0 ? NULL : block + GUARD, room);
    check_numbers(asked, &ended, room);
    size_t of_answer = is_answer(ended.code) && ended.length <= room ? ended.length : 0;
    size_t others = changed(block, size, fill, of_answer);
    if (others > 0)
        wrong("%s, room %zu: code %d, and %zu bytes are written that are none of the answer", asked->command, room, (int)ended.code, others);
    memmove(block, block + GUARD, of_answer);
    *answer = block;
    return ended;
}
