/* The C in front of the proved calls. It turns a null pointer of no bytes into one that is none, refuses others, and says how wide the vectors are
   that the library is compiled for. Nothing proves it: tests/library.py shows that it passes all else on. */
#include "rim.h"

#include <stdbool.h>

/* How many messages of SHA-256 are hashed side by side. No answer depends on it. */
#ifdef __AVX2__
#define LANES 8
#else
#define LANES 4
#endif

/* ---- the proved calls (crates/rim_c) */

uint32_t rim_proved_measure(uint32_t lanes, const rim_file *manifest, const rim_file *files, size_t count, bool json, uint8_t *out, size_t room, size_t *length);
uint32_t rim_proved_audit(uint32_t lanes, const rim_file *manifest, const rim_file *files, size_t count, uint8_t *out, size_t room, size_t *length);
uint32_t rim_proved_check(uint32_t lanes, const rim_file *manifest, const rim_file *files, size_t count, bool quiet, bool json, uint8_t *out, size_t room,
                          size_t *length);
uint32_t rim_proved_paths(const rim_file *manifest, uint8_t *out, size_t room, size_t *length);
uint32_t rim_proved_rim(uint32_t lanes, const rim_file *manifest, const rim_file *files, size_t count, const uint8_t *launch, size_t launch_length,
                        uint32_t *algorithm, uint8_t *out, size_t room, size_t *length);
uint32_t rim_proved_list(uint32_t lanes, const rim_file *manifest, const rim_file *files, size_t count, const uint8_t *launch, size_t launch_length, uint8_t *out,
                         size_t room, size_t *length);
uint32_t rim_proved_trace(uint32_t lanes, const rim_file *manifest, const rim_file *files, size_t count, const uint8_t *launch, size_t launch_length, uint8_t *out,
                          size_t room, size_t *length);
uint32_t rim_proved_map(uint32_t lanes, const rim_file *manifest, const rim_file *files, size_t count, const uint8_t *launch, size_t launch_length, bool json,
                        uint8_t *out, size_t room, size_t *length);
uint32_t rim_proved_dtb(uint32_t lanes, const rim_file *manifest, const rim_file *files, size_t count, const uint8_t *launch, size_t launch_length, uint8_t *out,
                        size_t room, size_t *length);
uint32_t rim_proved_replay(const rim_file *listing, const rim_file *files, size_t count, uint8_t *out, size_t room, size_t *length);
uint32_t rim_proved_image(const rim_file *image, const rim_file *files, size_t count, uint8_t *out, size_t room, size_t *length);
uint32_t rim_proved_fdt(const rim_file *tree, const rim_file *files, size_t count, uint8_t *out, size_t room, size_t *length);
uint32_t rim_proved_version(uint8_t *out, size_t room, size_t *length);

/* ---- pointers without null */

/* What a pointer of no bytes leads to. */
static uint8_t nothing;

/* Whether there is a null pointer where something has to be. */
static bool lacks(const void *pointer, size_t length) {
    return pointer == NULL && length > 0;
}

static bool lacks_files(const rim_file *files, size_t count) {
    if (lacks(files, count))
        return true;
    for (size_t i = 0; i < count; i++)
        if (files[i].path == NULL || files[i].bytes == NULL)
            return true;
    return false;
}

/* Copies a file, with null pointers of no bytes put right; false where it lacks one that has to be. */
static bool take(const rim_file *from, rim_file *to) {
    if (from == NULL || lacks(from->path, from->path_length) || lacks(from->bytes, from->length))
        return false;
    *to = *from;
    if (to->path == NULL)
        to->path = (const char *)&nothing;
    if (to->bytes == NULL)
        to->bytes = &nothing;
    return true;
}

/* What no call does without: the file that it is about, the others, room, and where the answer's length goes. */
struct given {
    rim_file subject;
    const rim_file *files;
    uint8_t *out;
};

static bool take_all(struct given *given, const rim_file *subject, const rim_file *files, size_t count, void *out, size_t room, const size_t *length) {
    static const rim_file no_file = {(const char *)&nothing, 0, &nothing, 0};
    if (!take(subject, &given->subject) || lacks_files(files, count) || lacks(out, room) || length == NULL)
        return false;
    given->files = files != NULL ? files : &no_file;
    given->out = out != NULL ? out : &nothing;
    return true;
}

static const uint8_t *name_of(const char *launch) {
    return launch != NULL ? (const uint8_t *)launch : &nothing;
}

/* ---- the calls */

rim_code rim_measure(const rim_file *manifest, const rim_file *files, size_t count, rim_format format, void *out, size_t room, size_t *length) {
    struct given given;
    if (!take_all(&given, manifest, files, count, out, room, length))
        return RIM_NULL;
    return (rim_code)rim_proved_measure(LANES, &given.subject, given.files, count, format == RIM_JSON, given.out, room, length);
}

rim_code rim_audit(const rim_file *manifest, const rim_file *files, size_t count, void *out, size_t room, size_t *length) {
    struct given given;
    if (!take_all(&given, manifest, files, count, out, room, length))
        return RIM_NULL;
    return (rim_code)rim_proved_audit(LANES, &given.subject, given.files, count, given.out, room, length);
}

rim_code rim_check(const rim_file *manifest, const rim_file *files, size_t count, int quiet, rim_format format, void *out, size_t room, size_t *length) {
    struct given given;
    if (!take_all(&given, manifest, files, count, out, room, length))
        return RIM_NULL;
    return (rim_code)rim_proved_check(LANES, &given.subject, given.files, count, quiet != 0, format == RIM_JSON, given.out, room, length);
}

rim_code rim_manifest_paths(const rim_file *manifest, void *out, size_t room, size_t *length) {
    struct given given;
    if (!take_all(&given, manifest, NULL, 0, out, room, length))
        return RIM_NULL;
    return (rim_code)rim_proved_paths(&given.subject, given.out, room, length);
}

rim_code rim_launch_rim(const rim_file *manifest, const rim_file *files, size_t count, const char *launch, size_t launch_length, rim_algorithm *algorithm, void *out,
                        size_t room, size_t *length) {
    struct given given;
    if (!take_all(&given, manifest, files, count, out, room, length) || lacks(launch, launch_length) || algorithm == NULL)
        return RIM_NULL;
    uint32_t number = 0;
    rim_code code = (rim_code)rim_proved_rim(LANES, &given.subject, given.files, count, name_of(launch), launch_length, &number, given.out, room, length);
    if (code == RIM_OK)
        *algorithm = (rim_algorithm)number;
    return code;
}

rim_code rim_list(const rim_file *manifest, const rim_file *files, size_t count, const char *launch, size_t launch_length, void *out, size_t room, size_t *length) {
    struct given given;
    if (!take_all(&given, manifest, files, count, out, room, length) || lacks(launch, launch_length))
        return RIM_NULL;
    return (rim_code)rim_proved_list(LANES, &given.subject, given.files, count, name_of(launch), launch_length, given.out, room, length);
}

rim_code rim_trace(const rim_file *manifest, const rim_file *files, size_t count, const char *launch, size_t launch_length, void *out, size_t room, size_t *length) {
    struct given given;
    if (!take_all(&given, manifest, files, count, out, room, length) || lacks(launch, launch_length))
        return RIM_NULL;
    return (rim_code)rim_proved_trace(LANES, &given.subject, given.files, count, name_of(launch), launch_length, given.out, room, length);
}

rim_code rim_map(const rim_file *manifest, const rim_file *files, size_t count, const char *launch, size_t launch_length, rim_format format, void *out, size_t room,
                 size_t *length) {
    struct given given;
    if (!take_all(&given, manifest, files, count, out, room, length) || lacks(launch, launch_length))
        return RIM_NULL;
    return (rim_code)rim_proved_map(LANES, &given.subject, given.files, count, name_of(launch), launch_length, format == RIM_JSON, given.out, room, length);
}

rim_code rim_dtb(const rim_file *manifest, const rim_file *files, size_t count, const char *launch, size_t launch_length, void *out, size_t room, size_t *length) {
    struct given given;
    if (!take_all(&given, manifest, files, count, out, room, length) || lacks(launch, launch_length))
        return RIM_NULL;
    return (rim_code)rim_proved_dtb(LANES, &given.subject, given.files, count, name_of(launch), launch_length, given.out, room, length);
}

rim_code rim_replay(const rim_file *listing, void *out, size_t room, size_t *length) {
    struct given given;
    if (!take_all(&given, listing, NULL, 0, out, room, length))
        return RIM_NULL;
    return (rim_code)rim_proved_replay(&given.subject, given.files, 0, given.out, room, length);
}

rim_code rim_image(const rim_file *image, void *out, size_t room, size_t *length) {
    struct given given;
    if (!take_all(&given, image, NULL, 0, out, room, length))
        return RIM_NULL;
    return (rim_code)rim_proved_image(&given.subject, given.files, 0, given.out, room, length);
}

rim_code rim_fdt(const rim_file *tree, void *out, size_t room, size_t *length) {
    struct given given;
    if (!take_all(&given, tree, NULL, 0, out, room, length))
        return RIM_NULL;
    return (rim_code)rim_proved_fdt(&given.subject, given.files, 0, given.out, room, length);
}

rim_code rim_version(void *out, size_t room, size_t *length) {
    if (lacks(out, room) || length == NULL)
        return RIM_NULL;
    return (rim_code)rim_proved_version(out != NULL ? out : &nothing, room, length);
}
