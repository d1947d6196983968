/* rim: the Realm Initial Measurements of confidential VMs (Arm DEN0137 1.0), computed from a manifest and its files in memory.

   Each call answers what the program rim prints for the same words, byte for byte, and its proof is behind it. What is not proved is the C in front
   of it (library/rim.c), and what a caller owes, which is said here.

   A call reads only what it is given, writes only to `out`, `length` and `algorithm`, takes no lock, starts no thread, keeps no memory after it
   returns, and changes nothing else. So any number of threads may be in calls at a time, each with its own `out` and `length`.

   A file that is too large is refused by its length. The manifest, and an Image, a devicetree or a listing, are read in place and not copied.
   The files that a manifest names are copied once, so a call about launches takes that much memory, and room for its answer.

   What a caller owes, for every call:
   - a pointer and its length say where that many bytes, or files, are. A pointer may be null where its length is 0, but for those within `files`;
   - what is read is not changed by another thread during the call;
   - `out`, `length` and `algorithm` do not overlap one another or what is read;
   - malloc, realloc and free are the C library's, or keep its promises;
   - no call is made from a signal handler, or in the child of a fork of a process with threads before it calls exec. */
#ifndef RIM_H
#define RIM_H

#include <stddef.h>
#include <stdint.h>

#ifdef __cplusplus
extern "C" {
#endif

/* A file in memory: its path, as the manifest writes it, and its bytes. */
typedef struct rim_file {
    const char *path;
    size_t path_length;
    const void *bytes;
    size_t length;
} rim_file;

/* What a call ends with. RIM_OK, RIM_REFUSED and RIM_FAULTY say that there is an answer: its bytes are at the beginning of `out`, and `*length` says
   how many. With RIM_ROOM nothing but `*length` is written: how many bytes the answer has. With all others nothing is written. */
typedef enum rim_code {
    RIM_OK = 0,
    /* The answer says that some launch is refused, or that a listing is not what it says. */
    RIM_REFUSED = 1,
    /* A null pointer where there must be one: the manifest, `length` or `algorithm`, or bytes that are said not to be none. */
    RIM_NULL = 2,
    /* The answer of rim_check says what is wrong with the manifest or its files. */
    RIM_FAULTY = 3,

    RIM_NO_MEMORY = 4,
    /* The answer has more bytes than `room`. */
    RIM_ROOM = 5,
    /* The path of the file that is asked about, as of the manifest, or a launch's name, is no UTF-8. */
    RIM_NO_TEXT = 6,
    /* The manifest names a file that is not among those that were given. */
    RIM_NO_FILE = 7,
    /* A file has more than 256 MiB. */
    RIM_FILE_TOO_LARGE = 8,
    RIM_NO_SUCH_LAUNCH = 9,
    RIM_NO_DEVICETREE = 10,
    /* The launches have more than 1,048,576 different measured pages. */
    RIM_TOO_MANY_PAGES = 11,
    /* No call ends with this. */
    RIM_NEVER = 12,

    /* Why a manifest is refused: each is the word that the program prints. */
    RIM_SYNTAX = 20,
    RIM_VERSION = 21,
    RIM_WRONG_KIND = 22,
    RIM_UNKNOWN_KEY = 23,
    RIM_MISSING_KEY = 24,
    RIM_LIMIT = 25,
    RIM_RANGE = 26,
    RIM_TWO_NAMES = 27,
    RIM_NO_SUCH_FILE = 28,
    RIM_BAD_STEP = 29,

    /* Why a launch is refused, of rim_launch_rim and rim_dtb; the first two groups also why a file is no Image and no devicetree. */
    RIM_KERNEL_SHORT = 40,
    RIM_KERNEL_BAD_MAGIC = 41,

    RIM_DTB_SHORT = 50,
    RIM_DTB_BAD_MAGIC = 51,
    RIM_DTB_BAD_VERSION = 52,
    RIM_DTB_BAD_BLOCK = 53,
    RIM_DTB_BAD_RESERVE = 54,
    RIM_DTB_BAD_TOKEN = 55,
    RIM_DTB_BAD_NAME = 56,
    RIM_DTB_BAD_STRING = 57,
    RIM_DTB_LATE_PROPERTY = 58,
    RIM_DTB_TOO_DEEP = 59,
    RIM_DTB_BAD_CELLS = 60,
    RIM_DTB_TOO_LARGE = 61,

    RIM_LAYOUT_UNALIGNED = 70,
    RIM_KERNEL_BASE = 71,
    RIM_OUTSIDE_RAM = 72,
    RIM_OVERLAP = 73,
    RIM_INITRD_WINDOW = 74,
    RIM_SIZE = 75,

    RIM_PLAN_OUTSIDE_PROTECTED = 80,
    RIM_PLAN_UNALIGNED = 81,
    RIM_PLAN_RIPAS_TWICE = 82,
    RIM_PLAN_NOT_RAM = 83,
    RIM_PLAN_DATA_TWICE = 84,
    RIM_PLAN_TOO_MANY_ENTRIES = 85,

    RIM_POOL_END = 90,
    RIM_TOO_MANY_RECS = 91,
    RIM_REC_ORDER = 92,
    RIM_REC_NOT_RUNNABLE = 93
} rim_code;

/* How an answer is written: as lines, or as one JSON object. */
typedef enum rim_format { RIM_LINES = 0, RIM_JSON = 1 } rim_format;

/* The monitor's numbers of its hash algorithms (DEN0137, B4.4.2). */
typedef enum rim_algorithm { RIM_SHA256 = 0, RIM_SHA512 = 1 } rim_algorithm;

/* ---- of a whole manifest */

/* The report of all launches, as `rim measure` prints it. RIM_REFUSED where some launch is refused. Of `files` each that the manifest names is
   needed, in any order; of files of one path the first counts, and others are not read. A file at the manifest's own path is the manifest. */
rim_code rim_measure(const rim_file *manifest, const rim_file *files, size_t count, rim_format format, void *out, size_t room, size_t *length);

/* The report that the monitor's own commands lead to, launch by launch, as `rim audit` prints it. Its time grows with the number of commands, which
   are given to the monitor one by one: two for each page of an item, also where the contents are unknown and rim_measure hashes nothing. */
rim_code rim_audit(const rim_file *manifest, const rim_file *files, size_t count, void *out, size_t room, size_t *length);

/* What is wrong with the manifest, its files and its launches, as `rim check` prints it: RIM_OK where nothing is, RIM_REFUSED where a launch is refused,
   RIM_FAULTY where a report cannot be made. Warnings are left out where `quiet` is not 0. */
rim_code rim_check(const rim_file *manifest, const rim_file *files, size_t count, int quiet, rim_format format, void *out, size_t room, size_t *length);

/* The paths of the files that the manifest names, in its order, each with a zero byte after it. (A path that has a zero byte reads as two.) */
rim_code rim_manifest_paths(const rim_file *manifest, void *out, size_t room, size_t *length);

/* ---- of one launch of a manifest, by its name */

/* The launch's measurement: 32 bytes by SHA-256, 64 by SHA-512, and by which. A launch that is refused ends it with the code of why. All launches of the
   manifest are measured for it, so whoever needs more than one calls rim_measure. */
rim_code rim_launch_rim(const rim_file *manifest, const rim_file *files, size_t count, const char *launch, size_t launch_length, rim_algorithm *algorithm, void *out,
                        size_t room, size_t *length);

/* The monitor's commands, as `rim list` prints them; RIM_REFUSED and the launch's line of the report where it is refused. */
rim_code rim_list(const rim_file *manifest, const rim_file *files, size_t count, const char *launch, size_t launch_length, void *out, size_t room, size_t *length);

/* The measurement after each command that extends it, as `rim trace` prints it; or as rim_list where the launch is refused. */
rim_code rim_trace(const rim_file *manifest, const rim_file *files, size_t count, const char *launch, size_t launch_length, void *out, size_t room, size_t *length);

/* Where everything lies and what is measured, as `rim map` prints it. RIM_REFUSED where the launch is refused. */
rim_code rim_map(const rim_file *manifest, const rim_file *files, size_t count, const char *launch, size_t launch_length, rim_format format, void *out, size_t room,
                 size_t *length);

/* The devicetree as it is placed: bytes, and no text. A launch that is refused ends it with the code of why. */
rim_code rim_dtb(const rim_file *manifest, const rim_file *files, size_t count, const char *launch, size_t launch_length, void *out, size_t room, size_t *length);

/* ---- of one file */

/* Whether a listing is what it says, as `rim replay` prints it: RIM_REFUSED where it is not. */
rim_code rim_replay(const rim_file *listing, void *out, size_t room, size_t *length);

/* The header of an arm64 Image, as `rim image` prints it. */
rim_code rim_image(const rim_file *image, void *out, size_t room, size_t *length);

/* A flattened devicetree, as `rim fdt` prints it. */
rim_code rim_fdt(const rim_file *tree, void *out, size_t room, size_t *length);

/* ---- of the library */

/* Its version, as `rim --version` prints it after the name. */
rim_code rim_version(void *out, size_t room, size_t *length);

#ifdef __cplusplus
}
#endif

#endif
