/* What the tests of the library share: a file and those that it names in memory, one call for each command of the program, and what is wrong. */
#ifndef GIVEN_H
#define GIVEN_H

#include "rim.h"

#include <stdbool.h>
#include <stddef.h>

/* What a call is about: a manifest, or another file; and the files that a manifest names, as far as they can be read. */
struct given {
    rim_file subject;
    const rim_file *files;
    size_t count;
};

/* What is asked of it: a command of the program with its flags, or `rim` for rim_launch_rim or `paths` for rim_manifest_paths. */
struct asked {
    const char *command;
    const char *launch;
    bool json;
    bool quiet;
};

/* How a call ended. */
struct ended {
    rim_code code;
    size_t length;
    rim_algorithm algorithm;
};

/* What `length` and `algorithm` are before a call. */
#define UNSAID ((size_t)0x5ca1ab1e)
#define NO_ALGORITHM ((rim_algorithm)2)

/* A copy of some bytes that nobody can write to, and after which nothing can be read: a library that does ends the program. It stays until the
   program ends, or until it is taken away. */
void *fenced(const void *bytes, size_t length);
void unfenced(const void *at, size_t length);

/* Reads a file; false where it cannot be read. Of what is no file of the disk no more than a byte over the library's limit is read. Its path and, where
   it is not large, its bytes are fenced. */
bool read_file(const char *path, rim_file *to);

/* Reads a file, and what it names where it is a manifest that is no fault. A file that cannot be read is left out. The list of files is fenced too. */
bool read_given(const char *path, bool is_manifest, struct given *to);

/* Whether a command is about a manifest. */
bool is_of_manifest(const char *command);

/* Makes a call. A command that the library has not ends with RIM_NEVER. */
struct ended ask(const struct asked *asked, const struct given *given, void *out, size_t room);

/* Whether there is an answer. */
bool is_answer(rim_code code);

/* Makes a call with so much room between guards, and writes a line for each thing that is wrong: a byte that is changed and is none of the answer,
   or a number that is changed and does not belong to the code. The answer's bytes are then at `*answer`, which the caller frees. */
struct ended ask_guarded(const struct asked *asked, const struct given *given, size_t room, unsigned char **answer);

/* Writes a line of what is wrong to standard error. How many there were is `wrong_count`. */
void wrong(const char *format, ...) __attribute__((format(printf, 1, 2)));
extern int wrong_count;

#endif
