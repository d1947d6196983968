/* Answers as the program does, by the library:

     call measure|audit|check|list|trace|map|dtb|replay|image|fdt|rim|paths [--json] [--quiet] [--once] FILE [LAUNCH]

   It writes the answer to standard output, for `rim` the algorithm's number and the measurement, and ends with the call's code. The call is made
   with too little room, with just enough and with more, between guards, and has to end alike: what is wrong are lines on standard error, and the
   status 200. With --once it is made for the length and for the answer alone. Status 201: FILE cannot be read. */
#include "given.h"

#include <stdio.h>
#include <stdlib.h>
#include <string.h>

enum { IS_WRONG = 200, NOT_READ = 201, USAGE = 202 };

static bool is_same(const struct ended *one, const struct ended *other) {
    return one->code == other->code && one->length == other->length && one->algorithm == other->algorithm;
}

/* With less room than the answer has, all that is said is how many bytes that are. */
static void ask_short(const struct asked *asked, const struct given *given, size_t room, const struct ended *first) {
    unsigned char *none;
    struct ended ended = ask_guarded(asked, given, room, &none);
    if (!is_same(&ended, first))
        wrong("%s, room %zu: code %d and length %zu, and without room %d and %zu", asked->command, room, (int)ended.code, ended.length, (int)first->code,
              first->length);
    free(none);
}

/* With more, the same answer is at the beginning. */
static void ask_more(const struct asked *asked, const struct given *given, const struct ended *whole, const unsigned char *answer) {
    unsigned char *again;
    struct ended ended = ask_guarded(asked, given, whole->length + 100, &again);
    if (!is_same(&ended, whole) || memcmp(again, answer, whole->length) != 0)
        wrong("%s: another answer where there is more room", asked->command);
    free(again);
}

/* What a call ends with that has just enough room. */
static struct ended ask_all(const struct asked *asked, const struct given *given, bool once, unsigned char **answer) {
    struct ended first = ask_guarded(asked, given, 0, answer);
    if (first.code != RIM_ROOM) {
        if (!once && !is_answer(first.code))
            ask_short(asked, given, 1000, &first);
        return first;
    }
    free(*answer);
    if (!once) {
        ask_short(asked, given, 1, &first);
        ask_short(asked, given, first.length - 1, &first);
    }
    struct ended whole = ask_guarded(asked, given, first.length, answer);
    if (!is_answer(whole.code) || whole.length != first.length)
        wrong("%s: code %d and length %zu, where %zu bytes are said to be enough", asked->command, (int)whole.code, whole.length, first.length);
    else if (!once)
        ask_more(asked, given, &whole, *answer);
    return whole;
}

static void show(const struct asked *asked, const struct ended *ended, const unsigned char *answer) {
    if (strcmp(asked->command, "rim") == 0) {
        printf("%d ", (int)ended->algorithm);
        for (size_t i = 0; i < ended->length; i++)
            printf("%02x", answer[i]);
        putchar('\n');
    } else {
        fwrite(answer, 1, ended->length, stdout);
    }
}

/* The words of the command line; the file's path, or null where there is none. */
static const char *read_words(char **words, struct asked *asked, bool *once) {
    const char *path = NULL;
    asked->command = words[0];
    for (char **word = words + 1; *word != NULL; word++) {
        if (strcmp(*word, "--json") == 0)
            asked->json = true;
        else if (strcmp(*word, "--quiet") == 0)
            asked->quiet = true;
        else if (strcmp(*word, "--once") == 0)
            *once = true;
        else if (path == NULL)
            path = *word;
        else
            asked->launch = *word;
    }
    return path;
}

int main(int count, char **words) {
    struct asked asked = {0};
    struct given given;
    bool once = false;
    const char *path = count > 2 ? read_words(words + 1, &asked, &once) : NULL;
    if (path == NULL)
        return USAGE;
    if (!read_given(path, is_of_manifest(asked.command), &given))
        return NOT_READ;
    unsigned char *answer;
    struct ended ended = ask_all(&asked, &given, once, &answer);
    if (is_answer(ended.code))
        show(&asked, &ended, answer);
    free(answer);
    return wrong_count > 0 ? IS_WRONG : (int)ended.code;
}
