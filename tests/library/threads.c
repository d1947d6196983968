/* Calls from 8 threads at a time, first all about one manifest and then each about another. Each answer is the one that a call alone has. Its words
   are manifests. What is wrong are lines on standard error, and the last line is `N calls, M wrong`. */
#include "given.h"

#include <pthread.h>
#include <stdio.h>
#include <stdlib.h>
#include <string.h>

enum { THREADS = 8, ROUNDS = 4, MANIFESTS = 8, ASKS = 4, MOST = 1 << 20 };

static const struct asked asks[ASKS] = {{.command = "measure"}, {.command = "measure", .json = true}, {.command = "audit"}, {.command = "check"}};

/* What a call has to end with. */
static struct expected {
    struct ended ended;
    unsigned char *answer;
} expected[MANIFESTS][ASKS];

static struct given manifests[MANIFESTS];
static size_t manifest_count;
static bool is_one;
static pthread_barrier_t together;

/* What a thread does: how many calls it made, and how many of them ended otherwise than expected. */
static struct worker {
    pthread_t thread;
    size_t number;
    int calls, others;
} workers[THREADS];

static void expect(size_t manifest, size_t i) {
    struct expected *to = &expected[manifest][i];
    to->answer = malloc(MOST);
    to->ended = ask(&asks[i], &manifests[manifest], to->answer, to->answer == NULL ? 0 : MOST);
}

static void look(struct worker *worker, size_t manifest, size_t i, unsigned char *room) {
    const struct expected *wanted = &expected[manifest][i];
    struct ended ended = ask(&asks[i], &manifests[manifest], room, MOST);
    bool is = ended.code == wanted->ended.code && ended.length == wanted->ended.length &&
              (!is_answer(ended.code) || memcmp(room, wanted->answer, ended.length) == 0);
    worker->calls++;
    worker->others += !is;
}

static void *work(void *at) {
    struct worker *worker = at;
    unsigned char *room = malloc(MOST);
    pthread_barrier_wait(&together);
    for (size_t i = 0; room != NULL && i < ROUNDS * ASKS; i++)
        look(worker, is_one ? 0 : (worker->number + i / ASKS) % manifest_count, (i + worker->number) % ASKS, room);
    worker->others += room == NULL;
    free(room);
    return NULL;
}

static void all_at_a_time(void) {
    pthread_barrier_init(&together, NULL, THREADS);
    for (size_t i = 0; i < THREADS; i++) {
        workers[i].number = i;
        if (pthread_create(&workers[i].thread, NULL, work, &workers[i]) != 0)
            exit(2);
    }
    for (size_t i = 0; i < THREADS; i++)
        pthread_join(workers[i].thread, NULL);
    pthread_barrier_destroy(&together);
}

int main(int count, char **words) {
    for (int i = 1; i < count && manifest_count < MANIFESTS; i++) {
        if (!read_given(words[i], true, &manifests[manifest_count]))
            return 2;
        for (size_t each = 0; each < ASKS; each++)
            expect(manifest_count, each);
        manifest_count++;
    }
    if (manifest_count == 0)
        return 2;
    is_one = true;
    all_at_a_time();
    is_one = false;
    all_at_a_time();
    int calls = 0, others = 0;
    for (size_t i = 0; i < THREADS; i++) {
        calls += workers[i].calls;
        others += workers[i].others;
    }
    printf("%d calls, %d wrong\n", calls, others);
    return others > 0;
}
