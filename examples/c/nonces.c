/* The nonce story in C. A broker encrypts each message under a counter and keeps counter -> slot in the index. It saves the
 * words, goes on, and an operator brings the saved words back: the saved pairs are back, and the next counter is still a fresh
 * one, because the arena that is restored onto has kept its mark. An arena that is lost has not: see broker.c.
 *
 * tools/try compiles this, runs it and compares what it writes with nonces.txt. */
#include "cuffgarnet.h"

#include <stdio.h>
#include <stdlib.h>
#include <string.h>

enum { NODES = 64, ROOM = 8 };

static uint64_t arena[CUFFGARNET_WORDS(NODES)];
static uint64_t image[CUFFGARNET_WORDS(NODES)];
static const uint64_t N = CUFFGARNET_WORDS(NODES);

/* A call's number, and what is written of it. */
static void say(const char *what, uint64_t number, uint64_t second) {
    printf("%-34s %llu %llu\n", what, (unsigned long long)number, (unsigned long long)second);
}

/* The next counter: above every key that was ever put, whatever was restored since. */
static uint64_t next_counter(void) {
    struct cuffgarnet_stats stats;
    if (cuffgarnet_stats(arena, N, &stats) != CUFFGARNET_DONE) {
        fprintf(stderr, "the arena is damaged\n");
        exit(1);
    }
    if (stats.seen == 0) return 1;
    if (stats.mark == UINT64_MAX) {
        fprintf(stderr, "all counters are spent\n");
        exit(1);
    }
    return stats.mark + 1;
}

static void say_stats(void) {
    struct cuffgarnet_stats s;
    say("stats", cuffgarnet_stats(arena, N, &s), 0);
    printf("    %llu pairs, %llu of %llu nodes free, height %llu, seen %llu, mark %llu\n", (unsigned long long)s.pairs, (unsigned long long)s.free,
           (unsigned long long)s.nodes, (unsigned long long)s.height, (unsigned long long)s.seen, (unsigned long long)s.mark);
}

static void list_all(void) {
    uint64_t out[2 * ROOM], written, more;
    uint64_t number = cuffgarnet_list(arena, N, CUFFGARNET_OPEN, 0, CUFFGARNET_OPEN, 0, out, 2 * ROOM, &written, &more);
    say("list all", number, written);
    for (uint64_t i = 0; i < written; i++)
        printf("    %llu -> %llu\n", (unsigned long long)out[2 * i], (unsigned long long)out[2 * i + 1]);
    if (more) printf("    and more\n");
}

int main(void) {
    uint64_t number, second, written, more;

    printf("cuffgarnet %s\n", cuffgarnet_version());
    say("format", cuffgarnet_format(arena, N), 0);
    for (int message = 0; message < 3; message++) {
        uint64_t counter = next_counter();
        number = cuffgarnet_put(arena, N, counter, 100 + counter, &second);
        say("put the next counter", number, second);
    }
    memcpy(image, arena, sizeof arena);

    number = cuffgarnet_put(arena, N, 9, 109, &second);
    say("put 9 -> 109", number, second);
    number = cuffgarnet_delete(arena, N, 2, &second);
    say("delete 2", number, second);
    list_all();

    /* how many messages between two counters, and which comes at a place: by the counts in the nodes, with no walk over the pairs */
    number = cuffgarnet_count(arena, N, CUFFGARNET_INCLUDED, 2, CUFFGARNET_INCLUDED, 9, &second);
    say("count from 2 to 9", number, second);
    number = cuffgarnet_rank(arena, N, 9, &second);
    say("rank of 9", number, second);
    uint64_t key, value;
    number = cuffgarnet_at(arena, N, second, &key, &value);
    say("key at that rank", number, key);
    number = cuffgarnet_at(arena, N, 3, &key, &value);
    say("key at rank 3", number, key);

    /* the retention job walks from the newest message down: the changes so far are counted as 0, a step with another count is refused */
    uint64_t cursor[CUFFGARNET_CURSOR_WORDS];
    number = cuffgarnet_last(arena, N, 0, cursor, CUFFGARNET_CURSOR_WORDS, &key, &value);
    say("cursor at the last key", number, key);
    number = cuffgarnet_previous(arena, N, 0, cursor, CUFFGARNET_CURSOR_WORDS, &key, &value);
    say("previous", number, key);
    number = cuffgarnet_previous(arena, N, 1, cursor, CUFFGARNET_CURSOR_WORDS, &key, &value);
    say("previous, another count", number, key);
    number = cuffgarnet_previous(arena, N, 0, cursor, CUFFGARNET_CURSOR_WORDS, &key, &value);
    say("previous", number, key);
    number = cuffgarnet_previous(arena, N, 0, cursor, CUFFGARNET_CURSOR_WORDS, &key, &value);
    say("previous", number, key);
    number = cuffgarnet_next(arena, N, 0, cursor, CUFFGARNET_CURSOR_WORDS, &key, &value);
    say("next", number, key);

    say("restore", cuffgarnet_restore(arena, N, image, N, 0), 0);
    say("restore, an older one is meant", cuffgarnet_restore(arena, N, image, N, CUFFGARNET_OLDER_IS_MEANT), 0);
    list_all();
    printf("next counter %llu\n", (unsigned long long)next_counter());
    say_stats();

    /* one check for all orders of a batch */
    const uint64_t orders[] = {
        CUFFGARNET_PUT, 10, 110, /**/ CUFFGARNET_GET, 10, 0, /**/ CUFFGARNET_DELETE, 1, 0, /**/ 7, 0, 0,
    };
    uint64_t answers[8];
    say("batch", cuffgarnet_batch(arena, N, orders, 12, answers, 8), 0);
    for (int i = 0; i < 4; i++) say("    an order", answers[2 * i], answers[2 * i + 1]);

    /* refusals change nothing */
    say("a batch of half an order", cuffgarnet_batch(arena, N, orders, 2, answers, 8), 0);
    second = 77;
    number = cuffgarnet_get(arena, N - 1, 1, &second);
    say("get in words of a wrong length", number, second);
    number = cuffgarnet_list(arena, N, 3, 0, CUFFGARNET_OPEN, 0, answers, 8, &written, &more);
    say("a bound of kind 3", number, written);
    number = cuffgarnet_list(arena, N, CUFFGARNET_INCLUDED, 6, CUFFGARNET_INCLUDED, 5, answers, 8, &written, &more);
    say("from 6 to 5", number, written);
    say("format 48 words", cuffgarnet_format(image, 48), 0);
    image[CUFFGARNET_WORD_PAIRS] += 1;
    say("restore a damaged image", cuffgarnet_restore(arena, N, image, N, CUFFGARNET_OLDER_IS_MEANT), 0);
    say("no words at all", cuffgarnet_check(NULL, 0), 0);
    return 0;
}
