/* A migration in C: the old store hands out its pairs in order, the run is loaded into an arena of its own, and orders follow.
 *
 * tools/try compiles this, runs it and compares what it writes with load.txt. */
#include "cuffgarnet.h"

#include <stdio.h>
#include <stdlib.h>

enum { PAIRS = 1000 };

static uint64_t run[2 * PAIRS];

static void say(const char *what, uint64_t number, uint64_t second) {
    printf("%-34s %llu %llu\n", what, (unsigned long long)number, (unsigned long long)second);
}

int main(void) {
    /* the old store's counters rise by 3, each with its slot */
    for (uint64_t i = 0; i < PAIRS; i++) {
        run[2 * i] = 3 * i;
        run[2 * i + 1] = i;
    }

    /* as many nodes as the load takes, and some for what comes later; the words need no formatting */
    uint64_t nodes = cuffgarnet_nodes_for_load(PAIRS) + 20;
    uint64_t n = CUFFGARNET_WORDS(nodes);
    uint64_t *arena = malloc(n * sizeof *arena);
    if (arena == NULL) return 1;
    say("nodes for 1000 pairs, and 20 more", nodes, 0);
    say("load", cuffgarnet_load(arena, n, run, 2 * PAIRS), 0);
    say("check, pairs", cuffgarnet_check(arena, n), arena[CUFFGARNET_WORD_PAIRS]);
    say("free nodes", 0, arena[CUFFGARNET_WORD_FREE]);
    say("seen, mark", arena[CUFFGARNET_WORD_SEEN], arena[CUFFGARNET_WORD_MARK]);

    uint64_t number, second;
    number = cuffgarnet_get(arena, n, 300, &second);
    say("get 300", number, second);
    number = cuffgarnet_put(arena, n, arena[CUFFGARNET_WORD_MARK] + 1, 1000, &second);
    say("put the next counter", number, second);

    /* refusals change nothing */
    say("load of half a pair", cuffgarnet_load(arena, n, run, 3), 0);
    say("load into 48 words", cuffgarnet_load(arena, 48, run, 2), 0);
    say("load into too few nodes", cuffgarnet_load(arena, CUFFGARNET_WORDS(nodes - 21), run, 2 * PAIRS), 0);
    run[2] = 0;
    say("load of equal keys", cuffgarnet_load(arena, n, run, 2 * PAIRS), 0);
    say("check, pairs", cuffgarnet_check(arena, n), arena[CUFFGARNET_WORD_PAIRS]);

    /* nothing to load: an empty arena, and the mark is forgotten */
    say("load of nothing", cuffgarnet_load(arena, n, NULL, 0), 0);
    say("seen, mark", arena[CUFFGARNET_WORD_SEEN], arena[CUFFGARNET_WORD_MARK]);
    free(arena);
    return 0;
}
