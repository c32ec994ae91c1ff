/* Two tenants in C: the messages from a counter on are cut off into an arena of their own, a cursor walks over them, and both are joined
 * again.
 *
 * tools/try compiles this, runs it and compares what it writes with tenants.txt. */
#include "cuffgarnet.h"

#include <stdio.h>

enum { NODES = 8, PAIRS = 40, WORDS = 10 + 39 * NODES };

static uint64_t lower[WORDS], upper[WORDS], run[2 * PAIRS];

static void say(const char *what, uint64_t number, uint64_t key, uint64_t value) {
    printf("%-34s %llu %llu %llu\n", what, (unsigned long long)number, (unsigned long long)key, (unsigned long long)value);
}

static void pairs(const char *what, const uint64_t *arena) {
    struct cuffgarnet_stats stats;
    const uint64_t number = cuffgarnet_stats(arena, WORDS, &stats);
    say(what, number, stats.pairs, stats.mark);
}

int main(void) {
    /* counters 10, 20, .., 400, each with its slot */
    for (uint64_t i = 0; i < PAIRS; i++) {
        run[2 * i] = 10 * (i + 1);
        run[2 * i + 1] = i;
    }
    say("load", cuffgarnet_load(lower, WORDS, run, 2 * PAIRS), 0, 0);
    pairs("pairs, mark", lower);

    /* as many nodes as the pairs that go take: those that rank does not count */
    uint64_t stay;
    uint64_t number = cuffgarnet_rank(lower, WORDS, 255, &stay);
    say("below 255", number, stay, 0);
    say("nodes for the others", 0, cuffgarnet_nodes_for_load(PAIRS - stay), 0);
    say("cut at 255 into one node", cuffgarnet_cut(lower, WORDS, 255, upper, CUFFGARNET_WORDS(1)), 0, 0);
    say("cut at 255", cuffgarnet_cut(lower, WORDS, 255, upper, WORDS), 0, 0);
    pairs("pairs, mark of what stays", lower);
    pairs("pairs, mark of what goes", upper);

    /* the count of changes is 0 until the first change */
    uint64_t cursor[CUFFGARNET_CURSOR_WORDS], key, value;
    number = cuffgarnet_first(upper, WORDS, 0, cursor, CUFFGARNET_CURSOR_WORDS, &key, &value);
    say("first", number, key, value);
    number = cuffgarnet_next(upper, WORDS, 0, cursor, CUFFGARNET_CURSOR_WORDS, &key, &value);
    say("next", number, key, value);
    uint64_t second;
    number = cuffgarnet_delete(upper, WORDS, key, &second);
    say("delete it", number, second, 0);
    number = cuffgarnet_next(upper, WORDS, 1, cursor, CUFFGARNET_CURSOR_WORDS, &key, &value);
    say("next, with the count 1", number, key, value);
    number = cuffgarnet_seek(upper, WORDS, 1, CUFFGARNET_INCLUDED, 270, cursor, CUFFGARNET_CURSOR_WORDS, &key, &value);
    say("seek from 270 on", number, key, value);
    number = cuffgarnet_previous(upper, WORDS, 1, cursor, CUFFGARNET_CURSOR_WORDS, &key, &value);
    say("previous", number, key, value);
    number = cuffgarnet_previous(upper, WORDS, 1, cursor, CUFFGARNET_CURSOR_WORDS, &key, &value);
    say("previous, before the first", number, key, value);
    number = cuffgarnet_last(upper, WORDS, 1, cursor, CUFFGARNET_CURSOR_WORDS, &key, &value);
    say("last", number, key, value);
    number = cuffgarnet_next(upper, WORDS, 1, cursor, 3, &key, &value);
    say("next with three words", number, key, value);

    /* two words for each pair of both */
    say("join with too short a run", cuffgarnet_join(lower, WORDS, upper, WORDS, run, 2 * PAIRS - 3), 0, 0);
    say("join", cuffgarnet_join(lower, WORDS, upper, WORDS, run, 2 * PAIRS), 0, 0);
    pairs("pairs, mark of the first", lower);
    pairs("pairs, mark of the second", upper);
    return 0;
}
