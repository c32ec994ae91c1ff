/* Cuffgarnet for C and C++: an ordered index from 64-bit keys to 64-bit values over words that the caller lends.
 *
 * Link libcuffgarnet.a; nothing else is needed. `make install` puts it beside this header, and `pkg-config --cflags --libs cuffgarnet` says
 * where; in the repository it is target/staticlib/libcuffgarnet.a, which tools/library makes.
 *
 * Every call is proved: for any words that it is lent, what it returns and what every lent word holds when it ends
 * (crates/cuffgarnet/src/lib.rt). The caller's part, which no proof can see, is what Rust's references ask:
 *   - a pointer is aligned for uint64_t, and as many words as its length says may be read, and written unless const;
 *   - a pointer to one word (`second`, `written`, `more`, and `key` and `value` of cuffgarnet_at and of the cursor calls) is never NULL; a slice of
 *     length 0 may have any pointer, NULL too;
 *   - words that a call writes overlap no other words lent to the same call, and nobody else touches them meanwhile.
 *
 * Every call but cuffgarnet_format and cuffgarnet_load first checks the whole arena, which costs a few passes over its words (docs/SPEED.md);
 * cuffgarnet_batch does so once for all its orders. The check refuses broken structure. It is no checksum: a flipped bit in a
 * value, a key moved between its neighbours, or a mark lowered to a number that no key present exceeds, is believed. A lost or
 * torn arena can only be formatted, which forgets the mark. And nothing is proved of a call that is killed before it ends.
 * docs/OPERATING.md has the recipes: the mark in a second place, a checksum over the file, recovery.
 */
#ifndef CUFFGARNET_H
#define CUFFGARNET_H

#include <stddef.h>
#include <stdint.h>

#ifdef __cplusplus
extern "C" {
#endif

/* The version of this header and of the archive that was installed with it: three numbers as text, and as one number that rises. */
#define CUFFGARNET_VERSION "0.2.0"
#define CUFFGARNET_VERSION_NUMBER 2000 /* 1,000,000 a major, 1,000 a minor, 1 a patch */

/* The numbers that calls return, and that a batch writes for each order. From 3 on they are refusals: no lent word has
 * changed, but for the words of the answer (`second` and the like), which are written at every call and are then 0, and a cursor that
 * cuffgarnet_first, _last or _seek was to make. Where several would fit, the first of 7, 4, 8, 12, 5, 9, 6, 10, 3 or 11 is given; only
 * cuffgarnet_upgrade and cuffgarnet_join have 7 behind 4. */
enum cuffgarnet_answer {
    CUFFGARNET_DONE = 0,      /* put a new key; reserved; formatted; loaded; checked; listed; counted; restored; upgraded; cut; joined; batch run */
    CUFFGARNET_VALUE = 1,     /* get: found; put: replaced; delete: removed; the second word is the (former) value. at: there;
                               * a cursor call: at a pair */
    CUFFGARNET_ABSENT = 2,    /* get or delete: no such key; at: no pair at that rank; a cursor call: the end was reached */
    CUFFGARNET_NO_ROOM = 3,   /* put of an absent key, a load, a cut or a join lacks nodes */
    CUFFGARNET_BAD_ARENA = 4, /* the words are not a well-formed arena of format 2 (docs/RULES.md); of format 1, in upgrade */
    CUFFGARNET_BAD_RANGE = 5, /* start above end; or equal and both excluded; or a kind of bound that is none */
    CUFFGARNET_BAD_ORDER = 6, /* an order's code is not 1, 2, 3 or 4 */
    CUFFGARNET_BAD_SIZE = 7,  /* a length that cannot be: see format, load, batch, restore, upgrade, cut, join and the cursor calls */
    CUFFGARNET_BAD_IMAGE = 8, /* the image is not a well-formed arena */
    CUFFGARNET_STALE_CURSOR = 9, /* a step: the count is not the cursor's, or its place holds no pair and is no end */
    CUFFGARNET_NOT_RISING = 10, /* the keys of a run that was to be loaded do not rise strictly */
    CUFFGARNET_SPENT = 11,    /* reserve of a key that is not above the mark */
    CUFFGARNET_OLDER = 12     /* restore of an image with a lower mark, without the word that an older one is meant */
};

/* The kinds of bound. */
enum cuffgarnet_bound {
    CUFFGARNET_OPEN = 0,     /* no bound: its key is ignored */
    CUFFGARNET_INCLUDED = 1, /* the range begins or ends with the key */
    CUFFGARNET_EXCLUDED = 2  /* the range begins after the key, or ends before it */
};

/* The word of cuffgarnet_restore that an older image is meant. Every other word is a no. */
#define CUFFGARNET_OLDER_IS_MEANT 1u

/* A cursor is four words that the caller keeps: the count of changes that it was made or moved with, where it stands, its node and its
 * place there. At an end node and place are written 0 and not read. */
#define CUFFGARNET_CURSOR_WORDS 4u
enum cuffgarnet_stand {
    CUFFGARNET_BEFORE = 0, /* before the first pair */
    CUFFGARNET_ON = 1,     /* on the pair at a place of a node */
    CUFFGARNET_PAST = 2    /* past the last pair */
};

/* The codes of a batch's orders. */
enum cuffgarnet_code {
    CUFFGARNET_PUT = 1,
    CUFFGARNET_GET = 2,
    CUFFGARNET_DELETE = 3,
    CUFFGARNET_RESERVE = 4
};

/* The sizes of an arena: 10 words and 39 a node, 1 to 1,048,575 nodes. Its first word is the format number. */
#define CUFFGARNET_FORMAT 2u
#define CUFFGARNET_LARGEST 1048575u
#define CUFFGARNET_WORDS(nodes) (10u + 39u * (size_t)(nodes))

/* The same of format 1, which had no count of pairs in a node and 38 words. Only cuffgarnet_upgrade reads it. */
#define CUFFGARNET_WORDS_FORMAT_1(nodes) (10u + 38u * (size_t)(nodes))

/* Words of the header that a program may read once a check has passed; cuffgarnet_stats does both. */
#define CUFFGARNET_WORD_NODES 1  /* how many nodes there are, in use and free */
#define CUFFGARNET_WORD_HEIGHT 4 /* how many levels lie below the root */
#define CUFFGARNET_WORD_PAIRS 5  /* how many pairs there are */
#define CUFFGARNET_WORD_FREE 7   /* how many nodes are free */
#define CUFFGARNET_WORD_SEEN 8   /* 1 if there is a mark, else 0 */
#define CUFFGARNET_WORD_MARK 9   /* the largest key ever put or reserved, or brought by a load, a restore, a cut or a join; forgotten only
                                  * by format, and by load, upgrade and cut in the words that they write anew */

/* Formats n words as an empty arena, and forgets the mark. 0; 7 if n is not 10 + 39 N for an N of 1 to 1,048,575. */
uint64_t cuffgarnet_format(uint64_t *arena, uint64_t n);

/* Whether the words are a well-formed arena: its structure, not its values. 0; 4 if not. Changes nothing. */
uint64_t cuffgarnet_check(const uint64_t *arena, uint64_t n);

/* The value of a key. 1 and the value; 2 and 0 if absent; 4 and 0. Changes nothing. */
uint64_t cuffgarnet_get(const uint64_t *arena, uint64_t n, uint64_t key, uint64_t *second);

/* Puts a pair; an accepted put raises the mark to the key. 0 and 0 for a new key; 1 and the former value for a present
 * one; 3 and 0 if there is no room; 4 and 0. */
uint64_t cuffgarnet_put(uint64_t *arena, uint64_t n, uint64_t key, uint64_t value, uint64_t *second);

/* Takes a pair out; the mark stays. 1 and the value; 2 and 0 if absent; 4 and 0. */
uint64_t cuffgarnet_delete(uint64_t *arena, uint64_t n, uint64_t key, uint64_t *second);

/* Spends a counter when it is handed out, before its message is put: a key above the mark (any key, if nothing was seen) becomes
 * the mark. 0; 4; 11 if the mark has reached the key. No pair is stored, and no free node is needed. */
uint64_t cuffgarnet_reserve(uint64_t *arena, uint64_t n, uint64_t key);

/* Runs one order by its code, as the call of that code would; 6 and 0 for a code that is none, behind 4. Get, delete
 * and reserve ignore the value. */
uint64_t cuffgarnet_order(uint64_t *arena, uint64_t n, uint64_t code, uint64_t key, uint64_t value, uint64_t *second);

/* Writes the first out_n / 2 pairs of a range to out, key then value, in rising order; further words of out stay. 0 with
 * how many pairs were written, and more 1 if pairs of the range remain, else 0; 4 or 5 with 0 and 0. */
uint64_t cuffgarnet_list(const uint64_t *arena, uint64_t n, uint64_t start_kind, uint64_t start, uint64_t end_kind,
                         uint64_t end, uint64_t *out, uint64_t out_n, uint64_t *written, uint64_t *more);

/* How many keys are smaller than a key, which may be present or not. 0 and the number; 4 and 0. Changes nothing. Behind the check it
 * costs one way down the tree, however many pairs are counted. */
uint64_t cuffgarnet_rank(const uint64_t *arena, uint64_t n, uint64_t key, uint64_t *second);

/* How many pairs a range has: as many as a listing with room for all would write. 0 and the number; 4 or 5 and 0. Changes nothing.
 * Behind the check it costs two ways down the tree. */
uint64_t cuffgarnet_count(const uint64_t *arena, uint64_t n, uint64_t start_kind, uint64_t start, uint64_t end_kind,
                          uint64_t end, uint64_t *second);

/* The pair at a rank, the smallest key's being 0. 1 with key and value; 2 with 0 and 0 if there are no more than `rank` pairs; 4 with
 * 0 and 0. Changes nothing. Behind the check it costs one way down the tree. */
uint64_t cuffgarnet_at(const uint64_t *arena, uint64_t n, uint64_t rank, uint64_t *key, uint64_t *value);

/* The walking cursor. The caller keeps a count of changes, raises it after each call that changes the arena, and passes it to every
 * cursor call; a cursor keeps the count that it was made or moved with. cursor_n is 4, any other length is 7 before everything, with
 * no word of the cursor written. Behind that and 4 each call answers 1 with key and value, or 2 with 0 and 0 where there is no pair
 * that way. The arena is only read, and checked whole at every call: who reads much takes cuffgarnet_list.
 *
 * First, last and seek make a cursor, whatever its words were: at the first pair, at the last one, at the first that a start bound admits
 * (5, behind 4, for a kind that is none). Finding none, or refused with 4 or 5, first and seek leave it past the last pair, last before
 * the first: the four words are then written too. */
uint64_t cuffgarnet_first(const uint64_t *arena, uint64_t n, uint64_t changes, uint64_t *cursor, uint64_t cursor_n,
                          uint64_t *key, uint64_t *value);
uint64_t cuffgarnet_last(const uint64_t *arena, uint64_t n, uint64_t changes, uint64_t *cursor, uint64_t cursor_n,
                         uint64_t *key, uint64_t *value);
uint64_t cuffgarnet_seek(const uint64_t *arena, uint64_t n, uint64_t changes, uint64_t kind, uint64_t bound,
                         uint64_t *cursor, uint64_t cursor_n, uint64_t *key, uint64_t *value);

/* Next and previous step to the neighbouring pair, from the cursor's place and with no search from the root. 9 exactly if the counts
 * differ, or the cursor's place holds no pair and is no end (no such node, a free one, a place past its length, a word `where` above
 * 2). A refused step leaves the cursor's words. A step past an end stays there; the opposite step returns to the end pair, in an empty tree
 * to the other end. */
uint64_t cuffgarnet_next(const uint64_t *arena, uint64_t n, uint64_t changes, uint64_t *cursor, uint64_t cursor_n,
                         uint64_t *key, uint64_t *value);
uint64_t cuffgarnet_previous(const uint64_t *arena, uint64_t n, uint64_t changes, uint64_t *cursor, uint64_t cursor_n,
                             uint64_t *key, uint64_t *value);

/* Runs orders in turn, three words each: code, key, value. Each gets two words of answers, its number and second word,
 * as the single call would answer; a refused one does not stop the rest. 0; 7 if orders_n is no multiple of 3 or
 * answers_n is not 2 words an order; 4. */
uint64_t cuffgarnet_batch(uint64_t *arena, uint64_t n, const uint64_t *orders, uint64_t orders_n, uint64_t *answers,
                          uint64_t answers_n);

/* Copies an image (the words of an arena, saved earlier) over the arena; the mark becomes the larger of the two. 0; 7 if
 * the lengths differ; 4; 8 if the image is not well-formed; 12 if its mark is lower than the arena's (or it has none, while the
 * arena has seen one) and `older` is not 1. The image does not change. A restore that is killed never lowers the mark,
 * but may leave pairs of both, so restore into a copy of the arena's file and rename it. */
uint64_t cuffgarnet_restore(uint64_t *arena, uint64_t n, const uint64_t *image, uint64_t image_n, uint64_t older);

/* Writes an arena of format 1 into a second slice, in format 2: the same nodes at the same numbers, the same free nodes, pairs and
 * mark, and each node's count. The target's old words do not matter, a mark in them is forgotten. The source does not change. 0; 4 if
 * the source is not a well-formed arena of format 1 (one of format 2 is none, and one whose free chain does not rise neither); then 7
 * if the target has not 10 + 39 N words for the source's N. No other call takes format 1: they answer 4, or 8 to it as an image. */
uint64_t cuffgarnet_upgrade(const uint64_t *source, uint64_t source_n, uint64_t *target, uint64_t target_n);

/* Loads a run of pairs that are in order already, key then value, into n words that it formats first; whatever the words held, a mark
 * too, is forgotten. The nodes are filled from the left, each to its 11 pairs; the mark is the last key, and there is none if the run is
 * empty. 0; 7 if run_n is odd, or n is not 10 + 39 N for an N of 1 to 1,048,575; then 10 if the keys do not rise strictly; then 3 if N
 * is less than cuffgarnet_nodes_for_load(run_n / 2). The run does not change. */
uint64_t cuffgarnet_load(uint64_t *arena, uint64_t n, const uint64_t *run, uint64_t run_n);

/* Cuts the pairs with keys from key on off the arena. They go into the upper_n words of upper, which are formatted for them and end as
 * a load of them leaves its words; whatever they held is forgotten. Both have the arena's mark then. 0; 7 if upper_n is not 10 + 39 N for
 * an N of 1 to 1,048,575; then 4 if the arena is not well-formed; then 3 if that N is less than cuffgarnet_nodes_for_load of the pairs
 * that go. The arena needs no free node, and cuffgarnet_rank tells before how many pairs stay. */
uint64_t cuffgarnet_cut(uint64_t *arena, uint64_t n, uint64_t key, uint64_t *upper, uint64_t upper_n);

/* Joins the second arena to the first. The first then holds the pairs of both, the second's value where a key is in both, in the words
 * that a load of them leaves; its mark is the larger of the marks seen. The second ends as formatted, with its own mark. The pairs are
 * also written to run, key then value, from its first word on; further words of it stay. 0; 4 if either is not well-formed; then 7 if
 * run_n is less than 2 for each pair of both, a key in both counted twice; then 3 if the first's N is less than
 * cuffgarnet_nodes_for_load of the pairs that it is to hold. */
uint64_t cuffgarnet_join(uint64_t *first, uint64_t first_n, uint64_t *second, uint64_t second_n, uint64_t *run,
                         uint64_t run_n);

/* The three functions below are C, and stand here: all that the archive exports is proved. */

/* What CUFFGARNET_VERSION was when this was compiled. */
static inline const char *cuffgarnet_version(void) { return CUFFGARNET_VERSION; }

/* How many nodes a load of so many pairs takes. No tree of so many pairs has fewer; one that grew by puts may have twice as many. */
static inline uint64_t cuffgarnet_nodes_for_load(uint64_t pairs) {
    uint64_t nodes = pairs / 12 + 1;
    while ((pairs /= 12) > 0) nodes += pairs / 12 + 1;
    return nodes;
}

/* What the header says of a checked arena. */
struct cuffgarnet_stats {
    uint64_t nodes;  /* in use and free */
    uint64_t free;   /* free nodes */
    uint64_t pairs;  /* how many pairs there are */
    uint64_t height; /* levels below the root */
    uint64_t seen;   /* 1 if there is a mark, else 0 */
    uint64_t mark;   /* see CUFFGARNET_WORD_MARK; 0 while seen is 0 */
};

/* How full an arena is and what it has spent, behind one check. 0; 4, and then every field is 0. The next counter is the mark plus 1,
 * unless the mark is UINT64_MAX: then all are spent. Changes nothing in the arena. */
static inline uint64_t cuffgarnet_stats(const uint64_t *arena, uint64_t n, struct cuffgarnet_stats *stats) {
    const uint64_t answer = cuffgarnet_check(arena, n);
    const int good = answer == CUFFGARNET_DONE;
    stats->nodes = good ? arena[CUFFGARNET_WORD_NODES] : 0;
    stats->free = good ? arena[CUFFGARNET_WORD_FREE] : 0;
    stats->pairs = good ? arena[CUFFGARNET_WORD_PAIRS] : 0;
    stats->height = good ? arena[CUFFGARNET_WORD_HEIGHT] : 0;
    stats->seen = good ? arena[CUFFGARNET_WORD_SEEN] : 0;
    stats->mark = good ? arena[CUFFGARNET_WORD_MARK] : 0;
    return answer;
}

#ifdef __cplusplus
}
#endif

#endif
