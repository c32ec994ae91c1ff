/* A broker that keeps its index in a mapped file, is killed in the middle of its work again and again, and never uses a counter
 * twice. It follows docs/OPERATING.md. A child sends messages in batches; the parent kills it, recovers, and starts the next.
 *
 *     broker FOLDER      four files are made there
 *
 * Standard output is the same in every run (broker.txt); how many arenas were torn goes to standard error. tools/try compiles
 * this, runs it and compares. rust/examples/broker.rs is the same in Rust. */
#define _DEFAULT_SOURCE
#include "cuffgarnet.h"

#include <fcntl.h>
#include <signal.h>
#include <stdio.h>
#include <stdlib.h>
#include <sys/mman.h>
#include <sys/stat.h>
#include <sys/wait.h>
#include <unistd.h>

enum {
    NODES = 3000,
    WORDS = CUFFGARNET_WORDS(NODES),
    BATCH = 5000, /* messages sent behind one check and one sync */
    KEPT = 5000,  /* messages that wait for delivery; older ones are deleted */
    KILLS = 20,
    MOST = 500 /* kills, at most, until a torn arena was met */
};

/* The files, in the folder that is the working directory. */
static const char *const ARENA = "arena"; /* the index */
static const char *const SAVED = "saved"; /* the second place: a counter that no message has passed */
static const char *const IMAGE = "image"; /* a copy of the arena, taken now and then */
static const char *const USED = "used";   /* every counter that was encrypted under: this example's judge, no part of a broker */

static void must(int good, const char *what) {
    if (good) return;
    perror(what);
    exit(1);
}

/* Writes a file so that it is either the old one or the new one, whatever happens meanwhile. */
static void replace(const char *path, const uint64_t *words, size_t n) {
    int file = open("new", O_WRONLY | O_CREAT | O_TRUNC, 0600);
    must(file >= 0, "open");
    must(write(file, words, 8 * n) == (ssize_t)(8 * n), "write");
    must(fsync(file) == 0 && close(file) == 0, "fsync");
    must(rename("new", path) == 0, "rename");
    int folder = open(".", O_RDONLY);
    must(folder >= 0 && fsync(folder) == 0 && close(folder) == 0, "fsync of the folder");
}

/* Reads up to n words of a file; how many there were, 0 if there is no file. */
static size_t read_words(const char *path, uint64_t *words, size_t n) {
    int file = open(path, O_RDONLY);
    if (file < 0) return 0;
    ssize_t got = read(file, words, 8 * n);
    must(got >= 0 && close(file) == 0, "read");
    return (size_t)got / 8;
}

/* Maps the whole arena: what is written to the words is in the file, for other processes at once, on the disk after msync.
 * NULL if there is no such file or it has another length. */
static uint64_t *map(void) {
    struct stat about;
    int file = open(ARENA, O_RDWR);
    if (file < 0) return NULL;
    must(fstat(file, &about) == 0, "fstat");
    void *at = about.st_size == 8 * WORDS ? mmap(NULL, 8 * WORDS, PROT_READ | PROT_WRITE, MAP_SHARED, file, 0) : NULL;
    must(at != MAP_FAILED && close(file) == 0, "mmap");
    return at;
}

/* The next counter, above every one that was ever put, of an arena that was checked. */
static uint64_t next_counter(const uint64_t *arena) {
    if (arena[CUFFGARNET_WORD_SEEN] == 0) return 1;
    must(arena[CUFFGARNET_WORD_MARK] <= UINT64_MAX - BATCH, "all counters are spent");
    return arena[CUFFGARNET_WORD_MARK] + 1;
}

/* Writes one order of a batch. */
static void order(uint64_t *orders, uint64_t at, uint64_t code, uint64_t key, uint64_t value) {
    orders[3 * at] = code;
    orders[3 * at + 1] = key;
    orders[3 * at + 2] = value;
}

/* The broker: sends batch after batch, until it is killed. */
static void work(void) {
    static uint64_t orders[6 * BATCH], answers[4 * BATCH], oldest[2 * BATCH], counters[BATCH];
    uint64_t *arena = map(), written, more;
    int used = open(USED, O_WRONLY | O_CREAT | O_APPEND, 0600);
    must(arena != NULL && used >= 0, "open");
    for (int turn = 0;; turn++) {
        must(cuffgarnet_check(arena, WORDS) == CUFFGARNET_DONE, "the arena is damaged");
        uint64_t first = next_counter(arena), last = first + BATCH - 1;
        replace(SAVED, &last, 1); /* 1. the second place first: no message passes this counter */
        uint64_t n = 0, pairs = arena[CUFFGARNET_WORD_PAIRS], room = pairs > KEPT ? pairs - KEPT : 0;
        if (room > BATCH) room = BATCH;
        must(cuffgarnet_list(arena, WORDS, CUFFGARNET_OPEN, 0, CUFFGARNET_OPEN, 0, oldest, 2 * room, &written, &more) == CUFFGARNET_DONE,
             "list");
        for (uint64_t i = 0; i < BATCH; i++) {
            if (i < written) order(orders, n++, CUFFGARNET_DELETE, oldest[2 * i], 0);
            order(orders, n++, CUFFGARNET_PUT, first + i, (first + i) % 977);
        }
        must(cuffgarnet_batch(arena, WORDS, orders, 3 * n, answers, 2 * n) == CUFFGARNET_DONE, "batch"); /* 2. behind one check */
        for (uint64_t i = 0; i < n; i++) must(answers[2 * i] < CUFFGARNET_NO_ROOM, "an order was refused");
        must(msync(arena, 8 * WORDS, MS_SYNC) == 0, "msync"); /* 3. made durable */
        for (int i = 0; i < BATCH; i++) counters[i] = first + (uint64_t)i;
        must(write(used, counters, sizeof counters) == sizeof counters, "write"); /* 4. only now messages are encrypted */
        if (turn % 2 == 0) replace(IMAGE, arena, WORDS);
    }
}

/* Raises the mark of an arena that was checked to the saved counter, if it is lower. */
static void raise_mark(uint64_t *arena) {
    uint64_t saved;
    if (read_words(SAVED, &saved, 1) != 1) return;
    if (arena[CUFFGARNET_WORD_SEEN] == 1 && arena[CUFFGARNET_WORD_MARK] >= saved) return;
    must(cuffgarnet_reserve(arena, WORDS, saved) == CUFFGARNET_DONE, "reserve"); /* raises the mark */
}

/* Recovery: a new arena is formatted, the saved mark reserved, the image restored; whole and durable, it takes the old one's place. */
static void recover(void) {
    static uint64_t arena[WORDS], image[WORDS];
    must(cuffgarnet_format(arena, WORDS) == CUFFGARNET_DONE, "format");
    raise_mark(arena);
    if (read_words(IMAGE, image, WORDS) == WORDS) /* the image's pairs, the larger of both marks */
        must(cuffgarnet_restore(arena, WORDS, image, WORDS, CUFFGARNET_OLDER_IS_MEANT) == CUFFGARNET_DONE, "restore");
    replace(ARENA, arena, WORDS);
}

/* What every start does: recovers if the arena is lost or torn, and raises the mark to the saved one. Hands out the next counter,
 * and whether the arena was refused. One that is still well-formed is taken as it is; docs/OPERATING.md says what that means for
 * its pairs. */
static uint64_t reopen(int *refused) {
    uint64_t *arena = map();
    *refused = arena == NULL || cuffgarnet_check(arena, WORDS) != CUFFGARNET_DONE;
    if (*refused) {
        if (arena != NULL) munmap(arena, 8 * WORDS);
        recover();
        arena = map();
        must(arena != NULL && cuffgarnet_check(arena, WORDS) == CUFFGARNET_DONE, "the recovered arena");
    }
    raise_mark(arena);
    uint64_t next = next_counter(arena);
    munmap(arena, 8 * WORDS);
    return next;
}

/* Starts a broker and kills it once its mark has reached a counter, in the middle of a batch. */
static void kill_at(uint64_t counter) {
    uint64_t *watched = map();
    int status = 0;
    must(watched != NULL, "open");
    fflush(stdout);
    pid_t child = fork();
    must(child >= 0, "fork");
    if (child == 0) work();
    for (unsigned turn = 1; *(volatile uint64_t *)&watched[CUFFGARNET_WORD_MARK] < counter; turn++)
        if (turn % 4096 == 0) must(waitpid(child, &status, WNOHANG) == 0, "the broker ended by itself");
    must(kill(child, SIGKILL) == 0 && waitpid(child, &status, 0) == child, "kill");
    must(WIFSIGNALED(status) && WTERMSIG(status) == SIGKILL, "the broker was not killed");
    munmap(watched, 8 * WORDS);
}

/* Every counter used so far rises, so none was used twice; and the next one is above them all. How many there are. */
static unsigned long judge(uint64_t next) {
    FILE *used = fopen(USED, "rb");
    uint64_t counter, before = 0;
    unsigned long n = 0;
    for (; used != NULL && fread(&counter, 8, 1, used) == 1; n++, before = counter) must(counter > before, "a counter is used twice");
    if (used != NULL) fclose(used);
    must(next > before, "a counter would be used twice");
    return n;
}

int main(int argc, char **argv) {
    static uint64_t fresh[WORDS];
    unsigned long kills = 0, torn = 0, sent = 0;
    uint64_t next = 1;
    int refused;

    if (argc != 2 || chdir(argv[1]) != 0) {
        fprintf(stderr, "usage: broker FOLDER\n");
        return 2;
    }
    printf("an index of %d nodes in a mapped file, messages in batches of %d\n", NODES, BATCH);
    must(cuffgarnet_format(fresh, WORDS) == CUFFGARNET_DONE, "format");
    replace(ARENA, fresh, WORDS);
    while (kills < KILLS || (torn == 0 && kills < MOST)) {
        kill_at(next + kills % 4 * BATCH + 1 + kills * 37 % 1000); /* another place of another batch each time */
        next = reopen(&refused);
        sent = judge(next);
        kills++;
        torn += refused != 0;
    }
    printf("killed %d times or more in the middle of a batch: each time the next counter was above every one used\n", KILLS);
    must(torn > 0, "no kill left a torn arena");
    printf("a torn arena was refused; recovered: format, reserve the saved mark, restore the image\n");
    fprintf(stderr, "%lu kills, %lu of them left a torn arena; %lu messages\n", kills, torn, sent);

    must(unlink(ARENA) == 0, "unlink");
    judge(reopen(&refused));
    must(refused, "the arena was not lost");
    printf("the arena's file was lost; recovered in the same way: the next counter was above every one used\n");
    printf("no counter was used twice\n");
    return 0;
}
