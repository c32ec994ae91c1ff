// absl::btree_map behind C's names, for bench.rs: the same orders and answers as a batch of ours.
#include "absl/container/btree_map.h"

#include <cstddef>
#include <cstdint>

using Map = absl::btree_map<uint64_t, uint64_t>;

// Orders are code, key, value; an answer is its number and second word.
static inline void run(Map *map, const uint64_t *orders, size_t n, uint64_t *answers) {
    for (size_t i = 0; i < n; i++, orders += 3, answers += 2) {
        uint64_t key = orders[1], number = 6, second = 0;
        if (orders[0] == 1) {
            auto [at, fresh] = map->try_emplace(key, orders[2]);
            number = fresh ? 0 : 1;
            if (!fresh) {
                second = at->second;
                at->second = orders[2];
            }
        } else if (orders[0] == 2) {
            auto at = map->find(key);
            number = at == map->end() ? 2 : 1;
            if (number == 1) second = at->second;
        } else if (orders[0] == 3) {
            auto at = map->find(key);
            number = at == map->end() ? 2 : 1;
            if (number == 1) {
                second = at->second;
                map->erase(at);
            }
        }
        answers[0] = number;
        answers[1] = second;
    }
}

extern "C" {

Map *absl_new() { return new Map; }

void absl_free(Map *map) { delete map; }

// The same twice: one under the name that callgrind counts, one to fill the map with.
__attribute__((noinline)) void timed_absl_batch(Map *map, const uint64_t *orders, size_t n, uint64_t *answers) {
    run(map, orders, n, answers);
}

__attribute__((noinline)) void absl_batch(Map *map, const uint64_t *orders, size_t n, uint64_t *answers) {
    run(map, orders, n, answers);
}

// All pairs, key then value, up to the room.
__attribute__((noinline)) size_t timed_absl_list(Map *map, uint64_t *out, size_t room) {
    size_t wrote = 0;
    for (auto at = map->begin(); at != map->end() && wrote < room; ++at, wrote++) {
        out[2 * wrote] = at->first;
        out[2 * wrote + 1] = at->second;
    }
    return wrote;
}
}
