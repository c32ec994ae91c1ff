// For native.rs under callgrind: what runs between the two calls is one part of callgrind's file, under the name given. Without valgrind they do
// nothing. Counts by a function's name would need callgrind to follow calls and returns, which goes wrong on aarch64.
#include <valgrind/callgrind.h>

void collect_begin(void) {
    CALLGRIND_START_INSTRUMENTATION;
    CALLGRIND_ZERO_STATS;
}

void collect_end(const char *name) {
    CALLGRIND_DUMP_STATS_AT(name);
    CALLGRIND_STOP_INSTRUMENTATION;
}
