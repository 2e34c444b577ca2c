/* What callgrind is told; nothing where the program does not run under it. */
#include <valgrind/callgrind.h>

void count_from_here(void) { CALLGRIND_ZERO_STATS; }

void count_up_to_here(const char *name) { CALLGRIND_DUMP_STATS_AT(name); }
