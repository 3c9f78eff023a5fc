/* The state of a network in a file, for the program why: the plan's network starts, and the link at port 0 of its last device
 * is stopped.
 *
 *     bin/example snapshot < examples/causes.plan > state
 *     bin/why 0 5 6 state < examples/causes.plan
 *
 * A state file is the words of a state as they stand in memory, four bytes each, the low one first. So the essential part is
 * three lines: a state, what happens to it, and fwrite.
 */
#include "host.h"

extern struct FILE *stdout;
unsigned long fwrite(const void *from, unsigned long size, unsigned long count, struct FILE *to);
int fflush(struct FILE *of);

int main(void) {
    read_plan();
    must("start", bench_start(file, length, AREA(states[now])));
    must("link", bench_link(file, length, AREA(states[now]), file[DEVICES] - 1, 0, 0));
    return fwrite(states[now], 4, BENCH_STATE, stdout) != BENCH_STATE || fflush(stdout);
}
