/* What the examples share: the areas that they lend to the bench, how they read a plan and play a round, and what else goes on
 * in it.
 */
#include "bench.h"

/* The kit's compiler has no headers of C's library. */
long read(int file, void *into, unsigned long size);
int printf(const char *format, ...);
_Noreturn void exit(int status);

/* Where things stand in a plan file: in block 0, and in the block of a device. */
enum { BLOCK = 512, DEVICES = 1, LOADS = 2, EVENTS = 6, MASTER = 10, OWN_LOADS = 16, PAIR = 4 };
enum { ROLE = 2, SOURCES = 4, HANDLERS = 8, ROWS = 12, ROW = 4, PERMISSIONS = 2, BARS = 44, SET = 4 };

/* Roles. */
enum { NODE, ROUTER };

/* What a told word is about. */
enum { INTERRUPT = 1, ACKNOWLEDGE = 2, TIMEOUT = 3, TIME = 4 };

/* Rounds a crossing, with any traffic: 31 other identifiers may go first at each port, and a Time-Code before each code. */
enum { CROSSING = 64 };

/* An array as the two parameters that an area is. */
#define AREA(array) (array), sizeof(array) / sizeof *(array)

/* One byte more than a plan file can have shows that a file is too long. */
static bench_u8 file[BENCH_FILE + 1];
static bench_size length;

/* A round builds the next state in another area, so two of them take turns. */
static bench_u32 states[2][BENCH_STATE];
static int now;
static bench_u32 sent[BENCH_SENT];
static bench_u32 told[BENCH_TOLD];

/* Ends the program where a call was refused. */
static inline void must(const char *call, bench_u32 number) {
    if (number) {
        printf("%s is refused by %u\n", call, number);
        exit(1);
    }
}

/* Reads the plan, and ends the program where it is refused. */
static inline void read_plan(void) {
    long got;
    while ((got = read(0, file + length, sizeof file - length)) > 0)
        length += got;

    bench_u32 block;
    bench_u32 bad = bench_plan_read(file, length, &block);
    if (bad) {
        printf("the plan is refused by %u in block %u\n", bad, block);
        exit(1);
    }
}

static inline const bench_u8 *block_of(bench_u32 device) {
    return file + BLOCK * (1 + device);
}

/* Is an identifier in a set of a device's block, which stands at this place? */
static inline int has(bench_u32 device, bench_u32 set, bench_u32 k) {
    return block_of(device)[set + k / 8] >> k % 8 & 1;
}

/* Is an identifier an event, which is never acknowledged? */
static inline int is_event(bench_u32 k) {
    return file[EVENTS + k / 8] >> k % 8 & 1;
}

/* A load in block 0. */
static inline bench_u32 load_at(bench_u32 place) {
    return file[place] + 256 * file[place + 1];
}

/* What devices of a role load the timer of k with: its own load, or the common one where it has none. That of routers stands
 * before that of nodes, and is at most that. */
static inline bench_u32 load_of(bench_u32 k, int role) {
    bench_u32 behind = role == ROUTER ? 0 : 2, own = load_at(OWN_LOADS + PAIR * k + behind);
    return own ? own : load_at(LOADS + behind);
}

/* No timer of k may end within so many rounds. */
static inline void must_last(bench_u32 k, bench_u32 rounds) {
    bench_u32 load = load_of(k, ROUTER);
    if (load <= rounds) {
        printf("timers are too short: a load is %u, and has to be above %u\n", load, rounds);
        exit(1);
    }
}

/* Whoever may request another identifier than k does so, and whoever may acknowledge one. What is refused changes nothing. */
static inline void use_others(bench_u32 k) {
    for (bench_u32 d = 0; d < file[DEVICES]; d++)
        for (bench_u32 other = 0; other < 32; other++) {
            if (other != k && has(d, SOURCES, other))
                bench_request(file, length, AREA(states[now]), d, other);
            if (other != k && has(d, HANDLERS, other))
                bench_acknowledge(file, length, AREA(states[now]), d, other);
        }
}

/* The host of the master ticks. Where none of its ports runs it is refused, which changes nothing. */
static inline void tick(void) {
    if (file[MASTER])
        bench_tick(file, length, AREA(states[now]), file[MASTER] - 1);
}

/* Plays a round, and gives the number of words that hosts are told. */
static inline bench_u32 play_round(void) {
    bench_u32 count;
    must("round", bench_round(file, length, AREA(states[now]), AREA(states[!now]), AREA(sent), AREA(told), &count));
    now = !now;
    return count;
}

/* Does a device hold an identifier, or does it wait at a port, as an interrupt or as an acknowledge? */
static inline int is_anywhere(bench_u32 k) {
    bench_u32 any = 0;
    for (bench_u32 d = 0; d < 32; d++)
        any |= states[now][BENCH_DEVICE * d];
    for (bench_u32 q = 0; q < 256; q++)
        any |= states[now][BENCH_PORTS + BENCH_PORT * q] | states[now][BENCH_PORTS + BENCH_PORT * q + 1];
    return any >> k & 1;
}
