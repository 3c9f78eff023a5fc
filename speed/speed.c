/* What a call costs, as C makes it: in ours, in plain C, and in the judge's C (conformance/), all in one process. A line of
   the table has the call, the devices, how many identifiers wait at each port, the median microseconds of each, and the
   ratio of ours to each of theirs. All three have to come to the same. */
#include "plain.h"

struct timespec {
    long s, ns;
};
int open(const char *, int);
int close(int);
long read(int, void *, usize);
int printf(const char *, ...);
int clock_gettime(int, struct timespec *);
int memcmp(const void *, const void *, usize);
void *memcpy(void *, const void *, usize);
void *memset(void *, int, usize);
unsigned long strtoul(const char *, char **, int);
void exit(int);

/* The calls that are measured, of one bench. */
struct bench {
    __typeof__(plain_plan_read) *plan_read;
    __typeof__(plain_tick) *tick;
    __typeof__(plain_round) *round;
    __typeof__(plain_settle) *settle;
    __typeof__(plain_reach_ports) *reach_ports;
    __typeof__(plain_report) *report;
    __typeof__(plain_crossings) *crossings;
    __typeof__(plain_chain) *chain;
    __typeof__(plain_cut) *cut;
};
__typeof__(plain_plan_read) judge_plan_read;
__typeof__(plain_tick) judge_tick;
__typeof__(plain_round) judge_round;
__typeof__(plain_settle) judge_settle;
__typeof__(plain_reach_ports) judge_reach_ports;
__typeof__(plain_report) judge_report;
__typeof__(plain_crossings) judge_crossings;
__typeof__(plain_chain) judge_chain;
__typeof__(plain_cut) judge_cut;

enum { OURS, PLAIN, JUDGE, ALL };
static const struct bench benches[ALL] = {
    {bench_plan_read, bench_tick, bench_round, bench_settle, bench_reach_ports, bench_report, bench_crossings, bench_chain,
     bench_cut},
    {plain_plan_read, plain_tick, plain_round, plain_settle, plain_reach_ports, plain_report, plain_crossings, plain_chain,
     plain_cut},
    {judge_plan_read, judge_tick, judge_round, judge_settle, judge_reach_ports, judge_report, judge_crossings, judge_chain,
     judge_cut},
};

/* What a call is given: a plan, and the state before it. */
static u8 file[BENCH_FILE + 1];
static usize length;
static u32 before[BENCH_STATE];

/* What it gives. */
static struct given {
    u32 number, value, set, examined;
    u32 state[BENCH_STATE], sent[BENCH_SENT], told[BENCH_TOLD];
    u32 crossings[BENCH_CROSSINGS], ports[BENCH_CHAIN], causes[BENCH_CUT];
    u8 text[BENCH_TEXT];
} given[ALL];

/* ---- the calls */

typedef void call(const struct bench *, struct given *);

static void plan_read(const struct bench *b, struct given *g) {
    g->number = b->plan_read(file, length, &g->value);
}

static void tick(const struct bench *b, struct given *g) {
    memcpy(g->state, before, sizeof before);
    g->number = b->tick(file, length, g->state, BENCH_STATE, 0);
}

static void round(const struct bench *b, struct given *g) {
    g->number = b->round(file, length, before, BENCH_STATE, g->state, BENCH_STATE, g->sent, BENCH_SENT, g->told, BENCH_TOLD,
                         &g->value);
}

static void settle(const struct bench *b, struct given *g) {
    memcpy(g->state, before, sizeof before);
    g->number = b->settle(file, length, g->state, BENCH_STATE, BENCH_ROUNDS, &g->value);
}

static void reach(const struct bench *b, struct given *g) {
    g->number = b->reach_ports(file, length, before, BENCH_STATE, 0, 5, &g->value, &g->set, &g->examined);
}

static void report(const struct bench *b, struct given *g) {
    g->number = b->report(file, length, g->text, BENCH_TEXT, &g->value);
}

static void crossings(const struct bench *b, struct given *g) {
    g->number = b->crossings(file, length, before, BENCH_STATE, 0, 5, g->crossings, BENCH_CROSSINGS, &g->value);
}

/* To the device in the middle, which is the farthest in a network of the kind below. */
static void chain(const struct bench *b, struct given *g) {
    g->number = b->chain(file, length, before, BENCH_STATE, 0, 5, file[1] / 2, g->ports, BENCH_CHAIN, &g->value);
}

static void cut(const struct bench *b, struct given *g) {
    g->number = b->cut(file, length, before, BENCH_STATE, 0, 5, g->causes, BENCH_CUT, &g->value);
}

/* ---- the measure */

static double now(void) {
    struct timespec t;
    clock_gettime(1, &t);
    return t.s * 1e9 + t.ns;
}

static double timed(call *work, int which, int turns) {
    double begun = now();
    for (int i = 0; i < turns; i++)
        work(&benches[which], &given[which]);
    return (now() - begun) / turns;
}

static double median(double *x, int n) {
    for (int i = 1; i < n; i++)
        for (int j = i; j > 0 && x[j] < x[j - 1]; j--) {
            double y = x[j];
            x[j] = x[j - 1];
            x[j - 1] = y;
        }
    return x[n / 2];
}

static void must_agree(const char *what) {
    for (int which = 1; which < ALL; which++)
        if (memcmp(&given[OURS], &given[which], sizeof given[OURS])) {
            printf("%s comes to something else in C\n", what);
            exit(1);
        }
}

/* A call that has no row in the table, once by each. */
static void compare(const char *what, call *work) {
    memset(given, 0, sizeof given);
    for (int which = 0; which < ALL; which++)
        work(&benches[which], &given[which]);
    must_agree(what);
}

/* How often each is timed. */
enum { MOST_RUNS = 31 };
static int runs;

/* All three in turn, many times, as a machine's pace changes meanwhile. Of each the median time is printed, and the ratios
   are those of these medians, so that they are what the times beside them say. */
static void race(const char *what, const char *waiting, call *work) {
    double t[ALL][MOST_RUNS], us[ALL];
    memset(given, 0, sizeof given);
    for (int which = 0; which < ALL; which++)
        t[which][0] = timed(work, which, 1);
    int turns = 1 + 1e6 / t[PLAIN][0];
    for (int run = 0; run < runs; run++)
        for (int which = 0; which < ALL; which++)
            t[which][run] = timed(work, which, turns);
    must_agree(what);
    for (int which = 0; which < ALL; which++)
        us[which] = median(t[which], runs) / 1000;
    printf("| %s | %u | %s | %.2f | %.2f | %.2f | %.2f | %.2f |\n", what, file[1], waiting, us[OURS], us[PLAIN], us[JUDGE],
           us[OURS] / us[PLAIN], us[OURS] / us[JUDGE]);
}

/* ---- networks of any size */

/* Where block 0 has the set of events and a pair of loads for each identifier, and the block of a device what its ports bar. */
enum { EVENTS = 6, PAIRS = 16, BARS = 44 };

static void seal(u8 *block) {
    u32 sum = 0;
    for (u32 i = 0; i < 510; i++)
        sum += (i + 1) * block[i];
    block[510] = sum % 65521 & 255;
    block[511] = sum % 65521 >> 8;
}

static u8 *entry(u32 d, u32 p) {
    return file + 512 * (1 + d) + 12 + 4 * p;
}

static void join(u32 d, u32 p, u32 e, u32 q) {
    memcpy(entry(d, p), (u8[]){e, q, 15, 0}, 4);
    memcpy(entry(e, q), (u8[]){d, p, 15, 0}, 4);
}

/* A node, the master and the source of all identifiers, and n - 1 routers, each joined to the four next ones and the four before
   it. */
static void mesh(u32 n) {
    length = 512 * (1 + n);
    memset(file, 0, length);
    memcpy(file, (u8[]){1, n, 0x60, 0xea, 0x60, 0xea, 0, 0, 0, 0, 1}, 11);
    for (u32 d = 0; d < n; d++) {
        u8 *block = file + 512 * (1 + d);
        memcpy(block, (u8[]){2, d, d > 0, d ? 8 : 1}, 4);
        memset(block + 4, d ? 0 : 255, 4);
        for (u32 p = 0; p < 8; p++)
            memcpy(entry(d, p), (u8[]){255, 255, 0, 0}, 4);
    }
    for (u32 i = 0; i < n - 1; i++)
        for (u32 j = 0; j < 4; j++)
            if (i + j)
                join(1 + i, 2 * j, 1 + (i + j + 1) % (n - 1), 2 * j + 1);
    join(0, 0, 1, 0);
    for (u32 b = 0; b < 1 + n; b++)
        seal(file + 512 * b);
}

static u32 random(u32 x) {
    return x * 2654435761u * 1664525u + 1013904223u;
}

/* A state in which, of the identifiers in a set, every device holds some and every connected port waits with all, as
   interrupts or acknowledges. */
static void busy(u32 set) {
    bench_start(file, length, before, BENCH_STATE);
    for (u32 d = 0; d < file[1]; d++) {
        u32 *w = before + device_at(d);
        w[0] = random(d) & set;
        for (u32 k = 0; k < 32; k++)
            w[1 + k] = w[0] >> k & 1 ? 60000 : 0;
    }
    for (u32 q = 0; q < 8u * file[1]; q++) {
        u32 *w = before + port_at(q), some = random(1000 + q);
        if (w[BENCH_RUNNING])
            memcpy(w, (u32[]){set & some, set & ~some, some >> 27}, 12);
    }
}

/* A Time-Code waits at every connected port too, and half of the ports sent one last. Half of these Time-Codes are one more than
   the counter at the other end. */
static void with_times(void) {
    for (u32 q = 0; q < 8u * file[1]; q++)
        if (before[port_at(q) + BENCH_RUNNING])
            before[BENCH_TIMES + q] = 2 + (random(q) & 129);
}

/* The links between the first half of the devices and the others are stopped. */
static void parted(void) {
    for (u32 q = 0; q < 4u * file[1]; q++) {
        const u8 *e = entry(q / 8, q % 8);
        if (e[0] != 255 && e[0] >= file[1] / 2)
            bench_link(file, length, before, BENCH_STATE, q / 8, q % 8, 0);
    }
}

/* Every second identifier is an event: of what waits, the acknowledges of these are ignored where they arrive. */
static void with_events(void) {
    memset(file + EVENTS, 0x55, 4);
    seal(file);
}

/* Every second port of a router bars half of the interrupts, 5 among them, and other acknowledges. Half of these ports have
   dropped so many that their counts come to the end. */
static void with_bars(void) {
    for (u32 d = 1; d < file[1]; d++) {
        for (u32 p = d % 2; p < 8; p += 2) {
            memset(file + 512 * (1 + d) + BARS + 8 * p, 0x33, 4);
            memset(file + 512 * (1 + d) + BARS + 8 * p + 4, 0x0f, 4);
            for (u32 kind = 0; kind < 2; kind++)
                before[BENCH_DROPS + 2 * (8 * d + p) + kind] = p / 2 % 2 ? 65533 + kind : 0;
        }
        seal(file + 512 * (1 + d));
    }
}

/* Every second identifier has short loads of its own, at the node another than at the routers; where its timers run they have
   just been loaded. */
static void with_loads(void) {
    for (u32 k = 0; k < 32; k += 2) {
        memcpy(file + PAIRS + 4 * k, (u8[]){1 + k, 0, 64, k}, 4);
        for (u32 d = 0; d < file[1]; d++)
            if (before[device_at(d)] >> k & 1)
                before[device_at(d) + 1 + k] = d ? 1 + k : 64 + 256 * k;
    }
    seal(file);
}

/* Of the node's timers, which have just been loaded, the first is one above its load: the state is not sound. */
static void over_load(void) {
    before[device_at(0) + 1 + __builtin_ctz(before[device_at(0)])]++;
}

/* How the cost grows with devices, and with the identifiers that every port has waiting. */
static void growth(u32 n) {
    static const u32 sets[] = {0, 1, 0xff, 0xffffffff};
    static const char *const names[] = {"0", "1", "8", "32"};
    mesh(n);
    race("read a plan", "", plan_read);
    busy(0);
    race("reach", "", reach);
    race("crossings", "", crossings);
    race("chain", "", chain);
    parted();
    race("cut", "", cut);
    busy(0);
    race("tick", "", tick);
    for (u32 i = 0; i < 4; i++) {
        busy(sets[i]);
        race("a round", names[i], round);
    }
    with_times();
    race("a round", "32, time", round);
    for (u32 i = 1; i < 4; i += 2) {
        busy(sets[i]);
        race("settle", names[i], settle);
    }
    with_events();
    compare("a round with events", round);
    compare("settle with events", settle);
    with_bars();
    compare("a round with bars", round);
    compare("settle with bars", settle);
    compare("reach with bars", reach);
    compare("crossings with bars", crossings);
    compare("a chain with bars", chain);
    compare("a cut with bars", cut);
    with_loads();
    compare("a round with loads", round);
    compare("settle with loads", settle);
    over_load();
    compare("a round over a load", round);
}

static void report_of(const char *name) {
    int from = open(name, 0);
    long got;
    length = 0;
    while ((got = read(from, file + length, sizeof file - length)) > 0)
        length += got;
    close(from);
    race(name, "", report);
}

/* speed RUNS PLAN... */
int main(int count, char **words) {
    runs = strtoul(words[1], 0, 10);
    if (runs < 1 || runs > MOST_RUNS)
        return 2;
    printf("| call | devices | waiting | ours, us | C, us | judge, us | to C | to the judge |\n");
    printf("|---|---|---|---|---|---|---|---|\n");
    for (u32 n = 2; n <= 32; n *= 4)
        growth(n);
    for (int i = 2; i < count; i++)
        report_of(words[i]);
    return 0;
}
