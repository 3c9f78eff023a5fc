/* Every question about a plan, from C: for each source, identifier and device, absent ones among them, what the calls of
 * include/bench.h answer is tested by what they promise, with the plan file and the state beside it.
 *
 *     why [STATE] < PLAN     about the start state, or about the one in the file STATE
 *
 * Crossings: a device is as far as one that leads to it, plus one, and none leads farther than that. A chain is a way, as long as
 * that says, and no way as long begins with its first ports and a lower one. A cut has each port that leads out, with its first
 * cause. The text says the chain or the cut, or the number of what is refused. */
#include "bench.h"

/* The kit's compiler has no headers of C's library. */
int open(const char *name, int how);
long read(int file, void *into, unsigned long bytes);
int printf(const char *format, ...);
int sprintf(char *text, const char *format, ...);
_Noreturn void exit(int status);
int memcmp(const void *one, const void *other, unsigned long bytes);
void *memset(void *to, int byte, unsigned long bytes);

/* The plan file, and the state as words and as the bytes of its file. */
static bench_u8 file[BENCH_FILE + 1];
static bench_size length;
static union {
    bench_u32 words[BENCH_STATE];
    bench_u8 bytes[4 * BENCH_STATE + 1];
} state;
static bench_u32 given;

/* What is asked, and what is answered. */
static bench_u32 source, k, device;
static bench_u32 crossings[BENCH_CROSSINGS], ports[BENCH_CHAIN], causes[BENCH_CUT], most, chain, count;
static bench_u8 text[BENCH_WHY + 1];

/* What a value's place has before a call: no call gives it. */
enum { BEFORE = 77777 };

/* How often: reached, not reached, refused. */
static unsigned long times[3];

static void check(int right, const char *what) {
    if (right)
        return;
    printf("why: %s: source %u, identifier %u, device %u\n", what, source, k, device);
    exit(1);
}

/* ---- the network, from the file and the state */

static bench_u32 devices(void) {
    return file[1];
}

static const bench_u8 *block_of(bench_u32 d) {
    return file + 512 * (1 + d);
}

/* The row of port q in the file: the device and the port at its other end, and its permissions. */
static const bench_u8 *row(bench_u32 q) {
    return block_of(q / 8) + 12 + 4 * (q % 8);
}

static int is_joined(bench_u32 q) {
    return row(q)[0] != 255;
}

static bench_u32 peer_of(bench_u32 q) {
    return 8 * row(q)[0] + row(q)[1];
}

/* Does port q drop interrupts of the identifier that is asked about? Of an absent one, which is refused, nothing is asked. */
static int bars(bench_u32 q) {
    return block_of(q / 8)[44 + 8 * (q % 8) + k / 8] >> k % 8 & 1;
}

/* The first that keeps an interrupt from going by a port that is joined, or 0. */
static bench_u32 cause_at(bench_u32 q) {
    if (!state.words[BENCH_PORTS + BENCH_PORT * q + BENCH_RUNNING])
        return BENCH_STOPPED;
    if (!(row(q)[2] & 1))
        return BENCH_MAY_NOT_SEND;
    if (!(row(peer_of(q))[2] & 2))
        return BENCH_MAY_NOT_RECEIVE;
    if (bars(peer_of(q)))
        return BENCH_BARRED;
    return block_of(q / 8)[2] || q / 8 == source ? 0 : BENCH_DOES_NOT_FORWARD;
}

static int goes(bench_u32 q) {
    return is_joined(q) && !cause_at(q);
}

static int is_reached(bench_u32 d) {
    return crossings[d] != BENCH_UNREACHED;
}

/* ---- what is answered */

/* The number that a call has to answer, which asks about one device, and one more. */
static bench_u32 refusal(bench_u32 other) {
    if (source >= devices() || other >= devices())
        return 4;
    if (k > 31)
        return 5;
    return block_of(source)[4 + k / 8] >> k % 8 & 1 ? 0 : 6;
}

/* Beside a refusal a value is 0 and an area as it was: filled with ones. */
static int is_left(bench_u32 value, const bench_u32 *area, unsigned words) {
    int left = value == 0;
    for (unsigned i = 0; i < words; i++)
        left &= area[i] == (bench_u32)-1;
    return left;
}

/* No port leads to a device that is farther by more than one, and to each but the source one leads from a device nearer by one. */
static void check_crossings(void) {
    bench_u32 led[32] = {0}, farthest = 0;
    check(crossings[source] == 0, "the source is not 0 crossings from itself");
    for (bench_u32 q = 0; q < 8 * devices(); q++) {
        bench_u32 d = q / 8;
        if (!is_reached(d) || !goes(q))
            continue;
        check(crossings[row(q)[0]] <= crossings[d] + 1, "a device is farther than a port leads");
        led[row(q)[0]] |= crossings[row(q)[0]] == crossings[d] + 1;
    }
    for (bench_u32 d = 0; d < 32; d++) {
        check(!is_reached(d) || d == source || led[d], "nothing leads to a device");
        if (is_reached(d) && crossings[d] > farthest)
            farthest = crossings[d];
    }
    check(most == farthest, "the farthest is not so far");
}

static void check_cut(void) {
    bench_u32 out = 0;
    for (bench_u32 q = 0; q < BENCH_CUT; q++) {
        int leads_out = q < 8 * devices() && is_joined(q) && is_reached(q / 8) && !is_reached(row(q)[0]);
        check(causes[q] == (leads_out ? cause_at(q) : 0), "a port has another cause");
        check(!leads_out || causes[q], "a port leads out and nothing keeps it");
        out += leads_out;
    }
    check(count == out, "so many ports do not lead out");
}

/* The devices that interrupts get to by one port from a set of them. */
static bench_u32 next_from(bench_u32 set) {
    bench_u32 next = 0;
    for (bench_u32 q = 0; q < 8 * devices(); q++)
        if (set >> q / 8 & 1 && goes(q))
            next |= (bench_u32)1 << row(q)[0];
    return next;
}

/* No port below this one begins a way to the device that has so many ports in all. */
static void check_lowest(bench_u32 port, bench_u32 left) {
    bench_u32 set = 0;
    for (bench_u32 q = port / 8 * 8; q < port; q++)
        if (goes(q))
            set |= (bench_u32)1 << row(q)[0];
    for (; left > 1; left--)
        set = next_from(set);
    check(!(set >> device & 1), "a lower port leads there as fast");
}

static void check_chain(void) {
    bench_u32 at = source;
    check(chain == crossings[device], "the chain is not as long as the crossings");
    for (bench_u32 i = 0; i < BENCH_CHAIN; i++) {
        if (chain == BENCH_UNREACHED || i >= chain) {
            check(ports[i] == BENCH_NOBODY, "something stands behind the chain");
            continue;
        }
        check(ports[i] / 8 == at && goes(ports[i]), "a port of the chain leads nowhere");
        check_lowest(ports[i], chain - i);
        at = row(ports[i])[0];
    }
    check(chain == BENCH_UNREACHED || at == device, "the chain leads elsewhere");
}

/* ---- the text */

static unsigned put_text(char *wanted, bench_u32 number) {
    static const char *const names[] = {"", "stopped", "may-not-send", "may-not-receive", "does-not-forward", "barred"};
    char *at = wanted;
    if (number)
        return sprintf(at, "r%u\n", number);
    if (chain == BENCH_UNREACHED) {
        at += sprintf(at, "cut %u\n", count);
        for (bench_u32 q = 0; q < BENCH_CUT; q++)
            if (causes[q])
                at += sprintf(at, "%u %u %s\n", q / 8, q % 8, names[causes[q]]);
        return at - wanted;
    }
    at += sprintf(at, "reached %u\n", chain);
    for (bench_u32 i = 0; i < chain; i++)
        at += sprintf(at, "%u %u %u %u\n", ports[i] / 8, ports[i] % 8, row(ports[i])[0], row(ports[i])[1]);
    return at - wanted;
}

static void check_text(bench_u32 number) {
    static char wanted[BENCH_WHY + 1];
    bench_u32 used = BEFORE;
    memset(wanted, 255, sizeof wanted);
    memset(text, 255, sizeof text);
    unsigned due = put_text(wanted, number);
    wanted[due] = (char)255;
    check(!bench_why(file, length, given, state.bytes, given ? 4 * BENCH_STATE : 0, source, k, device, text, BENCH_WHY, &used),
          "the text is refused");
    check(used == due && !memcmp(text, wanted, sizeof text), "the text is another");
}

/* ---- what is asked */

/* What is asked about a source, for all devices. */
static int ask_source(void) {
    bench_u32 due = refusal(0);
    memset(crossings, 255, sizeof crossings);
    memset(causes, 255, sizeof causes);
    most = count = BEFORE;
    check(due == bench_crossings(file, length, state.words, BENCH_STATE, source, k, crossings, BENCH_CROSSINGS, &most),
          "crossings answers another number");
    check(due == bench_cut(file, length, state.words, BENCH_STATE, source, k, causes, BENCH_CUT, &count),
          "cut answers another number");
    if (due) {
        check(is_left(most, crossings, BENCH_CROSSINGS) && is_left(count, causes, BENCH_CUT), "a refusal changed something");
        return 0;
    }
    check_crossings();
    check_cut();
    return 1;
}

static void ask_device(void) {
    bench_u32 due = refusal(device);
    memset(ports, 255, sizeof ports);
    chain = BEFORE;
    check(due == bench_chain(file, length, state.words, BENCH_STATE, source, k, device, ports, BENCH_CHAIN, &chain),
          "chain answers another number");
    if (due)
        check(is_left(chain, ports, BENCH_CHAIN), "a refused chain changed something");
    else
        check_chain();
    check_text(due);
    times[due ? 2 : chain == BENCH_UNREACHED]++;
}

/* A source is asked about by every device. Of what is refused already, two are enough: the first, and the absent one. */
static void ask_all(void) {
    for (source = 0; source <= devices(); source++)
        for (k = 0; k <= 32; k++) {
            int done = ask_source();
            for (device = 0; device <= devices(); device += done ? 1 : devices())
                ask_device();
        }
}

static bench_size read_all(int from, bench_u8 *into, bench_size room) {
    bench_size all = 0;
    long got;
    while ((got = read(from, into + all, room - all)) > 0)
        all += got;
    return all;
}

int main(int words, char **names) {
    length = read_all(0, file, sizeof file);
    if (bench_start(file, length, state.words, BENCH_STATE)) {
        printf("why: no plan\n");
        return 1;
    }
    ask_all();
    given = words > 1;
    if (given) {
        check(read_all(open(names[1], 0), state.bytes, sizeof state.bytes) == 4 * BENCH_STATE, "no state");
        ask_all();
    }
    printf("reached %lu, not reached %lu, refused %lu\n", times[0], times[1], times[2]);
    return 0;
}
