/* The SpaceWire interrupt bench, for C99 and C++ (x86-64 Linux). Include this and link crates/door/out/libdoor.a, which
 * `rt lib` makes in crates/door; it needs memcpy, memmove and memset, and nothing else.
 *
 * Every call takes any input, ends, and touches nothing but what it is lent. It returns a number: 0 for done, or that of
 * the first refusal, in the order given at the call. (bench_code_read returns a kind, and bench_react and bench_react_guarded what
 * a device does: these refuse nothing.)
 *
 *    2 a state that is not sound                8 none that runs may send the kind
 *    3 an area of the wrong length, or one      9 the bit is already so
 *      that cannot be lent (see below)         10 the link is already so
 *    4 no such source, device or port          11 an allowance above BENCH_ROUNDS
 *    5 an identifier or a value too great,     12 still waiting after the allowance
 *      or a code that nobody writes            13 an acknowledge of an event
 *    6 the device is there, and is no          14 a tick by another than the master
 *      source or no handler of it              20 to 27 a plan file that is not accepted
 *    7 no port runs, or the port leads         28 two ports are joined to a damaged one
 *      nowhere
 *
 * What is wrong with the file: 20 its length; of a block 21 the check, 22 the kind or the number, 23 a field, 24 a byte that has
 * to be 0; 25 the number of blocks; 26 a connection; 27 two sources of an identifier that is acknowledged. 28 is for bench_rescue
 * alone: two ports of good blocks are joined to one port of a damaged one. 1 is the number of a plan in memory that no file holds:
 * no call answers it here, where a plan is a file.
 *
 * Bytes 6 to 9 of a plan's first block are the set of its events: identifiers that nobody acknowledges, and that may have several
 * sources. Only a timer or a reset clears the bit of an event.
 *
 * What a timer is loaded with hangs on its identifier and on the role of its device. In the first block bytes 2 to 5 are the
 * common loads, that of routers and then that of nodes, two bytes each with the low one first. Bytes 16 to 143 are such a pair
 * for each identifier, that of k from 16 + 4 x k on. Where both numbers of the pair are 0, k takes the common loads; where one is
 * 0, or that of routers is above that of nodes, 23 is answered.
 *
 * Bytes 44 to 107 of a device's block are what its ports bar: from 44 + 8 x p on port p has a set of interrupts and then one of
 * acknowledges, four bytes each. A router drops such a code where it arrives, and counts it. At a node, and at a port that the
 * router lacks, the sets are empty, or 23 is answered.
 *
 * A refused call changes no area and gives 0 for a value, but for 12 (bench_settle) and 20 to 28 (bench_plan_read and
 * bench_rescue, which give the block). bench_report and bench_why are refused by 3 alone: what else is wrong stands in their text.
 * docs/RULES.md has the rules, and "The C door" there the numbers below.
 *
 * A plan is the bytes of its file. An area is a pointer and its length, in words or bytes; the lengths have names below.
 * Before anything else a call refuses by 3 what cannot be lent together: areas that share a byte with each other, with the
 * plan or with a value's place, words that are not aligned, null with a length, and a length that runs over the end of
 * memory. A value goes to any place, aligned or not; null says that it is not wanted. Beside that 3 it is 0 too, and is left
 * as it was only where its own place is shared.
 *
 * These tests are C and stand in this file: they are not proved, and tests/lending.sh tries them. What the archive does
 * behind them is proved for every input. What is left to the caller: that an area is as long as its length says.
 */
#ifndef BENCH_H
#define BENCH_H
#ifdef __cplusplus
extern "C" {
#endif

typedef unsigned char bench_u8;
typedef unsigned int bench_u32;
typedef unsigned long bench_size;

/* An address fits a bench_size: what is lent is compared so. */
typedef char bench_size_fits_an_address[sizeof(bench_size) == sizeof(void *) ? 1 : -1];

/* Lengths: of a state and of the areas for what is sent and told, in words; of the least area for a text and of the longest plan
 * file, in bytes. */
enum { BENCH_STATE = 2880, BENCH_SENT = 256, BENCH_TOLD = 1088, BENCH_TEXT = 14347, BENCH_FILE = 16896 };

/* Of the areas for crossings, for a chain and for a cut, in words; and of the least area for the text of why, in bytes. */
enum { BENCH_CROSSINGS = 32, BENCH_CHAIN = 32, BENCH_CUT = 256, BENCH_WHY = 5640 };

/* Of the least area for the text of a rescue, in bytes. */
enum { BENCH_RESCUE = 2848 };

/* The most rounds that may be allowed, and the word of a port that sent nothing. */
enum { BENCH_ROUNDS = 4096, BENCH_NOTHING = 256 };

/* The crossings of a device that is not reached, one more than any other is away; and the word of a chain behind its last port. */
enum { BENCH_UNREACHED = 32, BENCH_NOBODY = 256 };

/* Why interrupts of an identifier do not go by a port to a device that is not reached, the first that is so: the port does not
 * run; it may not send interrupts; the port at its other end may not receive them, or bars those of this identifier; its device is
 * a node, and not the source. So BENCH_BARRED is looked for before BENCH_DOES_NOT_FORWARD, whose number it leaves as it was. */
enum { BENCH_STOPPED = 1, BENCH_MAY_NOT_SEND, BENCH_MAY_NOT_RECEIVE, BENCH_DOES_NOT_FORWARD, BENCH_BARRED };

/* Where words stand in a state. Device d has its register at BENCH_DEVICE x d, and behind it its 32 timers, that of k at
 * BENCH_DEVICE x d + 1 + k: 0 where the bit of k is 0, and else what is left of the load of k at this device, 1 or more; a state
 * with more than the load is not sound. Port p of device d has BENCH_PORT words from BENCH_PORTS + BENCH_PORT x (8 x d + p) on:
 * two sets that wait, interrupts and acknowledges, then its next and whether it runs. Device d has its counter, 0 to 63, at
 * BENCH_COUNTERS + d. Port p of it has at BENCH_TIMES + 8 x d + p the Time-Code that waits plus 1, or 0 where none does, and 128
 * more where the last code that it sent was a Time-Code. At BENCH_DROPS + 2 x (8 x d + p) it has how many interrupts were dropped
 * there, as barred, and behind that how many acknowledges: up to 65,535 of each, where the count stays, and 0 at a node. */
enum { BENCH_DEVICE = 33, BENCH_PORTS = 1056, BENCH_PORT = 4, BENCH_NEXT = 2, BENCH_RUNNING = 3 };
enum { BENCH_COUNTERS = 2080, BENCH_TIMES = 2112, BENCH_DROPS = 2368 };

/* Kinds of code. */
enum { BENCH_TIME, BENCH_INTERRUPT, BENCH_ACKNOWLEDGE, BENCH_RESERVED };

/* What a device does with a code: names it, reports a link error, ignores it, forwards it, tells its host, drops it as barred. */
enum { BENCH_NAMED, BENCH_LINK_ERROR, BENCH_IGNORED, BENCH_FORWARDED, BENCH_TOLD_HOST, BENCH_DROPPED };

/* The stack that each call needs, in bytes, and each program, from its arguments down: measured by painting it and rounded up
 * (tests/stack.sh, which fails where one needs more). It covers the first call of a process, where memcpy, memmove and memset
 * may still have to be bound. Those of the reaction and of reach are for both their calls. */
enum {
    BENCH_STACK_CODE_READ = 256, BENCH_STACK_CODE_WRITE = 256, BENCH_STACK_REACT = 256, BENCH_STACK_PLAN_READ = 13312,
    BENCH_STACK_START = 13312, BENCH_STACK_REQUEST = 19456, BENCH_STACK_ACKNOWLEDGE = 19456, BENCH_STACK_LINK = 17408,
    BENCH_STACK_RESET = 16384, BENCH_STACK_TICK = 19456, BENCH_STACK_ROUND = 19456, BENCH_STACK_SETTLE = 30720,
    BENCH_STACK_REACH = 20480, BENCH_STACK_REPORT = 58368, BENCH_STACK_CROSSINGS = 21504, BENCH_STACK_CHAIN = 28672,
    BENCH_STACK_CUT = 26624, BENCH_STACK_WHY = 40960, BENCH_STACK_RESCUE = 61440,
    BENCH_STACK_PROGRAM_SETTLE = 89088, BENCH_STACK_PROGRAM_DECODE = 92160, BENCH_STACK_PROGRAM_WHY = 194560
};

/* ---- the archive's own symbols: for the functions below, which test what is lent, and for no other caller in C. One that had
 * other parameters once has a number behind its name, or another name, so that an object compiled with an older header does not
 * link. react_guarded is behind both functions of the reaction, in the place of react_4. */

bench_u32 bench_for_header_code_read_2(bench_u8 byte, bench_u32 *top, bench_u32 *value);
bench_u32 bench_for_header_code_write(bench_u32 kind, bench_u32 value, bench_u32 *byte);
bench_u32 bench_for_header_react_guarded(bench_u32 role, bench_u32 running, bench_u32 permissions, bench_u32 events,
                                         bench_u32 interrupts, bench_u32 acknowledges, bench_u32 *bits, bench_u32 *counter,
                                         bench_u8 byte, bench_u32 *kind, bench_u32 *top, bench_u32 *value);
bench_u32 bench_for_header_plan_read(const bench_u8 *file, bench_size file_length, bench_u32 *block);
bench_u32 bench_for_header_start(const bench_u8 *plan, bench_size plan_length, bench_u32 *state, bench_size state_length);
bench_u32 bench_for_header_request(const bench_u8 *plan, bench_size plan_length, bench_u32 *state, bench_size state_length,
                                   bench_size device, bench_u32 k);
bench_u32 bench_for_header_acknowledge(const bench_u8 *plan, bench_size plan_length, bench_u32 *state,
                                       bench_size state_length, bench_size device, bench_u32 k);
bench_u32 bench_for_header_link(const bench_u8 *plan, bench_size plan_length, bench_u32 *state, bench_size state_length,
                                bench_size device, bench_size port, bench_u32 running);
bench_u32 bench_for_header_tick(const bench_u8 *plan, bench_size plan_length, bench_u32 *state, bench_size state_length,
                                bench_size device);
bench_u32 bench_for_header_reset(const bench_u8 *plan, bench_size plan_length, bench_u32 *state, bench_size state_length,
                                 bench_size device);
bench_u32 bench_for_header_round(const bench_u8 *plan, bench_size plan_length, const bench_u32 *old, bench_size old_length,
                                 bench_u32 *next, bench_size next_length, bench_u32 *sent, bench_size sent_length,
                                 bench_u32 *told, bench_size told_length, bench_u32 *count);
bench_u32 bench_for_header_settle(const bench_u8 *plan, bench_size plan_length, bench_u32 *state, bench_size state_length,
                                  bench_u32 allowance, bench_u32 *rounds);
bench_u32 bench_for_header_reach_ports(const bench_u8 *plan, bench_size plan_length, const bench_u32 *state,
                                       bench_size state_length, bench_size device, bench_u32 k, bench_u32 *devices,
                                       bench_u32 *set, bench_u32 *examined);
bench_u32 bench_for_header_report(const bench_u8 *file, bench_size file_length, bench_u8 *text, bench_size text_length,
                                  bench_u32 *used);
bench_u32 bench_for_header_crossings(const bench_u8 *plan, bench_size plan_length, const bench_u32 *state,
                                     bench_size state_length, bench_size source, bench_u32 k, bench_u32 *crossings,
                                     bench_size crossings_length, bench_u32 *most);
bench_u32 bench_for_header_chain(const bench_u8 *plan, bench_size plan_length, const bench_u32 *state,
                                 bench_size state_length, bench_size source, bench_u32 k, bench_size device,
                                 bench_u32 *ports, bench_size ports_length, bench_u32 *crossings);
bench_u32 bench_for_header_cut(const bench_u8 *plan, bench_size plan_length, const bench_u32 *state, bench_size state_length,
                               bench_size source, bench_u32 k, bench_u32 *causes, bench_size causes_length,
                               bench_u32 *count);
bench_u32 bench_for_header_why(const bench_u8 *plan, bench_size plan_length, bench_u32 given, const bench_u8 *state,
                               bench_size state_length, bench_u32 source, bench_u32 k, bench_u32 device, bench_u8 *text,
                               bench_size text_length, bench_u32 *used);
bench_u32 bench_for_header_rescue(const bench_u8 *file, bench_size file_length, bench_u8 *mended, bench_size mended_length,
                                  bench_u8 *text, bench_size text_length, bench_u32 *block, bench_u32 *used);

/* ---- what can be lent together */

/* What a call is lent: the address, the bytes, and whether an area can be there at all. */
struct bench_lent {
    bench_size from, bytes;
    int there;
};

static inline struct bench_lent bench_lend(const void *at, bench_size length, bench_size width, bench_size alignment) {
    struct bench_lent area;
    area.from = (bench_size)at;
    area.bytes = length * width;
    area.there = length == 0 || (at && area.from % alignment == 0 && length <= ((bench_size)-1 - area.from) / width);
    return area;
}

static inline struct bench_lent bench_bytes(const bench_u8 *at, bench_size length) {
    return bench_lend(at, length, 1, 1);
}

static inline struct bench_lent bench_words(const bench_u32 *at, bench_size length) {
    return bench_lend(at, length, sizeof *at, sizeof *at);
}

/* The place of a value; null is none. */
static inline struct bench_lent bench_place(const bench_u32 *at) {
    return bench_lend(at, at != 0, sizeof *at, 1);
}

static inline int bench_share(struct bench_lent one, struct bench_lent other) {
    return one.bytes && other.bytes && one.from < other.from + other.bytes && other.from < one.from + one.bytes;
}

/* All areas of a call are there, and share nothing. */
static inline int bench_apart(const struct bench_lent *all, int count) {
    int i, j;
    for (i = 0; i < count; i++) {
        for (j = 0; j < i; j++)
            if (bench_share(all[i], all[j]))
                return 0;
        if (!all[i].there)
            return 0;
    }
    return 1;
}

/* A value goes byte by byte to or from where the caller has it, as the place need not be aligned. At null there is none: nothing
 * goes there, and what it goes to stays. */
static inline void bench_move(bench_u32 *to, const bench_u32 *from) {
    unsigned i;
    for (i = 0; to && from && i < sizeof *to; i++)
        ((bench_u8 *)to)[i] = ((const bench_u8 *)from)[i];
}

static inline void bench_put(bench_u32 *place, bench_u32 value) {
    bench_move(place, &value);
}

/* The value of a call that refuses what it is lent, whose place is the i-th of that: 0, or as it was where the place is shared. */
static inline void bench_put_none(const struct bench_lent *all, int count, int i, bench_u32 *place) {
    int j;
    for (j = 0; j < count; j++)
        if (j != i && bench_share(all[i], all[j]))
            return;
    bench_put(place, 0);
}

/* ---- codes, and one device: nothing is refused by 3. Register and counter are read before anything is put. Where places share
 * bytes, the register is put first, then the counter, and then the values in the order of the parameters, so that the last one
 * stands. */

/* The kind of the code in a byte. Its two top bits go to *top: 0 for a Time-Code, 2 for an interrupt or an acknowledge, 1 or 3 for
 * reserved. To *value goes the Time-Code's value, the identifier, or the low six bits of a reserved byte; that byte is 64 x top +
 * value. */
static inline bench_u32 bench_code_read(bench_u8 byte, bench_u32 *top, bench_u32 *value) {
    bench_u32 high, given, kind = bench_for_header_code_read_2(byte, &high, &given);
    bench_put(top, high);
    bench_put(value, given);
    return kind;
}

/* The byte of a code of a kind goes to *byte. 5: a Time-Code above 63, an identifier above 31, reserved, no kind at all. */
static inline bench_u32 bench_code_write(bench_u32 kind, bench_u32 value, bench_u32 *byte) {
    bench_u32 given, number = bench_for_header_code_write(kind, value, &given);
    bench_put(byte, given);
    return number;
}

/* One device gets a byte at a port: role 0 for a node, else a router; running 0 for no. The port of a router bars a set of
 * interrupts and one of acknowledges, which a node does not look at: where the port runs and may receive such a code, it is
 * dropped, whatever the bit is. Of an identifier in the set events an acknowledge is ignored, where the port runs and does not bar
 * it. The device's register is updated where it stands, at bits, and so is its counter, of which a number above 63 counts as its
 * remainder by 64; null for either is a 0 that nobody wants back. A Time-Code becomes the counter; where it is one above what that
 * was, modulo 64, it is forwarded or told, and else named. Returns what the device does; kind, top and value are those of the
 * byte, as bench_code_read gives them, whatever is done with it. */
static inline bench_u32 bench_react_guarded(bench_u32 role, bench_u32 running, bench_u32 permissions, bench_u32 events,
                                            bench_u32 interrupts, bench_u32 acknowledges, bench_u32 *bits, bench_u32 *counter,
                                            bench_u8 byte, bench_u32 *kind, bench_u32 *top, bench_u32 *value) {
    bench_u32 held = 0, count = 0, of, high, given, action;
    bench_move(&held, bits);
    bench_move(&count, counter);
    action = bench_for_header_react_guarded(role, running, permissions, events, interrupts, acknowledges, &held, &count, byte,
                                            &of, &high, &given);
    bench_put(bits, held);
    bench_put(counter, count);
    bench_put(kind, of);
    bench_put(top, high);
    bench_put(value, given);
    return action;
}

/* The same at a port that bars nothing. */
static inline bench_u32 bench_react(bench_u32 role, bench_u32 running, bench_u32 permissions, bench_u32 events,
                                    bench_u32 *bits, bench_u32 *counter, bench_u8 byte, bench_u32 *kind, bench_u32 *top,
                                    bench_u32 *value) {
    return bench_react_guarded(role, running, permissions, events, 0, 0, bits, counter, byte, kind, top, value);
}

/* ---- plans, and the calls between rounds */

/* Is the file a plan? 3; 20 to 27, with the block; the block of an accepted file is 0. */
static inline bench_u32 bench_plan_read(const bench_u8 *file, bench_size file_length, bench_u32 *block) {
    const struct bench_lent all[] = {bench_bytes(file, file_length), bench_place(block)};
    bench_u32 given, number;
    if (!bench_apart(all, 2)) {
        bench_put_none(all, 2, 1, block);
        return 3;
    }
    number = bench_for_header_plan_read(file, file_length, &given);
    bench_put(block, given);
    return number;
}

/* What the calls between rounds are lent: a plan and a state. */
static inline int bench_two_apart(const bench_u8 *plan, bench_size plan_length, const bench_u32 *state,
                                  bench_size state_length) {
    const struct bench_lent all[] = {bench_bytes(plan, plan_length), bench_words(state, state_length)};
    return bench_apart(all, 2);
}

/* The start state. 20 to 27; 3. */
static inline bench_u32 bench_start(const bench_u8 *plan, bench_size plan_length, bench_u32 *state, bench_size state_length) {
    if (!bench_two_apart(plan, plan_length, state, state_length))
        return 3;
    return bench_for_header_start(plan, plan_length, state, state_length);
}

/* The host of a device requests identifier k, or acknowledges it. 20 to 27; 2; 4; 5; 6; for an acknowledge 13; 7; 8; 9. */
static inline bench_u32 bench_request(const bench_u8 *plan, bench_size plan_length, bench_u32 *state, bench_size state_length,
                                      bench_size device, bench_u32 k) {
    if (!bench_two_apart(plan, plan_length, state, state_length))
        return 3;
    return bench_for_header_request(plan, plan_length, state, state_length, device, k);
}

static inline bench_u32 bench_acknowledge(const bench_u8 *plan, bench_size plan_length, bench_u32 *state,
                                          bench_size state_length, bench_size device, bench_u32 k) {
    if (!bench_two_apart(plan, plan_length, state, state_length))
        return 3;
    return bench_for_header_acknowledge(plan, plan_length, state, state_length, device, k);
}

/* The link at a port: running is what it is to be, 0 stops it and any other number starts it. 20 to 27; 2; 4; 7; 10 where it is
 * so already. A stop loses what waits at both ends, and makes their two Time-Code words 0; registers, timers, counters, where
 * searches begin and what was dropped stay. */
static inline bench_u32 bench_link(const bench_u8 *plan, bench_size plan_length, bench_u32 *state, bench_size state_length,
                                   bench_size device, bench_size port, bench_u32 running) {
    if (!bench_two_apart(plan, plan_length, state, state_length))
        return 3;
    return bench_for_header_link(plan, plan_length, state, state_length, device, port, running);
}

/* The host of the master ticks: its counter goes up by one, from 63 to 0, and the Time-Code is queued at all its ports that run.
 * 20 to 27; 2; 4; 14; 7. */
static inline bench_u32 bench_tick(const bench_u8 *plan, bench_size plan_length, bench_u32 *state, bench_size state_length,
                                   bench_size device) {
    if (!bench_two_apart(plan, plan_length, state, state_length))
        return 3;
    return bench_for_header_tick(plan, plan_length, state, state_length, device);
}

/* A device is reset: its register, timers and counter become 0, and so do the words of its ports, those of what was dropped there
 * too, but for whether they run. 20 to 27; 2; 4. */
static inline bench_u32 bench_reset(const bench_u8 *plan, bench_size plan_length, bench_u32 *state, bench_size state_length,
                                    bench_size device) {
    if (!bench_two_apart(plan, plan_length, state, state_length))
        return 3;
    return bench_for_header_reset(plan, plan_length, state, state_length, device);
}

/* ---- rounds, settling, reach, and the text */

/* One round from an old state. The word of the bytes sent at 8 x device + port is the byte that the port sent, or BENCH_NOTHING; a
 * word told has the identifier in its low byte, the device in the next, and above them 1 for an interrupt, 2 for an acknowledge or
 * 3 for a timeout; or 4 for a Time-Code, with its value in the low byte. How many words were told goes to *count, and behind them
 * are zeros. Of a code that a router drops, as barred, only its count in the next state tells. 20 to 27; 2; 3. */
static inline bench_u32 bench_round(const bench_u8 *plan, bench_size plan_length, const bench_u32 *old, bench_size old_length,
                                    bench_u32 *next, bench_size next_length, bench_u32 *sent, bench_size sent_length,
                                    bench_u32 *told, bench_size told_length, bench_u32 *count) {
    const struct bench_lent all[] = {bench_bytes(plan, plan_length), bench_words(old, old_length),
                                     bench_words(next, next_length), bench_words(sent, sent_length),
                                     bench_words(told, told_length), bench_place(count)};
    bench_u32 given, number;
    if (!bench_apart(all, 6)) {
        bench_put_none(all, 6, 5, count);
        return 3;
    }
    number = bench_for_header_round(plan, plan_length, old, old_length, next, next_length, sent, sent_length, told,
                                    told_length, &given);
    bench_put(count, given);
    return number;
}

/* Rounds until nothing waits at any port, no Time-Code either; how many goes to *rounds. 20 to 27; 2; 11; 12: still waiting,
 * *rounds is the allowance and the state is the one after it. */
static inline bench_u32 bench_settle(const bench_u8 *plan, bench_size plan_length, bench_u32 *state, bench_size state_length,
                                     bench_u32 allowance, bench_u32 *rounds) {
    const struct bench_lent all[] = {bench_bytes(plan, plan_length), bench_words(state, state_length), bench_place(rounds)};
    bench_u32 given, number;
    if (!bench_apart(all, 3)) {
        bench_put_none(all, 3, 2, rounds);
        return 3;
    }
    number = bench_for_header_settle(plan, plan_length, state, state_length, allowance, &given);
    bench_put(rounds, given);
    return number;
}

/* The devices that interrupts of k reach from a device: how many goes to *devices, and the set of them, bit d for device d, to
 * *set. To *examined goes what it took: how many ports were examined, those of the source and of every router that is reached,
 * each once, and unconnected ones too; at most 250. 20 to 27; 2; 4; 5; 6. */
static inline bench_u32 bench_reach_ports(const bench_u8 *plan, bench_size plan_length, const bench_u32 *state,
                                          bench_size state_length, bench_size device, bench_u32 k, bench_u32 *devices,
                                          bench_u32 *set, bench_u32 *examined) {
    const struct bench_lent all[] = {bench_bytes(plan, plan_length), bench_words(state, state_length), bench_place(devices),
                                     bench_place(set), bench_place(examined)};
    bench_u32 counted, reached, ports, number;
    if (!bench_apart(all, 5)) {
        bench_put_none(all, 5, 2, devices);
        bench_put_none(all, 5, 3, set);
        bench_put_none(all, 5, 4, examined);
        return 3;
    }
    number = bench_for_header_reach_ports(plan, plan_length, state, state_length, device, k, &counted, &reached, &ports);
    bench_put(devices, counted);
    bench_put(set, reached);
    bench_put(examined, ports);
    return number;
}

/* The same for whoever does not ask how many ports were examined. */
static inline bench_u32 bench_reach(const bench_u8 *plan, bench_size plan_length, const bench_u32 *state,
                                    bench_size state_length, bench_size device, bench_u32 k, bench_u32 *devices,
                                    bench_u32 *set) {
    return bench_reach_ports(plan, plan_length, state, state_length, device, k, devices, set, 0);
}

/* The text that the program settle prints for a file, accepted or not, in front of its area; its length goes to
 * *used. 3. */
static inline bench_u32 bench_report(const bench_u8 *file, bench_size file_length, bench_u8 *text, bench_size text_length,
                                     bench_u32 *used) {
    const struct bench_lent all[] = {bench_bytes(file, file_length), bench_bytes(text, text_length), bench_place(used)};
    bench_u32 given, number;
    if (!bench_apart(all, 3)) {
        bench_put_none(all, 3, 2, used);
        return 3;
    }
    number = bench_for_header_report(file, file_length, text, text_length, &given);
    bench_put(used, given);
    return number;
}

/* ---- why it got there, or not. A port leads to a device, for interrupts of k, where it runs and may send interrupts, and the
 * port at its other end, one of that device, may receive them and does not bar those of k. They go by such ports, from the source
 * and then from routers alone. */

/* What these calls are lent: a plan, a state, an area of words and the place of a value. Where that is refused, the value is put
 * here. */
static inline int bench_four_apart(const bench_u8 *plan, bench_size plan_length, const bench_u32 *state,
                                   bench_size state_length, const bench_u32 *area, bench_size area_length,
                                   bench_u32 *place) {
    const struct bench_lent all[] = {bench_bytes(plan, plan_length), bench_words(state, state_length),
                                     bench_words(area, area_length), bench_place(place)};
    int apart = bench_apart(all, 4);
    if (!apart)
        bench_put_none(all, 4, 3, place);
    return apart;
}

/* How far each device is from a source, for interrupts of k: the word d of crossings is the least number of ports by which they
 * get to device d, 0 for the source itself, or BENCH_UNREACHED where they do not, or it is absent. The greatest of those that are
 * reached, D, goes to *most. The area has BENCH_CROSSINGS words. 20 to 27; 2; 3; 4; 5; 6. */
static inline bench_u32 bench_crossings(const bench_u8 *plan, bench_size plan_length, const bench_u32 *state,
                                        bench_size state_length, bench_size source, bench_u32 k, bench_u32 *crossings,
                                        bench_size crossings_length, bench_u32 *most) {
    bench_u32 given, number;
    if (!bench_four_apart(plan, plan_length, state, state_length, crossings, crossings_length, most))
        return 3;
    number = bench_for_header_crossings(plan, plan_length, state, state_length, source, k, crossings, crossings_length,
                                        &given);
    bench_put(most, given);
    return number;
}

/* A shortest chain of ports from a source to a device, for interrupts of k: the first is one of the source, each of the others one
 * of the device that the port before it leads to, and the last leads to the device. Of several, it is the one with the lower port
 * at the first difference. Its ports are 8 x device + port each, in front of the area, and every word behind them is BENCH_NOBODY.
 * How many they are goes to *crossings, 0 for the source itself, or BENCH_UNREACHED where the device is not reached. The area has
 * BENCH_CHAIN words. 20 to 27; 2; 3; 4 for the source or the device; 5; 6. */
static inline bench_u32 bench_chain(const bench_u8 *plan, bench_size plan_length, const bench_u32 *state,
                                    bench_size state_length, bench_size source, bench_u32 k, bench_size device,
                                    bench_u32 *ports, bench_size ports_length, bench_u32 *crossings) {
    bench_u32 given, number;
    if (!bench_four_apart(plan, plan_length, state, state_length, ports, ports_length, crossings))
        return 3;
    number = bench_for_header_chain(plan, plan_length, state, state_length, source, k, device, ports, ports_length, &given);
    bench_put(crossings, given);
    return number;
}

/* Every port that leads out of what interrupts of k reach from a source: it is connected, its device is reached, and the one at
 * its other end is not. The word 8 x device + port of causes is why they do not go that way, one of the causes above, or 0 where
 * the port does not lead out. How many do goes to *count. The area has BENCH_CUT words. 20 to 27; 2; 3; 4; 5; 6. */
static inline bench_u32 bench_cut(const bench_u8 *plan, bench_size plan_length, const bench_u32 *state,
                                  bench_size state_length, bench_size source, bench_u32 k, bench_u32 *causes,
                                  bench_size causes_length, bench_u32 *count) {
    bench_u32 given, number;
    if (!bench_four_apart(plan, plan_length, state, state_length, causes, causes_length, count))
        return 3;
    number = bench_for_header_cut(plan, plan_length, state, state_length, source, k, causes, causes_length, &given);
    bench_put(count, given);
    return number;
}

/* The text that the program why prints, in front of its area: the chain to a device, or the cut where it is not reached, or what
 * is refused. Its length goes to *used; behind it the area is as it was. Where given is 0 it is about the start state, and the
 * bytes of state are not looked at. With any other number they are a state file: four for each word, the low one first. The area
 * has BENCH_WHY bytes or more. 3. */
static inline bench_u32 bench_why(const bench_u8 *plan, bench_size plan_length, bench_u32 given, const bench_u8 *state,
                                  bench_size state_length, bench_u32 source, bench_u32 k, bench_u32 device, bench_u8 *text,
                                  bench_size text_length, bench_u32 *used) {
    const struct bench_lent all[] = {bench_bytes(plan, plan_length), bench_bytes(state, state_length),
                                     bench_bytes(text, text_length), bench_place(used)};
    bench_u32 printed, number;
    if (!bench_apart(all, 4)) {
        bench_put_none(all, 4, 3, used);
        return 3;
    }
    number = bench_for_header_why(plan, plan_length, given, state, state_length, source, k, device, text, text_length,
                                  &printed);
    bench_put(used, printed);
    return number;
}

/* ---- rescue */

/* A damaged plan file is mended, where block 0 is good and the length is right. A device's block is damaged where its check fails,
 * and each of these is rebuilt by what the good ones tell of it: a router without permissions that bars nothing, with ports up to
 * the highest to which a good block joins one of its own, at least one, and these joined back. A link between two damaged blocks is
 * lost. The good blocks stay as they are, and the whole file goes to mended, an area as long as the file. The text goes in front of
 * its area, which has BENCH_RESCUE bytes or more, and behind it that is as it was: a line for each block that was rebuilt, each
 * followed by those of its ports that were joined back, with the device and the port at the other end. Its length goes to *used. A
 * file with nothing damaged is mended as it is, and has no text.
 *
 * 3, for the length of mended or of the text too; then with the block of each 20; 21 to 24 in block 0; 25; 22 to 24 in the block
 * of a device that is not damaged; 28 in the first damaged block to one of whose ports two of good blocks are joined; 23 in the
 * block of the master, where that is damaged, as no router is one; 26; 27. Beside 0 and 3 the block is 0. */
static inline bench_u32 bench_rescue(const bench_u8 *file, bench_size file_length, bench_u8 *mended, bench_size mended_length,
                                     bench_u8 *text, bench_size text_length, bench_u32 *block, bench_u32 *used) {
    const struct bench_lent all[] = {bench_bytes(file, file_length), bench_bytes(mended, mended_length),
                                     bench_bytes(text, text_length), bench_place(block), bench_place(used)};
    bench_u32 given, printed, number;
    if (!bench_apart(all, 5)) {
        bench_put_none(all, 5, 3, block);
        bench_put_none(all, 5, 4, used);
        return 3;
    }
    number = bench_for_header_rescue(file, file_length, mended, mended_length, text, text_length, &given, &printed);
    bench_put(block, given);
    bench_put(used, printed);
    return number;
}

#ifdef __cplusplus
}
#endif
#endif
