/* T-07, tried: which devices byte 10 of block 0 may name, and how time is distributed. A master ticks, and its code gets to all
 * that it reaches, each crossing in two rounds at most, while all other codes go on as they like. */
#include "driver.h"

enum { A_CROSSING = 2, MOST_TICKS = 3 };

/* What byte 10 names. */
enum name { NOBODY, A_NODE, A_ROUTER, ABOVE, NAMES };
static const char *const name_names[NAMES] = {"nobody", "a node", "a router: 23", "a device that there is not: 23"};
static size named[NAMES];

/* How often time was distributed, and so. */
enum way { NETWORKS, TICKS, OVER, TOLD, AT_BOTH, BY_BOTH, AGAIN, BUSY, LATE, WAYS };
static const char *const way_names[WAYS] = {
    "networks", "ticks", "ticks from 63 to 0", "hosts told", "hosts told, of nodes with two ports that run",
    "ticks of a master with two ports that run", "ticks whose code came to a device again", "networks crowded with other codes",
    "devices that took it in their last round"};
static size times[WAYS];
static u32 longest;

static struct course course;
static u32 master, value, before; /* the new value, and that of the counters before the tick */
static u32 distance[DEVICES];
static u32 kept[DEVICES]; /* the counters before the tick of those that it does not reach */
static u32 taken[DEVICES], told[DEVICES]; /* the round in which the counter changed and the host was told, 0 before that */
static flag sent[SENT_WORDS];

static enum name named_by(struct plan *plan, u32 byte) {
    if (!byte)
        return NOBODY;
    if (byte > plan->bytes[1])
        return ABOVE;
    return device_block(plan, byte - 1)[2] == 1 ? A_ROUTER : A_NODE;
}

/* A router is refused in its own block, whose number is the byte. */
void try_masters(const struct plan *given) {
    static struct plan plan;
    u32 devices = given->bytes[1], one = pick(devices), other = pick(devices), above = pick(255 - devices);
    const u32 bytes[] = {0, 1 + one, 1 + other, devices, devices + 1, devices + 1 + above, 255};
    plan = *given;
    for (u32 i = 0; i < sizeof bytes / sizeof *bytes; i++) {
        enum name name = named_by(&plan, bytes[i]);
        plan.bytes[MASTER] = bytes[i];
        seal(&plan, 0);
        must_be("a file with this master", name == A_ROUTER || name == ABOVE ? 23 : 0, try_plan_read(&plan));
        must_be("the block", name == A_ROUTER ? bytes[i] : 0, value_given(0));
        named[name]++;
    }
}

static _Noreturn void lost(const char *what, u32 one, u32 other) {
    printf("judge: T-07: Time-Code %u from device %u\n", value, master);
    fail(what, one, other);
}

static flag is_router(u32 device) {
    return device_block(&course.plan, device)[2] == 1;
}

/* The plan's master, or else another node, of which a port runs; NO_MASTER where there is none. */
static u32 find_master(void) {
    u32 devices = course.plan.bytes[1], own = master_of(&course.plan), first = own == NO_MASTER ? pick(devices) : own;
    for (u32 i = 0; i < devices; i++) {
        u32 d = (first + i) % devices;
        if (!is_router(d) && running_ports(&course, d))
            return d;
    }
    return NO_MASTER;
}

/* No Time-Code waits anywhere, and all that the tick will reach have one counter. In half of the trials every port has as much else
 * waiting as it can, and sent a Time-Code last. 0 where no node is joined to anything. */
static flag prepare(void) {
    master = find_master();
    if (master == NO_MASTER) {
        open_links(&course, 1);
        master = find_master();
    }
    if (master == NO_MASTER)
        return 0;
    name_master(&course.plan, master);
    no_times(&course);
    flag crowded = once_in(2);
    if (crowded)
        crowd(&course, IDENTIFIERS - 1);
    for (u32 d = 0; crowded && d < course.plan.bytes[1]; d++)
        for (u32 p = 0; p < device_block(&course.plan, d)[3]; p++)
            *time_word(&course.state, d, p) = AFTER_TIME;
    read_records(&course);
    crossings(&course.records, master, (struct code){TIME_CODE, 0}, 0, distance);
    before = once_in(4) ? TIMES - 1 : pick(TIMES);
    for (u32 d = 0; d < DEVICES; d++)
        if (distance[d] != UNREACHED)
            *counter_word(&course.state, d) = before;
    course.ticks_apart = 1;
    times[BUSY] += crowded;
    return 1;
}

/* The counter of a device is the old value and then the new one, from some round on that is not too soon and not too late. Where
 * the tick does not get to, it stays. */
static void check_counter(u32 d, u32 round) {
    u32 counter = *counter_word(&course.state, d);
    if (distance[d] == UNREACHED) {
        if (counter != kept[d])
            lost("a counter out of reach (device, round)", d, round);
        return;
    }
    if (counter != value) {
        if (counter != before || taken[d] || round >= A_CROSSING * distance[d])
            lost("a counter is not the new value (device, round)", d, round);
        return;
    }
    if (taken[d] || d == master)
        return;
    if (round < distance[d])
        lost("too soon (device, round)", d, round);
    taken[d] = round;
    times[LATE] += round == A_CROSSING * distance[d];
}

/* The host of a node is told in the round in which the counter changes, and of nothing else; that of the master never is. */
static void check_telling(u32 round) {
    for (u32 i = 0; i < course.played.count; i++) {
        u32 word = course.played.told[i], d = word / 256 % 256;
        if (word / 65536 != OF_TIME)
            continue;
        if (word % 256 != value || d == master || is_router(d) || told[d] || taken[d] != round)
            lost("told what it should not be (word, round)", word, round);
        told[d] = round;
        times[TOLD]++;
        times[AT_BOTH] += running_ports(&course, d) == NODE_PORTS;
    }
    for (u32 d = 0; d < course.plan.bytes[1]; d++)
        if (!is_router(d) && taken[d] != told[d])
            lost("not told (device, round)", d, round);
}

/* A port sends it once, if it is one of the master or of a router that was reached. */
static void check_sending(u32 round) {
    for (u32 i = 0; i < SENT_WORDS; i++) {
        if (course.played.sent[i] >= TIMES)
            continue;
        u32 d = i / PORTS;
        if (course.played.sent[i] != value || sent[i] || distance[d] == UNREACHED || (d != master && !is_router(d)))
            lost("sent what it should not be (port, round)", i, round);
        sent[i] = 1;
    }
}

static void check_round(u32 round) {
    for (u32 d = 0; d < course.plan.bytes[1]; d++)
        check_counter(d, round);
    check_telling(round);
    check_sending(round);
}

/* In the end all that were reached have the new value, and none waits. The master sent it by all ports that run, and a router by
 * all but one. Where more was sent than was taken, it came to some device again. */
static void check_end(u32 rounds) {
    u32 copies = 0, takers = 0;
    for (u32 d = 0; d < course.plan.bytes[1]; d++) {
        u32 by = 0;
        for (u32 p = 0; p < PORTS; p++) {
            by += sent[PORTS * d + p];
            if (*time_word(&course.state, d, p) % AFTER_TIME)
                lost("still waiting (device, port)", d, p);
        }
        if (distance[d] != UNREACHED && *counter_word(&course.state, d) != value)
            lost("a counter is not the new value at the end (device, rounds)", d, rounds);
        if (d == master && by != running_ports(&course, d))
            lost("not sent by all ports of the master (ports, of how many)", by, running_ports(&course, d));
        if (is_router(d) && distance[d] != UNREACHED && by + 1 != running_ports(&course, d))
            lost("not sent by all ports of a router but one (device, ports)", d, by);
        copies += by;
        takers += taken[d] != 0;
    }
    times[AGAIN] += copies > takers;
}

static void tick_once(u32 window, u32 calls) {
    value = (before + 1) % TIMES;
    for (u32 d = 0; d < DEVICES; d++) {
        kept[d] = *counter_word(&course.state, d);
        taken[d] = told[d] = 0;
    }
    memset(sent, 0, sizeof sent);
    must_be("T-07: the tick is taken", 0, make_call(&course, (struct change){.call = TICK, .device = master}));
    for (u32 d = 0; d < course.plan.bytes[1]; d++)
        check_counter(d, 0);
    for (u32 round = 1; round <= window; round++) {
        play_on(&course, IDENTIFIERS, calls);
        check_round(round);
    }
    check_end(window);
    times[TICKS]++;
    times[OVER] += value == 0;
    times[BY_BOTH] += running_ports(&course, master) == NODE_PORTS;
    before = value;
}

void try_time(const struct plan *given) {
    begin_course(&course, given);
    if (!prepare())
        return;
    u32 calls = pick(4), window = A_CROSSING * (farthest(distance) + 1);
    for (u32 ticks = 1 + pick(MOST_TICKS); ticks; ticks--)
        tick_once(window, calls);
    times[NETWORKS]++;
    if (window > longest)
        longest = window;
}

void time_table(void) {
    printf("byte 10 of block 0 names                       times\n");
    counts_table(name_names, named, NAMES);
    printf("time is distributed, in up to %2u rounds        times\n", longest);
    counts_table(way_names, times, WAYS);
}

flag all_time_tried(void) {
    flag all = all_counted("byte 10 never named so", name_names, named, NAMES);
    all &= all_counted("time was never distributed so", way_names, times, WAYS);
    return all;
}
