/* What is known of events, the identifiers of the un-acknowledged profile, asked of both in fixed networks: which masks and which
 * sources a file may have, in which order the two new refusals come, what becomes of an acknowledge that waits all the same, and
 * how a request of one begins and ends. */
#include "driver.h"

enum { K = 5, OTHER = 7, THE_LINK = 2 };

static struct plan plan;
static struct state state;
static struct played played;

static u32 call(enum call which, size device, size other) {
    return try_change((struct change){.call = which, .device = device, .other = other}, &plan, &state);
}

static void play(void) {
    must_be("a round", 0, try_round(&plan, &state, &played));
    state = played.next;
}

static void must_read(u32 number, u32 block) {
    must_be("a file with events", number, try_plan_read(&plan));
    must_be("the block", block, value_given(0));
}

static void put_events(u32 events) {
    put_number(plan.bytes + EVENTS, 4, events);
    seal(&plan, 0);
}

/* Nodes 0, 2 and 3 at router 1, by its ports in this order. Node 0 is a source of k, and node 2 where there are to be two. Node 3
 * is a handler of k and of one that has no source. */
static void star(u32 k, flag two, u32 events) {
    blank(&plan, 4);
    be_router(&plan, 1, 3);
    connect_ports(&plan, 1, 0, 0, 0, 15);
    connect_ports(&plan, 1, 1, 2, 0, 15);
    connect_ports(&plan, 1, 2, 3, 0, 15);
    put_number(device_block(&plan, 0) + SOURCES, 4, 1u << k);
    put_number(device_block(&plan, 2) + SOURCES, 4, two ? 1u << k : 0);
    put_number(device_block(&plan, 3) + HANDLERS, 4, 1u << k | 1u << OTHER);
    set_loads(&plan, 100, 200);
    seal_devices(&plan);
    put_events(events);
}

static void begin(void) {
    right_lengths(&played);
    state.length = STATE_WORDS;
    must_be("the start", 0, try_start(&plan, &state));
}

/* A bit that is 1 and its timer; or both 0. */
static void hold(u32 device, u32 timer) {
    device_words(&state, device)[0] = timer ? 1u << K : 0;
    device_words(&state, device)[1 + K] = timer;
}

static void must_hold(const char *what, u32 device, u32 timer) {
    must_be(what, timer ? 1u << K : 0, device_words(&state, device)[0]);
    must_be("its timer", timer, device_words(&state, device)[1 + K]);
}

/* ---- files */

/* All values of each byte of the mask. */
static void known_masks(void) {
    star(K, 0, 0);
    for (u32 at = 6; at < 10; at++)
        for (u32 byte = 0; byte < 256; byte++) {
            plan.bytes[at] = byte;
            if (byte)
                must_read(21, 0);
            seal(&plan, 0);
            must_read(0, 0);
            plan.bytes[at] = 0;
            seal(&plan, 0);
        }
}

/* Two sources of each identifier, with no event, with all others, with it alone, with all; and one source with no event. */
static void known_sources(void) {
    for (u32 k = 0; k < IDENTIFIERS; k++) {
        u32 bit = 1u << k;
        const u32 events[] = {0, ~bit, bit, 0xFFFFFFFF};
        for (u32 i = 0; i < 4; i++) {
            star(k, 1, events[i]);
            must_read(i < 2 ? 27 : 0, 0);
        }
        star(k, 0, 0);
        must_read(0, 0);
    }
}

/* All of 32 devices, and the first and the last of them. */
static void far_sources(void) {
    for (u32 step = 1; step < DEVICES; step += 30) {
        blank(&plan, DEVICES);
        for (u32 d = 0; d < DEVICES; d += step)
            put_number(device_block(&plan, d) + SOURCES, 4, 1u << 31);
        set_loads(&plan, 1, 1);
        seal_devices(&plan);
        must_read(27, 0);
        put_events(1u << 31);
        must_read(0, 0);
    }
}

/* Two sources of 5, and one fault more, or one fewer: a byte of a block, the check put right or not, and what the file is refused
 * by, with the block. */
static const struct fault {
    u32 block, at, value;
    flag sealed;
    u32 number, in;
} faults[] = {
    {0, 6, 1, 0, 21, 0}, {0, 0, 2, 1, 22, 0}, {0, 1, 33, 1, 23, 0}, {0, 10, 5, 1, 23, 0}, {0, 11, 1, 1, 24, 0},
    {0, 1, 3, 1, 25, 0}, {0, 1, 5, 1, 25, 0}, {0, 10, 2, 1, 23, 2}, {4, 509, 1, 0, 21, 4}, {4, 0, 1, 1, 22, 4},
    {4, 2, 2, 1, 23, 4}, {4, 44, 1, 1, 23, 4}, {4, 108, 1, 1, 24, 4}, {1, 13, 1, 1, 26, 1}, {4, 13, 0, 1, 26, 2},
    {4, 12, 0, 1, 26, 2},
    {0, 6, 1, 1, 27, 0}, {0, 6, 223, 1, 27, 0}, {0, 7, 32, 1, 27, 0}, {0, 10, 1, 1, 27, 0}, {1, 8, 128, 1, 27, 0},
    {0, 6, 32, 1, 0, 0}, {0, 6, 255, 1, 0, 0}, {1, 4, 0, 1, 0, 0}, {3, 4, 64, 1, 0, 0},
};

static void known_fault(const struct fault *fault) {
    star(K, 1, 0);
    plan.bytes[BLOCK * fault->block + fault->at] = fault->value;
    if (fault->sealed)
        seal(&plan, fault->block);
    must_read(fault->number, fault->in);
}

/* ---- calls */

/* An acknowledge at a device. Node 3 may hold 5, and its port may run and may send acknowledges; the answer where 5 is an event,
 * and where it is none. */
static const struct asked {
    size device, k;
    flag held, runs, may;
    u32 of_event, of_other;
} asks[] = {
    {4, K, 1, 1, 1, 4, 4}, {4, 40, 1, 1, 1, 4, 4}, {3, 32, 1, 1, 1, 5, 5}, {3, 32 + K, 1, 0, 1, 5, 5}, {0, K, 1, 1, 1, 6, 6},
    {1, K, 1, 1, 1, 6, 6}, {2, K, 0, 0, 1, 6, 6}, {3, 6, 1, 1, 1, 6, 6}, {3, K, 1, 1, 1, 13, 0}, {3, K, 0, 1, 1, 13, 9},
    {3, K, 1, 0, 1, 13, 7}, {3, K, 0, 0, 1, 13, 7}, {3, K, 1, 1, 0, 13, 8}, {3, K, 0, 1, 0, 13, 8}, {3, K, 0, 0, 0, 13, 7},
    {3, OTHER, 0, 1, 1, 9, 9}, {3, OTHER, 0, 0, 1, 7, 7}, {3, OTHER, 0, 1, 0, 8, 8},
};

static void known_acknowledge(const struct asked *asked, flag event) {
    star(K, event, event ? 1u << K : ~(1u << K | 1u << OTHER));
    if (!asked->may)
        port_entry(&plan, 3, 0)[2] = 11;
    seal(&plan, 4);
    begin();
    hold(3, asked->held ? 50 : 0);
    if (!asked->runs)
        must_be("a link", 0, try_change((struct change){LINK, 1, THE_LINK, 0}, &plan, &state));
    must_be("an acknowledge", event ? asked->of_event : asked->of_other, call(ACKNOWLEDGES, asked->device, asked->k));
}

/* What comes before 13, and is no 13: a file with two sources of another, and a state that is not sound. */
static void before_13(void) {
    star(K, 1, 1u << K);
    begin();
    hold(3, 50);
    device_words(&state, 2)[0] = 1;
    must_be("an acknowledge in a state that is not sound", 2, call(ACKNOWLEDGES, 3, K));
    device_words(&state, 2)[0] = 0;
    must_be("an acknowledge of an event", 13, call(ACKNOWLEDGES, 3, K));
    device_block(&plan, 0)[SOURCES] = device_block(&plan, 2)[SOURCES] = 1 << K | 1 << 6;
    seal_devices(&plan);
    must_be("an acknowledge where another has two sources", 27, call(ACKNOWLEDGES, 3, K));
}

/* ---- an acknowledge that waits */

/* At a node or at the router, for a device that holds 5 or not; where 5 is an event it is sent, and nothing else comes of it. */
static void known_waiting(u32 device, u32 port, u32 peer, u32 timer, flag event) {
    star(K, event, event ? 1u << K : ~(1u << K));
    begin();
    hold(peer, timer);
    port_words(&state, device, port)[AT_ACKNOWLEDGES] = 1 << K;
    flag taken = timer && !event;
    play();
    must_be("it is sent", 160 + K, played.sent[PORTS * device + port]);
    must_be("and waits no more", 0, port_words(&state, device, port)[AT_ACKNOWLEDGES]);
    must_hold("the bit where it comes to", peer, !timer || taken ? 0 : timer - 1);
    must_be("what is told", taken && peer != 1, played.count);
    for (u32 p = 0; p < 3; p++)
        must_be("what the router forwards", taken && peer == 1 && p != THE_LINK ? 1 << K : 0,
                port_words(&state, 1, p)[AT_ACKNOWLEDGES]);
}

static void waiting_acknowledges(void) {
    static const u32 timers[] = {0, 2, 60};
    for (u32 i = 0; i < 6; i++) {
        known_waiting(3, 0, 1, timers[i / 2], i % 2);
        known_waiting(1, THE_LINK, 3, timers[i / 2], i % 2);
    }
}

/* A request of an event is as any other: an acknowledge of it that waits there gives place to the interrupt. Each source may
 * request, and each has its reach. */
static void known_request(void) {
    star(K, 1, 1u << K);
    begin();
    port_words(&state, 0, 0)[AT_ACKNOWLEDGES] = 1 << K | 1 << 9;
    must_be("a request of an event", 0, call(REQUEST, 0, K));
    must_be("the interrupts then", 1 << K, port_words(&state, 0, 0)[AT_INTERRUPTS]);
    must_be("the acknowledges then", 1 << 9, port_words(&state, 0, 0)[AT_ACKNOWLEDGES]);
    must_hold("the source", 0, 200);
    must_be("the same again", 9, call(REQUEST, 0, K));
    must_be("a request of the other source", 0, call(REQUEST, 2, K));
    must_be("a request of no source", 6, call(REQUEST, 3, K));
    must_be("reach from the other source", 0, try_reach(&plan, &state, 2, K));
    must_be("the devices reached", 4, value_given(0));
}

/* ---- from the request to the end */

static void must_tell(u32 count, u32 kind, const u32 *devices) {
    must_be("how many are told", count, played.count);
    for (u32 i = 0; i < count; i++)
        must_be("what is told", 65536 * kind + 256 * devices[i] + K, played.told[i]);
}

/* The router is reached in round 1 and the nodes in round 2. A handler may not acknowledge; the router forgets in round 101, the
 * source in 200, and the nodes in 202. Then the other source requests. */
static void known_course(void) {
    const u32 source[] = {0}, nodes[] = {2, 3};
    star(K, 1, 1u << K);
    begin();
    must_be("a request", 0, call(REQUEST, 0, K));
    for (u32 round = 1; round <= 202; round++) {
        must_be("an acknowledge", 13, call(ACKNOWLEDGES, 3, K));
        play();
        flag begins = round == 2, first = round == 200, last = round == 202;
        must_tell(begins || last ? 2 : first, begins ? 1 : 3, first ? source : nodes);
        must_hold("the router", 1, round <= 100 ? 101 - round : 0);
        must_hold("the source", 0, round < 200 ? 200 - round : 0);
        must_hold("a node", 3, round >= 2 && round < 202 ? 202 - round : 0);
        if (round > 1)
            must_be("the other source's request", last ? 0 : 9, call(REQUEST, 2, K));
    }
    must_be("the source's request beside it", 0, call(REQUEST, 0, K));
}

/* What a stop leaves and a reset does not. */
static void known_clearing(void) {
    star(K, 1, 1u << K);
    begin();
    hold(0, 70);
    hold(1, 80);
    must_be("a link", 0, try_change((struct change){LINK, 0, 0, 0}, &plan, &state));
    must_hold("a node whose link stops", 0, 70);
    must_hold("the router at its other end", 1, 80);
    must_be("a reset", 0, call(RESET, 1, 0));
    must_hold("the router then", 1, 0);
    must_hold("the node", 0, 70);
}

/* All identifiers wait at the source, 31 the last of them, and it ticks before each round: node 1 gets it in round 64, and with a
 * load of 130 it holds it until round 194 = 64 x 1 + 130, which is the last that it may need. */
static void known_bound(void) {
    blank(&plan, 2);
    connect_ports(&plan, 0, 0, 1, 0, 15);
    put_number(device_block(&plan, 0) + SOURCES, 4, 1u << 31);
    set_loads(&plan, 129, 130);
    seal_devices(&plan);
    put_events(0xFFFFFFFF);
    name_master(&plan, 0);
    begin();
    port_words(&state, 0, 0)[AT_INTERRUPTS] = 0x7FFFFFFF;
    must_be("a request", 0, call(REQUEST, 0, 31));
    for (u32 round = 1; round <= 194; round++) {
        must_be("a tick", 0, call(TICK, 0, 0));
        play();
        must_be("who holds the event", round >= 64 && round < 194, device_words(&state, 1)[0] >> 31);
    }
    must_be("the next request", 0, call(REQUEST, 0, 31));
}

/* A line for each source. */
static void known_report(void) {
    static struct printed printed = {.text_length = TEXT_BYTES};
    star(K, 1, 1u << K);
    must_be("the report of two sources", 0, try_report(&plan, &printed));
    must_say("its text", "network 4\n0 5 2 4\n2 5 2 4\n", &printed);
}

void known_events(void) {
    known_masks();
    known_sources();
    far_sources();
    for (u32 i = 0; i < sizeof faults / sizeof *faults; i++)
        known_fault(&faults[i]);
    for (u32 i = 0; i < 2 * sizeof asks / sizeof *asks; i++)
        known_acknowledge(&asks[i / 2], i % 2);
    before_13();
    waiting_acknowledges();
    known_request();
    known_course();
    known_clearing();
    known_bound();
    known_report();
}
