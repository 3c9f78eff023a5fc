/* What is known of the guarded edge, asked of both in fixed networks: which bars a file may have, where the counts of drops are
 * and which are sound, what a drop does to a state, word by word, and what resets and stops do to counts. */
#include "driver.h"

enum { K = 5, EVERYTHING = 15, ROUTER = 1, ITS_PORTS = 4, TIMER = 60, FULL = 65535 };

static struct plan plan;
static struct state state, due;
static struct played played;

/* A count by its place in the area, as a caller finds it. */
static u32 *drops(struct state *of, u32 device, u32 port, enum kind kind) {
    return &of->words[2368 + 2 * (8 * device + port) + (kind == ACKNOWLEDGE ? 1 : 0)];
}

static u32 call(enum call which, size device, size other) {
    return try_change((struct change){.call = which, .device = device, .other = other}, &plan, &state);
}

static void link(u32 device, u32 port, u32 running) {
    must_be("a link", 0, try_change((struct change){LINK, device, port, running}, &plan, &state));
}

static void play(void) {
    must_be("a round", 0, try_round(&plan, &state, &played));
    state = played.next;
}

static void put_bars(u32 device, u32 port, struct bars bars) {
    put_number(port_bars(&plan, device, port), 4, bars.interrupts);
    put_number(port_bars(&plan, device, port) + 4, 4, bars.acknowledges);
    seal(&plan, 1 + device);
}

static void begin(void) {
    right_lengths(&played);
    state.length = STATE_WORDS;
    must_be("the start", 0, try_start(&plan, &state));
}

/* Nodes 0, 2 and 3 at router 1, by its ports in this order; it has a fourth port that leads nowhere. Node 0 is the master and a
 * source of k; node 2 has two ports, of which one leads nowhere. */
static void star(u32 k) {
    blank(&plan, 4);
    be_router(&plan, ROUTER, ITS_PORTS);
    be_node(&plan, 2, NODE_PORTS);
    connect_ports(&plan, ROUTER, 0, 0, 0, EVERYTHING);
    connect_ports(&plan, ROUTER, 1, 2, 0, EVERYTHING);
    connect_ports(&plan, ROUTER, 2, 3, 0, EVERYTHING);
    put_number(device_block(&plan, 0) + SOURCES, 4, 1u << k);
    put_number(device_block(&plan, 3) + HANDLERS, 4, 1u << k);
    set_loads(&plan, 100, 200);
    seal_devices(&plan);
    name_master(&plan, 0);
}

/* ---- files */

static void must_read(u32 number, u32 block) {
    must_be("a file with bars", number, try_plan_read(&plan));
    must_be("the block", block, value_given(0));
}

/* Every byte from the first bar to the last zero, with three values: of a node with one port, of one with two, and of the router.
 * Of that, four ports may bar anything, the one that leads nowhere too. */
static void known_places(void) {
    static const u32 devices[] = {0, 2, ROUTER};
    star(K);
    for (u32 i = 0; i < 3; i++)
        for (u32 at = 44; at < 510; at++) {
            u8 *byte = device_block(&plan, devices[i]) + at;
            u32 number = at >= 108 ? 24 : devices[i] == ROUTER && at < 44 + 8 * ITS_PORTS ? 0 : 23;
            for (u32 value = 1; value < 256; value += 127) {
                *byte = value;
                must_read(21, 1 + devices[i]);
                seal(&plan, 1 + devices[i]);
                must_read(number, number ? 1 + devices[i] : 0);
            }
            *byte = 0;
            seal(&plan, 1 + devices[i]);
        }
}

/* All values of each byte of a port's two masks, and of the first one that the router lacks. */
static void known_masks(void) {
    star(K);
    for (u32 at = 0; at < 16; at++)
        for (u32 value = 1; value < 256; value++) {
            u8 *byte = port_bars(&plan, ROUTER, ITS_PORTS - 1) + at;
            *byte = value;
            seal(&plan, 1 + ROUTER);
            must_read(at < 8 ? 0 : 23, at < 8 ? 0 : 1 + ROUTER);
            *byte = 0;
        }
}

/* How many ports a router has decides on its bars. */
static void known_ports(void) {
    for (u32 ports = 1; ports <= PORTS; ports++)
        for (u32 p = 0; p < PORTS; p++) {
            blank(&plan, 1);
            set_loads(&plan, 1, 1);
            be_router(&plan, 0, ports);
            put_bars(0, p, (struct bars){0, 1u << 31});
            must_read(p < ports ? 0 : 23, p < ports ? 0 : 1);
        }
}

/* A bar at node 2, in block 3, and one fault more: a byte of a block, the check put right or not, and what the file is refused by,
 * with the block. */
static const struct fault {
    u32 block, at, value;
    flag sealed;
    u32 number, in;
} faults[] = {
    {0, 11, 1, 0, 21, 0}, {0, 11, 1, 1, 24, 0}, {0, 1, 3, 1, 25, 0}, {0, 10, 9, 1, 23, 0}, {0, 10, 2, 1, 23, 2},
    {1, 44, 1, 1, 23, 1}, {2, 509, 1, 1, 24, 2}, {2, 108, 1, 1, 24, 2}, {2, 76, 1, 1, 23, 2}, {3, 509, 1, 0, 21, 3},
    {3, 0, 1, 1, 22, 3}, {3, 1, 3, 1, 22, 3}, {3, 108, 1, 1, 23, 3}, {3, 509, 1, 1, 23, 3}, {3, 15, 1, 1, 23, 3},
    {4, 0, 1, 1, 23, 3}, {4, 44, 1, 1, 23, 3}, {1, 13, 1, 1, 23, 3}, {4, 4, 1 << K, 1, 23, 3}, {3, 2, 1, 1, 0, 0},
};

static void known_fault(const struct fault *fault) {
    star(K);
    put_bars(2, 1, (struct bars){1u << 31, 0});
    must_read(23, 3);
    plan.bytes[BLOCK * fault->block + fault->at] = fault->value;
    if (fault->sealed)
        seal(&plan, fault->block);
    must_read(fault->number, fault->in);
}

/* ---- counts that are sound */

static void try_count(u32 device, u32 port, u32 most) {
    static const u32 values[] = {0, 1, 2, 255, 256, 65534, 65535, 65536, 65537, 131071, 0x7FFFFFFF, 0x80000000, 0xFFFF0000,
                                 0xFFFFFFFF};
    for (u32 i = 0; i < 2 * sizeof values / sizeof *values; i++) {
        u32 *count = drops(&state, device, port, i % 2 ? ACKNOWLEDGE : INTERRUPT);
        *count = values[i / 2];
        must_be("a state with this count", *count <= most ? 6 : 2, try_reach(&plan, &state, 0, K + 1));
        *count = 0;
    }
}

/* At ports of the router that bar or do not, stand still, or lead nowhere, and at those that it lacks; at ports that a node has and
 * lacks; and at no device. */
static void known_counts(void) {
    star(K);
    put_bars(ROUTER, 0, (struct bars){1 << K, 1 << K});
    begin();
    for (u32 i = 2368; i < 2880; i++)
        must_be("a count at the start", 0, state.words[i]);
    link(ROUTER, 2, 0);
    for (u32 p = 0; p < PORTS; p++)
        try_count(ROUTER, p, p < ITS_PORTS ? FULL : 0);
    try_count(0, 0, 0);
    try_count(0, 1, 0);
    try_count(2, 1, 0);
    try_count(2, 7, 0);
    try_count(4, 0, 0);
    try_count(31, 7, 0);
}

/* A state as it was before drops were counted is none for any call; those that build one refuse it by 3. */
static void known_length(void) {
    static struct found found;
    star(K);
    begin();
    played.next.length = state.length = 2368;
    must_be("a start", 3, try_start(&plan, &state));
    for (enum call which = REQUEST; which <= TICK; which++)
        must_be("a call", 2, call(which, 0, K));
    must_be("a round", 2, try_round(&plan, &state, &played));
    must_be("settling", 2, try_settle(&plan, &state, 0));
    must_be("reach", 2, try_reach(&plan, &state, 0, K));
    for (enum call which = CROSSINGS; which <= CUT; which++) {
        found.length = right_words(which);
        must_be("a way", 2, try_way(which, &plan, &state, (struct question){.k = K}, &found));
    }
    begin();
    played.next.length = 2368;
    must_be("a round into this length", 3, try_round(&plan, &state, &played));
}

/* ---- what a drop does */

/* A code of k comes from node 0 to port 0 of the router: its kind; what the port bars, k alone, all but k, all, or nothing; what it
 * may; whether the router holds k, and k is an event; and what is done. */
enum barring { NONE, IT, OTHERS, ALL };
static const struct arrival {
    enum kind kind;
    enum barring interrupts, acknowledges;
    u8 permissions;
    flag held, event;
    enum action action;
} arrivals[] = {
    {INTERRUPT, IT, NONE, 15, 0, 0, DROPPED}, {INTERRUPT, IT, NONE, 15, 1, 0, DROPPED}, {INTERRUPT, ALL, ALL, 2, 0, 0, DROPPED},
    {INTERRUPT, NONE, IT, 15, 0, 0, FORWARDED}, {INTERRUPT, OTHERS, ALL, 15, 0, 0, FORWARDED},
    {INTERRUPT, OTHERS, ALL, 15, 1, 0, IGNORED}, {INTERRUPT, ALL, ALL, 13, 0, 0, IGNORED},
    {INTERRUPT, ALL, ALL, 13, 1, 0, IGNORED}, {INTERRUPT, IT, NONE, 15, 0, 1, DROPPED},
    {INTERRUPT, IT, NONE, 15, 1, 1, DROPPED}, {INTERRUPT, OTHERS, IT, 15, 0, 1, FORWARDED},
    {ACKNOWLEDGE, NONE, IT, 15, 1, 0, DROPPED}, {ACKNOWLEDGE, NONE, IT, 15, 0, 0, DROPPED},
    {ACKNOWLEDGE, ALL, ALL, 8, 1, 0, DROPPED}, {ACKNOWLEDGE, IT, NONE, 15, 1, 0, FORWARDED},
    {ACKNOWLEDGE, ALL, OTHERS, 15, 1, 0, FORWARDED}, {ACKNOWLEDGE, ALL, OTHERS, 15, 0, 0, IGNORED},
    {ACKNOWLEDGE, ALL, ALL, 7, 1, 0, IGNORED}, {ACKNOWLEDGE, ALL, ALL, 7, 0, 0, IGNORED},
    {ACKNOWLEDGE, NONE, IT, 15, 1, 1, DROPPED}, {ACKNOWLEDGE, NONE, IT, 15, 0, 1, DROPPED},
    {ACKNOWLEDGE, IT, OTHERS, 15, 1, 1, IGNORED}, {ACKNOWLEDGE, ALL, ALL, 7, 1, 1, IGNORED},
};

static u32 mask_of(enum barring barring, u32 k) {
    const u32 masks[] = {[NONE] = 0, [IT] = 1u << k, [OTHERS] = ~(1u << k), [ALL] = 0xFFFFFFFF};
    return masks[barring];
}

static u32 waiting(enum kind kind) {
    return kind == INTERRUPT ? AT_INTERRUPTS : AT_ACKNOWLEDGES;
}

static void hold(struct state *of, u32 device, u32 k, u32 timer) {
    device_words(of, device)[0] = timer ? 1u << k : 0;
    device_words(of, device)[1 + k] = timer;
}

/* Every word of the next state. The code has gone from node 0; a timer that runs has fallen. A drop is one more in its count, and
 * nothing else: only what is forwarded changes the bit and the timer, and waits at the other ports. */
static void must_come_to(const struct arrival *arrival, u32 k) {
    due = state;
    port_words(&due, 0, 0)[waiting(arrival->kind)] = 0;
    port_words(&due, 0, 0)[AT_NEXT] = (k + 1) % IDENTIFIERS;
    hold(&due, ROUTER, k, arrival->held ? TIMER - 1 : 0);
    *drops(&due, ROUTER, 0, arrival->kind) += arrival->action == DROPPED;
    if (arrival->action == FORWARDED) {
        hold(&due, ROUTER, k, arrival->kind == INTERRUPT ? 100 : 0);
        for (u32 p = 1; p < 3; p++)
            port_words(&due, ROUTER, p)[waiting(arrival->kind)] = 1u << k;
    }
    play();
    must_be("what is sent", (arrival->kind == INTERRUPT ? 128 : 160) + k, played.sent[0]);
    must_be("how many are told", 0, played.count);
    for (u32 i = 0; i < 2880; i++)
        if (state.words[i] != due.words[i])
            fail("a word after a drop, or none (word, is)", i, state.words[i]);
}

static void known_arrival(const struct arrival *arrival, u32 k) {
    star(k);
    put_bars(ROUTER, 0, (struct bars){mask_of(arrival->interrupts, k), mask_of(arrival->acknowledges, k)});
    port_entry(&plan, ROUTER, 0)[2] = arrival->permissions;
    seal(&plan, 1 + ROUTER);
    put_number(plan.bytes + EVENTS, 4, arrival->event ? 1u << k : ~(1u << k));
    seal(&plan, 0);
    begin();
    hold(&state, ROUTER, k, arrival->held ? TIMER : 0);
    port_words(&state, 0, 0)[waiting(arrival->kind)] = 1u << k;
    *drops(&state, ROUTER, 0, INTERRUPT) = 7;
    *drops(&state, ROUTER, 0, ACKNOWLEDGE) = 65000;
    *drops(&state, ROUTER, 3, INTERRUPT) = 9;
    must_come_to(arrival, k);
}

/* The number of what is done, at a router and at a node, which does not look at bars. */
static void known_reaction(u32 byte, u32 role, struct bars bars, u32 number) {
    u32 bits = byte < 160 ? 0 : 1 << K, counter = 9;
    must_be("what is done", number, try_react_guarded(role, 1, EVERYTHING, 0, bars, &bits, &counter, byte));
    must_be("the register then", (byte < 160) == (number == 5) ? 0 : 1 << K, bits);
    must_be("the counter then", 9, counter);
}

static void known_reactions(void) {
    for (u32 kind = 0; kind < 2; kind++) {
        u32 byte = kind ? 160 + K : 128 + K, bit = 1 << K;
        const struct bars own = {kind ? 0 : bit, kind ? bit : 0}, other = {kind ? bit : 0, kind ? 0 : bit};
        known_reaction(byte, 1, own, 5);
        known_reaction(byte, 1, other, 3);
        known_reaction(byte, 0, own, 4);
    }
}

/* A count goes up one by one, to 65,535, and stays there; that of the other kind stays as it was. */
static void known_end(enum kind kind) {
    static const u32 first[] = {0, 253, 32766, FULL - 2};
    enum kind other = kind == INTERRUPT ? ACKNOWLEDGE : INTERRUPT;
    for (u32 i = 0; i < sizeof first / sizeof *first; i++) {
        u32 from = first[i];
        star(K);
        put_bars(ROUTER, 0, (struct bars){0xFFFFFFFF, 0xFFFFFFFF});
        begin();
        *drops(&state, ROUTER, 0, kind) = from;
        *drops(&state, ROUTER, 0, other) = FULL - 1;
        port_words(&state, 0, 0)[waiting(kind)] = 0xFFFFFFFF;
        for (u32 rounds = 1; rounds <= 4; rounds++) {
            play();
            must_be("a count", from + rounds > FULL ? FULL : from + rounds, *drops(&state, ROUTER, 0, kind));
            must_be("that of the other kind", FULL - 1, *drops(&state, ROUTER, 0, other));
        }
        must_be("the router's register", 0, *device_words(&state, ROUTER));
    }
}

/* Settling counts as rounds do: all identifiers wait, and are dropped one by one. */
static void known_settling(void) {
    star(K);
    put_bars(ROUTER, 0, (struct bars){0xFFFFFFFF, 0});
    begin();
    port_words(&state, 0, 0)[AT_INTERRUPTS] = 0xFFFFFFFF;
    *drops(&state, ROUTER, 0, INTERRUPT) = 100;
    must_be("it settles", 0, try_settle(&plan, &state, MOST_ALLOWED));
    must_be("in 32 rounds", 32, value_given(0));
    must_be("the count then", 132, *drops(&state, ROUTER, 0, INTERRUPT));
}

/* Two copies come to the router in one round. Port 0 bars the interrupt, and is the first: port 1 takes it all the same, and it
 * goes out by port 0, as nothing is barred there that is sent. Where both bar it, each counts its own. */
static void two_ports(void) {
    for (u32 both = 0; both < 2; both++) {
        star(K);
        put_bars(ROUTER, 0, (struct bars){1 << K, 1 << K});
        put_bars(ROUTER, 1, (struct bars){both ? 1 << K : 0, 1 << K});
        begin();
        port_words(&state, 0, 0)[AT_INTERRUPTS] = port_words(&state, 2, 0)[AT_INTERRUPTS] = 1 << K;
        play();
        must_be("the count of port 0", 1, *drops(&state, ROUTER, 0, INTERRUPT));
        must_be("the count of port 1", both, *drops(&state, ROUTER, 1, INTERRUPT));
        must_be("the router's register", both ? 0 : 1 << K, *device_words(&state, ROUTER));
        for (u32 p = 0; p < ITS_PORTS; p++)
            must_be("where it waits", !both && p % 2 == 0 ? 1 << K : 0, port_words(&state, ROUTER, p)[AT_INTERRUPTS]);
        play();
        must_be("who holds it then", both ? 0 : 1 << K, *device_words(&state, 0));
        must_be("how many are told", both ? 0 : 2, played.count);
        must_be("the count of port 0 then", 1, *drops(&state, ROUTER, 0, INTERRUPT));
    }
}

/* Everything is barred at every port of the router: a tick gets through, and nothing is counted. */
static void known_tick(void) {
    star(K);
    for (u32 p = 0; p < ITS_PORTS; p++)
        put_bars(ROUTER, p, (struct bars){0xFFFFFFFF, 0xFFFFFFFF});
    begin();
    must_be("a tick", 0, call(TICK, 0, 0));
    play();
    must_be("the router's counter", 1, state.words[2080 + ROUTER]);
    play();
    must_be("two hosts are told", 2, played.count);
    must_be("that of node 2", 4 * 65536 + 256 * 2 + 1, played.told[0]);
    for (u32 i = 2368; i < 2880; i++)
        must_be("a count", 0, state.words[i]);
}

/* ---- calls, and the text */

/* A reset clears the counts of its own ports, and nothing else does, a stop and a start of their links neither. */
static void known_reset(void) {
    star(K);
    connect_ports(&plan, ROUTER, 3, 3, 0, EVERYTHING);
    put_number(port_entry(&plan, ROUTER, 2), 4, 0xFFFF);
    be_router(&plan, 3, PORTS);
    put_number(device_block(&plan, 3) + HANDLERS, 4, 0);
    seal_devices(&plan);
    begin();
    for (u32 i = 0; i < 2 * PORTS; i++) {
        if (i < 2 * ITS_PORTS)
            *drops(&state, ROUTER, i / 2, i % 2 ? ACKNOWLEDGE : INTERRUPT) = FULL - i;
        *drops(&state, 3, i / 2, i % 2 ? ACKNOWLEDGE : INTERRUPT) = 1 + i;
    }
    due = state;
    for (u32 running = 0; running < 2; running++) {
        link(0, 0, running);
        link(ROUTER, 3, running);
    }
    must_be("a request", 0, call(REQUEST, 0, K));
    must_be("a tick", 0, call(TICK, 0, 0));
    must_be("a reset of a node", 0, call(RESET, 0, 0));
    must_be("the counts", 0, memcmp(&state.words[2368], &due.words[2368], 4 * 512) != 0);
    must_be("a reset", 0, call(RESET, ROUTER, 0));
    for (u32 i = 2368; i < 2880; i++)
        must_be("a count then", i < 2368 + 2 * 16 ? 0 : due.words[i], state.words[i]);
    must_be("a start", 0, try_start(&plan, &state));
    for (u32 i = 2368; i < 2880; i++)
        must_be("a count at the start", 0, state.words[i]);
}

/* The request is taken; in the first round the router drops it, and nobody else ever holds it. Where that port bars all but this,
 * and others bar everything, it goes on. */
static void known_report(void) {
    static struct printed printed = {.text_length = TEXT_BYTES};
    star(K);
    put_bars(ROUTER, 0, (struct bars){1 << K, 0});
    must_be("the report of a guarded edge", 0, try_report(&plan, &printed));
    must_say("its text", "network 4\n0 5 1 1\n", &printed);
    begin();
    must_be("reach", 0, try_reach(&plan, &state, 0, K));
    must_be("the devices reached", 1, value_given(0));
    put_bars(ROUTER, 0, (struct bars){~(1u << K), 0xFFFFFFFF});
    put_bars(ROUTER, 1, (struct bars){0xFFFFFFFF, 0xFFFFFFFF});
    put_bars(ROUTER, 3, (struct bars){0xFFFFFFFF, 0xFFFFFFFF});
    must_be("the report of other bars", 0, try_report(&plan, &printed));
    must_say("its text", "network 4\n0 5 2 4\n", &printed);
    must_be("reach", 0, try_reach(&plan, &state, 0, K));
    must_be("the devices reached", 4, value_given(0));
}

void known_bars(void) {
    static const u32 identifiers[] = {0, K, 8, 23, 31};
    known_places();
    known_masks();
    known_ports();
    for (u32 i = 0; i < sizeof faults / sizeof *faults; i++)
        known_fault(&faults[i]);
    known_counts();
    known_length();
    for (u32 i = 0; i < sizeof arrivals / sizeof *arrivals; i++)
        for (u32 k = 0; k < sizeof identifiers / sizeof *identifiers; k++)
            known_arrival(&arrivals[i], identifiers[k]);
    known_reactions();
    known_end(INTERRUPT);
    known_end(ACKNOWLEDGE);
    known_settling();
    two_ports();
    known_tick();
    known_reset();
    known_report();
}
