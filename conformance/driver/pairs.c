/* What is known of timers per identifier, asked of both in fixed networks: which pairs of loads a file may have and where they
 * stand, what requests and arrivals load, round by round, and which timers are sound. */
#include "driver.h"

enum { K = 5, OTHER = 7, ROUTER = 1, STAR = 4, NOT_ASKED = IDENTIFIERS };

static struct plan plan;
static struct state state;
static struct played played;
static u32 events; /* all identifiers or none: an event has its loads as any other has */

/* A pair by its place in the file, as whoever makes one puts it. */
static void put_pair(u32 k, struct loads pair) {
    u8 *at = plan.bytes + 16 + 4 * k;
    at[0] = pair.router % 256;
    at[1] = pair.router / 256;
    at[2] = pair.node % 256;
    at[3] = pair.node / 256;
    seal(&plan, 0);
}

/* Nodes 0, 2 and 3 at router 1, by its ports in this order. Node 0 is the master, and the source of these identifiers. */
static void star(u32 sources, struct loads common) {
    blank(&plan, STAR);
    be_router(&plan, ROUTER, 3);
    connect_ports(&plan, ROUTER, 0, 0, 0, 15);
    connect_ports(&plan, ROUTER, 1, 2, 0, 15);
    connect_ports(&plan, ROUTER, 2, 3, 0, 15);
    put_number(device_block(&plan, 0) + SOURCES, 4, sources);
    put_number(device_block(&plan, 3) + HANDLERS, 4, 1 << K);
    put_number(plan.bytes + EVENTS, 4, events);
    set_loads(&plan, common.router, common.node);
    seal_devices(&plan);
    name_master(&plan, 0);
}

static void begin(void) {
    right_lengths(&played);
    state.length = STATE_WORDS;
    must_be("the start", 0, try_start(&plan, &state));
}

static u32 call(enum call which, size device, size other) {
    return try_change((struct change){.call = which, .device = device, .other = other}, &plan, &state);
}

/* ---- files */

static void must_read(u32 number) {
    must_be("a file with a pair", number, try_plan_read(&plan));
    must_be("the block", 0, value_given(0));
}

static flag is_right(struct loads pair) {
    return pair.router ? pair.node >= pair.router : !pair.node;
}

/* Each identifier with pairs that are right and wrong. The common loads lie between them, and are not asked. */
static void known_pairs(void) {
    static const struct loads pairs[] = {
        {0, 1}, {1, 0}, {0, 256}, {256, 0}, {0, 65535}, {65535, 0}, {1, 1}, {2, 1}, {1, 2}, {256, 255}, {255, 256}, {1, 256},
        {256, 1}, {300, 300}, {301, 300}, {300, 65535}, {65534, 65535}, {65535, 65534}, {65535, 65535}, {0, 0}};
    star(1 << K, (struct loads){100, 200});
    for (u32 k = 0; k < IDENTIFIERS; k++)
        for (u32 i = 0; i < sizeof pairs / sizeof *pairs; i++) {
            put_pair(k, pairs[i]);
            must_read(is_right(pairs[i]) ? 0 : 23);
        }
}

/* All values of each byte of a pair, of which the other bytes are zeros or those of a right pair; and of the zero before the
 * first pair and the zero behind the last. */
static void known_bytes(void) {
    static const struct loads pairs[] = {{0, 0}, {513, 1027}, {770, 770}};
    static const u32 owners[] = {0, 15, 31};
    for (u32 i = 0; i < 9; i++)
        for (u32 at = 0; at < 4; at++)
            for (u32 value = 0; value < 256; value++) {
                u32 k = owners[i % 3];
                star(1 << K, (struct loads){100, 200});
                put_pair(k, pairs[i / 3]);
                plan.bytes[16 + 4 * k + at] = value;
                seal(&plan, 0);
                must_read(is_right(own_loads(&plan, k)) ? 0 : 23);
            }
    for (u32 value = 1; value < 256; value++) {
        star(1 << K, (struct loads){100, 200});
        plan.bytes[value % 2 ? 15 : 144] = value;
        seal(&plan, 0);
        must_read(24);
    }
}

/* A wrong pair of 31, and one fault more, or one fewer: a byte of a block, the check put right or not, and what the file is
 * refused by. */
static const struct fault {
    u32 block, at, value;
    flag sealed;
    u32 number;
} faults[] = {
    {0, 509, 1, 0, 21}, {0, 0, 2, 1, 22}, {0, 1, 0, 1, 23}, {0, 1, 33, 1, 23}, {0, 2, 0, 1, 23}, {0, 3, 1, 1, 23},
    {0, 4, 0, 1, 23}, {0, 10, 5, 1, 23}, {0, 10, 2, 1, 23}, {0, 11, 1, 1, 23}, {0, 15, 1, 1, 23}, {0, 144, 1, 1, 23},
    {0, 509, 1, 1, 23}, {0, 1, 3, 1, 23}, {0, 1, 5, 1, 23}, {0, 16, 1, 1, 23}, {1, 509, 1, 0, 23}, {2, 0, 1, 1, 23},
    {2, 13, 7, 1, 23}, {4, 4, 1 << K, 1, 23}, {0, 143, 1, 1, 0},
};

static void known_fault(const struct fault *fault) {
    star(1 << K, (struct loads){100, 200});
    put_pair(31, (struct loads){9, 8});
    must_read(23);
    plan.bytes[BLOCK * fault->block + fault->at] = fault->value;
    if (fault->sealed)
        seal(&plan, fault->block);
    must_read(fault->number);
}

/* The refusals behind block 0's fields are what they were, with a right pair for each identifier. */
static void known_behind(void) {
    star(1 << K, (struct loads){100, 200});
    for (u32 k = 0; k < IDENTIFIERS; k++)
        put_pair(k, (struct loads){1 + k, 1 + k});
    must_read(0);
    plan.bytes[144] = 1;
    seal(&plan, 0);
    must_read(24);
    plan.bytes[144] = 0;
    seal(&plan, 0);
    plan.length += BLOCK;
    must_read(25);
}

/* ---- what is loaded */

/* The loads that each identifier has to have, and the place of its interrupt among those that node 0 sends. */
static struct loads due[IDENTIFIERS];
static u32 place[IDENTIFIERS];

/* The round in which a timer is loaded. A request is taken before round 1; the router gets what is sent first in that round, and
 * nodes 2 and 3 a round later. */
static u32 begins(u32 d, u32 k) {
    return d == 0 ? 0 : place[k] + (d == ROUTER ? 1 : 2);
}

static u32 load_due(u32 d, u32 k) {
    return d == ROUTER ? due[k].router : due[k].node;
}

static u32 timer_due(u32 d, u32 k, u32 round) {
    if (d >= STAR || place[k] == NOT_ASKED || round < begins(d, k))
        return 0;
    u32 ends = begins(d, k) + load_due(d, k);
    return round < ends ? ends - round : 0;
}

/* Every register and every timer; and what waits: at node 0 until it is sent, and at a port of the router for a round. */
static void must_stand(u32 round) {
    for (u32 d = 0; d < DEVICES; d++) {
        u32 bits = 0;
        for (u32 k = 0; k < IDENTIFIERS; k++) {
            must_be("a timer", timer_due(d, k, round), state.words[33 * d + 1 + k]);
            bits |= (u32)(timer_due(d, k, round) > 0) << k;
        }
        must_be("a register", bits, state.words[33 * d]);
    }
    for (u32 k = 0; k < IDENTIFIERS; k++) {
        flag asked = place[k] != NOT_ASKED;
        must_be("it waits at node 0", asked && round <= place[k], port_words(&state, 0, 0)[AT_INTERRUPTS] >> k & 1);
        must_be("it waits at the router", asked && round == 1 + place[k], port_words(&state, ROUTER, 2)[AT_INTERRUPTS] >> k & 1);
    }
}

/* What hosts are told in a round: of timeouts first, by device and identifier, and then of the interrupt that came to nodes 2
 * and 3. */
static void must_tell(u32 round) {
    u32 told = 0;
    for (u32 i = 0; i < STAR * IDENTIFIERS; i++) {
        u32 d = i / IDENTIFIERS, k = i % IDENTIFIERS;
        if (d != ROUTER && place[k] != NOT_ASKED && round == begins(d, k) + load_due(d, k))
            must_be("a timeout", 3 * 65536 + 256 * d + k, played.told[told++]);
    }
    for (u32 i = 2 * IDENTIFIERS; i < STAR * IDENTIFIERS; i++) {
        u32 d = i / IDENTIFIERS, k = i % IDENTIFIERS;
        if (place[k] != NOT_ASKED && round == begins(d, k))
            must_be("an interrupt", 65536 + 256 * d + k, played.told[told++]);
    }
    must_be("how many are told", told, played.count);
}

/* Node 0 requests all these before the first round, and each goes on to the others, one behind the other. */
static void known_course(u32 requested, u32 rounds) {
    u32 count = 0;
    for (u32 k = 0; k < IDENTIFIERS; k++)
        place[k] = requested >> k & 1 ? count++ : NOT_ASKED;
    begin();
    for (u32 k = 0; k < IDENTIFIERS; k++)
        if (place[k] != NOT_ASKED)
            must_be("a request", 0, call(REQUEST, 0, k));
    must_stand(0);
    for (u32 round = 1; round <= rounds; round++) {
        must_be("a round", 0, try_round(&plan, &state, &played));
        state = played.next;
        must_stand(round);
        must_tell(round);
    }
}

/* The common loads, and those that K has of its own; OTHER, beside it, has none. In as many rounds most of the short ones end: a
 * load of 1 in the round behind the one in which it began. */
static const struct beside {
    struct loads common, own;
} besides[] = {
    {{100, 200}, {7, 9}}, {{100, 200}, {300, 500}}, {{100, 200}, {150, 150}}, {{7, 9}, {100, 200}}, {{3, 5}, {2, 8}},
    {{2, 8}, {3, 5}}, {{100, 200}, {1, 1}}, {{100, 200}, {1, 200}}, {{1, 1}, {100, 200}}, {{1, 1}, {65535, 65535}},
    {{65535, 65535}, {1, 1}}, {{256, 513}, {1, 258}}, {{1, 258}, {256, 513}}, {{6, 6}, {6, 6}}, {{4, 4}, {0, 0}},
};

static void known_beside(const struct beside *beside) {
    star(1 << K | 1 << OTHER, beside->common);
    put_pair(K, beside->own);
    due[OTHER] = beside->common;
    due[K] = beside->own.node ? beside->own : beside->common;
    known_course(1 << K | 1 << OTHER, 16);
}

/* A pair for each identifier, or for some of them: no two of these have the same byte in any of its four places. */
static void known_places(u32 owners) {
    const struct loads common = {60000, 61000};
    star(0xFFFFFFFF, common);
    for (u32 k = 0; k < IDENTIFIERS; k++) {
        due[k] = common;
        if (!(owners >> k & 1))
            continue;
        due[k] = (struct loads){1000 + 263 * k, 20000 + 1033 * k};
        put_pair(k, due[k]);
    }
    known_course(0xFFFFFFFF, IDENTIFIERS + 2);
}

/* The timer of K at node 0, the kinds of K that come to its two ports in one round, and the timer then. Only what is accepted
 * loads it: where it has just ended, or an acknowledge was taken, too. */
static const struct meeting {
    u32 timer;
    enum kind first, second;
    u32 then;
} meetings[] = {
    {0, INTERRUPT, INTERRUPT, 9}, {1, INTERRUPT, NOTHING, 9}, {4, INTERRUPT, INTERRUPT, 3}, {4, ACKNOWLEDGE, INTERRUPT, 9},
    {9, ACKNOWLEDGE, INTERRUPT, 9}, {9, INTERRUPT, NOTHING, 8}, {0, INTERRUPT, ACKNOWLEDGE, 0}, {4, NOTHING, ACKNOWLEDGE, 0},
};

static void wait_at(u32 device, enum kind kind) {
    if (kind != NOTHING)
        port_words(&state, device, 0)[kind == INTERRUPT ? AT_INTERRUPTS : AT_ACKNOWLEDGES] = 1 << K;
}

static void known_meeting(const struct meeting *meeting) {
    blank(&plan, 3);
    be_node(&plan, 0, NODE_PORTS);
    connect_ports(&plan, 0, 0, 1, 0, 15);
    connect_ports(&plan, 0, 1, 2, 0, 15);
    set_loads(&plan, 100, 200);
    seal_devices(&plan);
    put_pair(K, (struct loads){7, 9});
    begin();
    device_words(&state, 0)[0] = meeting->timer ? 1 << K : 0;
    device_words(&state, 0)[1 + K] = meeting->timer;
    wait_at(1, meeting->first);
    wait_at(2, meeting->second);
    must_be("a round", 0, try_round(&plan, &state, &played));
    must_be("the timer then", meeting->then, device_words(&played.next, 0)[1 + K]);
}

/* ---- which timers are sound */

/* A timer of k at a device: a call that gets behind the state is refused by 6. */
static void try_timers(u32 device, u32 k, u32 load) {
    const u32 values[] = {1, 2, load - 1, load, load + 1, load + 2, 100, 101, 200, 201, 255, 256, 257, 65535, 65536, 65536 + load,
                          0x80000000, 0x80000000 + load, 0xFFFFFFFF};
    u32 *words = device_words(&state, device);
    words[0] = 1u << k;
    for (u32 i = 0; i < sizeof values / sizeof *values; i++) {
        words[1 + k] = values[i];
        must_be("a state with this timer", values[i] >= 1 && values[i] <= load ? 6 : 2, try_reach(&plan, &state, 0, OTHER));
    }
    words[0] = words[1 + k] = 0;
}

/* With pairs that are longer than the common loads, shorter, or between them: of K, of the identifier behind it, which has other
 * loads, of the last one, and of two that have no pair. */
static void known_timers(void) {
    static const struct loads pairs[] = {{7, 9}, {300, 500}, {150, 150}, {50, 300}, {100, 200}, {1, 1}, {65535, 65535}};
    for (u32 i = 0; i < sizeof pairs / sizeof *pairs; i++) {
        star(1 << K, (struct loads){100, 200});
        put_pair(K, pairs[i]);
        put_pair(K + 1, (struct loads){20, 400});
        put_pair(31, pairs[i]);
        begin();
        for (u32 d = 0; d < STAR; d++) {
            try_timers(d, K, d == ROUTER ? pairs[i].router : pairs[i].node);
            try_timers(d, K + 1, d == ROUTER ? 20 : 400);
            try_timers(d, 31, d == ROUTER ? pairs[i].router : pairs[i].node);
            try_timers(d, K - 1, d == ROUTER ? 100 : 200);
            try_timers(d, 0, d == ROUTER ? 100 : 200);
        }
    }
}

/* Any call that is given a state, but the text, with numbers for which it is taken below. */
static u32 answer_of(enum call which) {
    static struct found found;
    switch (which) {
    case ACKNOWLEDGES: return call(which, 3, K);
    case LINK: return call(which, 0, 0);
    case ROUND: return try_round(&plan, &state, &played);
    case SETTLE: return try_settle(&plan, &state, 0);
    case REACH: return try_reach(&plan, &state, 0, K);
    case CROSSINGS:
    case CHAIN:
    case CUT:
        found.length = right_words(which);
        return try_way(which, &plan, &state, (struct question){.k = K}, &found);
    default: return call(which, 0, K);
    }
}

/* K has this timer at the router, and at node 3 the one that it is loaded with. */
static void known_calls(u32 timer, flag sound) {
    static struct state_file file;
    static struct printed printed = {.text_length = WHY_BYTES};
    star(1 << K, (struct loads){100, 200});
    put_pair(K, (struct loads){7, 9});
    for (enum call which = REQUEST; which <= CUT; which++) {
        if (which == REPORT)
            continue;
        begin();
        device_words(&state, 3)[0] = device_words(&state, ROUTER)[0] = 1 << K;
        device_words(&state, 3)[1 + K] = 9;
        device_words(&state, ROUTER)[1 + K] = timer;
        must_be("a call to a state with this timer", sound ? 0 : 2, answer_of(which));
    }
    state_bytes(&state, &file);
    must_be("a text", 0, try_why(&plan, &file, (struct question){.k = K}, &printed));
    must_say("what it says", sound ? "reached 0\n" : "r2\n", &printed);
}

/* ---- the text */

/* Source 0 at router 1, which is in a ring with routers 2 and 3. With long loads K and OTHER settle; with those of 1 a code goes
 * round and round, and each time finds nobody who holds it. */
static void known_report(struct loads common, struct loads own, const char *text) {
    static struct printed printed = {.text_length = TEXT_BYTES};
    blank(&plan, 4);
    for (u32 d = 1; d < 4; d++) {
        be_router(&plan, d, 3);
        connect_ports(&plan, d, 2, d % 3 + 1, 1, 15);
    }
    connect_ports(&plan, 0, 0, 1, 0, 15);
    put_number(device_block(&plan, 0) + SOURCES, 4, 1 << K | 1 << OTHER);
    set_loads(&plan, common.router, common.node);
    seal_devices(&plan);
    put_pair(K, own);
    must_be("the report of a pair", 0, try_report(&plan, &printed));
    must_say("its text", text, &printed);
}

static void known_reports(void) {
    const struct loads brief = {1, 1}, lasting = {5000, 5000};
    known_report(lasting, brief, "network 4\n0 5 - 1\n0 7 3 4\n");
    known_report(brief, lasting, "network 4\n0 5 3 4\n0 7 - 1\n");
    known_report(lasting, lasting, "network 4\n0 5 3 4\n0 7 3 4\n");
}

static void known_of(u32 which) {
    events = which;
    known_pairs();
    for (u32 i = 0; i < sizeof besides / sizeof *besides; i++)
        known_beside(&besides[i]);
    known_places(0xFFFFFFFF);
    known_places(0x49249249);
    known_timers();
}

void known_loads(void) {
    known_of(0xFFFFFFFF);
    known_of(0);
    known_bytes();
    for (u32 i = 0; i < sizeof faults / sizeof *faults; i++)
        known_fault(&faults[i]);
    known_behind();
    for (u32 i = 0; i < sizeof meetings / sizeof *meetings; i++)
        known_meeting(&meetings[i]);
    known_calls(7, 1);
    known_calls(8, 0);
    known_reports();
}
