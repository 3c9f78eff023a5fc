/* The values that the paper itself gives, asked of both, the fullest report and the fullest round, what two codes do that meet in
 * a node, and every call over a file of each refusal. */
#include "driver.h"

static struct plan plan;
static struct state state;
static struct played played;
static struct printed printed = {.text_length = TEXT_BYTES};

/* Node 0, source of 5, to router 1, to node 2, handler of 5. */
static void three_in_a_row(void) {
    blank(&plan, 3);
    be_router(&plan, 1, 2);
    connect_ports(&plan, 0, 0, 1, 0, 15);
    connect_ports(&plan, 1, 1, 2, 0, 15);
    device_block(&plan, 0)[SOURCES] = device_block(&plan, 2)[HANDLERS] = 1 << 5;
    set_loads(&plan, 100, 200);
    seal_devices(&plan);
}

static void known_report(void) {
    must_be("the report of the paper's plan", 0, try_report(&plan, &printed));
    must_say("its text", "network 3\n0 5 2 3\n", &printed);
}

/* 32 nodes in pairs, each a source of everything, which are events: no text has more lines. */
static void fullest_report(void) {
    blank(&plan, DEVICES);
    for (u32 d = 0; d < DEVICES; d++) {
        if (d % 2 == 0 && d < 30)
            connect_ports(&plan, d, 0, d + 1, 0, 15);
        put_number(device_block(&plan, d) + SOURCES, 4, 0xFFFFFFFF);
    }
    put_number(plan.bytes + EVENTS, 4, 0xFFFFFFFF);
    seal_devices(&plan);
    set_loads(&plan, 65535, 65535);
    must_be("the fullest report", 0, try_report(&plan, &printed));
}

/* What node 0 sends, and its next then, from a waiting set and a next. */
static void known_choice(u32 waiting, u32 next, u32 sent, u32 then) {
    state.length = STATE_WORDS;
    right_lengths(&played);
    must_be("the start", 0, try_start(&plan, &state));
    port_words(&state, 0, 0)[AT_INTERRUPTS] = waiting;
    port_words(&state, 0, 0)[AT_NEXT] = next;
    must_be("a round", 0, try_round(&plan, &state, &played));
    must_be("the code chosen", sent, played.sent[0]);
    must_be("the next then", then, port_words(&played.next, 0, 0)[AT_NEXT]);
}

/* A load of 1 set in a round clears in the next. */
static void known_timer(void) {
    set_loads(&plan, 1, 1);
    known_choice(1 << 5, 0, 128 + 5, 6);
    must_be("the router holds 5", 1 << 5, *device_words(&played.next, 1));
    state = played.next;
    must_be("a round", 0, try_round(&plan, &state, &played));
    must_be("the router holds nothing", 0, *device_words(&played.next, 1));
}

/* Nodes with two ports in a ring, where every timer ends and then two interrupts come to each: no round tells more. */
static void fullest_round(void) {
    blank(&plan, DEVICES);
    for (u32 d = 0; d < DEVICES; d++) {
        be_node(&plan, d, NODE_PORTS);
        connect_ports(&plan, d, 1, (d + 1) % DEVICES, 0, 15);
    }
    set_loads(&plan, 1, 1);
    seal_devices(&plan);
    must_be("the start", 0, try_start(&plan, &state));
    for (u32 d = 0; d < DEVICES; d++) {
        for (u32 i = 0; i < DEVICE_WORDS; i++)
            device_words(&state, d)[i] = i == 0 ? 0xFFFFFFFF : 1;
        port_words(&state, d, 0)[AT_INTERRUPTS] = port_words(&state, d, 1)[AT_INTERRUPTS] = 0xFFFFFFFF;
        port_words(&state, d, 0)[AT_NEXT] = 4;
        port_words(&state, d, 1)[AT_NEXT] = 9;
    }
    const size short_ones[] = {1056, 1087};
    for (u32 i = 0; i < 2; i++) {
        played.told_length = short_ones[i];
        must_be("a round with less room for what is told", 3, try_round(&plan, &state, &played));
    }
    right_lengths(&played);
    must_be("the fullest round", 0, try_round(&plan, &state, &played));
    must_be("the words told", 1088, played.count);
    for (u32 d = 0; d < DEVICES; d++) {
        for (u32 k = 0; k < IDENTIFIERS; k++)
            must_be("a timeout", 3 * 65536 + 256 * d + k, played.told[IDENTIFIERS * d + k]);
        must_be("the interrupt at port 0", 65536 + 256 * d + 9, played.told[1024 + 2 * d]);
        must_be("the interrupt at port 1", 65536 + 256 * d + 4, played.told[1024 + 2 * d + 1]);
    }
}

/* Two codes of 5 come to a node in one round: whether it holds 5 before and then, what comes to port 0, which may be closed to
 * all, and to port 1, and what the host is told of, which has the number of the kind. */
static const struct meeting {
    flag held, closed;
    enum kind first, second;
    u32 count, told[2];
    flag then;
} meetings[] = {
    {0, 0, INTERRUPT, INTERRUPT, 1, {INTERRUPT}, 1},
    {1, 0, INTERRUPT, INTERRUPT, 0, {0}, 1},
    {1, 0, ACKNOWLEDGE, ACKNOWLEDGE, 1, {ACKNOWLEDGE}, 0},
    {0, 0, ACKNOWLEDGE, ACKNOWLEDGE, 0, {0}, 0},
    {0, 0, INTERRUPT, ACKNOWLEDGE, 2, {INTERRUPT, ACKNOWLEDGE}, 0},
    {1, 0, INTERRUPT, ACKNOWLEDGE, 1, {ACKNOWLEDGE}, 0},
    {1, 0, ACKNOWLEDGE, INTERRUPT, 2, {ACKNOWLEDGE, INTERRUPT}, 1},
    {0, 0, ACKNOWLEDGE, INTERRUPT, 1, {INTERRUPT}, 1},
    {0, 1, INTERRUPT, INTERRUPT, 1, {INTERRUPT}, 1},
    {1, 1, ACKNOWLEDGE, ACKNOWLEDGE, 1, {ACKNOWLEDGE}, 0},
    {0, 1, INTERRUPT, ACKNOWLEDGE, 0, {0}, 0},
    {1, 1, ACKNOWLEDGE, INTERRUPT, 0, {0}, 1},
};

static void wait_at(u32 device, enum kind kind) {
    port_words(&state, device, 0)[kind == INTERRUPT ? AT_INTERRUPTS : AT_ACKNOWLEDGES] = 1 << 5;
}

/* Node 0 is joined to node 1 by its port 0 and to node 2 by its port 1. */
static void known_meeting(const struct meeting *meeting) {
    blank(&plan, 3);
    be_node(&plan, 0, NODE_PORTS);
    connect_ports(&plan, 0, 0, 1, 0, 15);
    connect_ports(&plan, 0, 1, 2, 0, 15);
    if (meeting->closed)
        port_entry(&plan, 0, 0)[2] = 5;
    set_loads(&plan, 100, 200);
    seal_devices(&plan);
    must_be("the start", 0, try_start(&plan, &state));
    device_words(&state, 0)[0] = meeting->held << 5;
    device_words(&state, 0)[1 + 5] = meeting->held ? 70 : 0;
    wait_at(1, meeting->first);
    wait_at(2, meeting->second);
    must_be("a round", 0, try_round(&plan, &state, &played));
    must_be("how many are told", meeting->count, played.count);
    for (u32 i = 0; i < meeting->count; i++)
        must_be("what is told", 65536 * meeting->told[i] + 5, played.told[i]);
    flag loaded = meeting->count && meeting->told[meeting->count - 1] == INTERRUPT;
    must_be("the register", meeting->then << 5, device_words(&played.next, 0)[0]);
    must_be("the timer", !meeting->then ? 0 : loaded ? 200 : 69, device_words(&played.next, 0)[1 + 5]);
}

/* Source 0 is joined to handler 1 and to router 2. A node passes nothing on, so that the acknowledge never gets to the router. */
static void not_past_a_node(void) {
    blank(&plan, 3);
    be_node(&plan, 0, NODE_PORTS);
    be_router(&plan, 2, 1);
    connect_ports(&plan, 0, 0, 1, 0, 15);
    connect_ports(&plan, 0, 1, 2, 0, 15);
    device_block(&plan, 0)[SOURCES] = device_block(&plan, 1)[HANDLERS] = 1 << 5;
    set_loads(&plan, 1000, 1000);
    seal_devices(&plan);
    must_be("the start", 0, try_start(&plan, &state));
    must_be("reach from both ports", 0, try_reach(&plan, &state, 0, 5));
    must_be("the devices reached", 3, value_given(0));
    must_be("the request", 0, try_change((struct change){.call = REQUEST, .device = 0, .other = 5}, &plan, &state));
    must_be("it settles", 0, try_settle(&plan, &state, MOST_ALLOWED));
    must_be("the acknowledge", 0, try_change((struct change){.call = ACKNOWLEDGES, .device = 1, .other = 5}, &plan, &state));
    must_be("it settles", 0, try_settle(&plan, &state, MOST_ALLOWED));
    must_be("the source's register", 0, device_words(&state, 0)[0]);
    must_be("the router's register", 1 << 5, device_words(&state, 2)[0]);
}

static void known_files(void) {
    set_loads(&plan, 9, 8);
    must_be("timers 9 and 8", 23, try_plan_read(&plan));
    set_loads(&plan, 8, 8);
    must_be("timers 8 and 8", 0, try_plan_read(&plan));
    plan.length = BLOCK;
    plan.bytes[1] = 33;
    seal(&plan, 0);
    must_be("33 devices in a lone block", 23, try_plan_read(&plan));
    plan.length = 0;
    must_be("an empty file", 20, try_plan_read(&plan));
}

/* Every number of ports of a node and of a router, with all entries as they are where nothing is joined. */
static void known_ports(void) {
    blank(&plan, 1);
    set_loads(&plan, 1, 1);
    for (u32 ports = 0; ports < 256; ports++) {
        be_node(&plan, 0, ports);
        seal(&plan, 1);
        must_be("the ports of a node", ports == 1 || ports == 2 ? 0 : 23, try_plan_read(&plan));
        must_be("the block", ports == 1 || ports == 2 ? 0 : 1, value_given(0));
        be_router(&plan, 0, ports);
        seal(&plan, 1);
        must_be("the ports of a router", ports >= 1 && ports <= 8 ? 0 : 23, try_plan_read(&plan));
    }
}

/* A fault for each number that a block is refused with: a byte of a block, the check put right or not. */
static const struct fault {
    u32 number, block, at, value;
    flag sealed;
} faults[] = {{21, 0, 6, 1, 0}, {22, 0, 0, 2, 1}, {23, 0, 1, 33, 1}, {24, 0, 11, 1, 1}, {25, 0, 1, 2, 1}, {26, 1, 13, 1, 1}};

/* Every call over a file that is not accepted answers the file's number. */
static void refused_by_all(u32 number) {
    must_be("a file with a fault", number, try_plan_read(&plan));
    u32 block = value_given(0);
    for (enum call call = START; call <= TICK; call++)
        must_be("a call over it", number, try_change((struct change){.call = call}, &plan, &state));
    must_be("a link that is to run", number, try_change((struct change){.call = LINK, .running = 1}, &plan, &state));
    must_be("a round over it", number, try_round(&plan, &state, &played));
    must_be("settling over it", number, try_settle(&plan, &state, MOST_ALLOWED));
    must_be("reach over it", number, try_reach(&plan, &state, 0, 5));
    ways_over(&plan, &state, number, block);
}

static void refused_files(void) {
    for (u32 i = 0; i < sizeof faults / sizeof *faults; i++) {
        three_in_a_row();
        plan.bytes[BLOCK * faults[i].block + faults[i].at] = faults[i].value;
        if (faults[i].sealed)
            seal(&plan, faults[i].block);
        refused_by_all(faults[i].number);
    }
    plan.length--;
    refused_by_all(20);
    three_in_a_row();
    device_block(&plan, 2)[SOURCES] = 1 << 5;
    device_block(&plan, 2)[HANDLERS] = 0;
    seal(&plan, 3);
    refused_by_all(27);
}

void known_values(void) {
    fullest_report();
    three_in_a_row();
    known_report();
    known_choice(1 << 5 | 1 << 9, 6, 128 + 9, 10);
    known_choice(1 << 5, 6, 128 + 5, 6);
    known_choice(1u << 31, 31, 128 + 31, 0);
    known_choice(0, 6, SENT_NONE, 6);
    must_be("allowance 4,096", 0, try_settle(&plan, &state, MOST_ALLOWED));
    must_be("allowance 4,097", 11, try_settle(&plan, &state, MOST_ALLOWED + 1));
    known_timer();
    known_files();
    known_ports();
    refused_files();
    state.length = STATE_WORDS;
    fullest_round();
    for (u32 i = 0; i < sizeof meetings / sizeof *meetings; i++)
        known_meeting(&meetings[i]);
    not_past_a_node();
}
