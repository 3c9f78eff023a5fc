/* What is known of Time-Codes, asked of both in fixed networks: where their words stand, what a tick and the rounds after it do,
 * what a port sends first, what two of them do that meet in a device, what stops and resets leave, and what is refused. */
#include "driver.h"

static struct plan plan;
static struct state state;
static struct played played;

/* A word of the state by its place in the area, as a caller finds it. */
static u32 *counter(u32 device) {
    return &state.words[2080 + device];
}

static u32 *word(u32 device, u32 port) {
    return &state.words[2112 + 8 * device + port];
}

static u32 tick(size device) {
    return try_change((struct change){.call = TICK, .device = device}, &plan, &state);
}

static void link(u32 device, u32 port, u32 running) {
    must_be("a link", 0, try_change((struct change){LINK, device, port, running}, &plan, &state));
}

static void play(void) {
    must_be("a round", 0, try_round(&plan, &state, &played));
    state = played.next;
}

static void begin(u32 master) {
    set_loads(&plan, 100, 200);
    seal_devices(&plan);
    name_master(&plan, master);
    right_lengths(&played);
    state.length = STATE_WORDS;
    must_be("the start", 0, try_start(&plan, &state));
}

/* Node 0, the master, and nodes 2 and 3 at router 1, which has a fourth port that leads nowhere. */
static void star(u8 permissions) {
    blank(&plan, 4);
    be_router(&plan, 1, 4);
    connect_ports(&plan, 1, 0, 0, 0, permissions);
    connect_ports(&plan, 1, 1, 2, 0, permissions);
    connect_ports(&plan, 1, 2, 3, 0, permissions);
    begin(0);
}

/* Node 0, the master, with node 1 at its port 0 and node 2 at its port 1. */
static void pair(void) {
    blank(&plan, 3);
    be_node(&plan, 0, NODE_PORTS);
    connect_ports(&plan, 0, 0, 1, 0, 0);
    connect_ports(&plan, 0, 1, 2, 0, 0);
    begin(0);
}

/* ---- what a tick does */

/* In the first of the two rounds after it. No permission is asked for. */
static void known_tick(u32 from, u32 to) {
    star(0);
    for (u32 i = 2080; i < 2368; i++)
        must_be("a word of Time-Codes at the start", 0, state.words[i]);
    for (u32 d = 0; d < 4; d++)
        *counter(d) = from;
    must_be("a tick", 0, tick(0));
    must_be("the master's counter", to, *counter(0));
    must_be("the code waits at its port", 1 + to, *word(0, 0));
    play();
    must_be("what the master sends", to, played.sent[0]);
    must_be("its word then", 128, *word(0, 0));
    must_be("the router's counter", to, *counter(1));
    const u32 words[] = {0, 1 + to, 1 + to, 0}; /* not where it came in, and not where nothing is joined */
    for (u32 p = 0; p < 4; p++)
        must_be("the words of the router's ports", words[p], *word(1, p));
    must_be("nobody is told yet", 0, played.count);
}

/* In the second one, and that the network is settled then. */
static void known_end(u32 to) {
    must_be("it settles", 0, try_settle(&plan, &played.next, 1));
    must_be("in one round", 1, value_given(0));
    play();
    must_be("two hosts are told", 2, played.count);
    must_be("that of node 2", 4 * 65536 + 256 * 2 + to, played.told[0]);
    must_be("that of node 3", 4 * 65536 + 256 * 3 + to, played.told[1]);
    must_be("a node forwards nothing", 0, *word(2, 0));
    must_be("the counter of node 3", to, *counter(3));
    must_be("the word of a router's port", 128, *word(1, 2));
    must_be("nothing waits", 0, try_settle(&plan, &state, 0));
}

/* A second tick before the first is sent: 1 is never sent, and 2 is one too many for all. 3 is what the router waits for then, and
 * two too many for the nodes. */
static void two_ticks(void) {
    star(15);
    must_be("a tick", 0, tick(0));
    must_be("another", 0, tick(0));
    must_be("the newer one waits", 3, *word(0, 0));
    play();
    must_be("it is sent", 2, played.sent[0]);
    must_be("the router's counter", 2, *counter(1));
    must_be("nothing is forwarded", 0, *word(1, 1));
    must_be("a third tick", 0, tick(0));
    play();
    must_be("that is forwarded", 4, *word(1, 1));
    play();
    must_be("the counter of node 2", 3, *counter(2));
    must_be("its host is not told", 0, played.count);
}

/* ---- what a port sends */

/* With a word, sets that wait, and a next of 5; and the word and the next then. */
static const struct choice {
    u32 word, interrupts, acknowledges, sent, then, next;
} choices[] = {
    {0, 0, 0, 256, 0, 5}, {128, 0, 0, 256, 128, 5}, {8, 0, 0, 7, 128, 5}, {136, 0, 0, 7, 128, 5},
    {8, 1 << 9, 0, 7, 128, 5}, {8, 0, 1 << 9, 7, 128, 5}, {136, 1 << 9, 0, 137, 8, 10}, {136, 0, 1 << 9, 169, 8, 10},
    {0, 1 << 9, 0, 137, 0, 10}, {128, 1 << 9, 0, 137, 0, 10}, {128, 0, 1 << 9, 169, 0, 10}, {64, 1 << 9, 0, 63, 128, 5},
    {192, 1 << 9, 0, 137, 64, 10}, {1, 1u << 31, 1, 0, 128, 5}, {129, 1u << 31, 1, 159, 1, 0}, {129, 1 << 5, 1 << 4, 133, 1, 6},
};

static void known_choice(const struct choice *choice) {
    star(15);
    u32 *waiting = port_words(&state, 0, 0), gone = choice->sent < 64 || choice->sent == 256 ? 0 : 1u << choice->sent % 32;
    waiting[AT_INTERRUPTS] = choice->interrupts;
    waiting[AT_ACKNOWLEDGES] = choice->acknowledges;
    waiting[AT_NEXT] = 5;
    *word(0, 0) = choice->word;
    play();
    must_be("what is sent", choice->sent, played.sent[0]);
    must_be("the word then", choice->then, *word(0, 0));
    must_be("the next then", choice->next, waiting[AT_NEXT]);
    must_be("the interrupts then", choice->interrupts & ~gone, waiting[AT_INTERRUPTS]);
    must_be("the acknowledges then", choice->acknowledges & ~gone, waiting[AT_ACKNOWLEDGES]);
}

/* Time-Code 1 comes to the router, and is queued at a port that has sent something in the same round: the word of the port, what
 * waits there beside it, what it sends, and the word then. */
static const struct queued {
    u32 word, interrupts, sent, then;
} queues[] = {{0, 0, 256, 2}, {128, 0, 256, 130}, {5, 0, 4, 130}, {133, 0, 4, 130}, {5, 8, 4, 130}, {133, 8, 131, 2},
              {128, 8, 131, 2}};

static void known_queue(const struct queued *queued) {
    star(15);
    must_be("a tick", 0, tick(0));
    *word(1, 1) = queued->word;
    port_words(&state, 1, 1)[AT_INTERRUPTS] = queued->interrupts;
    play();
    must_be("what the router's port sends", queued->sent, played.sent[9]);
    must_be("its word then", queued->then, *word(1, 1));
}

/* All identifiers wait, and the master ticks before each round: half of what its port sends are Time-Codes, and the last identifier
 * goes in round 64. */
static void known_turns(void) {
    star(15);
    port_words(&state, 0, 0)[AT_INTERRUPTS] = 0xFFFFFFFF;
    for (u32 round = 1; round <= 64; round++) {
        must_be("a tick", 0, tick(0));
        play();
        must_be("what is sent in turn", round % 2 ? round : 128 + round / 2 - 1, played.sent[0]);
    }
}

/* ---- two that meet */

/* A counter, what comes to port 0 and to port 1, the values that the host is told, and the counter then. */
static const struct meeting {
    u32 before, first, second, count, told[2], then;
} meetings[] = {
    {5, 6, 6, 1, {6}, 6}, {5, 6, 7, 2, {6, 7}, 7}, {5, 7, 6, 0, {0}, 6}, {5, 5, 6, 1, {6}, 6},
    {5, 6, 5, 1, {6}, 5}, {63, 0, 1, 2, {0, 1}, 1}, {0, 63, 0, 1, {0}, 0}, {5, 4, 5, 1, {5}, 5},
    {5, 4, 4, 0, {0}, 4}, {62, 63, 0, 2, {63, 0}, 0}, {63, 63, 63, 0, {0}, 63},
};

static void known_meeting(const struct meeting *meeting) {
    pair();
    *counter(0) = meeting->before;
    *word(1, 0) = 1 + meeting->first;
    *word(2, 0) = 1 + meeting->second;
    play();
    must_be("how many are told", meeting->count, played.count);
    for (u32 i = 0; i < meeting->count; i++)
        must_be("what is told", 4 * 65536 + meeting->told[i], played.told[i]);
    must_be("the counter", meeting->then, *counter(0));
    must_be("a node forwards nothing", 0, *word(0, 0) + *word(0, 1));
}

/* In a router: 6 comes to port 0 and goes to the other ports, and then 7 comes to port 1 and goes over it, but not at port 1. */
static void met_in_router(void) {
    star(15);
    *counter(1) = 5;
    *word(0, 0) = 7;
    *word(2, 0) = 8;
    play();
    const u32 words[] = {8, 7, 8, 0};
    for (u32 p = 0; p < 4; p++)
        must_be("the words of the router's ports", words[p], *word(1, p));
    must_be("the router's counter", 7, *counter(1));
}

/* ---- links and resets */

static void known_stop(void) {
    star(15);
    *word(0, 0) = 128 + 9;
    *word(1, 0) = 128;
    *word(1, 1) = *word(2, 0) = 130;
    *counter(0) = *counter(1) = 7;
    link(0, 0, 0);
    must_be("the word of a port that stops", 0, *word(0, 0));
    must_be("and that of its other end", 0, *word(1, 0));
    must_be("that of another port", 130, *word(1, 1));
    must_be("the counter of the one end", 7, *counter(0));
    must_be("that of the other", 7, *counter(1));
    *word(0, 0) = 128;
    link(1, 0, 1);
    must_be("the word of a port that starts", 128, *word(0, 0));
    must_be("a reset", 0, try_change((struct change){.call = RESET, .device = 1}, &plan, &state));
    must_be("the counter then", 0, *counter(1));
    must_be("the word of its port", 0, *word(1, 1));
    must_be("that of the other end", 130, *word(2, 0));
    must_be("the counter of the master", 7, *counter(0));
}

/* ---- refusals */

/* No port runs at the master in the end, and none at node 2, which is not the master: that is asked first. */
static void refused_ticks(void) {
    star(15);
    const size nobody[] = {4, 32, 256, 1ul << 32, (1ul << 32) + 3, ~0ul};
    for (u32 i = 0; i < sizeof nobody / sizeof *nobody; i++)
        must_be("a tick at no device", 4, tick(nobody[i]));
    must_be("a tick at a router", 14, tick(1));
    must_be("a tick at another node", 14, tick(2));
    link(0, 0, 0);
    link(2, 0, 0);
    must_be("a tick where no port runs", 7, tick(0));
    must_be("a tick at another node where none runs", 14, tick(2));
    *counter(0) = 64;
    must_be("a tick in a state that is not sound", 2, tick(9));
    *counter(0) = 0;
    plan.bytes[MASTER] = 0;
    seal(&plan, 0);
    must_be("a tick where there is no master", 14, tick(0));
    must_be("a tick at no device where there is none", 4, tick(4));
}

/* Every number below 300 in a word, and some great ones; where it is sound the call gets as far as 6. */
static void try_word(u32 *at, flag sound(u32)) {
    static const u32 great[] = {65535, 65536, 65537, 0x80000000, 0x80000001, 0xFFFFFF80, 0xFFFFFFFF};
    u32 was = *at;
    for (u32 i = 0; i < 300 + sizeof great / sizeof *great; i++) {
        *at = i < 300 ? i : great[i - 300];
        must_be("a state with this word", sound(*at) ? 6 : 2, try_reach(&plan, &state, 0, 0));
    }
    *at = was;
}

static flag is_zero(u32 value) {
    return value == 0;
}

static flag is_counter(u32 value) {
    return value <= 63;
}

static flag of_still_port(u32 value) {
    return value == 0 || value == 128;
}

static flag of_running_port(u32 value) {
    return value <= 64 || (value >= 128 && value <= 192);
}

static void known_words(void) {
    star(0);
    link(2, 0, 0);
    try_word(counter(3), is_counter);
    try_word(counter(4), is_zero);
    try_word(counter(31), is_zero);
    try_word(word(0, 0), of_running_port);
    try_word(word(1, 2), of_running_port);
    try_word(word(1, 1), of_still_port);
    try_word(word(2, 0), of_still_port);
    try_word(word(1, 3), of_still_port);
    try_word(word(1, 4), is_zero);
    try_word(word(0, 1), is_zero);
    try_word(word(4, 0), is_zero);
    try_word(word(31, 7), is_zero);
}

/* A state as it was before there were Time-Codes, or before drops were counted, is none any more, and so is one that ends somewhere
 * in their words. */
static void known_lengths(void) {
    static const size lengths[] = {1056, 2080, 2111, 2112, 2367, 2368, 2369, 2624, 2879, 2881};
    for (u32 i = 0; i < sizeof lengths / sizeof *lengths; i++) {
        star(15);
        played.next.length = lengths[i];
        must_be("a round into this length", 3, try_round(&plan, &state, &played));
        state.length = lengths[i];
        must_be("a tick in this length", 2, tick(0));
        must_be("a round from this length", 2, try_round(&plan, &state, &played));
        must_be("settling in this length", 2, try_settle(&plan, &state, 0));
        must_be("reach in this length", 2, try_reach(&plan, &state, 0, 0));
        must_be("a start in this length", 3, try_start(&plan, &state));
    }
}

/* A master and one fault more: a byte of a block, the check put right or not, and what the file is refused by. */
static const struct fault {
    u32 master, block, at, value;
    flag sealed;
    u32 number, in;
} faults[] = {
    {5, 0, 509, 1, 0, 21, 0}, {5, 0, 0, 2, 1, 22, 0}, {5, 0, 11, 1, 1, 23, 0}, {5, 0, 509, 1, 1, 23, 0}, {5, 1, 509, 1, 0, 23, 0},
    {4, 0, 1, 3, 1, 23, 0}, {4, 0, 1, 5, 1, 25, 0}, {2, 0, 1, 3, 1, 25, 0}, {2, 0, 11, 1, 1, 24, 0}, {2, 1, 509, 1, 0, 21, 1},
    {2, 1, 509, 1, 1, 24, 1}, {2, 1, 13, 1, 1, 23, 2}, {2, 2, 509, 1, 0, 21, 2}, {2, 2, 0, 1, 1, 22, 2}, {2, 2, 1, 0, 1, 22, 2},
    {2, 2, 509, 1, 1, 23, 2}, {2, 2, 13, 7, 1, 23, 2}, {2, 3, 509, 1, 0, 23, 2}, {2, 2, 2, 0, 1, 23, 2}, {1, 1, 2, 1, 1, 23, 1},
    {1, 3, 2, 1, 1, 0, 0},
};

static void known_fault(const struct fault *fault) {
    star(15);
    name_master(&plan, fault->master - 1);
    plan.bytes[BLOCK * fault->block + fault->at] = fault->value;
    if (fault->sealed)
        seal(&plan, fault->block);
    must_be("a master, and a fault", fault->number, try_plan_read(&plan));
    must_be("the block", fault->in, value_given(0));
}

/* Byte 10 with every value, and with 1 all others of block 0 from the mask of events on: no mask is wrong, a pair of loads
 * with one byte is, and the rest are to be zero. */
static void known_bytes(void) {
    star(15);
    for (u32 byte = 0; byte < 256; byte++) {
        plan.bytes[10] = byte;
        seal(&plan, 0);
        must_be("a file with this byte 10", byte == 2 || byte > 4 ? 23 : 0, try_plan_read(&plan));
        must_be("the block", byte == 2 ? 2 : 0, value_given(0));
    }
    for (u32 at = 6; at < 510; at++) {
        plan.bytes[10] = 1;
        plan.bytes[at] = 1;
        seal(&plan, 0);
        must_be("a file with this byte of block 0", at <= 10 ? 0 : at >= 16 && at < 144 ? 23 : 24, try_plan_read(&plan));
        plan.bytes[at] = 0;
    }
}

void known_times(void) {
    known_tick(0, 1);
    known_end(1);
    known_tick(63, 0);
    known_end(0);
    two_ticks();
    for (u32 i = 0; i < sizeof choices / sizeof *choices; i++)
        known_choice(&choices[i]);
    for (u32 i = 0; i < sizeof queues / sizeof *queues; i++)
        known_queue(&queues[i]);
    known_turns();
    for (u32 i = 0; i < sizeof meetings / sizeof *meetings; i++)
        known_meeting(&meetings[i]);
    met_in_router();
    known_stop();
    refused_ticks();
    known_words();
    known_lengths();
    for (u32 i = 0; i < sizeof faults / sizeof *faults; i++)
        known_fault(&faults[i]);
    known_bytes();
}
