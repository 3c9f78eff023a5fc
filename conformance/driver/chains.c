/* What is known of T-09 in fixed networks, asked of both: chains, cuts and their texts, word by word, and each refusal in its
 * place. */
#include "driver.h"

enum { K = 5, EVERYTHING = 15, LONGEST = DEVICES - 1 };

static struct plan plan;
static struct state state = {.length = STATE_WORDS};
static struct state_file file;
static struct found found;
static struct printed printed = {.text_length = WHY_BYTES};

/* The network with its source, in its start state. */
static void begin(const u32 joined[][4], u32 links) {
    for (u32 i = 0; i < links; i++)
        connect_ports(&plan, joined[i][0], joined[i][1], joined[i][2], joined[i][3], EVERYTHING);
    device_block(&plan, 0)[SOURCES] = 1 << K;
    set_loads(&plan, 100, 200);
    seal_devices(&plan);
    must_be("the start", 0, try_start(&plan, &state));
}

/* Source 0 comes to router 3 by router 2, to which its port 0 leads, as soon as by router 1. Two links are between 2 and 3, and the
 * lower port at 2 is joined to the higher one at 3. Node 4 has router 5 behind it, and 6, 7 and 8 are nodes at 3. */
static void branches(void) {
    static const u32 joined[][4] = {{0, 0, 2, 0}, {0, 1, 1, 0}, {1, 1, 3, 0}, {2, 1, 3, 6}, {2, 2, 3, 1}, {3, 2, 4, 0},
                                    {4, 1, 5, 0}, {3, 3, 6, 0}, {3, 4, 7, 0}, {3, 5, 8, 0}};
    blank(&plan, 9);
    be_node(&plan, 0, NODE_PORTS);
    be_node(&plan, 4, NODE_PORTS);
    for (u32 d = 1; d < 6; d++)
        if (d != 4)
            be_router(&plan, d, d == 3 ? PORTS : 3);
    begin(joined, sizeof joined / sizeof *joined);
}

/* From router 1 to router 4 it would be shorter through node 2 than by the routers 3 and 5. */
static void round_a_node(void) {
    static const u32 joined[][4] = {{0, 0, 1, 0}, {1, 1, 2, 0}, {2, 1, 4, 0}, {1, 2, 3, 0}, {3, 1, 5, 0}, {5, 1, 4, 1}};
    blank(&plan, 6);
    be_node(&plan, 2, NODE_PORTS);
    for (u32 d = 1; d < 6; d++)
        if (d != 2)
            be_router(&plan, d, 3);
    begin(joined, sizeof joined / sizeof *joined);
}

static void link_runs(u32 device, u32 port, u32 running) {
    must_be("a link", 0, try_change((struct change){LINK, device, port, running}, &plan, &state));
}

static void permit_port(u32 device, u32 port, u8 permissions) {
    port_entry(&plan, device, port)[2] = permissions;
    seal(&plan, 1 + device);
}

/* The text for a device, and the value of the chain there. */
static void says(u32 device, u32 crossings, const char *text) {
    struct question asks = {.device = device, .k = K};
    found.length = CHAIN_WORDS;
    must_be("a chain", 0, try_way(CHAIN, &plan, &state, asks, &found));
    must_be("its length", crossings, found.value);
    state_bytes(&state, &file);
    must_be("a text", 0, try_why(&plan, &file, asks, &printed));
    must_say("what it says", text, &printed);
}

static void known_ways(void) {
    round_a_node();
    says(4, 4, "reached 4\n0 0 1 0\n1 2 3 0\n3 1 5 0\n5 1 4 1\n");
    says(2, 2, "reached 2\n0 0 1 0\n1 1 2 0\n");
    branches();
    says(0, 0, "reached 0\n");
    says(2, 1, "reached 1\n0 0 2 0\n");
    says(1, 1, "reached 1\n0 1 1 0\n");
    says(3, 2, "reached 2\n0 0 2 0\n2 1 3 6\n");
    says(8, 3, "reached 3\n0 0 2 0\n2 1 3 6\n3 5 8 0\n");
    says(5, UNREACHED, "cut 1\n4 1 does-not-forward\n");
    link_runs(2, 1, 0);
    says(3, 2, "reached 2\n0 0 2 0\n2 2 3 1\n");
    permit_port(2, 2, EVERYTHING - 1);
    says(3, 2, "reached 2\n0 1 1 0\n1 1 3 0\n");
    permit_port(1, 1, EVERYTHING - 1);
    says(4, UNREACHED, "cut 3\n1 1 may-not-send\n2 1 stopped\n2 2 may-not-send\n");
}

/* All that can fail at one port fails, and is mended one by one, from the first cause on. */
static void known_causes(void) {
    branches();
    link_runs(3, 3, 0);
    permit_port(3, 3, 0);
    permit_port(6, 0, 0);
    permit_port(3, 4, 14);
    permit_port(8, 0, 13);
    says(5, UNREACHED, "cut 4\n3 3 stopped\n3 4 may-not-send\n3 5 may-not-receive\n4 1 does-not-forward\n");
    link_runs(3, 3, 1);
    says(6, UNREACHED, "cut 4\n3 3 may-not-send\n3 4 may-not-send\n3 5 may-not-receive\n4 1 does-not-forward\n");
    permit_port(3, 3, 1);
    says(6, UNREACHED, "cut 4\n3 3 may-not-receive\n3 4 may-not-send\n3 5 may-not-receive\n4 1 does-not-forward\n");
    permit_port(6, 0, 2);
    says(6, 3, "reached 3\n0 0 2 0\n2 1 3 6\n3 3 6 0\n");
    link_runs(4, 1, 0);
    permit_port(4, 1, EVERYTHING - 1);
    says(5, UNREACHED, "cut 3\n3 4 may-not-send\n3 5 may-not-receive\n4 1 stopped\n");
    link_runs(4, 1, 1);
    permit_port(5, 0, EVERYTHING - 2);
    says(5, UNREACHED, "cut 3\n3 4 may-not-send\n3 5 may-not-receive\n4 1 may-not-send\n");
    permit_port(4, 1, EVERYTHING);
    says(5, UNREACHED, "cut 3\n3 4 may-not-send\n3 5 may-not-receive\n4 1 may-not-receive\n");
}

static void bar(u32 device, u32 port, flag barred) {
    set_bar(&plan, device, port, INTERRUPT, K, barred);
}

/* The number of the cause at a port, in the area. */
static void cuts(u32 device, u32 port, u32 number) {
    found.length = CUT_WORDS;
    must_be("a cut", 0, try_way(CUT, &plan, &state, (struct question){.k = K}, &found));
    must_be("the number of a cause", number, found.words[8 * device + port]);
}

/* One way after the other is barred where it comes to router 3; then other causes are there as well, and go before that. What the
 * sending port bars, and bars of the acknowledge or of another identifier, change nothing. Of a node it is seen behind that that
 * it does not forward. */
static void known_barred(void) {
    branches();
    bar(2, 1, 1);
    bar(1, 1, 1);
    set_bar(&plan, 3, 6, ACKNOWLEDGE, K, 1);
    set_bar(&plan, 3, 6, INTERRUPT, K + 1, 1);
    says(3, 2, "reached 2\n0 0 2 0\n2 1 3 6\n");
    bar(3, 6, 1);
    says(3, 2, "reached 2\n0 0 2 0\n2 2 3 1\n");
    bar(3, 1, 1);
    says(3, 2, "reached 2\n0 1 1 0\n1 1 3 0\n");
    bar(3, 0, 1);
    says(4, UNREACHED, "cut 3\n1 1 barred\n2 1 barred\n2 2 barred\n");
    link_runs(2, 1, 0);
    permit_port(2, 2, EVERYTHING - 1);
    permit_port(3, 0, EVERYTHING - 2);
    says(4, UNREACHED, "cut 3\n1 1 may-not-receive\n2 1 stopped\n2 2 may-not-send\n");
    permit_port(3, 0, EVERYTHING);
    says(4, UNREACHED, "cut 3\n1 1 barred\n2 1 stopped\n2 2 may-not-send\n");
    bar(3, 0, 0);
    bar(5, 0, 1);
    says(5, UNREACHED, "cut 1\n4 1 barred\n");
    cuts(4, 1, 5);
    bar(5, 0, 0);
    says(5, UNREACHED, "cut 1\n4 1 does-not-forward\n");
    cuts(4, 1, 4);
}

/* A source of which nothing runs reaches itself, and both its ports lead out of that. */
static void known_alone(void) {
    branches();
    link_runs(0, 0, 0);
    link_runs(0, 1, 0);
    says(0, 0, "reached 0\n");
    says(3, UNREACHED, "cut 2\n0 0 stopped\n0 1 stopped\n");
    file.given = 0;
    must_be("a text from the start", 0, try_why(&plan, &file, (struct question){.device = 1, .k = K}, &printed));
    must_say("what it says", "reached 1\n0 1 1 0\n", &printed);
}

/* Routers in a line between two nodes: no chain is longer. A router has port 0 to the source's side and port 7 to the other. */
static void known_line(void) {
    u32 joined[LONGEST][4];
    blank(&plan, DEVICES);
    for (u32 d = 0; d < LONGEST; d++) {
        if (d)
            be_router(&plan, d, PORTS);
        memcpy(joined[d], (const u32[]){d, d ? 7 : 0, d + 1, 0}, sizeof joined[d]);
    }
    begin(joined, LONGEST);
    found.length = CROSSINGS_WORDS;
    must_be("the crossings of a line", 0, try_way(CROSSINGS, &plan, &state, (struct question){.k = K}, &found));
    must_be("the most of them", LONGEST, found.value);
    for (u32 d = 0; d < DEVICES; d++)
        must_be("those to a device", d, found.words[d]);
    found.length = CHAIN_WORDS;
    must_be("the longest chain", 0, try_way(CHAIN, &plan, &state, (struct question){.device = LONGEST, .k = K}, &found));
    must_be("its length", LONGEST, found.value);
    for (u32 d = 0; d < LONGEST; d++)
        must_be("a port of it", d ? PORTS * d + 7 : 0, found.words[d]);
    must_be("the word behind it", CHAIN_NONE, found.words[LONGEST]);
}

/* All is wrong at first: the file, the state, the area, the source, the device, the identifier, and whose source it is. One after
 * the other is mended. Crossings and a cut have no device, and a text is refused by its area alone, which is never wrong here. */
enum { NONE_MENDED, FILE_MENDED, STATE_MENDED, AREA_MENDED, SOURCE_MENDED, DEVICE_MENDED, K_MENDED, ALL_MENDED };

static void known_refusal(u32 mended) {
    static const u32 numbers[] = {21, 2, 3, 4, 4, 5, 6, 0};
    static const char *const texts[] = {"bad 21 0\n", "r2\n", "r4\n", "r4\n", "r4\n", "r5\n", "r6\n", "reached 1\n0 1 1 0\n"};
    struct question asks = {.source = mended < SOURCE_MENDED ? 9 : 0, .device = mended < DEVICE_MENDED ? 9 : 1,
                            .k = mended < K_MENDED ? 32 : mended < ALL_MENDED ? K + 1 : K};
    branches();
    plan.bytes[510] ^= mended < FILE_MENDED;
    port_words(&state, 0, 0)[AT_NEXT] = mended < STATE_MENDED ? 32 : 0;
    for (enum call call = CROSSINGS; call <= CUT; call++) {
        flag no_device = mended == SOURCE_MENDED && call != CHAIN;
        found.length = right_words(call) - (mended < AREA_MENDED);
        must_be("the first refusal", no_device ? 5 : numbers[mended], try_way(call, &plan, &state, asks, &found));
    }
    state_bytes(&state, &file);
    must_be("a text", 0, try_why(&plan, &file, asks, &printed));
    must_say("the first refusal in it", texts[mended], &printed);
}

/* An area of words has one length. A text needs its least one, and a state's file has four bytes for each word; before there were
 * Time-Codes a state had 2,080 words, and before drops were counted 2,368. */
static void known_lengths(void) {
    static const size texts[] = {0, 1, WHY_BYTES - 1, WHY_BYTES, WHY_BYTES + 1};
    static const size files[] = {0, 1, 4, 2880, 2 * 2880, 8320, 9472, 11516, 11519, 11521, 11524, 2 * 11520, 11520};
    struct question asks = {.device = 1, .k = K};
    branches();
    for (u32 i = 0; i < 4 * 3; i++) {
        enum call call = CROSSINGS + i % 3;
        const size lengths[] = {0, right_words(call) - 1, right_words(call) + 1, 2 * right_words(call)};
        found.length = lengths[i / 3];
        must_be("an area of another length", 3, try_way(call, &plan, &state, asks, &found));
    }
    state_bytes(&state, &file);
    for (u32 i = 0; i < sizeof texts / sizeof *texts; i++) {
        printed.text_length = texts[i];
        must_be("a text in this area", texts[i] < WHY_BYTES ? 3 : 0, try_why(&plan, &file, asks, &printed));
    }
    for (u32 i = 0; i < sizeof files / sizeof *files; i++) {
        file.length = files[i];
        must_be("a text", 0, try_why(&plan, &file, asks, &printed));
        must_say("what it says of a state's file of this length", files[i] == 11520 ? "reached 1\n0 1 1 0\n" : "r2\n", &printed);
    }
    printed.text_length = WHY_BYTES;
}

void known_chains(void) {
    known_ways();
    known_causes();
    known_barred();
    known_alone();
    known_line();
    for (u32 mended = NONE_MENDED; mended <= ALL_MENDED; mended++)
        known_refusal(mended);
    known_lengths();
}
