/* T-10, tried: how many ports reach has examined. Each count is held to the bytes where it is compared; here it is known by itself,
 * in fixed networks, and it is counted what came up in networks of any shape. */
#include "driver.h"

enum { K = 5, EVERYTHING = 15, NOWHERE = 255 };

/* What there was in a reach that was not refused. */
enum having {
    ANSWERED, ALONE, TWO_ROUTERS, SMALLER, A_NODE, ROUTER_LEFT, TWO_LINKS, BACK, OPEN, STANDS_STILL, MAY_NOT, BARS_IT, HAVINGS
};
static const char *const having_names[HAVINGS] = {
    "an answer", "the source alone", "two routers or more", "a router with fewer than eight ports", "a node beside the source",
    "a router that is not reached", "a router by two ports of one device", "a port that leads back to the source",
    "a port that is joined to nothing", "a port that stands still", "a port that runs and is not permitted",
    "a port whose other end bars the interrupt"};
static size havings[HAVINGS];
static u32 most;

/* ---- networks of any shape */

static flag is_router(struct plan *plan, u32 device) {
    return device_block(plan, device)[2] == 1;
}

/* May interrupts go by this port, which is joined, as far as its permission and that of its other end are concerned? */
static flag permits(struct plan *plan, u32 d, u32 p) {
    const u8 *entry = port_entry(plan, d, p);
    return entry[2] & 1 && port_entry(plan, entry[0], entry[1])[2] & 2;
}

static flag bars_it(struct plan *plan, u32 d, u32 p, u32 k) {
    const u8 *entry = port_entry(plan, d, p);
    return is_barred(plan, entry[0], entry[1], INTERRUPT, k);
}

/* The device to which interrupts of k get by this port, or NOWHERE. */
static u32 leads_to(struct plan *plan, struct state *state, u32 d, u32 p, u32 k) {
    const u8 *entry = port_entry(plan, d, p);
    if (entry[0] == NOWHERE || !port_words(state, d, p)[AT_RUNNING])
        return NOWHERE;
    return permits(plan, d, p) && !bars_it(plan, d, p, k) ? entry[0] : NOWHERE;
}

/* A port of d that is examined. */
static void port_has(struct plan *plan, struct state *state, u32 source, u32 k, u32 d, u32 p, flag has[HAVINGS]) {
    flag joined = port_entry(plan, d, p)[0] != NOWHERE, running = port_words(state, d, p)[AT_RUNNING];
    u32 to = leads_to(plan, state, d, p, k);
    has[OPEN] |= !joined;
    has[STANDS_STILL] |= joined && !running;
    has[MAY_NOT] |= running && !permits(plan, d, p);
    has[BARS_IT] |= running && permits(plan, d, p) && bars_it(plan, d, p, k);
    has[BACK] |= to == source;
    for (u32 other = 0; to != NOWHERE && to != d && is_router(plan, to) && other < p; other++)
        has[TWO_LINKS] |= leads_to(plan, state, d, other, k) == to;
}

static void count(struct plan *plan, struct state *state, u32 source, u32 k, u32 set) {
    flag has[HAVINGS] = {[ANSWERED] = 1, [ALONE] = set == 1u << source};
    u32 routers = 0;
    for (u32 d = 0; d < plan->bytes[1]; d++) {
        flag router = is_router(plan, d), reached = set >> d & 1;
        u32 ports = device_block(plan, d)[3];
        has[ROUTER_LEFT] |= router && !reached;
        has[A_NODE] |= !router && reached && d != source;
        has[SMALLER] |= router && reached && ports < PORTS;
        routers += router && reached;
        for (u32 p = 0; reached && (router || d == source) && p < ports; p++)
            port_has(plan, state, source, k, d, p, has);
    }
    has[TWO_ROUTERS] = routers > 1;
    for (u32 i = 0; i < HAVINGS; i++)
        havings[i] += has[i];
}

u32 examine(struct plan *plan, struct state *state, size device, u32 k) {
    u32 number = try_reach(plan, state, device, k);
    if (number)
        return number;
    count(plan, state, device, k, value_given(1));
    if (most < value_given(2))
        most = value_given(2);
    return 0;
}

void examined_table(void) {
    printf("T-10, reaches that had                         times\n");
    counts_table(having_names, havings, HAVINGS);
    printf("  the most ports examined: %u\n", most);
}

flag all_examined_tried(void) {
    return all_counted("T-10, no reach had", having_names, havings, HAVINGS);
}

/* ---- fixed networks */

static struct plan plan;
static struct state state = {.length = STATE_WORDS};

static void begin(void) {
    device_block(&plan, 0)[SOURCES] = 1 << K;
    set_loads(&plan, 100, 200);
    seal_devices(&plan);
    must_be("the start", 0, try_start(&plan, &state));
}

static void stop(u32 device, u32 port) {
    must_be("a link", 0, try_change((struct change){.call = LINK, .device = device, .other = port}, &plan, &state));
}

static void examines(u32 devices, u32 ports) {
    must_be("a known reach", 0, try_reach(&plan, &state, 0, K));
    must_be("the devices reached", devices, value_given(0));
    must_be("the ports examined", ports, value_given(2));
}

static void refuses(u32 number, size device, u32 k) {
    must_be("a reach that is refused", number, try_reach(&plan, &state, device, k));
    must_be("the ports examined then", 0, value_given(2));
}

/* Every refusal, 21 for those of files. A word of the state, and then a byte of the file, is another one for a while. */
static void known_refusals(void) {
    refuses(4, DEVICES, K);
    refuses(5, 0, IDENTIFIERS);
    refuses(6, 0, K + 1);
    port_words(&state, 0, 0)[AT_NEXT] = IDENTIFIERS;
    refuses(2, 0, K);
    port_words(&state, 0, 0)[AT_NEXT] = 0;
    plan.bytes[BLOCK - 1]++;
    refuses(21, 0, K);
    plan.bytes[BLOCK - 1]--;
}

/* Source 0 leads to router 1, which has five ports, and by its other port nowhere. Between router 1 and router 2, which has six,
 * there are two links. Router 4 with eight is behind router 2. Node 3 is at router 1 and has router 5 behind it. Router 4 bars the
 * interrupt, or, which does no harm, the acknowledge; the link to it stops, then one of the two, and then router 1 may not send by
 * the other. */
static void known_routers(void) {
    static const u32 joined[][4] = {{0, 0, 1, 0}, {1, 1, 2, 3}, {1, 2, 2, 0}, {2, 1, 4, 0}, {1, 3, 3, 0}, {3, 1, 5, 0}};
    blank(&plan, 6);
    be_node(&plan, 0, 2);
    be_router(&plan, 1, 5);
    be_router(&plan, 2, 6);
    be_node(&plan, 3, 2);
    be_router(&plan, 4, 8);
    be_router(&plan, 5, 3);
    for (u32 i = 0; i < sizeof joined / sizeof *joined; i++)
        connect_ports(&plan, joined[i][0], joined[i][1], joined[i][2], joined[i][3], EVERYTHING);
    begin();
    examines(5, 2 + 5 + 6 + 8);
    known_refusals();
    set_bar(&plan, 4, 0, ACKNOWLEDGE, K, 1);
    examines(5, 2 + 5 + 6 + 8);
    set_bar(&plan, 4, 0, INTERRUPT, K, 1);
    examines(4, 2 + 5 + 6);
    set_bar(&plan, 4, 0, INTERRUPT, K, 0);
    stop(2, 1);
    examines(4, 2 + 5 + 6);
    stop(1, 1);
    examines(4, 2 + 5 + 6);
    port_entry(&plan, 1, 2)[2] = EVERYTHING - 1;
    seal(&plan, 1 + 1);
    examines(3, 2 + 5);
    stop(0, 0);
    examines(1, 2);
}

/* A node with two ports and 31 routers of eight in a ring: there are no more ports to examine. Where one link stops, all are
 * reached from both sides; with another one, which is the source's, 16 of the routers are. */
static void most_ports(void) {
    blank(&plan, DEVICES);
    be_node(&plan, 0, NODE_PORTS);
    for (u32 d = 1; d < DEVICES; d++)
        be_router(&plan, d, PORTS);
    for (u32 d = 0; d < DEVICES; d++)
        connect_ports(&plan, d, 1, (d + 1) % DEVICES, 0, EVERYTHING);
    begin();
    examines(32, 250);
    stop(15, 1);
    examines(32, 250);
    stop(0, 1);
    examines(17, 2 + 16 * 8);
}

/* A source with one port, and one that is met by its own two. */
static void known_alone(void) {
    blank(&plan, 1);
    begin();
    examines(1, 1);
    be_node(&plan, 0, NODE_PORTS);
    connect_ports(&plan, 0, 0, 0, 1, EVERYTHING);
    begin();
    examines(1, 2);
}

void known_examined(void) {
    known_routers();
    most_ports();
    known_alone();
}
