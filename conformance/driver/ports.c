/* T-05, tried: nodes with two ports. Where their ports lead in the networks that are made; and what the calls of a host answer at
 * one, by which of its ports run and may send. */
#include "driver.h"

enum { NOWHERE = 255, TRIES = 8 };

/* Where the ports of a node lead. */
enum shape { ONE_ROUTER, TWO_ROUTERS, ROUTER_AND_NODE, ONE_NODE, TWO_NODES, ITSELF, ONE_OPEN, BOTH_OPEN, SHAPES };
static const char *const shape_names[SHAPES] = {
    "to one router", "to two routers", "to a router and a node", "to one other node", "to two other nodes", "to each other",
    "one to nothing", "both to nothing"};
static size nodes[SHAPES], networks[SHAPES];

/* How the ports decide on a call: refused by 7; by 8, by 8 with a port that may send and stands still; taken at one port that runs
 * beside one that does not, at one that may beside one that may not, at both. */
enum way { NONE_RUNS, NONE_MAY, STOPPED_MAY, ONE_RUNS, ONE_MAY, BOTH_MAY, WAYS };
static const char *const way_names[WAYS] = {
    "neither runs: 7", "none that runs may send: 8", "the same, and the one that stands still may: 8", "one runs: taken",
    "both run, and one may send: taken", "both run and may send: taken"};
static size requests[WAYS], acknowledges[WAYS], of_events[WAYS]; /* the last are refused by 13, whatever the ports are */

static struct plan plan;
static struct state state;

static flag has_two_ports(struct plan *given, u32 device) {
    return device_block(given, device)[2] == 0 && device_block(given, device)[3] == NODE_PORTS;
}

static enum shape shape_of(struct plan *given, u32 node) {
    u32 one = port_entry(given, node, 0)[0], other = port_entry(given, node, 1)[0];
    if (one == NOWHERE || other == NOWHERE)
        return one == other ? BOTH_OPEN : ONE_OPEN;
    if (one == node)
        return ITSELF;
    u32 routers = device_block(given, one)[2] + device_block(given, other)[2];
    if (routers == 1)
        return ROUTER_AND_NODE;
    if (routers == 0)
        return one == other ? ONE_NODE : TWO_NODES;
    return one == other ? ONE_ROUTER : TWO_ROUTERS;
}

void count_shapes(struct plan *given) {
    flag here[SHAPES] = {0};
    for (u32 d = 0; d < given->bytes[1]; d++)
        if (has_two_ports(given, d)) {
            nodes[shape_of(given, d)]++;
            here[shape_of(given, d)] = 1;
        }
    for (u32 s = 0; s < SHAPES; s++)
        networks[s] += here[s];
}

/* Both ports get any permissions, and run or stand still, with their other ends. */
static void arrange(u32 node) {
    for (u32 p = 0; p < NODE_PORTS; p++) {
        u8 *entry = port_entry(&plan, node, p);
        if (entry[0] == NOWHERE)
            continue;
        entry[2] = pick(16);
        flag running = once_in(2);
        set_running(&plan, &state, node, p, running);
        set_running(&plan, &state, entry[0], entry[1], running);
    }
    seal(&plan, 1 + node);
}

/* The number is worked out here too, and where the code waits then. */
static void call_at(enum call call, u32 node, u32 k) {
    u32 waits = call == REQUEST ? AT_INTERRUPTS : AT_ACKNOWLEDGES, permission = call == REQUEST ? 1 : 4;
    flag runs[NODE_PORTS], may[NODE_PORTS];
    for (u32 p = 0; p < NODE_PORTS; p++) {
        runs[p] = port_words(&state, node, p)[AT_RUNNING];
        may[p] = port_entry(&plan, node, p)[2] & permission;
    }
    u32 running = runs[0] + runs[1], sending = (runs[0] && may[0]) + (runs[1] && may[1]);
    flag held = *device_words(&state, node) >> k & 1;
    flag event = call == ACKNOWLEDGES && is_event(&plan, k);
    u32 number = event ? 13 : !running ? 7 : !sending ? 8 : held == (call == REQUEST) ? 9 : 0;
    must_be("a call at a node with two ports", number,
            try_change((struct change){.call = call, .device = node, .other = k}, &plan, &state));
    if (number == 9)
        return;
    enum way way = !running ? NONE_RUNS
                   : !sending ? may[0] || may[1] ? STOPPED_MAY : NONE_MAY
                   : running == 1 ? ONE_RUNS
                   : sending == 1 ? ONE_MAY
                                  : BOTH_MAY;
    (event ? of_events : call == REQUEST ? requests : acknowledges)[way]++;
    for (u32 p = 0; !number && p < NODE_PORTS; p++)
        must_be("the code waits where it can be sent", runs[p] && may[p], port_words(&state, node, p)[waits] >> k & 1);
}

void try_ports(const struct plan *given) {
    u32 node = pick(given->bytes[1]), looked = 0;
    plan = *given;
    for (; !has_two_ports(&plan, node); node = (node + 1) % plan.bytes[1])
        if (looked++ == plan.bytes[1])
            return;
    for (u32 i = 0; i < TRIES; i++) {
        enum call call = i % 2 ? REQUEST : ACKNOWLEDGES;
        u32 k = pick(IDENTIFIERS);
        give_role(&plan, node, call == REQUEST ? SOURCES : HANDLERS, k);
        sound_state(&plan, &state);
        arrange(node);
        call_at(call, node, k);
    }
}

void ports_table(void) {
    printf("the ports of nodes with two        nodes  networks\n");
    for (u32 s = 0; s < SHAPES; s++)
        printf("  %-28s %9lu %9lu\n", shape_names[s], nodes[s], networks[s]);
    printf("what they decide on                             requests  acknowledges  of events: 13\n");
    for (u32 w = 0; w < WAYS; w++)
        printf("  %-46s %7lu %13lu %14lu\n", way_names[w], requests[w], acknowledges[w], of_events[w]);
}

flag all_ports_tried(void) {
    flag all = 1;
    for (u32 s = 0; s < SHAPES; s++)
        if (!nodes[s]) {
            printf("no node with two ports had them so: %s\n", shape_names[s]);
            all = 0;
        }
    for (u32 w = 0; w < WAYS; w++)
        if (!requests[w] || !acknowledges[w] || !of_events[w]) {
            printf("never asked at a node with two ports: %s\n", way_names[w]);
            all = 0;
        }
    return all;
}
