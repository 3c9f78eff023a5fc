/* Accepted plan files of every shape, made in the bytes of the file. */
#include "driver.h"

enum { NOWHERE = 255, NO_PORT = PORTS };

u8 *device_block(struct plan *plan, u32 device) {
    return plan->bytes + BLOCK * (1 + device);
}

u8 *port_entry(struct plan *plan, u32 device, u32 port) {
    return device_block(plan, device) + 12 + 4 * port;
}

flag in_mask(struct plan *plan, u32 device, u32 mask, u32 k) {
    return device_block(plan, device)[mask + k / 8] >> k % 8 & 1;
}

u32 master_of(const struct plan *plan) {
    return plan->bytes[MASTER] ? plan->bytes[MASTER] - 1u : NO_MASTER;
}

void name_master(struct plan *plan, u32 device) {
    plan->bytes[MASTER] = 1 + device;
    seal(plan, 0);
}

u32 events_of(const struct plan *plan) {
    u32 events = 0;
    for (u32 i = 4; i; i--)
        events = 256 * events + plan->bytes[EVENTS + i - 1];
    return events;
}

flag is_event(const struct plan *plan, u32 k) {
    return events_of(plan) >> k & 1;
}

void set_event(struct plan *plan, u32 k, flag event) {
    u8 *byte = &plan->bytes[EVENTS + k / 8], bit = 1 << k % 8;
    *byte = event ? *byte | bit : *byte & ~bit;
    seal(plan, 0);
}

void lose_sources(struct plan *plan, u32 k, u32 but) {
    for (u32 d = 0; d < plan->bytes[1]; d++) {
        if (d == but || !in_mask(plan, d, SOURCES, k))
            continue;
        device_block(plan, d)[SOURCES + k / 8] &= ~(1 << k % 8);
        seal(plan, 1 + d);
    }
}

void be_acknowledged(struct plan *plan, u32 k) {
    u32 devices = plan->bytes[1], first = pick(devices);
    for (u32 i = 0; i < devices; i++)
        if (in_mask(plan, (first + i) % devices, SOURCES, k))
            lose_sources(plan, k, (first + i) % devices);
    set_event(plan, k, 0);
}

/* The role that this mask is about, and not the other one: no node has both for one identifier. What is no event has one source,
 * so that another one loses the role. */
void give_role(struct plan *plan, u32 device, u32 mask, u32 k) {
    u8 *block = device_block(plan, device), bit = 1 << k % 8;
    if (mask == SOURCES && !is_event(plan, k))
        lose_sources(plan, k, device);
    block[SOURCES + k / 8] &= ~bit;
    block[HANDLERS + k / 8] &= ~bit;
    block[mask + k / 8] |= bit;
    seal(plan, 1 + device);
}

u8 *port_bars(struct plan *plan, u32 device, u32 port) {
    return device_block(plan, device) + BARS + 8 * port;
}

static u8 *bar_byte(struct plan *plan, u32 device, u32 port, enum kind kind, u32 k) {
    return port_bars(plan, device, port) + (kind == ACKNOWLEDGE ? 4 : 0) + k / 8;
}

flag is_barred(struct plan *plan, u32 device, u32 port, enum kind kind, u32 k) {
    return *bar_byte(plan, device, port, kind, k) >> k % 8 & 1;
}

void set_bar(struct plan *plan, u32 device, u32 port, enum kind kind, u32 k, flag barred) {
    u8 *byte = bar_byte(plan, device, port, kind, k), bit = 1 << k % 8;
    *byte = barred ? *byte | bit : *byte & ~bit;
    seal(plan, 1 + device);
}

void unbar(struct plan *plan, u32 k) {
    for (u32 d = 0; d < plan->bytes[1]; d++)
        for (u32 p = 0; p < PORTS; p++) {
            set_bar(plan, d, p, INTERRUPT, k, 0);
            set_bar(plan, d, p, ACKNOWLEDGE, k, 0);
        }
}

void put_number(u8 *at, u32 bytes, u32 number) {
    for (u32 i = 0; i < bytes; i++)
        at[i] = number >> 8 * i;
}

void seal(struct plan *plan, u32 block) {
    put_number(plan->bytes + BLOCK * block + 510, 2, block_check(plan->bytes + BLOCK * block));
}

void seal_devices(struct plan *plan) {
    for (u32 d = 0; d < plan->bytes[1]; d++)
        seal(plan, 1 + d);
}

void set_loads(struct plan *plan, u32 router, u32 node) {
    put_number(plan->bytes + 2, 2, router);
    put_number(plan->bytes + 4, 2, node);
    seal(plan, 0);
}

void set_own_loads(struct plan *plan, u32 k, u32 router, u32 node) {
    put_number(plan->bytes + OWN_LOADS + 4 * k, 2, router);
    put_number(plan->bytes + OWN_LOADS + 4 * k + 2, 2, node);
    seal(plan, 0);
}

struct loads common_loads(const struct plan *plan) {
    return (struct loads){number_at(plan->bytes + 2, 2), number_at(plan->bytes + 4, 2)};
}

struct loads own_loads(const struct plan *plan, u32 k) {
    const u8 *pair = plan->bytes + OWN_LOADS + 4 * k;
    return (struct loads){number_at(pair, 2), number_at(pair + 2, 2)};
}

flag has_pair(const struct plan *plan, u32 k) {
    return own_loads(plan, k).node != 0;
}

struct loads loads_of(const struct plan *plan, u32 k) {
    return has_pair(plan, k) ? own_loads(plan, k) : common_loads(plan);
}

u32 load_at(struct plan *plan, u32 device, struct loads loads) {
    return device_block(plan, device)[2] == 1 ? loads.router : loads.node;
}

/* Nodes with one port, which lead nowhere. */
void blank(struct plan *plan, u32 devices) {
    plan->length = BLOCK * (1 + devices);
    memset(plan->bytes, 0, plan->length);
    plan->bytes[0] = 1;
    plan->bytes[1] = devices;
    for (u32 d = 0; d < devices; d++) {
        u8 *block = device_block(plan, d);
        block[0] = 2;
        block[1] = d;
        block[3] = 1;
        for (u32 p = 0; p < PORTS; p++)
            put_number(port_entry(plan, d, p), 4, NOWHERE + 256 * NOWHERE);
    }
}

void be_router(struct plan *plan, u32 device, u32 ports) {
    device_block(plan, device)[2] = 1;
    device_block(plan, device)[3] = ports;
}

void be_node(struct plan *plan, u32 device, u32 ports) {
    device_block(plan, device)[2] = 0;
    device_block(plan, device)[3] = ports;
}

void connect_ports(struct plan *plan, u32 device, u32 port, u32 peer, u32 peer_port, u8 permissions) {
    put_number(port_entry(plan, device, port), 4, peer + 256 * peer_port + 65536 * permissions);
    put_number(port_entry(plan, peer, peer_port), 4, device + 256 * port + 65536 * permissions);
}

/* A port of the device that leads nowhere yet, but not the one given. */
static u32 free_port(struct plan *plan, u32 device, u32 but) {
    u32 ports = device_block(plan, device)[3], first = pick(ports);
    for (u32 i = 0; i < ports; i++) {
        u32 p = (first + i) % ports;
        if (p != but && port_entry(plan, device, p)[0] == NOWHERE)
            return p;
    }
    return NO_PORT;
}

/* Joins two devices, or one to itself, where both have a port left. */
static void join(struct plan *plan, u32 device, u32 peer) {
    u32 p = free_port(plan, device, NO_PORT), q = free_port(plan, peer, device == peer ? p : NO_PORT);
    if (p != NO_PORT && q != NO_PORT)
        connect_ports(plan, device, p, peer, q, 0);
}

static void join_any(struct plan *plan, u32 n, u32 times) {
    for (; times; times--) {
        u32 device = pick(n), peer = pick(n);
        join(plan, device, peer);
    }
}

/* The shapes. A shape goes by places 0..n - 1; name[] says which device is at a place. */
static void tree(struct plan *plan, const u32 *name, u32 n) {
    u32 routers = 1, deep = pick(3), nodes = once_in(8) ? 0 : 1 + pick(3);
    u32 at[DEVICES] = {name[0]};
    be_router(plan, name[0], PORTS);
    for (u32 i = 1; i < n; i++) {
        u32 upper = deep == 0 ? at[routers - 1] : at[pick(routers)];
        if (pick(4) >= nodes)
            be_router(plan, name[i], PORTS), at[routers++] = name[i];
        join(plan, upper, name[i]);
    }
}

/* Routers in a line between two nodes: the most crossings that a network can have. */
static void line(struct plan *plan, const u32 *name, u32 n) {
    for (u32 i = 0; i + 1 < n; i++) {
        if (i > 0)
            be_router(plan, name[i], PORTS);
        join(plan, name[i], name[i + 1]);
    }
}

/* Routers in a torus of two sizes, a ring if one of them is 1: a router is then joined to itself. The rest are nodes. */
static void torus(struct plan *plan, const u32 *name, u32 n, u32 wide, u32 high) {
    u32 routers = wide * high;
    for (u32 i = 0; i < routers; i++)
        be_router(plan, name[i], PORTS);
    for (u32 i = 0; i < routers; i++) {
        join(plan, name[i], name[i / wide * wide + (i + 1) % wide]);
        if (high > 1 || once_in(4))
            join(plan, name[i], name[(i + wide) % routers]);
    }
    for (u32 i = routers; i < n; i++)
        join(plan, name[pick(routers)], name[i]);
}

/* Two by two; those with two ports are joined twice, in half of them. */
static void pairs(struct plan *plan, const u32 *name, u32 n) {
    for (u32 i = 0; i + 1 < n; i += 2)
        for (u32 times = 1 + pick(2); times; times--)
            join(plan, name[i], name[i + 1]);
}

static void anything(struct plan *plan, const u32 *name, u32 n) {
    for (u32 i = 0; i < n; i++)
        if (once_in(2))
            be_router(plan, name[i], 1 + pick(PORTS));
    join_any(plan, n, pick(5 * n));
}

/* Routers with every port connected. */
static void mesh(struct plan *plan, u32 n) {
    u32 end[DEVICES * PORTS], ends = PORTS * n;
    for (u32 i = 0; i < ends; i++) {
        u32 j = pick(i + 1);
        end[i] = end[j];
        end[j] = i;
    }
    for (u32 d = 0; d < n; d++)
        be_router(plan, d, PORTS);
    for (u32 i = 0; i < ends; i += 2)
        connect_ports(plan, end[i] / PORTS, end[i] % PORTS, end[i + 1] / PORTS, end[i + 1] % PORTS, 0);
}

/* Nodes with two ports in a row, or in a ring: joined to itself where it is one, joined twice where they are two. */
static void row(struct plan *plan, const u32 *name, u32 n) {
    u32 links = n - pick(2);
    for (u32 i = 0; i < n; i++)
        be_node(plan, name[i], NODE_PORTS);
    for (u32 i = 0; i < links; i++)
        join(plan, name[i], name[(i + 1) % n]);
}

/* Rows of routers that have only nodes in common, as a nominal and a redundant network: most nodes have two ports, which are
 * mostly in two of the rows. */
static void rows(struct plan *plan, const u32 *name, u32 n) {
    u32 count = 2 + once_in(3), routers = count + pick(1 + n / 3);
    for (u32 i = 0; i < n; i++) {
        if (i < routers) {
            be_router(plan, name[i], PORTS);
            if (i >= count)
                join(plan, name[i - count], name[i]);
            continue;
        }
        u32 first = pick(routers);
        be_node(plan, name[i], once_in(4) ? 1 : NODE_PORTS);
        join(plan, name[first], name[i]);
        join(plan, name[(first + 1) % routers], name[i]);
    }
}

/* A node with two ports that leads nowhere any more. */
static void cut_off(struct plan *plan, u32 node) {
    for (u32 p = 0; p < NODE_PORTS; p++) {
        u8 *entry = port_entry(plan, node, p);
        if (entry[0] == NOWHERE)
            continue;
        put_number(port_entry(plan, entry[0], entry[1]), 4, NOWHERE + 256 * NOWHERE);
        put_number(entry, 4, NOWHERE + 256 * NOWHERE);
    }
}

static void join_others(struct plan *plan, u32 n, u32 node, u32 times) {
    for (; times; times--) {
        u32 peer = pick(n);
        if (peer != node)
            join(plan, node, peer);
    }
}

/* Where else a node with two ports leads: to where it leads already, nowhere, or to any other devices; some lead to themselves
 * alone, or nowhere at all. */
static void join_second(struct plan *plan, u32 n, u32 node) {
    u32 one = port_entry(plan, node, 0)[0], other = port_entry(plan, node, 1)[0], first = one == NOWHERE ? other : one;
    u32 which = pick(12);
    if (which == 0) {
        cut_off(plan, node);
        if (!once_in(4))
            join(plan, node, node);
    } else if (which < 4 && first != NOWHERE) {
        join(plan, node, first);
    } else if (which < 10) {
        join_others(plan, n, node, 3);
    }
}

/* How many of the nodes have two ports; in two of five networks none has. */
static void give_ports(struct plan *plan, u32 n) {
    u32 style = pick(5);
    for (u32 d = 0; d < n; d++)
        if (style == 4 || (style > 1 && once_in(style == 2 ? 4 : 2)))
            be_node(plan, d, NODE_PORTS);
}

static void shape(struct plan *plan, u32 n) {
    u32 name[DEVICES];
    for (u32 i = 0; i < n; i++) {
        u32 j = pick(i + 1);
        name[i] = name[j];
        name[j] = i;
    }
    u32 wide = 1 + pick(n < 6 ? n : 6), high = 1 + pick(n / wide);
    give_ports(plan, n);
    switch (pick(9)) {
    case 0: tree(plan, name, n); break;
    case 1: once_in(3) ? line(plan, name, n) : tree(plan, name, n); break;
    case 2: torus(plan, name, n, 1 + pick(once_in(4) ? n : (n + 1) / 2), 1); break;
    case 3: torus(plan, name, n, wide, high); break;
    case 4: pairs(plan, name, n); break;
    case 5: once_in(3) ? mesh(plan, n) : tree(plan, name, n); break;
    case 6: row(plan, name, n); return;
    case 7: rows(plan, name, n); return;
    default: anything(plan, name, n);
    }
    join_any(plan, n, once_in(3) ? pick(2 * n) : 0);
    for (u32 d = 0; d < n; d++)
        if (device_block(plan, d)[2] == 0 && device_block(plan, d)[3] == NODE_PORTS)
            join_second(plan, n, d);
}

/* A router has as many ports as it uses, or some more. */
static void trim(struct plan *plan, u32 device) {
    u32 used = 1;
    for (u32 p = 0; p < PORTS; p++)
        if (port_entry(plan, device, p)[0] != NOWHERE)
            used = p + 1;
    device_block(plan, device)[3] = used + pick(PORTS + 1 - used);
}

static u8 permissions(u32 style) {
    switch (style) {
    case 0: return 0;
    case 1: return pick(16);
    case 2: return once_in(6) ? pick(16) : 15;
    case 3: return 15 - (once_in(8) ? 1 << pick(4) : 0);
    default: return 15;
    }
}

static u32 some_bits(u32 style) {
    switch (style) {
    case 0: return 0;
    case 1: return 1u << pick(32);
    case 2: return random_word() & random_word() & random_word() & 0xFFFFFFFF;
    case 3: return random_word() & 0xFFFFFFFF;
    default: return 0xFFFFFFFF;
    }
}

/* In half of the plans none, as in those from before there were events. What is no event has one source at most. */
static void choose_events(struct plan *plan) {
    put_number(plan->bytes + EVENTS, 4, some_bits(once_in(2) ? 0 : 1 + pick(4)));
    for (u32 k = 0; k < IDENTIFIERS; k++)
        if (!is_event(plan, k))
            be_acknowledged(plan, k);
}

static void dress(struct plan *plan, u32 devices) {
    u32 permitted = once_in(12) ? 0 : 1 + pick(6), sources = once_in(12) ? 0 : 1 + pick(4), handlers = pick(5);
    for (u32 d = 0; d < devices; d++) {
        u8 *block = device_block(plan, d);
        for (u32 p = 0; p < PORTS; p++)
            if (port_entry(plan, d, p)[0] != NOWHERE)
                port_entry(plan, d, p)[2] = permissions(permitted);
        u32 source = some_bits(sources), handler = some_bits(handlers);
        if (block[2] == 1) {
            trim(plan, d);
            continue;
        }
        u32 both = source & handler, yields = random_word();
        put_number(block + SOURCES, 4, source & ~(both & yields));
        put_number(block + HANDLERS, 4, handler & ~(both & ~yields));
    }
}

/* In half of the plans nothing is barred, as in those from before anything could be. In the others some ports of routers are
 * guarded, or all, whether they lead anywhere or not, against few identifiers or many: of one kind, or of both. */
static void choose_bars(struct plan *plan, u32 devices) {
    static const u32 seldom[] = {1, 2, 3, 3, 6, 12};
    u32 style = once_in(2) ? 0 : 1 + pick(4), guarded = seldom[pick(sizeof seldom / sizeof *seldom)];
    for (u32 i = 0; style && i < devices * PORTS; i++) {
        u32 d = i / PORTS, p = i % PORTS, which = pick(3), interrupts = some_bits(style), acknowledges = some_bits(style);
        if (device_block(plan, d)[2] == 0 || p >= device_block(plan, d)[3] || !once_in(guarded))
            continue;
        put_number(port_bars(plan, d, p), 4, which == 1 ? 0 : interrupts);
        put_number(port_bars(plan, d, p) + 4, 4, which == 2 ? 0 : acknowledges);
    }
}

/* More often short than long. The two are made equal once in so many times. */
static struct loads any_loads(u32 equal) {
    static const u32 most[] = {5, 5, 40, 300, 65535};
    u32 limit = most[pick(sizeof most / sizeof *most)], one = 1 + pick(limit), other = 1 + pick(limit);
    if (once_in(10))
        one = 65535;
    if (once_in(equal))
        other = one;
    return one < other ? (struct loads){one, other} : (struct loads){other, one};
}

/* In half of the plans no identifier has loads of its own, as in those from before any could. In the others one has, few have,
 * half, or all: each a pair that may be longer than the common loads, or shorter. */
static void choose_loads(struct plan *plan) {
    struct loads common = any_loads(10);
    u32 owners = some_bits(once_in(2) ? 0 : 1 + pick(4));
    set_loads(plan, common.router, common.node);
    for (u32 k = 0; k < IDENTIFIERS; k++) {
        if (!(owners >> k & 1))
            continue;
        struct loads own = any_loads(3);
        set_own_loads(plan, k, own.router, own.node);
    }
}

/* In half of the networks no device is the master, and where there are only routers none is either. */
static void choose_master(struct plan *plan, u32 devices) {
    u32 first = pick(devices);
    for (u32 i = once_in(2) ? devices : 0; i < devices; i++) {
        u32 d = (first + i) % devices;
        if (device_block(plan, d)[2] == 1)
            continue;
        name_master(plan, d);
        return;
    }
}

void make_plan(struct plan *plan) {
    u32 devices = once_in(8) ? 32 : once_in(3) ? 1 + pick(32) : 1 + pick(10);
    blank(plan, devices);
    shape(plan, devices);
    dress(plan, devices);
    choose_events(plan);
    choose_bars(plan, devices);
    choose_loads(plan);
    seal_devices(plan);
    choose_master(plan, devices);
}
