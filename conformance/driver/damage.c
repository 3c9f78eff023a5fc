/* Plan files with something wrong, the check put right or left as it was. Some damage does no harm: the judge decides. */
#include "driver.h"

static u32 devices_of(const struct plan *plan) {
    return plan->length / BLOCK - 1;
}

static void cut(struct plan *plan) {
    u32 any = pick(ROOM), blocks = pick(40);
    const size lengths[] = {0, 1, 511, 513, plan->length - 1, plan->length + 1, plan->length - BLOCK, plan->length + BLOCK,
                            BLOCK, LONGEST_FILE - BLOCK, LONGEST_FILE, LONGEST_FILE + 1, LONGEST_FILE + BLOCK,
                            any, blocks * BLOCK};
    size length = lengths[pick(sizeof lengths / sizeof *lengths)];
    if (length > plan->length)
        memset(plan->bytes + plan->length, once_in(2) ? 0 : pick(256), length - plan->length);
    plan->length = length;
}

/* A value near the old one, at a limit, or any. */
static u8 other_value(u8 old) {
    u8 any = pick(256), flipped = old ^ 1 << pick(8);
    const u8 values[] = {old + 1, old - 1, 0, 1, 2, 8, 9, 15, 16, 31, 32, 33, 254, 255, any, flipped};
    return values[pick(sizeof values / sizeof *values)];
}

static void change(u8 *byte) {
    *byte = other_value(*byte);
}

static void change_check(struct plan *plan, u32 block) {
    u8 *check = plan->bytes + BLOCK * block + 510;
    u32 value = check[0] + 256 * check[1];
    put_number(check, 2, once_in(2) ? value + 1 - 2 * pick(2) : pick(65536));
}

/* A remainder that is not reduced: it fits into two bytes for the smallest loads, with none of their own, and one device or
 * two. */
static void raise_check(struct plan *plan) {
    memset(plan->bytes + OWN_LOADS, 0, BEHIND_LOADS - OWN_LOADS);
    set_loads(plan, 1, 1);
    if (block_check(plan->bytes) + 65521 <= 65535)
        put_number(plan->bytes + 510, 2, block_check(plan->bytes) + 65521);
}

static void put_loads(struct plan *plan) {
    u32 load = pick(3) ? 1 + pick(5) : pick(65535), router = once_in(3) ? 0 : load + pick(2), node = once_in(3) ? 0 : load;
    set_loads(plan, router, node);
}

/* A pair with one zero, or with the router's load above the node's, by one or by more; or one that does no harm. */
static void put_pair(struct plan *plan) {
    u32 k = pick(IDENTIFIERS), load = pick(3) ? 1 + pick(5) : 1 + pick(65535), less = pick(load);
    const struct loads pairs[] = {{0, load}, {load, 0}, {load, load - 1}, {load, less}, {load, load}, {less, load}};
    struct loads pair = pairs[pick(sizeof pairs / sizeof *pairs)];
    set_own_loads(plan, k, pair.router, pair.node);
}

/* Connections that are good fields and yet bad: a port that points to itself, to a port elsewhere, to one that its device
 * lacks, or nowhere while its peer points to it. */
static void misconnect(struct plan *plan, u32 device) {
    u32 ports = device_block(plan, device)[3], p = pick(ports > PORTS || ports < 1 ? PORTS : ports);
    u32 peer = pick(devices_of(plan)), peer_port = pick(PORTS);
    u8 *entry = port_entry(plan, device, p);
    switch (pick(4)) {
    case 0: put_number(entry, 4, device + 256 * p); break;
    case 1: put_number(entry, 4, peer + 256 * peer_port + 65536 * pick(16)); break;
    case 2: put_number(entry, 4, 0xFFFF); break;
    default: entry[1] = peer_port;
    }
}

/* Fields of a port entry that do not go together. */
static void misfit(struct plan *plan, u32 device) {
    u8 *entry = port_entry(plan, device, pick(PORTS));
    switch (pick(6)) {
    case 0: put_number(entry, 4, 0xFFFF + 65536 * pick(17)); break;
    case 1: put_number(entry, 4, 0xFF00 + pick(33)); break;
    case 2: put_number(entry, 4, 0x00FF + 256 * pick(9)); break;
    case 3: entry[2] = 16 << pick(4); break;
    case 4: entry[3] = 1 << pick(8); break;
    default: put_number(entry, 4, 0);
    }
}

/* A role with the ports or masks of the other, or masks with a common bit. A number of ports shows itself only where no
 * entry contradicts it, so that some devices lose their entries. */
static void misdress(struct plan *plan, u32 device) {
    u8 *block = device_block(plan, device);
    u32 bit = pick(32), mask = once_in(2) ? SOURCES : HANDLERS;
    for (u32 p = once_in(2) ? 0 : PORTS; p < PORTS; p++)
        put_number(port_entry(plan, device, p), 4, 0xFFFF);
    switch (pick(4)) {
    case 0: block[2] = pick(3); break;
    case 1: block[3] = pick(10); break;
    case 2: block[mask + bit / 8] ^= 1 << bit % 8; break;
    default: block[4 + bit / 8] |= 1 << bit % 8, block[8 + bit / 8] |= 1 << bit % 8;
    }
}

/* A number of ports that a node cannot have, or that its entries do not fit: port 1 that it has, and that is joined to itself, to
 * port 0, to a port elsewhere, or not joined and with permissions; or a port 1 or 2 that it has not, and that is joined. */
static void misport(struct plan *plan, u32 device) {
    u8 *block = device_block(plan, device), *second = port_entry(plan, device, 1), *third = port_entry(plan, device, 2);
    u32 peer = pick(devices_of(plan));
    block[2] = 0;
    switch (pick(8)) {
    case 0: block[3] = 0; break;
    case 1: block[3] = 3 + pick(6); break;
    case 2: block[3] = 9 + pick(247); break;
    case 3: block[3] = 1 + pick(2); break;
    case 4: block[3] = 2, put_number(second, 4, device + 256 * pick(2) + 65536 * 15); break;
    case 5: block[3] = 2, put_number(second, 4, peer + 256 * pick(PORTS) + 65536 * 15); break;
    case 6: block[3] = 2, put_number(second, 4, 0xFFFF + 65536 * (1 + pick(15))); break;
    default: block[3] = 2, put_number(third, 4, peer + 256 * pick(PORTS) + 65536 * pick(16));
    }
}

/* A master that there is not, or any device: where that is a router, the file is refused in its block. */
static void misname(struct plan *plan) {
    u32 devices = devices_of(plan), any = pick(256), device = pick(devices);
    const u8 names[] = {devices + 1, 33, 255, any, 1 + device, 1 + device, 1 + device};
    plan->bytes[MASTER] = names[pick(sizeof names / sizeof *names)];
}

/* A second source: of an identifier that has one already, so that the file is refused where it is no event, or of any. Where it
 * is one it may become none, or the mask any other. */
static void missource(struct plan *plan) {
    u32 devices = devices_of(plan), first = pick(devices * IDENTIFIERS), device = pick(devices), k = pick(IDENTIFIERS);
    for (u32 i = 0; i < devices * IDENTIFIERS; i++) {
        u32 at = (first + i) % (devices * IDENTIFIERS);
        if (at / IDENTIFIERS == device || !in_mask(plan, at / IDENTIFIERS, SOURCES, at % IDENTIFIERS))
            continue;
        k = at % IDENTIFIERS;
        break;
    }
    u8 *block = device_block(plan, device);
    block[SOURCES + k / 8] |= 1 << k % 8;
    block[HANDLERS + k / 8] &= ~(1 << k % 8);
    seal(plan, 1 + device);
    if (once_in(2))
        set_event(plan, k, 0);
    if (once_in(4))
        change(plan->bytes + EVENTS + pick(4));
}

/* An event that has sources is none any more: a fault where they are several. */
static void unmask(struct plan *plan) {
    u32 first = pick(IDENTIFIERS);
    for (u32 i = 0; i < IDENTIFIERS; i++) {
        u32 k = (first + i) % IDENTIFIERS, sources = 0;
        for (u32 d = 0; d < devices_of(plan); d++)
            sources += in_mask(plan, d, SOURCES, k);
        if (!is_event(plan, k) || sources < 1 + pick(2))
            continue;
        set_event(plan, k, 0);
        return;
    }
}

/* A byte of the bars, of any port: at a router's it may do no harm. */
static void misbar(struct plan *plan, u32 device) {
    u32 port = pick(PORTS), ports = device_block(plan, device)[3];
    if (once_in(2))
        port = ports < PORTS ? ports : PORTS - 1; /* the first that it lacks */
    u8 dirt = 1 + pick(255);
    port_bars(plan, device, port)[pick(8)] = dirt;
}

static void damage_block_0(struct plan *plan) {
    u8 dirt = 1 + pick(255);
    switch (pick(12)) {
    case 0: change(plan->bytes + pick(6)); break;
    case 1: plan->bytes[MASTER + pick(500)] = dirt; break;
    case 2: change_check(plan, 0); return;
    case 3: raise_check(plan); return;
    case 4: put_loads(plan); return;
    case 5: misname(plan); break;
    case 6: missource(plan); break;
    case 7: unmask(plan); break;
    case 8: plan->bytes[EVENTS + pick(4)] = dirt; break;
    case 9: put_pair(plan); return;
    case 10: change(plan->bytes + OWN_LOADS + pick(BEHIND_LOADS - OWN_LOADS)); break;
    default: plan->bytes[1] += 1 - 2 * pick(2);
    }
    if (!once_in(4))
        seal(plan, 0);
}

static void damage_device(struct plan *plan, u32 device) {
    u8 *block = device_block(plan, device), dirt = 1 + pick(255);
    switch (pick(10)) {
    case 0: change(block + pick(2)); break;
    case 1: change(block + pick(BARS)); break;
    case 2: block[BEHIND_BARS + pick(once_in(4) ? 1 : 510 - BEHIND_BARS)] = dirt; break;
    case 3: change_check(plan, 1 + device); return;
    case 4: misdress(plan, device); break;
    case 5: misfit(plan, device); break;
    case 6: misport(plan, device); break;
    case 7: misbar(plan, device); break;
    default: misconnect(plan, device);
    }
    if (!once_in(6))
        seal(plan, 1 + device);
}

/* One fault, or two or three that have to be told in their order. */
void damage(struct plan *plan) {
    for (u32 times = once_in(3) ? 2 + pick(2) : 1; times; times--) {
        u32 devices = devices_of(plan);
        switch (pick(8)) {
        case 0: cut(plan); return;
        case 1:
        case 2: damage_block_0(plan); break;
        default: damage_device(plan, pick(devices));
        }
    }
}
