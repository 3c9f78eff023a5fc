/* "Plan file": the reader, with its refusals in the paper's order; and how a device without masks is written, for a rescue. */
#include "judge.h"

/* An entry of a port in a device's block: peer device, peer port, permissions, zero. */
enum { FIRST_ENTRY = 12, ENTRY = 4, PEER_DEVICE = 0, PEER_PORT = 1, PERMISSIONS = 2, SPARE = 3, NOWHERE = 255 };
enum { COMMON_LOADS = 2, EVENTS = 6, MASTER = 10, OWN_LOADS = 16, LOADS = 4, CHECK_AT = 510 };

/* Behind the entries stand the bars of each port: a mask of interrupts and one of acknowledges. */
enum { FIRST_BARS = FIRST_ENTRY + ENTRY * PORTS, MASK = 4, BARS = 2 * MASK, BEHIND_FIELDS = FIRST_BARS + BARS * PORTS };

u32 number_at(const u8 *at, u32 bytes) {
    u32 number = 0;
    while (bytes--)
        number = 256 * number + at[bytes];
    return number;
}

void number_put(u8 *at, u32 bytes, u32 number) {
    for (u32 i = 0; i < bytes; i++, number /= 256)
        at[i] = number % 256;
}

u32 block_check(const u8 *block) {
    u32 sum = 0;
    for (u32 i = 0; i < CHECK_AT; i++)
        sum += (i + 1) * block[i];
    return sum % 65521;
}

static flag zero(const u8 *block, u32 from, u32 to) {
    for (u32 i = from; i < to; i++)
        if (block[i])
            return 0;
    return 1;
}

static const u8 *entry_at(const u8 *file, u32 device, u32 port) {
    return file + BLOCK * (1 + device) + FIRST_ENTRY + ENTRY * port;
}

/* A router's load and then a node's, neither of them 0, and the router's not above the node's. */
static flag loads_read(struct loads *loads, const u8 *at) {
    loads->router = number_at(at, 2);
    loads->node = number_at(at + 2, 2);
    return loads->router >= 1 && loads->node >= 1 && loads->router <= loads->node;
}

/* What an identifier has of its own is zeros or good by itself: how long the common loads are is not asked. */
static flag own_loads_read(struct network *net, const u8 *block) {
    flag good = 1;
    for (u32 k = 0; k < IDENTIFIERS; k++) {
        const u8 *pair = block + OWN_LOADS + LOADS * k;
        good &= loads_read(&net->own[k], pair) || zero(pair, 0, LOADS);
    }
    return good;
}

static u32 block_0_read(struct network *net, const u8 *block) {
    if (number_at(block + CHECK_AT, 2) != block_check(block))
        return 21;
    if (block[0] != 1)
        return 22;
    net->devices = block[1];
    if (net->devices < 1 || net->devices > DEVICES)
        return 23;
    if (!loads_read(&net->common, block + COMMON_LOADS) || !own_loads_read(net, block))
        return 23;
    if (block[MASTER] > net->devices)
        return 23;
    net->master = block[MASTER] ? block[MASTER] - 1 : NO_MASTER;
    mask_read(number_at(block + EVENTS, 4), net->event); /* any of them: no mask is refused */
    flag zeros = zero(block, MASTER + 1, OWN_LOADS) && zero(block, OWN_LOADS + LOADS * IDENTIFIERS, CHECK_AT);
    return zeros ? 0 : 24;
}

static flag entry_good(const u8 *entry, flag exists, u32 devices) {
    if (entry[PEER_DEVICE] == NOWHERE && entry[PEER_PORT] == NOWHERE)
        return entry[PERMISSIONS] == 0 && entry[SPARE] == 0;
    return exists && entry[PEER_DEVICE] < devices && entry[PEER_PORT] < PORTS && entry[PERMISSIONS] <= 15 &&
           entry[SPARE] == 0;
}

/* A port may bar any codes where it is one that a router has, and elsewhere none. Whether it leads anywhere is not asked. */
static flag bars_read(struct port *port, const u8 *bars, flag may_bar) {
    mask_read(number_at(bars, MASK), port->barred[INTERRUPT]);
    mask_read(number_at(bars + MASK, MASK), port->barred[ACKNOWLEDGE]);
    return may_bar || zero(bars, 0, BARS);
}

/* Role, ports, and the masks: both 0 for a router, with no common bit for a node. */
static flag role_read(struct device *device, const u8 *block) {
    if (block[2] > 1)
        return 0;
    device->router = block[2] == 1;
    device->ports = block[3];
    mask_read(number_at(block + 4, 4), device->source);
    mask_read(number_at(block + 8, 4), device->handler);
    for (u32 k = 0; k < IDENTIFIERS; k++) {
        if (device->source[k] && (device->router || device->handler[k]))
            return 0;
        if (device->handler[k] && device->router)
            return 0;
    }
    return device->ports >= 1 && device->ports <= (device->router ? PORTS : NODE_PORTS);
}

/* Block 0 names the master, but only here it is seen that it is a router. */
u32 device_block_read(struct device *device, const u8 *file, const struct network *net) {
    const u8 *block = file + BLOCK * (1 + device->number);
    if (number_at(block + CHECK_AT, 2) != block_check(block))
        return 21;
    if (block[0] != 2 || block[1] != device->number)
        return 22;
    if (!role_read(device, block) || (device->router && device->number == net->master))
        return 23;
    for (u32 p = 0; p < PORTS; p++) {
        const u8 *entry = block + FIRST_ENTRY + ENTRY * p;
        if (!entry_good(entry, p < device->ports, net->devices))
            return 23;
        if (!bars_read(&device->port[p], block + FIRST_BARS + BARS * p, device->router && p < device->ports))
            return 23;
        permit(entry[PERMISSIONS], device->port[p].may_send, device->port[p].may_receive);
        device->port[p].device = device;
    }
    return zero(block, BEHIND_FIELDS, CHECK_AT) ? 0 : 24;
}

struct port *port_named(struct network *net, const u8 *file, u32 device, u32 port) {
    const u8 *entry = entry_at(file, device, port);
    if (entry[PEER_DEVICE] == NOWHERE)
        return 0;
    return &net->device[entry[PEER_DEVICE]].port[entry[PEER_PORT]];
}

/* The other end is a port that its device has, another one than this, and its entry names this one. A port that leads nowhere has
 * nothing wrong. */
static flag connect(struct network *net, const u8 *file, u32 device, u32 port) {
    struct port *end = &net->device[device].port[port], *peer = port_named(net, file, device, port);
    end->peer = peer;
    if (!peer)
        return 1;
    u32 number = peer - peer->device->port;
    return number < peer->device->ports && port_named(net, file, peer->device->number, number) == end && peer != end;
}

/* An acknowledge answers one request, so that what is acknowledged has one source at most. An event may have any number. */
static flag sources_good(const struct network *net, u32 k) {
    u32 sources = 0;
    for (u32 d = 0; d < net->devices; d++)
        sources += net->device[d].source[k];
    return net->event[k] || sources <= 1;
}

u32 front_read(struct network *net, const u8 *file, size length) {
    if (length < BLOCK || length > LONGEST_FILE || length % BLOCK != 0)
        return 20;
    u32 number = block_0_read(net, file);
    if (number)
        return number;
    return length / BLOCK != 1 + net->devices ? 25 : 0;
}

u32 file_read(struct network *net, const u8 *file, size length, u32 *block) {
    *block = 0;
    u32 number = front_read(net, file, length);
    if (number)
        return number;
    for (u32 d = 0; d < net->devices; d++) {
        *block = 1 + d;
        net->device[d].number = d;
        number = device_block_read(&net->device[d], file, net);
        if (number)
            return number;
    }
    for (u32 d = 0; d < net->devices; d++) {
        *block = 1 + d;
        for (u32 p = 0; p < net->device[d].ports; p++)
            if (!connect(net, file, d, p))
                return 26;
    }
    *block = 0;
    for (u32 k = 0; k < IDENTIFIERS; k++)
        if (!sources_good(net, k))
            return 27;
    return 0;
}

u32 judge_plan_read(const u8 *file, size length, u32 *block) {
    struct network net;
    return file_read(&net, file, length, block);
}

void device_block_write(const struct device *device, u8 *block) {
    for (u32 i = 0; i < BLOCK; i++)
        block[i] = 0;
    block[0] = 2;
    block[1] = device->number;
    block[2] = device->router;
    block[3] = device->ports;
    for (u32 p = 0; p < PORTS; p++) {
        u8 *entry = block + FIRST_ENTRY + ENTRY * p;
        const struct port *peer = device->port[p].peer;
        entry[PEER_DEVICE] = peer ? peer->device->number : NOWHERE;
        entry[PEER_PORT] = peer ? peer - peer->device->port : NOWHERE;
    }
    number_put(block + CHECK_AT, 2, block_check(block));
}
