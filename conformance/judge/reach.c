/* Reach, as a search in breadth: devices leave a queue in the order of their crossings, so that the first way to a device
 * is a shortest one. */
#include "judge.h"

/* What the other end bars it may not receive. No Time-Code is barred. */
flag passes(const struct port *port, struct code code) {
    if (!port->peer || !port->running || !port->may_send[code.kind] || !port->peer->may_receive[code.kind])
        return 0;
    return code.kind == TIME_CODE || !port->peer->barred[code.kind][code.value];
}

/* The search. T-10: each port is counted when it is looked at, before it is known whether it leads anywhere. */
static u32 search(const struct network *net, u32 start, struct code code, const u32 *within, u32 distance[DEVICES],
                  u32 *examined) {
    u32 line[DEVICES], first = 0, last = 0;
    *examined = 0;
    for (u32 d = 0; d < DEVICES; d++)
        distance[d] = UNREACHED;
    distance[start] = 0;
    line[last++] = start;
    for (; first < last; first++) {
        const struct device *from = &net->device[line[first]];
        if (!from->router && from->number != start)
            continue; /* a node passes nothing on */
        for (u32 p = 0; p < from->ports; p++) {
            ++*examined;
            if (!passes(&from->port[p], code))
                continue;
            u32 to = from->port[p].peer->device->number;
            if (distance[to] != UNREACHED || (within && within[to] == UNREACHED))
                continue;
            distance[to] = distance[from->number] + 1;
            line[last++] = to;
        }
    }
    return last;
}

u32 crossings(const struct network *net, u32 start, struct code code, const u32 *within, u32 distance[DEVICES]) {
    u32 examined;
    return search(net, start, code, within, distance, &examined);
}

u32 way_refused(const struct network *net, size source, u32 k, size device) {
    if (source >= net->devices || device >= net->devices)
        return 4;
    if (k >= IDENTIFIERS)
        return 5;
    return net->device[source].source[k] ? 0 : 6;
}

u32 judge_reach_ports(const u8 *plan, size plan_length, const u32 *state, size state_length, size device, u32 k, u32 *devices,
                      u32 *set, u32 *examined) {
    struct network net;
    u32 distance[DEVICES];
    *devices = 0;
    *set = 0;
    *examined = 0;
    u32 number = network_read(&net, plan, plan_length, state, state_length);
    if (number)
        return number;
    number = way_refused(&net, device, k, device);
    if (number)
        return number;
    *devices = search(&net, device, (struct code){INTERRUPT, k}, 0, distance, examined);
    for (u32 d = 0; d < DEVICES; d++)
        *set |= (u32)(distance[d] != UNREACHED) << d;
    return 0;
}
