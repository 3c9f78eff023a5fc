/* The calls between rounds. Each tests its refusals in the order of the table, and changes nothing before the last. */
#include "judge.h"

static flag any_runs(const struct device *node) {
    for (u32 p = 0; p < node->ports; p++)
        if (node->port[p].running)
            return 1;
    return 0;
}

/* Whether the kind may be sent is asked of the ports that run, and of no other. */
static flag any_sends(const struct device *node, enum kind kind) {
    for (u32 p = 0; p < node->ports; p++)
        if (node->port[p].running && node->port[p].may_send[kind])
            return 1;
    return 0;
}

/* A request sets the bit and an acknowledge clears it; all else is the same for both, but that no event is acknowledged. */
u32 host_asks(struct network *net, size device, enum kind kind, u32 k) {
    if (device >= net->devices)
        return 4;
    if (k >= IDENTIFIERS)
        return 5;
    struct device *node = &net->device[device];
    flag wanted = kind == INTERRUPT;
    if (!(wanted ? node->source[k] : node->handler[k]))
        return 6; /* a router is neither */
    if (kind == ACKNOWLEDGE && net->event[k])
        return 13;
    if (!any_runs(node))
        return 7;
    if (!any_sends(node, kind))
        return 8;
    if (node->set[k] == wanted)
        return 9;
    node->set[k] = wanted;
    node->timer[k] = wanted ? load_of(net, node, k) : 0;
    for (u32 p = 0; p < node->ports; p++)
        queue(&node->port[p], (struct code){kind, k});
    return 0;
}

static u32 host_call(const u8 *plan, size plan_length, u32 *state, size state_length, size device, enum kind kind, u32 k) {
    struct network net;
    u32 number = network_read(&net, plan, plan_length, state, state_length);
    if (!number)
        number = host_asks(&net, device, kind, k);
    if (!number)
        state_write(&net, state);
    return number;
}

u32 judge_request(const u8 *plan, size plan_length, u32 *state, size state_length, size device, u32 k) {
    return host_call(plan, plan_length, state, state_length, device, INTERRUPT, k);
}

u32 judge_acknowledge(const u8 *plan, size plan_length, u32 *state, size state_length, size device, u32 k) {
    return host_call(plan, plan_length, state, state_length, device, ACKNOWLEDGE, k);
}

/* Running is the flag that is wanted: 0 stops the link, and any other number starts it. A stop clears what waits at both ends,
 * and whether a Time-Code was sent last there, and beside the flags nothing else: registers, timers, counters and what was
 * counted of drops outlast it. */
u32 judge_link(const u8 *plan, size plan_length, u32 *state, size state_length, size device, size port, u32 running) {
    struct network net;
    flag run = running != 0;
    u32 number = network_read(&net, plan, plan_length, state, state_length);
    if (number)
        return number;
    if (device >= net.devices || port >= net.device[device].ports)
        return 4;
    struct port *end = &net.device[device].port[port];
    if (!end->peer)
        return 7;
    if (end->running == run)
        return 10;
    end->running = run;
    end->peer->running = run;
    if (!run) {
        clear_waiting(end);
        clear_waiting(end->peer);
    }
    state_write(&net, state);
    return 0;
}

u32 judge_start(const u8 *plan, size plan_length, u32 *state, size state_length) {
    struct network net;
    u32 block, number = file_read(&net, plan, plan_length, &block);
    if (number)
        return number;
    if (state_length != STATE_WORDS)
        return 3;
    start(&net);
    state_write(&net, state);
    return 0;
}

/* The host of the master ticks. No permission is asked for. */
u32 judge_tick(const u8 *plan, size plan_length, u32 *state, size state_length, size device) {
    struct network net;
    u32 number = network_read(&net, plan, plan_length, state, state_length);
    if (number)
        return number;
    if (device >= net.devices)
        return 4;
    if (device != net.master)
        return 14;
    struct device *master = &net.device[device];
    if (!any_runs(master))
        return 7;
    master->counter = (master->counter + 1) % TIMES;
    for (u32 p = 0; p < master->ports; p++)
        queue(&master->port[p], (struct code){TIME_CODE, master->counter});
    state_write(&net, state);
    return 0;
}

/* The running flags stay: a reset stops no link. */
u32 judge_reset(const u8 *plan, size plan_length, u32 *state, size state_length, size device) {
    struct network net;
    u32 number = network_read(&net, plan, plan_length, state, state_length);
    if (number)
        return number;
    if (device >= net.devices)
        return 4;
    struct device *reset = &net.device[device];
    clear_device(reset);
    for (u32 p = 0; p < reset->ports; p++) {
        clear_waiting(&reset->port[p]);
        clear_dropped(&reset->port[p]);
        reset->port[p].next = 0;
    }
    state_write(&net, state);
    return 0;
}
