/* The state: how it starts, and how it stands in an area of words. */
#include "judge.h"

static size device_at(u32 d) {
    return DEVICE_WORDS * d;
}

static size port_at(u32 d, u32 p) {
    return FIRST_PORT + PORT_WORDS * (PORTS * d + p);
}

static size counter_at(u32 d) {
    return FIRST_COUNTER + d;
}

static size time_at(u32 d, u32 p) {
    return FIRST_TIME + PORTS * d + p;
}

static size drops_at(u32 d, u32 p) {
    return FIRST_DROP + DROP_WORDS * (PORTS * d + p);
}

void clear_device(struct device *device) {
    device->counter = 0;
    for (u32 k = 0; k < IDENTIFIERS; k++) {
        device->set[k] = 0;
        device->timer[k] = 0;
    }
}

void clear_waiting(struct port *port) {
    for (u32 k = 0; k < IDENTIFIERS; k++)
        port->waiting[k] = NOTHING;
    port->time = NO_TIME;
    port->after_time = 0;
}

void clear_dropped(struct port *port) {
    port->dropped[INTERRUPT] = port->dropped[ACKNOWLEDGE] = 0;
}

/* No pair that a file may have has one zero. */
u32 load_of(const struct network *net, const struct device *device, u32 k) {
    const struct loads *own = &net->own[k], *loads = own->node ? own : &net->common;
    return device->router ? loads->router : loads->node;
}

void start(struct network *net) {
    for (u32 d = 0; d < net->devices; d++) {
        struct device *device = &net->device[d];
        clear_device(device);
        for (u32 p = 0; p < device->ports; p++) {
            clear_waiting(&device->port[p]);
            clear_dropped(&device->port[p]);
            device->port[p].next = 0;
            device->port[p].running = device->port[p].peer != 0;
        }
    }
}

static flag all_zero(const u32 *words, u32 count) {
    for (u32 i = 0; i < count; i++)
        if (words[i])
            return 0;
    return 1;
}

/* A timer runs exactly where the bit is 1, and from its load down. */
static flag registers_read(const struct network *net, struct device *device, const u32 *words) {
    flag sound = 1;
    for (u32 k = 0; k < IDENTIFIERS; k++) {
        u32 timer = words[1 + k];
        device->set[k] = words[0] >> k & 1;
        device->timer[k] = timer;
        sound &= device->set[k] ? timer >= 1 && timer <= load_of(net, device, k) : timer == 0;
    }
    return sound;
}

/* What waits for one identifier; an identifier in both sets, or in one that the port may not send, is not sound. */
static flag waiting_read(struct port *port, u32 k, flag interrupt, flag acknowledge) {
    port->waiting[k] = interrupt ? INTERRUPT : acknowledge ? ACKNOWLEDGE : NOTHING;
    if (interrupt && acknowledge)
        return 0;
    return port->waiting[k] == NOTHING || (port->running && port->may_send[port->waiting[k]]);
}

static flag port_read(struct port *port, const u32 *words) {
    port->next = words[AT_NEXT];
    port->running = words[AT_RUNNING] == 1;
    flag sound = words[AT_NEXT] < IDENTIFIERS && words[AT_RUNNING] <= 1 && !(port->running && !port->peer);
    for (u32 k = 0; k < IDENTIFIERS; k++)
        sound &= waiting_read(port, k, words[AT_INTERRUPTS] >> k & 1, words[AT_ACKNOWLEDGES] >> k & 1);
    return sound;
}

/* No word between the greatest Time-Code plus 1 and AFTER_TIME is sound, and none above both together. A Time-Code waits where the
 * port runs; that one was sent last may be so at any port. */
static flag time_read(struct port *port, u32 word) {
    u32 waiting = word % AFTER_TIME;
    port->time = waiting ? waiting - 1 : NO_TIME;
    port->after_time = word >= AFTER_TIME;
    return word < 2 * AFTER_TIME && waiting <= TIMES && (!waiting || port->running);
}

/* Only routers drop anything. Whether the port bars it is not asked: it may have been another plan's. */
static flag dropped_read(struct port *port, const u32 *words) {
    port->dropped[INTERRUPT] = words[AT_DROPPED_INTERRUPTS];
    port->dropped[ACKNOWLEDGE] = words[AT_DROPPED_ACKNOWLEDGES];
    u32 most = port->device->router ? MOST_DROPPED : 0;
    return port->dropped[INTERRUPT] <= most && port->dropped[ACKNOWLEDGE] <= most;
}

static flag device_read(const struct network *net, struct device *device, const u32 *words) {
    u32 d = device->number;
    device->counter = words[counter_at(d)];
    flag sound = registers_read(net, device, words + device_at(d)) && device->counter < TIMES;
    for (u32 p = 0; p < PORTS; p++) {
        struct port *port = &device->port[p];
        const u32 *of_port = words + port_at(d, p), time = words[time_at(d, p)], *drops = words + drops_at(d, p);
        if (p < device->ports)
            sound &= port_read(port, of_port) && time_read(port, time) && dropped_read(port, drops);
        else
            sound &= all_zero(of_port, PORT_WORDS) && time == 0 && all_zero(drops, DROP_WORDS);
    }
    return sound;
}

static flag absent_zero(u32 d, const u32 *words) {
    return all_zero(words + device_at(d), DEVICE_WORDS) && all_zero(words + port_at(d, 0), PORT_WORDS * PORTS) &&
           words[counter_at(d)] == 0 && all_zero(words + time_at(d, 0), PORTS) &&
           all_zero(words + drops_at(d, 0), DROP_WORDS * PORTS);
}

static flag ends_agree(const struct device *device) {
    for (u32 p = 0; p < device->ports; p++)
        if (device->port[p].peer && device->port[p].peer->running != device->port[p].running)
            return 0;
    return 1;
}

flag state_read(struct network *net, const u32 *words, size length) {
    if (length != STATE_WORDS)
        return 0;
    flag sound = 1;
    for (u32 d = 0; d < net->devices; d++)
        sound &= device_read(net, &net->device[d], words);
    for (u32 d = 0; d < net->devices; d++)
        sound &= ends_agree(&net->device[d]);
    for (u32 d = net->devices; d < DEVICES; d++)
        sound &= absent_zero(d, words);
    return sound;
}

u32 network_read(struct network *net, const u8 *plan, size plan_length, const u32 *state, size state_length) {
    u32 block, number = file_read(net, plan, plan_length, &block);
    if (number)
        return number;
    return state_read(net, state, state_length) ? 0 : 2;
}

static void port_write(const struct port *port, u32 *of_port, u32 *time, u32 *drops) {
    for (u32 k = 0; k < IDENTIFIERS; k++)
        if (port->waiting[k] != NOTHING)
            of_port[port->waiting[k] == ACKNOWLEDGE ? AT_ACKNOWLEDGES : AT_INTERRUPTS] |= (u32)1 << k;
    of_port[AT_NEXT] = port->next;
    of_port[AT_RUNNING] = port->running;
    *time = (port->time == NO_TIME ? 0 : port->time + 1) + (port->after_time ? AFTER_TIME : 0);
    drops[AT_DROPPED_INTERRUPTS] = port->dropped[INTERRUPT];
    drops[AT_DROPPED_ACKNOWLEDGES] = port->dropped[ACKNOWLEDGE];
}

void state_write(const struct network *net, u32 *words) {
    for (u32 i = 0; i < STATE_WORDS; i++)
        words[i] = 0;
    for (u32 d = 0; d < net->devices; d++) {
        const struct device *device = &net->device[d];
        words[counter_at(d)] = device->counter;
        for (u32 k = 0; k < IDENTIFIERS; k++) {
            words[device_at(d)] |= (u32)device->set[k] << k;
            words[device_at(d) + 1 + k] = device->timer[k];
        }
        for (u32 p = 0; p < device->ports; p++)
            port_write(&device->port[p], words + port_at(d, p), words + time_at(d, p), words + drops_at(d, p));
    }
}
