/* Rounds and settling. A round works in the records where they stand: every code is sent before the first arrives, so
 * what is sent comes only from what waited before the round, and from what was sent last. */
#include "judge.h"

enum { TOLD_TIMEOUT = 3 };
static const u32 told_of[] = {[INTERRUPT] = 1, [ACKNOWLEDGE] = 2, [TIME_CODE] = 4};

/* A kind that the port may not send changes nothing: what waits of the other kind stays. A Time-Code takes the place of an older
 * one. */
void queue(struct port *port, struct code code) {
    if (!port->running || !port->may_send[code.kind])
        return;
    if (code.kind == TIME_CODE)
        port->time = code.value;
    else
        port->waiting[code.value] = code.kind;
}

static void tell(struct told *told, u32 kind, const struct device *node, u32 value) {
    told->word[told->count++] = kind * 65536 + node->number * 256 + value;
}

/* Step 1. */
static void timers_fall(struct device *device, struct told *told) {
    for (u32 k = 0; k < IDENTIFIERS; k++) {
        if (device->timer[k] == 0 || --device->timer[k] > 0)
            continue;
        device->set[k] = 0;
        if (!device->router)
            tell(told, TOLD_TIMEOUT, device, k);
    }
}

/* The interrupt or acknowledge whose turn it is. */
static struct code first_waiting(const struct port *port) {
    for (u32 i = 0; i < IDENTIFIERS; i++) {
        u32 k = (port->next + i) % IDENTIFIERS;
        if (port->waiting[k] != NOTHING)
            return (struct code){port->waiting[k], k};
    }
    return (struct code){NOTHING, 0};
}

/* Step 2. A Time-Code goes first, but does not keep others back twice in a row. */
static void send(struct port *port) {
    struct code other = first_waiting(port);
    flag others_turn = port->after_time && other.kind != NOTHING;
    if (port->time != NO_TIME && !others_turn) {
        port->sent = (struct code){TIME_CODE, port->time};
        port->time = NO_TIME;
        port->after_time = 1;
        return;
    }
    port->sent = other;
    if (other.kind == NOTHING)
        return;
    port->waiting[other.value] = NOTHING;
    port->next = (other.value + 1) % IDENTIFIERS;
    port->after_time = 0;
}

/* What was dropped is counted, until the count is at its end. */
static void count_drop(struct port *port, enum kind kind) {
    if (port->dropped[kind] < MOST_DROPPED)
        port->dropped[kind]++;
}

/* Step 3, for one code. Time-Codes have no timers. */
static void arrive(struct network *net, struct port *port, struct code code, struct told *told) {
    struct device *device = port->device;
    enum action action = react(device->router, port->running, port->may_receive, port->barred, net->event, device->set,
                               &device->counter, code);
    if (action == DROPPED)
        count_drop(port, code.kind);
    if (action != FORWARDED && action != TELLS_HOST)
        return;
    if (code.kind != TIME_CODE)
        device->timer[code.value] = code.kind == INTERRUPT ? load_of(net, device, code.value) : 0;
    if (action == TELLS_HOST) {
        tell(told, told_of[code.kind], device, code.value);
        return;
    }
    for (u32 p = 0; p < device->ports; p++)
        if (&device->port[p] != port)
            queue(&device->port[p], code);
}

void play_round(struct network *net, struct told *told) {
    told->count = 0;
    for (u32 d = 0; d < net->devices; d++)
        timers_fall(&net->device[d], told);
    for (u32 d = 0; d < net->devices; d++)
        for (u32 p = 0; p < net->device[d].ports; p++)
            send(&net->device[d].port[p]);
    for (u32 d = 0; d < net->devices; d++)
        for (u32 p = 0; p < net->device[d].ports; p++) {
            struct port *port = &net->device[d].port[p];
            if (port->peer && port->peer->sent.kind != NOTHING)
                arrive(net, port, port->peer->sent, told);
        }
}

static flag port_waits(const struct port *port) {
    return port->time != NO_TIME || first_waiting(port).kind != NOTHING;
}

static flag anything_waits(const struct network *net) {
    for (u32 d = 0; d < net->devices; d++)
        for (u32 p = 0; p < net->device[d].ports; p++)
            if (port_waits(&net->device[d].port[p]))
                return 1;
    return 0;
}

/* 12 where the allowance does not suffice, with the network as it is after that many rounds. */
u32 settle(struct network *net, u32 allowance, u32 *rounds) {
    struct told told;
    for (*rounds = 0; anything_waits(net); ++*rounds) {
        if (*rounds == allowance)
            return 12;
        play_round(net, &told);
    }
    return 0;
}

static void sent_write(const struct network *net, u32 *sent) {
    for (u32 i = 0; i < SENT_WORDS; i++)
        sent[i] = SENT_NONE;
    for (u32 d = 0; d < net->devices; d++)
        for (u32 p = 0; p < net->device[d].ports; p++)
            if (net->device[d].port[p].sent.kind != NOTHING)
                sent[PORTS * d + p] = code_byte(net->device[d].port[p].sent);
}

void build_round(struct network *net, u32 *next, u32 *sent, u32 *told, u32 *count) {
    struct told telling;
    play_round(net, &telling);
    state_write(net, next);
    sent_write(net, sent);
    for (u32 i = 0; i < TOLD_WORDS; i++)
        told[i] = i < telling.count ? telling.word[i] : 0;
    *count = telling.count;
}

u32 judge_round(const u8 *plan, size plan_length, const u32 *old, size old_length, u32 *next, size next_length, u32 *sent,
                size sent_length, u32 *told, size told_length, u32 *count) {
    struct network net;
    *count = 0;
    u32 number = network_read(&net, plan, plan_length, old, old_length);
    if (number)
        return number;
    if (next_length != STATE_WORDS || sent_length != SENT_WORDS || told_length != TOLD_WORDS)
        return 3;
    build_round(&net, next, sent, told, count);
    return 0;
}

u32 judge_settle(const u8 *plan, size plan_length, u32 *state, size state_length, u32 allowance, u32 *rounds) {
    struct network net;
    *rounds = 0;
    u32 number = network_read(&net, plan, plan_length, state, state_length);
    if (number)
        return number;
    if (allowance > MOST_ALLOWED)
        return 11;
    number = settle(&net, allowance, rounds);
    state_write(&net, state);
    return number;
}
