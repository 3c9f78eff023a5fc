/* T-09: why an interrupt of k got from its source to a device, or did not. A shortest chain of ports is not worked out from
 * distances: chains are tried, and the first that gets there is it. */
#include "judge.h"

/* What is being tried. A chain enters no device twice: without its loop it would be shorter. */
struct trial {
    u32 source, device, k;
    u32 ports[DEVICES]; /* the chain so far */
    flag entered[DEVICES]; /* the devices that it comes from */
    flag in_vain[DEVICES][DEVICES]; /* by device, and how many ports were left: no chain from there got to the end */
};

static flag forwards(const struct device *device, u32 source) {
    return device->router || device->number == source;
}

/* Does a chain get from here to the device by so many ports more? Ports are tried in rising order, so that of several chains the
 * one with the lower port at the first difference is found. Where it was in vain once it is so again, whatever was entered before:
 * a chain that is only kept from here by a device which was entered already would be shorter from that device on, and shorter
 * chains have been tried. So each device is gone through once for each number of ports left, and not once for each way to it. */
static flag gets_there(struct trial *trial, const struct device *from, u32 done, u32 left) {
    if (left == 0)
        return from->number == trial->device;
    if (!forwards(from, trial->source) || trial->in_vain[from->number][left])
        return 0;
    flag found = 0;
    trial->entered[from->number] = 1;
    for (u32 p = 0; !found && p < from->ports; p++) {
        if (!passes(&from->port[p], (struct code){INTERRUPT, trial->k}) ||
            trial->entered[from->port[p].peer->device->number])
            continue;
        trial->ports[done] = PORTS * from->number + p;
        found = gets_there(trial, from->port[p].peer->device, done + 1, left - 1);
    }
    trial->entered[from->number] = 0;
    trial->in_vain[from->number][left] = !found;
    return found;
}

/* Which devices are reached: of the search in breadth this is all that is taken, and no distance. */
static void reached_from(const struct network *net, u32 source, u32 k, flag reached[DEVICES]) {
    u32 distance[DEVICES];
    crossings(net, source, (struct code){INTERRUPT, k}, 0, distance);
    for (u32 d = 0; d < DEVICES; d++)
        reached[d] = distance[d] != UNREACHED;
}

/* The ports of the first chain, and how many; UNREACHED for none. Chains of no port are tried first, then of one, and so on; for
 * a device that is not reached none is, as all lengths would be tried in vain. */
static u32 chain_to(const struct network *net, const flag reached[DEVICES], u32 source, u32 k, u32 device,
                    u32 ports[DEVICES]) {
    for (u32 length = 0; reached[device] && length < DEVICES; length++) {
        struct trial trial = {.source = source, .device = device, .k = k};
        if (!gets_there(&trial, &net->device[source], 0, length))
            continue;
        for (u32 i = 0; i < length; i++)
            ports[i] = trial.ports[i];
        return length;
    }
    return UNREACHED;
}

/* Why a port leads out for interrupts of k, or NOT_OUT where it does not. A port at which nothing else fails leads nowhere only
 * where its device does not forward. */
static enum cause cause_at(const struct port *port, const flag reached[DEVICES], u32 k) {
    if (!port->peer || !reached[port->device->number] || reached[port->peer->device->number])
        return NOT_OUT;
    if (!port->running)
        return STOPPED;
    if (!port->may_send[INTERRUPT])
        return MAY_NOT_SEND;
    if (!port->peer->may_receive[INTERRUPT])
        return MAY_NOT_RECEIVE;
    return port->peer->barred[INTERRUPT][k] ? BARRED : DOES_NOT_FORWARD;
}

/* A word for each port that there can be; how many lead out. */
static u32 causes_from(const struct network *net, const flag reached[DEVICES], u32 k, u32 causes[CUT_WORDS]) {
    u32 count = 0;
    for (u32 i = 0; i < CUT_WORDS; i++) {
        const struct device *device = &net->device[i / PORTS];
        flag exists = i / PORTS < net->devices && i % PORTS < device->ports;
        causes[i] = exists ? cause_at(&device->port[i % PORTS], reached, k) : NOT_OUT;
        count += causes[i] != NOT_OUT;
    }
    return count;
}

/* Plan, state and area are read before it is looked at what is asked. */
static u32 question_read(struct network *net, const u8 *plan, size plan_length, const u32 *state, size state_length, size area,
                         size wanted, size source, u32 k, size device) {
    u32 number = network_read(net, plan, plan_length, state, state_length);
    if (number)
        return number;
    return area != wanted ? 3 : way_refused(net, source, k, device);
}

u32 judge_crossings(const u8 *plan, size plan_length, const u32 *state, size state_length, size source, u32 k, u32 *crossings,
                    size crossings_length, u32 *most) {
    struct network net;
    flag reached[DEVICES];
    u32 ports[DEVICES];
    *most = 0;
    u32 number = question_read(&net, plan, plan_length, state, state_length, crossings_length, CROSSINGS_WORDS, source, k, source);
    if (number)
        return number;
    reached_from(&net, source, k, reached);
    for (u32 d = 0; d < DEVICES; d++) {
        crossings[d] = chain_to(&net, reached, source, k, d, ports);
        if (crossings[d] != UNREACHED && crossings[d] > *most)
            *most = crossings[d];
    }
    return 0;
}

u32 judge_chain(const u8 *plan, size plan_length, const u32 *state, size state_length, size source, u32 k, size device,
                u32 *ports, size ports_length, u32 *crossings) {
    struct network net;
    flag reached[DEVICES];
    *crossings = 0;
    u32 number = question_read(&net, plan, plan_length, state, state_length, ports_length, CHAIN_WORDS, source, k, device);
    if (number)
        return number;
    for (u32 i = 0; i < CHAIN_WORDS; i++)
        ports[i] = CHAIN_NONE;
    reached_from(&net, source, k, reached);
    *crossings = chain_to(&net, reached, source, k, device, ports);
    return 0;
}

u32 judge_cut(const u8 *plan, size plan_length, const u32 *state, size state_length, size source, u32 k, u32 *causes,
              size causes_length, u32 *count) {
    struct network net;
    flag reached[DEVICES];
    *count = 0;
    u32 number = question_read(&net, plan, plan_length, state, state_length, causes_length, CUT_WORDS, source, k, source);
    if (number)
        return number;
    reached_from(&net, source, k, reached);
    *count = causes_from(&net, reached, k, causes);
    return 0;
}

/* The first line: a word, and how many lines follow. */
static void print_head(struct text *text, const char *word, u32 lines) {
    print(text, word);
    print_number(text, lines);
    print(text, "\n");
}

static void print_chain(struct text *text, const struct network *net, const u32 *ports, u32 count) {
    print_head(text, "reached ", count);
    for (u32 i = 0; i < count; i++) {
        u32 d = ports[i] / PORTS, p = ports[i] % PORTS;
        const struct port *peer = net->device[d].port[p].peer;
        print_numbers(text, (const u32[]){d, p, peer->device->number, peer - peer->device->port}, 4);
        print(text, "\n");
    }
}

static void print_cut(struct text *text, const struct network *net, const flag reached[DEVICES], u32 k) {
    static const char *const names[CAUSES] = {
        "", " stopped\n", " may-not-send\n", " may-not-receive\n", " does-not-forward\n", " barred\n"};
    u32 causes[CUT_WORDS];
    print_head(text, "cut ", causes_from(net, reached, k, causes));
    for (u32 i = 0; i < CUT_WORDS; i++) {
        if (causes[i] == NOT_OUT)
            continue;
        print_numbers(text, (const u32[]){i / PORTS, i % PORTS}, 2);
        print(text, names[causes[i]]);
    }
}

/* The words of a state, from the bytes of its file. */
static flag bytes_read(struct network *net, const u8 *bytes, size length) {
    u32 words[STATE_WORDS];
    if (length != 4 * STATE_WORDS)
        return 0;
    for (u32 i = 0; i < STATE_WORDS; i++)
        words[i] = number_at(bytes + 4 * i, 4);
    return state_read(net, words, STATE_WORDS);
}

/* For a network with its state. */
static void print_why(struct text *text, const struct network *net, u32 source, u32 k, u32 device) {
    flag reached[DEVICES];
    u32 ports[DEVICES];
    reached_from(net, source, k, reached);
    u32 count = chain_to(net, reached, source, k, device, ports);
    if (count != UNREACHED)
        print_chain(text, net, ports, count);
    else
        print_cut(text, net, reached, k);
}

/* Where no state is given it is the start state, and nothing is looked at. */
static flag given_read(struct network *net, u32 given, const u8 *state, size state_length) {
    if (given)
        return bytes_read(net, state, state_length);
    start(net);
    return 1;
}

u32 judge_why(const u8 *plan, size plan_length, u32 given, const u8 *state, size state_length, u32 source, u32 k, u32 device,
              u8 *text, size text_length, u32 *used) {
    struct network net;
    struct text printed = {text, 0};
    u32 block;
    *used = 0;
    if (text_length < WHY_BYTES)
        return 3;
    u32 bad = file_read(&net, plan, plan_length, &block), refused = 0;
    if (!bad)
        refused = given_read(&net, given, state, state_length) ? way_refused(&net, source, k, device) : 2;
    if (bad)
        print_bad(&printed, bad, block);
    else if (refused)
        print_head(&printed, "r", refused);
    else
        print_why(&printed, &net, source, k, device);
    *used = printed.used;
    return 0;
}
