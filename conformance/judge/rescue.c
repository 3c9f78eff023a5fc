/* T-13: a plan some of whose device blocks have failing checks. A cable that a good block tells of is plugged into the damaged
 * device at its other end; what these devices have in the end is written as their blocks. */
#include "judge.h"

/* The first fault of the front or of a block whose check holds. A block whose check fails is damaged, and not looked at. */
static u32 good_blocks_read(struct network *net, const u8 *file, size length, flag damaged[DEVICES], u32 *block) {
    *block = 0;
    u32 number = front_read(net, file, length);
    for (u32 d = 0; !number && d < net->devices; d++) {
        net->device[d].number = d;
        number = device_block_read(&net->device[d], file, net);
        damaged[d] = number == 21;
        if (damaged[d])
            number = 0;
        *block = number ? 1 + d : 0;
    }
    return number;
}

/* A router to which nothing leads yet. */
static void rebuild(struct device *device, u32 number) {
    *device = (struct device){.number = number, .router = 1, .ports = 1};
    for (u32 p = 0; p < PORTS; p++)
        device->port[p].device = device;
}

/* Puts the end of a cable that a good port has into the port that it names, so that this one exists. 0 where another cable is
 * in it already: then the two claim it. */
static flag plug_in(struct port *good, struct port *named) {
    struct device *device = named->device;
    u32 number = named - device->port;
    if (named->peer)
        return 0;
    named->peer = good;
    if (device->ports <= number)
        device->ports = number + 1;
    return 1;
}

/* All cables that lead from good blocks to damaged ones; the lowest block in which two of them would go into one port, or 0. */
static u32 plug_all(struct network *net, const u8 *file, const flag damaged[DEVICES]) {
    u32 lowest = 0;
    for (u32 i = 0; i < PORTS * net->devices; i++) {
        struct device *device = &net->device[i / PORTS];
        if (damaged[device->number] || i % PORTS >= device->ports)
            continue;
        struct port *named = port_named(net, file, device->number, i % PORTS);
        if (!named || !damaged[named->device->number] || plug_in(&device->port[i % PORTS], named))
            continue;
        u32 block = 1 + named->device->number;
        lowest = lowest && lowest < block ? lowest : block;
    }
    return lowest;
}

/* What the good blocks make of the damaged ones may be refused: by 28, or by 23 for the master, which would be a router. */
static u32 rebuilt_refused(struct network *net, const u8 *file, const flag damaged[DEVICES], u32 *block) {
    for (u32 d = 0; d < net->devices; d++)
        if (damaged[d])
            rebuild(&net->device[d], d);
    *block = plug_all(net, file, damaged);
    if (*block)
        return 28;
    if (net->master == NO_MASTER || !damaged[net->master])
        return 0;
    *block = 1 + net->master;
    return 23;
}

static void print_rebuilt(struct text *text, const struct device *device) {
    print(text, "block ");
    print_number(text, 1 + device->number);
    print(text, "\n");
    for (u32 p = 0; p < device->ports; p++) {
        const struct port *peer = device->port[p].peer;
        if (!peer)
            continue;
        print_numbers(text, (const u32[]){device->number, p, peer->device->number, peer - peer->device->port}, 4);
        print(text, "\n");
    }
}

/* The file as it was, with the rebuilt blocks in their places. */
static void file_mend(const struct network *net, const u8 *file, size length, const flag damaged[DEVICES], u8 *mended) {
    for (size i = 0; i < length; i++)
        mended[i] = file[i];
    for (u32 d = 0; d < net->devices; d++)
        if (damaged[d])
            device_block_write(&net->device[d], mended + BLOCK * (1 + d));
}

/* Nothing is put into an area before the last refusal is out of the way, so that the result is made apart and read as any file. */
u32 judge_rescue(const u8 *file, size length, u8 *mended, size mended_length, u8 *text, size text_length, u32 *block, u32 *used) {
    struct network net, result;
    flag damaged[DEVICES] = {0};
    u8 bytes[LONGEST_FILE];
    struct text printed = {text, 0};
    *block = *used = 0;
    if (mended_length != length || text_length < RESCUE_BYTES)
        return 3;
    u32 number = good_blocks_read(&net, file, length, damaged, block);
    if (!number)
        number = rebuilt_refused(&net, file, damaged, block);
    if (number)
        return number;
    file_mend(&net, file, length, damaged, bytes);
    number = file_read(&result, bytes, length, block);
    if (number)
        return number;
    for (size i = 0; i < length; i++)
        mended[i] = bytes[i];
    for (u32 d = 0; d < net.devices; d++)
        if (damaged[d])
            print_rebuilt(&printed, &net.device[d]);
    *used = printed.used;
    return 0;
}
