/* The whole of what a byte means, and the edges of all else that codes and one device take. What has to be so is said by known
 * values, by single bits and by sums, and not by the judge: so an error that judge and bench share is found as well. */
#include "driver.h"

enum { BYTES = 256, VALUES = 70 };

struct reading {
    u32 kind, top, value;
};

static struct reading readings[BYTES]; /* what the bench read in each byte */

static const u32 edges[] = {0, 1, 2, 3, 4, 31, 32, 33, 63, 64, 127, 128, 159, 160, 191, 192, 255, 256, 257, 0x10000, 0x80000000,
                            0x80000001, 0xFFFFFFFF};
static const u32 truths[] = {0, 1, 0x80000000};
enum { EDGES = sizeof edges / sizeof *edges, TRUTHS = sizeof truths / sizeof *truths };

static const struct known {
    u8 byte;
    struct reading reading;
} knowns[] = {{0, {0, 0, 0}}, {63, {0, 0, 63}}, {64, {3, 1, 0}}, {127, {3, 1, 63}}, {128, {1, 2, 0}}, {159, {1, 2, 31}},
              {160, {2, 2, 0}}, {191, {2, 2, 31}}, {192, {3, 3, 0}}, {255, {3, 3, 63}}};

static void must_read(const struct reading *wanted, const struct reading *given) {
    must_be("the kind in a byte", wanted->kind, given->kind);
    must_be("its two top bits", wanted->top, given->top);
    must_be("its value", wanted->value, given->value);
}

static void check_known(u32 byte) {
    for (u32 i = 0; i < sizeof knowns / sizeof *knowns; i++)
        if (knowns[i].byte == byte)
            must_read(&knowns[i].reading, &readings[byte]);
}

/* Bit 6 makes a byte reserved. Without it bit 7 says that it is no Time-Code, and beside that bit 5 that it is an acknowledge. */
static u32 kind_by_bits(u32 byte) {
    return byte & 64 ? RESERVED : !(byte & 128) ? TIME_CODE : byte & 32 ? ACKNOWLEDGE : INTERRUPT;
}

/* The parts give the byte back, and none goes over into the next. An acknowledge is 32 above the interrupt of its identifier. */
static void check_parts(u32 byte) {
    const struct reading *read = &readings[byte];
    flag handled = read->kind == INTERRUPT || read->kind == ACKNOWLEDGE;
    must_be("the kind by the byte's bits", kind_by_bits(byte), read->kind);
    must_be("its value is below 64, or 32 for an identifier", 1, read->value < (handled ? 32 : 64));
    must_be("its parts together", byte, 64 * read->top + (read->kind == ACKNOWLEDGE ? 32 : 0) + read->value);
    if (read->kind == RESERVED)
        must_be("its two top bits are 1 or 3", 1, read->top == 1 || read->top == 3);
}

/* No byte below this one reads as the same. */
static void check_alone(u32 byte) {
    for (u32 other = 0; other < byte; other++)
        if (!memcmp(&readings[other], &readings[byte], sizeof *readings))
            fail("two bytes that read as the same", other, byte);
}

static void try_reading(u32 byte) {
    u32 kind = try_code_read(byte);
    readings[byte] = (struct reading){kind, value_given(0), value_given(1)};
    check_known(byte);
    check_parts(byte);
    check_alone(byte);
}

/* The byte in which a code was read, or BYTES for none. For reserved it is none too, as nobody writes that. */
static u32 byte_of(u32 kind, u32 value) {
    u32 byte = 0;
    while (byte < BYTES && (kind == RESERVED || readings[byte].kind != kind || readings[byte].value != value))
        byte++;
    return byte;
}

/* What was read is written as its byte, and all else is refused. */
static void try_writing(u32 kind, u32 value) {
    u32 byte = byte_of(kind, value);
    must_be("a code is written, or refused", byte < BYTES ? 0 : 5, try_code_write(kind, value));
    must_be("the byte of a code, or 0", byte < BYTES ? byte : 0, value_given(0));
}

/* A Time-Code becomes the counter, and no other byte changes it. One that a step from the counter leads to is taken, whatever the
 * port is and may; all others are named, as a reserved byte is, and no interrupt or acknowledge is. */
static void check_time(u32 role, u32 byte, u32 action, u32 before, u32 after) {
    flag time = readings[byte].kind == TIME_CODE, next = time && (before + 1 - byte) % 64 == 0;
    must_be("the counter then", time ? byte : before, after);
    if (time)
        must_be("what is done with a Time-Code", !next ? NAMED : role ? FORWARDED : TELLS_HOST, action);
    else
        must_be("whether a byte is named", readings[byte].kind == RESERVED, action == NAMED);
}

/* Where a byte comes to. */
struct place {
    u32 role, running, permissions, events;
    struct bars bars;
};

/* A router drops what is barred for its kind, whatever else it finds. An interrupt has to find a bit of 0 and an acknowledge one of
 * 1, or it is ignored, as it is where it may not be received; an acknowledge of an event is ignored whatever it finds. Before the
 * bars comes whether it may be received, and before all that whether the port stands still. */
static void check_interrupts(const struct place *place, u32 byte, u32 before, u32 action) {
    u32 kind = readings[byte].kind, k = readings[byte].value;
    if (kind == TIME_CODE || kind == RESERVED)
        return;
    flag acknowledge = kind == ACKNOWLEDGE, received = place->permissions & (acknowledge ? 8 : 2);
    flag barred = (acknowledge ? place->bars.acknowledges : place->bars.interrupts) >> k & 1;
    flag of_event = acknowledge && place->events >> k & 1, taken = received && !of_event && (before >> k & 1) == acknowledge;
    must_be("what is done with an interrupt or an acknowledge",
            !place->running ? LINK_ERROR
            : received && barred && place->role ? DROPPED
            : !taken ? IGNORED
            : place->role ? FORWARDED
                          : TELLS_HOST,
            action);
}

static u32 react_at(const struct place *place, u32 *bits, u32 *counter, u32 byte) {
    if (!place->bars.interrupts && !place->bars.acknowledges)
        return try_react(place->role, place->running, place->permissions, place->events, bits, counter, byte);
    return try_react_guarded(place->role, place->running, place->permissions, place->events, place->bars, bits, counter, byte);
}

/* Whatever is done with a code, it is handed on as it was read. An interrupt or acknowledge that is forwarded or told has turned
 * its bit round, and all else leaves the register as it was. */
static void try_reaction(const struct place *place, u32 before, u32 counter, u32 byte) {
    u32 after = before, then = counter;
    u32 action = react_at(place, &after, &then, byte);
    const struct reading *read = &readings[byte];
    must_read(read, &(struct reading){value_given(0), value_given(1), value_given(2)});
    check_time(place->role, byte, action, counter, then);
    check_interrupts(place, byte, before, action);
    flag turned = read->kind != TIME_CODE && (action == FORWARDED || action == TELLS_HOST);
    must_be("the register then", turned ? before ^ 1u << read->value : before, after);
}

/* Masks are registers, events and bars: with the bit of the byte's identifier, and without it, among any others, among none and among
 * all. */
enum { MASKS = 6 };
static void some_masks(u32 byte, u32 masks[MASKS]) {
    u32 bit = 1u << byte % 32, any = random_word();
    const u32 some[MASKS] = {any | bit, any & ~bit, bit, ~bit, 0, 0xFFFFFFFF};
    memcpy(masks, some, sizeof some);
}

static void try_registers(struct place place, u32 byte) {
    u32 registers[MASKS], events[MASKS], above = once_in(2) ? random_word() << 4 : 0;
    u32 counter = once_in(2) ? pick(64) : random_word();
    some_masks(byte, registers);
    some_masks(byte, events);
    place.permissions |= above;
    for (u32 i = 0; i < MASKS * MASKS; i++) {
        place.events = events[i % MASKS];
        try_reaction(&place, registers[i / MASKS], counter, byte);
    }
}

/* The same for what is barred of either kind, each time with another register and other events. */
static void try_guarded(struct place place, u32 byte) {
    u32 registers[MASKS], interrupts[MASKS], acknowledges[MASKS], counter = once_in(2) ? (byte + 63) % 64 : random_word();
    some_masks(byte, registers);
    some_masks(byte, interrupts);
    some_masks(byte, acknowledges);
    for (u32 i = 0; i < MASKS * MASKS; i++) {
        place.bars = (struct bars){interrupts[i % MASKS], acknowledges[i / MASKS]};
        place.events = once_in(2) ? 0 : registers[pick(MASKS)];
        try_reaction(&place, registers[pick(MASKS)], counter, byte);
    }
}

/* A step below the byte, beside that, and far from it; the same above 63, and at the greatest numbers. */
static void try_counters(struct place place, u32 byte) {
    u32 below = (byte + 63) % 64, any = random_word(), held = random_word(), bars = once_in(2) ? 0xFFFFFFFF : random_word();
    place.events = once_in(2) ? 0 : random_word();
    place.bars = once_in(2) ? (struct bars){0, 0} : (struct bars){bars, ~bars};
    const u32 counters[] = {below, 64 + below, any - any % 64 + below, 0xFFFFFFC0 + below, 256 + below, byte % 64, 64 + byte % 64,
                            (below + 63) % 64, (byte + 1) % 64, 0, 63, 64, 0x80000000, 0xFFFFFFFF, any};
    for (u32 i = 0; i < sizeof counters / sizeof *counters; i++)
        try_reaction(&place, held, counters[i], byte);
}

void try_tables(void) {
    for (u32 byte = 0; byte < BYTES; byte++)
        try_reading(byte);
    for (u32 kind = 0; kind < EDGES; kind++)
        for (u32 value = 0; value < VALUES + EDGES; value++)
            try_writing(edges[kind], value < VALUES ? value : edges[value - VALUES]);
    for (u32 role = 0; role < TRUTHS; role++)
        for (u32 running = 0; running < TRUTHS; running++)
            for (u32 permissions = 0; permissions < 16; permissions++)
                for (u32 byte = 0; byte < BYTES; byte++) {
                    struct place place = {.role = truths[role], .running = truths[running], .permissions = permissions};
                    try_registers(place, byte);
                    try_guarded(place, byte);
                    try_counters(place, byte);
                }
}
