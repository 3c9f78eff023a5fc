/* The whole cycle, from C: a source requests an interrupt, its handler is told, waits and acknowledges; the source is
 * told of that, waits, and requests again. Neither sees the other's call. Each counts from when it was told, and waits 64
 * rounds for each device that the interrupt reaches, while all other identifiers are in use as well, and the master of
 * time, if there is one, ticks before each round. Events have no such cycle, as nobody acknowledges them: examples/event.c.
 *
 *     bin/example cycle < examples/ring.plan
 */
#include "host.h"

/* The rows of ports: where a port is joined to nothing, and what one grants that grants everything. */
enum { NOWHERE = 255, ALL_FOUR = 15 };

/* Whose cycle it is, which devices the interrupt reaches, as a set, and how many, and how long the handler waits, and
 * then the source. */
static bench_u32 source, handler, identifier, reach, reached, wait;

/* Of this cycle: its rounds; how often each host was told of the identifier, by kind; and all hosts, of any other and of
 * Time-Codes. */
static bench_u32 turn, times[32][4], traffic, clocked;

static int any_event(void) {
    return file[EVENTS] || file[EVENTS + 1] || file[EVENTS + 2] || file[EVENTS + 3];
}

/* Every link has to grant all four permissions, or an acknowledge may not get back to where the interrupt got. */
static void must_permit(void) {
    for (bench_u32 d = 0; d < file[DEVICES]; d++)
        for (bench_u32 p = 0; p < 8; p++) {
            const bench_u8 *row = block_of(d) + ROWS + ROW * p;
            if (row[0] != NOWHERE && row[PERMISSIONS] != ALL_FOUR) {
                printf("port %u of device %u does not have all four permissions\n", p, d);
                exit(1);
            }
        }
}

/* Does the interrupt of the source reach a handler? The first one will acknowledge. */
static int reaches_handler(void) {
    must("reach", bench_reach(file, length, AREA(states[now]), source, identifier, &reached, &reach));
    for (handler = 0; handler < file[DEVICES]; handler++)
        if (reach >> handler & 1 && has(handler, HANDLERS, identifier))
            return 1;
    return 0;
}

/* The devices at the other ends of a device's links. */
static bench_u32 beside(bench_u32 device) {
    bench_u32 set = 0;
    for (bench_u32 p = 0; p < 8; p++) {
        bench_u8 peer = block_of(device)[ROWS + ROW * p];
        if (peer != NOWHERE)
            set |= (bench_u32)1 << peer;
    }
    return set;
}

/* Each device that the interrupt reaches has to be found from the handler, over such devices only: the others ignore the
 * acknowledge, and nodes pass nothing on. One that is not found would hold the interrupt until its timer ends. */
static void must_be_found(void) {
    bench_u32 found = ((bench_u32)1 << handler | beside(handler)) & reach, before = 0;
    while (found != before) {
        before = found;
        for (bench_u32 d = 0; d < file[DEVICES]; d++)
            if (before >> d & 1 && block_of(d)[ROLE])
                found |= beside(d) & reach;
    }
    for (bench_u32 d = 0; d < file[DEVICES]; d++)
        if ((reach & ~found) >> d & 1) {
            printf("no acknowledge of device %u gets to device %u, which interrupt %u of device %u reaches\n", handler, d,
                   identifier, source);
            exit(1);
        }
}

/* The first source whose interrupt reaches a handler, of identifiers that are acknowledged. */
static void find(void) {
    for (source = 0; source < file[DEVICES]; source++)
        for (identifier = 0; identifier < 32; identifier++)
            if (has(source, SOURCES, identifier) && !is_event(identifier) && reaches_handler())
                return;
    printf("%sno source has a handler that its interrupt reaches\n", any_event() ? "events apart, " : "");
    exit(1);
}

/* No port may bar the identifier, as an interrupt or as an acknowledge. From BARS on each port has a set of both. */
static void must_let_in(void) {
    static const char *const kinds[] = {"interrupts", "acknowledges"};
    for (bench_u32 d = 0; d < file[DEVICES]; d++)
        for (bench_u32 i = 0; i < 16; i++)
            if (has(d, BARS + SET * i, identifier)) {
                printf("port %u of device %u bars %s of %u\n", i / 2, d, kinds[i % 2], identifier);
                exit(1);
            }
}

/* Counts a word that a host is told. A Time-Code's is about no identifier: its low byte is a value. */
static void count_told(bench_u32 word) {
    if (word >> 16 == TIME)
        clocked++;
    else if ((word & 255) == identifier)
        times[word >> 8 & 31][word >> 16]++;
    else
        traffic++;
}

/* Plays a round, and counts what hosts are told. */
static void play(void) {
    use_others(identifier);
    tick();
    bench_u32 count = play_round();
    for (bench_u32 i = 0; i < count; i++)
        count_told(told[i]);
    turn++;
}

/* Plays until a host is told. That takes 64 rounds a crossing at most, and so fewer than the wait has. */
static void play_until_told(bench_u32 device, bench_u32 kind) {
    for (bench_u32 i = 0; i < wait && !times[device][kind]; i++)
        play();
    if (!times[device][kind]) {
        printf("device %u is not told in %u rounds\n", device, wait);
        exit(1);
    }
}

static void play_wait(void) {
    for (bench_u32 i = 0; i < wait; i++)
        play();
}

/* At rest no device holds the identifier, and it waits nowhere. */
static void must_rest(void) {
    if (is_anywhere(identifier)) {
        printf("not at rest after round %u\n", turn);
        exit(1);
    }
}

/* How often hosts were told: that of the source, that of the handler, and all others together. */
static void print_times(void) {
    const bench_u32 *one = times[source], *two = times[handler];
    bench_u32 others[4] = {0};
    for (bench_u32 d = 0; d < 32; d++)
        for (bench_u32 kind = INTERRUPT; kind <= TIMEOUT; kind++)
            if (d != source && d != handler)
                others[kind] += times[d][kind];
    printf("told interrupts/acknowledges/timeouts: device %u %u/%u/%u, device %u %u/%u/%u, others %u/%u/%u\n", source,
           one[INTERRUPT], one[ACKNOWLEDGE], one[TIMEOUT], handler, two[INTERRUPT], two[ACKNOWLEDGE], two[TIMEOUT],
           others[INTERRUPT], others[ACKNOWLEDGE], others[TIMEOUT]);
}

/* From one request to when the next may follow. */
static void cycle(void) {
    turn = traffic = clocked = 0;
    for (bench_u32 d = 0; d < 32; d++)
        for (bench_u32 kind = INTERRUPT; kind <= TIMEOUT; kind++)
            times[d][kind] = 0;

    must("request", bench_request(file, length, AREA(states[now]), source, identifier));
    play_until_told(handler, INTERRUPT);
    printf("requested; device %u is told in round %u\n", handler, turn);

    play_wait();
    must("acknowledge", bench_acknowledge(file, length, AREA(states[now]), handler, identifier));
    printf("acknowledged after round %u; ", turn);
    play_until_told(source, ACKNOWLEDGE);
    printf("device %u is told in round %u\n", source, turn);

    play_wait();
    print_times();
    must_rest();
    printf("at rest after round %u; of other identifiers hosts were told %u times\n", turn, traffic);
    if (file[MASTER])
        printf("of Time-Codes they were told %u times\n", clocked);
}

int main(void) {
    read_plan();
    must("start", bench_start(file, length, AREA(states[now])));
    must_permit();
    find();
    must_let_in();
    must_be_found();

    /* 64 x (D + 1) rounds are enough, D crossings to the farthest device, and D is below the number reached. */
    wait = CROSSING * reached;

    /* The handler is told by round 64 x (n - 1), as the farthest of n devices is n - 1 crossings away at most; it waits, and
     * the acknowledge is everywhere within another wait. */
    must_last(identifier, CROSSING * (reached - 1) + 2 * wait);

    printf("interrupt %u of device %u, handled by device %u; it reaches %u devices\n", identifier, source, handler,
           reached);
    cycle();
    cycle();
    return 0;
}
