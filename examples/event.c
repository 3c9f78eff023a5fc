/* An event, from C: an identifier that nobody acknowledges. One of its sources requests it, and each host that it reaches is
 * told. The bits stay until the timers end, of which hosts are told too. Then all is clear, and another source requests it.
 * Meanwhile all other identifiers are in use as well, and the master of time, if there is one, ticks before each round.
 *
 *     bin/example event < examples/events.plan
 */
#include "host.h"

/* What a told word is about, by its kind; a Time-Code's is only counted. */
static const char *const about[] = {"", "interrupt", "acknowledge", "timeout"};

/* The event, the two sources that request it in turn, and a handler, which would acknowledge it. */
static bench_u32 event, sources[2], handler;

/* Since the request: the rounds; the last one after which a device held the event, or it waited somewhere; how often all
 * hosts were told of other identifiers, and of Time-Codes. */
static bench_u32 turn, busy, traffic, clocked;

/* Ends the program where a call of a device was not refused as it has to be. */
static void must_refuse(const char *call, bench_u32 device, bench_u32 wanted, bench_u32 number) {
    if (number != wanted) {
        printf("%s of device %u answers %u, and not %u\n", call, device, number, wanted);
        exit(1);
    }
}

/* The first device, from one on, that has the event in a set; where none has, the number of devices. */
static bench_u32 first_from(bench_u32 device, int sets) {
    while (device < file[DEVICES] && !has(device, sets, event))
        device++;
    return device;
}

/* The first event that two devices request and one would acknowledge. */
static void find(void) {
    for (event = 0; event < 32; event++) {
        sources[0] = first_from(0, SOURCES);
        sources[1] = first_from(sources[0] + 1, SOURCES);
        handler = first_from(0, HANDLERS);
        if (is_event(event) && sources[1] < file[DEVICES] && handler < file[DEVICES])
            return;
    }
    printf("no event has two sources and a handler\n");
    exit(1);
}

/* The number of devices that the event reaches. The other source has to be among them, or it does not hold the event and is
 * refused by nothing. */
static bench_u32 must_reach(bench_u32 source, bench_u32 other) {
    bench_u32 reached, reach;
    must("reach", bench_reach(file, length, AREA(states[now]), source, event, &reached, &reach));
    if (!(reach >> other & 1)) {
        printf("event %u of device %u does not reach device %u\n", event, source, other);
        exit(1);
    }
    return reached;
}

/* Prints a word that a host is told of the event, and counts any other. A Time-Code's is about no identifier: its low byte is
 * a value. */
static void hear(bench_u32 word) {
    if (word >> 16 == TIME)
        clocked++;
    else if ((word & 255) == event)
        printf("round %u: device %u is told of the %s\n", turn, word >> 8 & 255, about[word >> 16]);
    else
        traffic++;
}

static void play(void) {
    use_others(event);
    tick();
    bench_u32 count = play_round();
    turn++;
    for (bench_u32 i = 0; i < count; i++)
        hear(told[i]);
    if (is_anywhere(event))
        busy = turn;
}

static void play_to(bench_u32 round) {
    while (turn < round)
        play();
}

/* What is refused while the event is held: a request of either source, as its bit is set; and an acknowledge, as it always is. */
static void try_calls(bench_u32 source, bench_u32 other) {
    must_refuse("request", source, 9, bench_request(file, length, AREA(states[now]), source, event));
    must_refuse("request", other, 9, bench_request(file, length, AREA(states[now]), other, event));
    must_refuse("acknowledge", handler, 13, bench_acknowledge(file, length, AREA(states[now]), handler, event));
    printf("after round %u requests of devices %u and %u are refused by 9, and an acknowledge of device %u by 13\n", turn,
           source, other, handler);
}

/* From one request to when any source may request. The farthest of n devices is n - 1 crossings away at most, so that it
 * holds the event by round 64 x (n - 1), and one load later its timer has ended. Nodes load the most. A source that did not
 * request counts from when it is told of the interrupt, which is later. */
static void request_by(bench_u32 source, bench_u32 other) {
    bench_u32 reached = must_reach(source, other), wait = CROSSING * (reached - 1) + load_of(event, NODE);
    must_last(event, CROSSING * reached); /* while the event is on its way */
    turn = busy = traffic = clocked = 0;
    must("request", bench_request(file, length, AREA(states[now]), source, event));
    printf("device %u requests event %u, which reaches %u devices\n", source, event, reached);

    play_to(CROSSING * reached);
    try_calls(source, other);
    play_to(wait);
    if (busy == wait) {
        printf("not clear after round %u\n", turn);
        exit(1);
    }
    printf("all is clear after round %u (%u at most); of other identifiers hosts were told %u times\n", busy + 1, wait,
           traffic);
    if (file[MASTER])
        printf("of Time-Codes they were told %u times\n", clocked);
}

int main(void) {
    read_plan();
    must("start", bench_start(file, length, AREA(states[now])));
    find();
    request_by(sources[0], sources[1]);
    request_by(sources[1], sources[0]);
    return 0;
}
