/* T-03, tried: a request outlasts its source's links. These stop and start, one of them or both, and so do others; hosts call and
 * tick, and devices are reset, but not the source. Until its host is told of the acknowledge or of the timeout, the source holds
 * k, and its timer has fallen by one in each round. */
#include "driver.h"

enum { MOST_LOAD = 30, MOST_CALLS = 2 };

static struct course course;
static struct spread request;
static u32 load, rounds;
static flag ran[NODE_PORTS]; /* the source's ports that ran after the request */
static struct drop drop;

static flag runs(u32 port) {
    return port_words(&course.state, request.start, port)[AT_RUNNING];
}

static void check_source(void) {
    if (!holds(&course, request.start, request.k))
        broken(&request, "forgotten (device, round)", request.start, rounds);
    u32 timer = device_words(&course.state, request.start)[1 + request.k];
    if (timer != load - rounds)
        broken(&request, "the timer stands wrong (timer, round)", timer, rounds);
}

/* In half of the trials every link is open, and at first nothing is set and nothing waits, so that acknowledges come back; in the
 * others the state is any sound one, but for the source's bit of k, which is clear. Some of the other nodes handle k, whether
 * the interrupt reaches them or not. */
static void prepare(void) {
    if (once_in(2)) {
        open_links(&course, 1);
        for (u32 k = 0; k < IDENTIFIERS; k++)
            unset(&course, k);
        no_times(&course);
    }
    u32 *words = device_words(&course.state, request.start);
    words[0] &= ~(1u << request.k);
    words[1 + request.k] = 0;
    for (u32 d = 0; d < course.plan.bytes[1]; d++)
        if (d != request.start && device_block(&course.plan, d)[2] == 0 && once_in(2))
            give_role(&course.plan, d, HANDLERS, request.k);
    load = 1 + pick(MOST_LOAD);
    give_loads(&course, request.k, 1 + pick(load), load);
    rounds = 0;
}

/* By a handler that holds k, if there is one. */
static struct change acknowledge(void) {
    u32 devices = course.plan.bytes[1], first = pick(devices), d = first;
    for (u32 i = 0; i < devices; i++, d = (first + i) % devices)
        if (in_mask(&course.plan, d, HANDLERS, request.k) && holds(&course, d, request.k))
            break;
    return (struct change){.call = ACKNOWLEDGES, .device = d, .other = request.k};
}

/* What has become of the cables by a call, from which of the source's ports ran before it. Ports that are joined to each other
 * have one cable. */
static void look_at_cables(const flag *before) {
    flag one_cable = port_entry(&course.plan, request.start, 0)[0] == request.start;
    u32 in = 0, out = 0;
    for (u32 p = 0; p < NODE_PORTS; p++) {
        drop.again |= ran[p] && runs(p) && !before[p];
        in += ran[p] && runs(p);
        out += ran[p] && !runs(p);
    }
    drop.one |= in == 1 && out == 1;
    drop.both |= out == 2 && !one_cable;
}

static void call(struct change change) {
    const flag before[NODE_PORTS] = {runs(0), runs(1)};
    if (change.call == RESET && change.device == request.start)
        return;
    make_call(&course, change);
    look_at_cables(before);
    check_source();
}

/* One of the source's cables is pulled or plugged in, or both are. */
static void call_at_source(void) {
    u32 ports = device_block(&course.plan, request.start)[3], first = pick(ports), cables = 1 + pick(ports);
    u32 running = !runs(first);
    for (u32 i = 0; i < cables; i++)
        call((struct change){.call = LINK, .device = request.start, .other = (first + i) % ports, .running = running});
}

/* After the request or after a round: the source's cables, an acknowledge of k, or any call. */
static void call_on(void) {
    for (u32 i = pick(1 + MOST_CALLS); i; i--) {
        u32 which = pick(6);
        if (which == 0)
            call_at_source();
        else
            call(which < 3 ? acknowledge() : likely_change(&course.plan));
    }
}

/* What the source's host is told first of k in the round just played: of the timeout in the last round, and before that of
 * nothing but an acknowledge, which of an event it never is. Behind the timeout an interrupt of another source may follow. */
static enum answer heard(void) {
    for (u32 i = 0; i < course.played.count; i++) {
        u32 word = course.played.told[i], kind = word / 65536;
        if (!tells_of(word, request.k) || word / 256 % 256 != request.start)
            continue;
        if (kind != (rounds == load ? OF_TIMEOUT : OF_ACKNOWLEDGE) || (drop.event && kind == OF_ACKNOWLEDGE))
            broken(&request, "told what it should not be (word, round)", word, rounds);
        return rounds == load ? TIMED_OUT : ACKNOWLEDGED;
    }
    if (rounds == load)
        broken(&request, "told of nothing (device, round)", request.start, rounds);
    return UNTOLD;
}

struct drop try_drop(const struct plan *given) {
    request = (struct spread){.name = "T-03"};
    drop = (struct drop){.answer = UNTOLD};
    begin_course(&course, given);
    if (!choose_source(&course, &request))
        return drop;
    prepare();
    drop.event = is_event(&course.plan, request.k);
    must_be("T-03: the request is taken", 0, host_calls(&course, REQUEST, request.start, request.k));
    check_source();
    count_loads(IN_T_03, &course, request.k, load - 1);
    for (u32 p = 0; p < NODE_PORTS; p++)
        ran[p] = runs(p);
    for (;;) {
        call_on();
        play_on(&course, request.k, 0);
        rounds++;
        drop.answer = heard();
        if (drop.answer != UNTOLD)
            return drop;
        check_source();
    }
}
