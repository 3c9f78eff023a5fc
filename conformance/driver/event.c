/* T-08, tried: events, which are the identifiers of the un-acknowledged profile. How many sources an identifier may have; that
 * only a timer or a reset clears the bit of an event; and that a network forgets a request of one by its timers alone, so that
 * the next can follow, from any source. Meanwhile other identifiers are used, and a master ticks. */
#include "driver.h"

enum { NOWHERE = 255, NOT_YET = 1 << 30, TRIES = 4, MOST_REQUESTS = 3, MOST_REST = 6, MOST_OVER = 20, SELDOM = 8 };
enum { AFFORDED = 3000 }; /* rounds of a small network, by which a course is measured */

/* ---- how many sources */

/* What an identifier is, and how many sources it has. */
enum owned { EVENT_OF_NONE, EVENT_OF_ONE, EVENT_OF_MORE, OTHER_OF_NONE, OTHER_OF_ONE, OTHER_OF_MORE, BADLY_JOINED, OWNED };
static const char *const owned_names[OWNED] = {
    "an event without a source", "an event with one", "an event with several", "another without a source", "another with one",
    "another with several: 27", "the same and a bad connection: 26"};
static size owned[OWNED];

/* Up to three nodes are the sources of k, which may be too many; how many. */
static u32 give_sources(struct plan *plan, u32 k) {
    u32 devices = plan->bytes[1], wanted = pick(4), first = pick(devices), count = 0;
    set_event(plan, k, 1);
    lose_sources(plan, k, DEVICES);
    for (u32 i = 0; i < devices && count < wanted; i++) {
        u32 d = (first + i) % devices;
        if (device_block(plan, d)[2] == 1 || once_in(3))
            continue;
        give_role(plan, d, SOURCES, k);
        count++;
    }
    return count;
}

/* A port that is joined is joined to itself. Its old peer is badly joined too, and of the two the first is found: the block of
 * that, or 0 where nothing is joined. */
static u32 spoil_link(struct plan *plan) {
    u32 ports = plan->bytes[1] * PORTS, first = pick(ports);
    for (u32 i = 0; i < ports; i++) {
        u32 d = (first + i) % ports / PORTS, p = (first + i) % PORTS;
        u8 *entry = port_entry(plan, d, p);
        if (entry[0] == NOWHERE)
            continue;
        u32 peer = entry[0];
        put_number(entry, 2, d + 256 * p);
        seal(plan, 1 + d);
        return 1 + (peer < d ? peer : d);
    }
    return 0;
}

static void must_be_refused(const struct plan *plan, u32 number, u32 block) {
    must_be("a file with these sources", number, try_plan_read(plan));
    must_be("the block", block, value_given(0));
}

void try_sources(const struct plan *given) {
    static struct plan plan, spoilt;
    plan = *given;
    for (u32 i = 0; i < TRIES; i++) {
        u32 k = pick(IDENTIFIERS), sources = give_sources(&plan, k);
        flag event = once_in(2), refused = !event && sources > 1;
        set_event(&plan, k, event);
        must_be_refused(&plan, refused ? 27 : 0, 0);
        owned[(event ? EVENT_OF_NONE : OTHER_OF_NONE) + (sources > 1 ? 2 : sources)]++;
        if (!refused)
            continue;
        spoilt = plan;
        u32 block = spoil_link(&spoilt);
        must_be_refused(&spoilt, block ? 26 : 27, block);
        owned[BADLY_JOINED] += block > 0;
        set_event(&plan, k, 1);
    }
}

/* ---- what clears a bit */

enum fate { BY_TIMER, BY_RESET, IN_VAIN, FATES };
static const char *const fate_names[FATES] = {
    "cleared by a timer", "cleared by a reset", "held on to at an acknowledge"};
static size fates[FATES];

/* A reset of the device, or the end of the timer in a round. */
static void check_bit(u32 d, u32 k, u32 timer, const struct change *change) {
    flag reset = change && change->call == RESET && change->device == d, ended = !change && timer == 1;
    if (!reset && !ended)
        fail("the bit of an event is cleared (device, identifier)", d, k);
    fates[reset ? BY_RESET : BY_TIMER]++;
}

/* What a call does to events, or a round where no call is given: bits go by a timer or a reset, and no acknowledge of one ever
 * begins to wait. */
void events_in_call(struct plan *plan, struct state *before, struct state *after, const struct change *change) {
    u32 events = events_of(plan);
    for (u32 d = 0; d < DEVICES; d++) {
        const u32 *words = device_words(before, d);
        u32 cleared = words[0] & ~device_words(after, d)[0] & events;
        for (u32 k = 0; cleared && k < IDENTIFIERS; k++)
            if (cleared >> k & 1)
                check_bit(d, k, words[1 + k], change);
    }
    for (u32 i = 0; events && i < DEVICES * PORTS; i++) {
        u32 d = i / PORTS, p = i % PORTS, waited = port_words(before, d, p)[AT_ACKNOWLEDGES];
        if (port_words(after, d, p)[AT_ACKNOWLEDGES] & ~waited & events)
            fail("an acknowledge of an event begins to wait (device, port)", d, p);
    }
}

/* A round; and of no acknowledge of an event is anybody told. */
void events_in_round(struct plan *plan, struct state *before, struct played *played) {
    events_in_call(plan, before, &played->next, 0);
    for (u32 i = 0; i < played->count; i++)
        if (played->told[i] / 65536 == OF_ACKNOWLEDGE && is_event(plan, played->told[i] % 256))
            fail("a host is told of the acknowledge of an event (word, of how many)", played->told[i], played->count);
    for (u32 i = 0; i < SENT_WORDS; i++) {
        u32 sent = played->sent[i], k = sent % 32;
        if (sent < 160 || sent >= 192 || !is_event(plan, k))
            continue;
        const u8 *entry = port_entry(plan, i / PORTS, i % PORTS), *peer = port_entry(plan, entry[0], entry[1]);
        const u32 *words = device_words(before, entry[0]);
        flag dropped = is_barred(plan, entry[0], entry[1], ACKNOWLEDGE, k);
        fates[IN_VAIN] += words[0] >> k & 1 && words[1 + k] > 1 && peer[2] & 8 && !dropped;
    }
}

/* ---- a request, and its end */

/* How T-08 was tried. */
enum way {
    NETWORKS, REQUESTS, TURNS, OTHER_TURNS, BY_BOTH, TICKED, BY_BARS, BUSY, TOLD, ENDED, DENIED, HELD_ALREADY, EXACT, WAYS
};
static const char *const way_names[WAYS] = {
    "networks", "requests", "requests after another", "requests after another source's", "requests from two ports that run",
    "requests with ticks", "requests that a bar stops somewhere", "networks crowded with other codes", "hosts told of the interrupt",
    "hosts told of the timeout", "acknowledges meanwhile: 13", "requests meanwhile: 9", "requests that took all their rounds"};
static size times[WAYS];
static u32 longest, nearest = NOT_YET; /* in rounds: of a request, and of the last bit's end before the end of the rounds */

/* One request. It takes 64 rounds for each of the most crossings, and those of the longer load. */
struct request {
    struct spread out;
    u32 rounds;
    u32 since[DEVICES]; /* the round in which a device began to hold k, NOT_YET before that */
    flag ended[DEVICES]; /* the host was told of the timeout */
    u32 last; /* the last round after which anybody held k */
};

static struct course course;
static u32 k, router_load, node_load; /* the loads are those of k */
static struct request requests[MOST_REQUESTS];

static flag is_router(u32 device) {
    return device_block(&course.plan, device)[2] == 1;
}

/* What the ports of a source answer to a request, apart from its bit. */
static u32 answer_of_ports(u32 source) {
    return !running_ports(&course, source) ? 7 : !can_send(&course, source) ? 8 : 0;
}

/* A source is chosen, and its identifier is an event. In half of the trials others get a role for it too. 0 where no node is
 * joined to anything. */
static flag cast(struct spread *first) {
    if (!choose_source(&course, first))
        return 0;
    k = first->k;
    set_event(&course.plan, k, 1);
    for (u32 d = 0, anybody = once_in(2); anybody && d < course.plan.bytes[1]; d++)
        if (d != first->start && !is_router(d) && once_in(2))
            give_role(&course.plan, d, once_in(3) ? HANDLERS : SOURCES, k);
    unset(&course, k);
    return 1;
}

/* A source that can send: if there is one, another than this. */
static u32 other_source(u32 but) {
    u32 devices = course.plan.bytes[1], first = pick(devices);
    for (u32 i = 0; i < devices; i++) {
        u32 d = (first + i) % devices;
        if (d != but && in_mask(&course.plan, d, SOURCES, k) && can_send(&course, d))
            return d;
    }
    return but;
}

static void choose_request(struct request *request, u32 source) {
    *request = (struct request){.out = {.name = "T-08", .kind = INTERRUPT, .k = k, .start = source}};
    for (u32 d = 0; d < DEVICES; d++)
        request->since[d] = NOT_YET;
    measure(&course, &request->out, 0);
}

/* Who requests, one after the other, and loads that outlast the window of each, by one in half of the trials; all the rounds. */
static u32 choose_requests(u32 source, u32 count) {
    u32 window = 0, rounds = 0;
    for (u32 i = 0; i < count; i++) {
        choose_request(&requests[i], source);
        if (requests[i].out.window > window)
            window = requests[i].out.window;
        source = other_source(once_in(4) ? DEVICES : source);
    }
    router_load = window + 1 + (once_in(2) ? 0 : pick(MOST_OVER));
    node_load = router_load + (once_in(2) ? 0 : pick(MOST_OVER));
    give_loads(&course, k, router_load, node_load);
    for (u32 i = 0; i < count; i++) {
        requests[i].rounds = CROSSING * farthest(requests[i].out.distance) + node_load;
        rounds += requests[i].rounds;
    }
    return rounds;
}

/* What else goes on. In a third of the trials it is the most that can be in the way of the first crossing: everything else waits
 * before it, and the source, which is the master, ticks before each round. */
static void begin_traffic(u32 source) {
    u32 which = pick(3);
    if (which < 2)
        crowd(&course, k);
    times[BUSY] += which < 2;
    if (which > 0) {
        let_tick(&course, source);
        return;
    }
    name_master(&course.plan, source);
    course.ticks = 1;
    for (u32 p = 0; p < PORTS; p++)
        *time_word(&course.state, source, p) = 0;
}

/* A device begins to hold k in its time, and holds it for as many rounds as its timer was loaded with, and no longer; so that it
 * is clear from round 64 x n and its load on, where it is n crossings away. */
static void check_device(struct request *request, u32 d, u32 round) {
    u32 away = request->out.distance[d], load = is_router(d) ? router_load : node_load;
    flag held = holds(&course, d, k);
    if (held && away == UNREACHED)
        broken(&request->out, "held out of reach (device, round)", d, round);
    if (held && request->since[d] == NOT_YET) {
        request->since[d] = round;
        if (round < away || round > CROSSING * away)
            broken(&request->out, "held too soon or too late (device, round)", d, round);
    }
    if (held && round >= CROSSING * away + load)
        broken(&request->out, "not clear in time (device, round)", d, round);
    if (request->since[d] != NOT_YET && held != (round < request->since[d] + load))
        broken(&request->out, "held for too long or not long enough (device, round)", d, round);
    if (held)
        request->last = round;
}

/* The host of a node that is reached, but the source's, is told once of the interrupt, when its bit is set; it and the source's
 * host once of the timeout, when that goes; and no host of anything else, or of an acknowledge. */
static void check_hosts(struct request *request, u32 round) {
    struct spread *out = &request->out;
    for (u32 i = 0; i < course.played.count; i++) {
        u32 word = course.played.told[i], kind = word / 65536, d = word / 256 % 256;
        if (!tells_of(word, k))
            continue;
        flag begins = kind == OF_INTERRUPT && d != out->start && !out->told[d] && round == request->since[d];
        flag ends = kind == OF_TIMEOUT && !request->ended[d] && round == request->since[d] + node_load;
        if (!begins && !ends)
            broken(out, "told what it should not be (word, round)", word, round);
        out->told[d] = begins ? round : out->told[d];
        request->ended[d] |= ends;
        times[begins ? TOLD : ENDED]++;
    }
}

/* Calls on k that are refused: any device acknowledges, by 13 where it is a handler, and any source that holds k requests. */
static void call_in_vain(void) {
    u32 devices = course.plan.bytes[1], d = pick(devices), ports = answer_of_ports(d);
    flag handler = in_mask(&course.plan, d, HANDLERS, k);
    must_be("T-08: an acknowledge of an event", handler ? 13 : 6, host_calls(&course, ACKNOWLEDGES, d, k));
    times[DENIED] += handler;
    if (in_mask(&course.plan, d, SOURCES, k) && holds(&course, d, k)) {
        must_be("T-08: a request of what is held", ports ? ports : 9, host_calls(&course, REQUEST, d, k));
        times[HELD_ALREADY] += !ports;
    }
}

/* A round and what is seen in it. */
static void step(struct request *request, u32 calls, u32 round) {
    if (once_in(8))
        call_in_vain();
    play_on(&course, k, once_in(8) ? calls : 0);
    check_sent(&request->out, &course, round);
    for (u32 i = 0; i < SENT_WORDS; i++)
        if (course.played.sent[i] == 160 + k)
            broken(&request->out, "an acknowledge is sent (port, round)", i, round);
    if (round <= request->out.window)
        check_held(&request->out, &course, round);
    if (round == request->out.window)
        check_rest(&request->out, &course);
    for (u32 d = 0; d < course.plan.bytes[1]; d++)
        check_device(request, d, round);
    check_hosts(request, round);
}

/* In the end nobody holds k, it waits nowhere, all hosts were told, and each source of it can request again. */
static void check_over(struct request *request) {
    static struct state scratch;
    struct spread *out = &request->out;
    check_rest(out, &course);
    check_all_sent(out, &course);
    for (u32 d = 0; d < course.plan.bytes[1]; d++) {
        flag reached = out->distance[d] != UNREACHED && !is_router(d);
        if (holds(&course, d, k))
            broken(out, "set at the end (device, rounds)", d, request->rounds);
        if (reached && (!request->ended[d] || (d != out->start && !out->told[d])))
            broken(out, "never told (device, of the timeout)", d, !request->ended[d]);
        if (!in_mask(&course.plan, d, SOURCES, k))
            continue;
        scratch = course.state;
        must_be("T-08: the next request", answer_of_ports(d),
                try_change((struct change){.call = REQUEST, .device = d, .other = k}, &course.plan, &scratch));
    }
}

/* How near the rounds were to being too few, where the request got anywhere. */
static void count(const struct request *request) {
    u32 left = request->rounds - 1 - request->last;
    times[REQUESTS]++;
    times[BY_BOTH] += running_ports(&course, request->out.start) == NODE_PORTS;
    times[TICKED] += course.ticks > 0;
    times[BY_BARS] += meets_bars(&request->out, &course);
    longest = request->rounds > longest ? request->rounds : longest;
    if (!farthest(request->out.distance))
        return;
    nearest = left < nearest ? left : nearest;
    times[EXACT] += left == 0;
}

/* Behind the window, where only timers fall, ticks are rare: each costs as much as a round. */
static void play_request(struct request *request, u32 calls) {
    u32 ticks = course.ticks;
    must_be("T-08: the request is taken", 0, host_calls(&course, REQUEST, request->out.start, k));
    check_held(&request->out, &course, 0);
    for (u32 d = 0; d < course.plan.bytes[1]; d++)
        check_device(request, d, 0);
    for (u32 round = 1; round <= request->rounds; round++) {
        step(request, calls, round);
        if (round == request->out.window && ticks)
            course.ticks = SELDOM;
    }
    course.ticks = ticks;
    check_over(request);
    count(request);
}

/* Rounds in which nothing is heard of k: as if it had started where nobody is. */
static void rest(u32 calls) {
    static struct request nothing;
    nothing = (struct request){.out = {.name = "T-08, between two requests", .kind = INTERRUPT, .k = k, .start = UNREACHED}};
    for (u32 d = 0; d < DEVICES; d++) {
        nothing.out.distance[d] = UNREACHED;
        nothing.since[d] = NOT_YET;
    }
    for (u32 round = 1, rounds = pick(MOST_REST); round <= rounds; round++)
        step(&nothing, calls, round);
}

/* Is it worth its rounds? Long courses on large networks are rare, and so are those in which nobody is reached. */
static flag worth(u32 rounds) {
    flag alone = !farthest(requests[0].out.distance);
    return once_in(alone ? 4 : 1 + rounds * (8 + course.plan.bytes[1]) / AFFORDED);
}

void try_events(const struct plan *given) {
    struct spread first = {.kind = INTERRUPT};
    u32 counted = 1 + pick(MOST_REQUESTS), calls = pick(4);
    begin_course(&course, given);
    if (!cast(&first))
        return;
    if (!worth(choose_requests(first.start, counted)))
        return;
    begin_traffic(first.start);
    for (u32 i = 0; i < counted; i++) {
        if (i > 0)
            rest(calls);
        play_request(&requests[i], calls);
        times[TURNS] += i > 0;
        times[OTHER_TURNS] += i > 0 && requests[i].out.start != requests[i - 1].out.start;
    }
    times[NETWORKS]++;
    count_loads(IN_T_08, &course, k, router_load - 1);
}

void events_table(void) {
    printf("sources of one identifier                      times\n");
    counts_table(owned_names, owned, OWNED);
    printf("bits of events, with any calls                 times\n");
    counts_table(fate_names, fates, FATES);
    printf("T-08 tried, in up to %4u rounds               times\n", longest);
    counts_table(way_names, times, WAYS);
    if (nearest != NOT_YET)
        printf("  rounds by which the last bit was clear before its last round, at least: %u\n", nearest);
}

flag all_events_tried(void) {
    flag all = all_counted("no identifier was so", owned_names, owned, OWNED);
    all &= all_counted("no bit of an event was so", fate_names, fates, FATES);
    all &= all_counted("T-08 was never tried so", way_names, times, WAYS);
    return all;
}
