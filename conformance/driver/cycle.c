/* T-01, the return trip, tried: an interrupt that is no event's and is barred nowhere spreads, a handler that was told of it
 * acknowledges, and the acknowledge, which is barred nowhere either, brings the network back to where it was, so that the next
 * cycle can begin. Meanwhile other identifiers are used, which may be barred, and a master ticks. */
#include "driver.h"

enum { NOWHERE = 255, MOST_CYCLES = 3, MOST_GAP = 40, NOT_YET = 1 << 30 };

/* One cycle. By the request's clock the handler waits until the gap behind the first window is over; by its own clock it
 * counts from the round in which it was told. */
struct cycle {
    struct spread out, back;
    flag own_clock;
    u32 wait; /* the rounds from where its clock begins to the acknowledge */
    u32 most; /* the rounds from the request to the end of the second window: never more than this */
    flag from_both, back_by_both, beyond; /* source and handler have two ports that run; the acknowledge gets out of reach */
};

static struct course course;
static flag light; /* has few devices and rounds, so that more can be tried on it */
static u32 pairs, pair[DEVICES * DEVICES][2];
static u32 others; /* pairs that do not allow T-01 */

/* Is every device that the source reached found from the handler, by codes that go over such devices alone? Where one port of
 * the source runs, it always is: all that it reached hangs together without it. */
static flag all_found(u32 k, u32 source, u32 handler, const u32 *reached, u32 count) {
    u32 distance[DEVICES];
    flag all = crossings(&course.records, handler, (struct code){ACKNOWLEDGE, k}, reached, distance) == count;
    if (!all && running_ports(&course, source) < NODE_PORTS)
        fail("T-01: not all found, though one port of the source runs (source, handler)", source, handler);
    return all;
}

/* The pairs of a source of k and a handler of k that it reaches or, where any will do, of two nodes. */
static void find_pairs(u32 k, flag any) {
    const struct device *device = course.records.device;
    u32 distance[DEVICES];
    read_records(&course);
    pairs = others = 0;
    for (u32 s = 0; s < course.records.devices; s++) {
        if (device[s].router || !(any || device[s].source[k]))
            continue;
        u32 reached = crossings(&course.records, s, (struct code){INTERRUPT, k}, 0, distance);
        for (u32 h = 0; h < course.records.devices; h++) {
            if (h == s || distance[h] == UNREACHED || device[h].router || !(any || device[h].handler[k]))
                continue;
            if (!all_found(k, s, h, distance, reached)) {
                others++;
                continue;
            }
            pair[pairs][0] = s;
            pair[pairs++][1] = h;
        }
    }
}

/* Any identifier that is no event; where all are events, one is made so. What bars it goes, and what bars others stays. */
static u32 no_event(void) {
    u32 k = pick(IDENTIFIERS);
    for (u32 i = 0; i < IDENTIFIERS && is_event(&course.plan, k); i++)
        k = (k + 1) % IDENTIFIERS;
    be_acknowledged(&course.plan, k);
    unbar(&course.plan, k);
    return k;
}

/* Is anything barred at a port that is joined? */
static flag others_barred(void) {
    for (u32 i = 0; i < course.plan.bytes[1] * PORTS; i++) {
        const u8 *bars = port_bars(&course.plan, i / PORTS, i % PORTS);
        if (port_entry(&course.plan, i / PORTS, i % PORTS)[0] != NOWHERE && (number_at(bars, 4) || number_at(bars + 4, 4)))
            return 1;
    }
    return 0;
}

/* A pair for k at least. The roles are those of the plan, or anybody's; 0 if no pair of nodes allows T-01. */
static flag cast(u32 k, struct trips *trips) {
    open_links(&course, 0);
    find_pairs(k, 1);
    if (!pairs) {
        open_links(&course, 1);
        find_pairs(k, 1);
    }
    trips->pairs += pairs;
    trips->other_pairs += others;
    trips->alone += !pairs && !others;
    trips->unfound += !pairs && others;
    if (!pairs)
        return 0;
    u32 chosen = pick(pairs), source = pair[chosen][0], handler = pair[chosen][1];
    for (u32 d = 0, anybody = once_in(2); anybody && d < course.plan.bytes[1]; d++)
        if (device_block(&course.plan, d)[2] == 0 && !once_in(3))
            give_role(&course.plan, d, once_in(2) ? SOURCES : HANDLERS, k);
    find_pairs(k, 0);
    if (!pairs) {
        give_role(&course.plan, source, SOURCES, k);
        give_role(&course.plan, handler, HANDLERS, k);
        find_pairs(k, 0);
    }
    return 1;
}

/* Does the acknowledge get to a device that the interrupt did not reach? It is ignored there, and goes no further. */
static flag gets_beyond(const struct spread *out, u32 handler) {
    const struct device *device = &course.records.device[handler];
    for (u32 p = 0; p < device->ports; p++)
        if (device->port[p].running && out->distance[device->port[p].peer->device->number] == UNREACHED)
            return 1;
    return 0;
}

/* Who takes part, and when the handler acknowledges. By its own clock it does not know how long the interrupt was under way:
 * a round for each crossing at least, and it waits for the rest of the window. */
static void choose(struct cycle *cycle, u32 k) {
    u32 chosen = pick(pairs), source = pair[chosen][0], handler = pair[chosen][1];
    *cycle = (struct cycle){.out = {.name = "T-01, the interrupt", .kind = INTERRUPT, .k = k, .start = source},
                            .back = {.name = "T-01, the acknowledge", .kind = ACKNOWLEDGE, .k = k, .start = handler}};
    measure(&course, &cycle->out, 0);
    measure(&course, &cycle->back, cycle->out.distance);
    for (u32 d = 0; d < DEVICES; d++)
        if ((cycle->out.distance[d] == UNREACHED) != (cycle->back.distance[d] == UNREACHED))
            broken(&cycle->out, "reached on one of the ways only (device, handler)", d, handler);
    cycle->from_both = running_ports(&course, source) == NODE_PORTS;
    cycle->back_by_both = running_ports(&course, handler) == NODE_PORTS;
    cycle->beyond = gets_beyond(&cycle->out, handler);
    u32 away = cycle->out.distance[handler], late = once_in(4) ? 0 : pick(MOST_GAP + 1);
    cycle->own_clock = once_in(2);
    cycle->wait = cycle->own_clock ? cycle->out.window - away + late % 8 : cycle->out.window + late;
    cycle->most = (cycle->own_clock ? CROSSING * away : 0) + cycle->wait + cycle->back.window;
}

/* What hosts are told of k: those that the code reaches that it has come, once, and no sooner or later than it can; the host
 * that it starts from and all others nothing, where an acknowledge gets to them too. The kind of such a code and the kind of what
 * is told of it have the same number. */
static void check_told(struct spread *spread, u32 round) {
    for (u32 i = 0; i < course.played.count; i++) {
        u32 word = course.played.told[i], kind = word / 65536, d = word / 256 % 256, away = spread->distance[d];
        if (!tells_of(word, spread->k))
            continue;
        if (kind != spread->kind || away == UNREACHED || d == spread->start || spread->told[d])
            broken(spread, "told what it should not be (word, round)", word, round);
        if (round < away || round > CROSSING * away)
            broken(spread, "told too soon or too late (device, round)", d, round);
        spread->told[d] = round;
    }
}

static void check_all_told(const struct spread *spread) {
    for (u32 d = 0; d < course.plan.bytes[1]; d++) {
        flag router = device_block(&course.plan, d)[2] == 1, reached = spread->distance[d] != UNREACHED;
        if (!router && reached && d != spread->start && !spread->told[d])
            broken(spread, "never told (device, kind)", d, spread->kind);
    }
}

static void check_cleared(struct spread *spread, u32 round) {
    for (u32 d = 0; d < DEVICES; d++) {
        flag held = holds(&course, d, spread->k);
        if ((spread->distance[d] == UNREACHED || round >= CROSSING * spread->distance[d]) && held)
            broken(spread, "not cleared (device, round)", d, round);
        if (!held)
            has_come(spread, d, round);
    }
}

/* After the second window: it was long enough for the farthest device, k is set nowhere and waits nowhere. */
static void check_over(const struct spread *spread) {
    for (u32 d = 0; d < DEVICES; d++) {
        if (spread->distance[d] != UNREACHED && CROSSING * (spread->distance[d] + 1) > spread->window)
            broken(spread, "too far away for the window (device, rounds)", d, spread->window);
        if (holds(&course, d, spread->k))
            broken(spread, "set at the end (device, rounds)", d, spread->window);
    }
    check_rest(spread, &course);
}

/* A round and what is seen in it. On a large network calls are rare: each costs as much as a round. */
static void step(struct spread *spread, u32 calls, u32 round) {
    play_on(&course, spread->k, once_in(light ? 4 : 16) ? calls : 0);
    check_sent(spread, &course, round);
    check_told(spread, round);
    if (spread->kind == INTERRUPT)
        check_held(spread, &course, round);
    else
        check_cleared(spread, round);
}

/* From the request to just before the acknowledge; how many rounds that took. */
static u32 go_out(struct cycle *cycle, u32 calls) {
    struct spread *out = &cycle->out;
    u32 handler = cycle->back.start, latest = CROSSING * out->distance[handler];
    u32 round = 0, until = cycle->own_clock ? NOT_YET : cycle->wait;
    must_be("T-01: the request is taken", 0, host_calls(&course, REQUEST, out->start, out->k));
    check_held(out, &course, 0);
    while (round < until) {
        step(out, calls, ++round);
        if (round == latest && !out->told[handler])
            broken(out, "the handler is not told (handler, round)", handler, round);
        if (cycle->own_clock && round == out->told[handler])
            until = round + cycle->wait;
        if (round >= out->window)
            check_rest(out, &course);
    }
    if (round < out->window)
        broken(out, "the handler's clock is too fast (rounds, window)", round, out->window);
    check_rest(out, &course);
    check_all_sent(out, &course);
    check_all_told(out);
    return round;
}

/* From the acknowledge to the end. */
static u32 come_back(struct cycle *cycle, u32 calls) {
    struct spread *back = &cycle->back;
    must_be("T-01: the acknowledge is taken", 0, host_calls(&course, ACKNOWLEDGES, back->start, back->k));
    check_cleared(back, 0);
    for (u32 round = 1; round <= back->window; round++)
        step(back, calls, round);
    check_all_sent(back, &course);
    check_all_told(back);
    check_over(back);
    return back->window;
}

/* Rounds after a cycle, in which nothing is heard of k: as if it had started where nobody is. By its own clock the source
 * waits for the second window from when it was told, less a round for each crossing, which was over then. */
static void rest(const struct cycle *over, u32 calls) {
    const struct spread *back = &over->back;
    u32 source = over->out.start, rounds = once_in(2) ? 0 : 1 + pick(10);
    struct spread nothing = {.name = "T-01, between two cycles", .kind = INTERRUPT, .k = back->k, .start = UNREACHED};
    for (u32 d = 0; d < DEVICES; d++)
        nothing.distance[d] = UNREACHED;
    if (once_in(2))
        rounds = back->told[source] - back->distance[source];
    for (u32 round = 1; round <= rounds; round++) {
        step(&nothing, calls, round);
        check_rest(&nothing, &course);
    }
}

/* So that the most can be in the acknowledge's way where it starts, nothing else is used until then: the handler's ports
 * still begin their search behind k, and have sent no Time-Code. And the handler may request all others. */
static void hush(u32 k, u32 handler) {
    for (u32 other = 0; other < IDENTIFIERS; other++) {
        unset(&course, other);
        if (other != k)
            give_role(&course.plan, handler, SOURCES, other);
    }
    for (u32 d = 0; d < course.plan.bytes[1]; d++)
        for (u32 p = 0; p < device_block(&course.plan, d)[3]; p++) {
            port_words(&course.state, d, p)[AT_NEXT] = (k + 1) % IDENTIFIERS;
            *time_word(&course.state, d, p) = 0;
        }
}

/* Just before it acknowledges, the handler requests all others, which its ports send first. */
static void rush(u32 k, u32 handler) {
    for (u32 i = 1; i < IDENTIFIERS; i++)
        must_be("T-01: a request of another is taken", 0, host_calls(&course, REQUEST, handler, (k + i) % IDENTIFIERS));
}

static void count_cycle(const struct cycle *cycle, u32 rounds, struct trips *trips) {
    if (rounds > trips->longest)
        trips->longest = rounds;
    if (cycle->out.slowest > trips->slowest)
        trips->slowest = cycle->out.slowest;
    if (cycle->back.slowest > trips->slowest_back)
        trips->slowest_back = cycle->back.slowest;
    trips->cycles++;
    trips->from_both += cycle->from_both;
    trips->back_by_both += cycle->back_by_both;
    trips->beyond += cycle->beyond;
    trips->ticked += course.ticks > 0;
    trips->barred += others_barred();
}

static void play_cycles(struct cycle *cycles, u32 count, flag hushed, struct trips *trips) {
    for (u32 i = 0; i < count; i++) {
        u32 k = cycles[i].out.k, calls = pick(4), ticks = course.ticks;
        flag rushed = hushed && i == 0;
        if (i > 0)
            rest(&cycles[i - 1], calls);
        course.ticks = rushed ? 0 : ticks;
        u32 rounds = go_out(&cycles[i], rushed ? 0 : calls);
        course.ticks = ticks;
        if (rushed)
            rush(k, cycles[i].back.start);
        rounds += come_back(&cycles[i], calls);
        if (rounds > cycles[i].most)
            broken(&cycles[i].back, "longer than the loads allow for (rounds, most)", rounds, cycles[i].most);
        count_cycle(&cycles[i], rounds, trips);
    }
    trips->networks++;
}

void try_cycles(const struct plan *given, struct trips *trips) {
    static struct cycle cycles[MOST_CYCLES];
    u32 count = 1, most = 0;
    begin_course(&course, given);
    u32 k = no_event();
    if (!cast(k, trips))
        return;
    for (u32 i = 0; i < count; i++) {
        choose(&cycles[i], k);
        if (cycles[i].most > most)
            most = cycles[i].most;
        if (i > 0)
            continue;
        light = most * course.plan.bytes[1] < 4000;
        count = once_in(light ? 2 : 12) ? 2 + pick(MOST_CYCLES - 1) : 1;
    }
    exceed(&course, k, most);
    unset(&course, k);
    flag crowded = once_in(2), hushed = !crowded && once_in(2);
    let_tick(&course, hushed || once_in(2) ? cycles[0].back.start : cycles[0].out.start);
    if (crowded)
        crowd(&course, k);
    if (hushed)
        hush(k, cycles[0].back.start);
    play_cycles(cycles, count, hushed, trips);
    count_loads(IN_T_01, &course, k, most);
}
