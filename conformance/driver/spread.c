/* What demand 3, T-01 and T-08 have in common, a code of k that spreads from one device while other identifiers are used and a
 * master ticks; and, with T-03 and T-07, how a source is chosen and rounds are played. */
#include "driver.h"

enum { EVERYTHING = 15 }; /* all four permissions */

void begin_course(struct course *course, const struct plan *plan) {
    course->plan = *plan;
    sound_state(&course->plan, &course->state);
    right_lengths(&course->played);
    course->ticks = 0;
    course->ticks_apart = 0;
    course->known = 0;
}

u32 running_ports(struct course *course, u32 device) {
    u32 count = 0;
    for (u32 p = 0; p < PORTS; p++)
        count += port_words(&course->state, device, p)[AT_RUNNING];
    return count;
}

static flag sends(struct course *course, u32 device, u32 port, enum kind kind) {
    u32 permissions = port_entry(&course->plan, device, port)[2];
    return port_words(&course->state, device, port)[AT_RUNNING] && permissions & (kind == INTERRUPT ? 1 : 4);
}

flag can_send(struct course *course, u32 device) {
    for (u32 p = 0; p < PORTS; p++)
        if (sends(course, device, p, INTERRUPT))
            return 1;
    return 0;
}

/* A source of which some port can send, and one of its identifiers; 0 if there is none. */
static flag find_source(struct course *course, struct spread *spread) {
    struct plan *plan = &course->plan;
    u32 first = pick(DEVICES * IDENTIFIERS);
    for (u32 i = 0; i < DEVICES * IDENTIFIERS; i++) {
        u32 at = (first + i) % (DEVICES * IDENTIFIERS), d = at / IDENTIFIERS, k = at % IDENTIFIERS;
        if (d >= plan->bytes[1] || !in_mask(plan, d, SOURCES, k) || !can_send(course, d))
            continue;
        spread->start = d;
        spread->k = k;
        return 1;
    }
    return 0;
}

/* Where no source can send, a node that is joined to something becomes one, and a link of it runs; 0 if there is none. */
static flag make_source(struct course *course, struct spread *spread) {
    struct plan *plan = &course->plan;
    spread->k = pick(IDENTIFIERS);
    for (u32 i = 0; i < NODE_PORTS * plan->bytes[1]; i++) {
        u32 d = i / NODE_PORTS, p = i % NODE_PORTS;
        u8 *entry = port_entry(plan, d, p);
        if (device_block(plan, d)[2] == 1 || entry[0] == 255)
            continue;
        entry[2] |= 1;
        give_role(plan, d, SOURCES, spread->k);
        port_words(&course->state, d, p)[AT_RUNNING] = port_words(&course->state, entry[0], entry[1])[AT_RUNNING] = 1;
        spread->start = d;
        return 1;
    }
    return 0;
}

flag choose_source(struct course *course, struct spread *spread) {
    return find_source(course, spread) || make_source(course, spread);
}

void open_links(struct course *course, flag all) {
    for (u32 d = 0; d < course->plan.bytes[1]; d++) {
        for (u32 p = 0; p < device_block(&course->plan, d)[3]; p++) {
            u8 *entry = port_entry(&course->plan, d, p);
            u32 *running = &port_words(&course->state, d, p)[AT_RUNNING];
            if (entry[0] == 255 || !(all || *running))
                continue;
            *running = 1;
            entry[2] = EVERYTHING;
        }
        seal(&course->plan, 1 + d);
    }
}

void unset(struct course *course, u32 k) {
    for (u32 d = 0; d < DEVICES; d++) {
        device_words(&course->state, d)[0] &= ~(1u << k);
        device_words(&course->state, d)[1 + k] = 0;
        for (u32 p = 0; p < PORTS; p++) {
            port_words(&course->state, d, p)[AT_INTERRUPTS] &= ~(1u << k);
            port_words(&course->state, d, p)[AT_ACKNOWLEDGES] &= ~(1u << k);
        }
    }
}

void no_times(struct course *course) {
    for (u32 d = 0; d < DEVICES; d++)
        for (u32 p = 0; p < PORTS; p++)
            *time_word(&course->state, d, p) &= AFTER_TIME;
}

void let_tick(struct course *course, u32 node) {
    static const u32 often[] = {1, 1, 2, 6};
    if (once_in(2))
        return;
    if (once_in(2) || master_of(&course->plan) == NO_MASTER)
        name_master(&course->plan, node);
    course->ticks = often[pick(sizeof often / sizeof *often)];
}

void crowd(struct course *course, u32 k) {
    struct plan *plan = &course->plan;
    for (u32 d = 0; d < plan->bytes[1]; d++)
        for (u32 p = 0; p < device_block(plan, d)[3]; p++) {
            u32 *words = port_words(&course->state, d, p), others = ~(1u << k);
            words[AT_NEXT] = (k + 1) % IDENTIFIERS;
            if (words[AT_RUNNING] && port_entry(plan, d, p)[2] & 4)
                words[AT_ACKNOWLEDGES] = others & ~words[AT_INTERRUPTS];
            if (words[AT_RUNNING] && port_entry(plan, d, p)[2] & 1)
                words[AT_INTERRUPTS] = others & ~words[AT_ACKNOWLEDGES];
        }
}

void read_records(struct course *course) {
    const struct plan *plan = &course->plan;
    const struct state *state = &course->state;
    must_be("plan and state are good", 0,
            network_read(&course->records, plan->bytes, plan->length, state->words, state->length));
}

u32 farthest(const u32 distance[DEVICES]) {
    u32 most = 0;
    for (u32 d = 0; d < DEVICES; d++)
        if (distance[d] != UNREACHED && distance[d] > most)
            most = distance[d];
    return most;
}

void measure(struct course *course, struct spread *spread, const u32 *within) {
    read_records(course);
    crossings(&course->records, spread->start, (struct code){spread->kind, spread->k}, within, spread->distance);
    spread->window = CROSSING * (farthest(spread->distance) + 1);
}

/* In half of the trials k has a pair, and the common loads are as they were, or very short; in the others it has none, and
 * they are its own. What other identifiers have of their own stays. Timers that run are within the new loads then. */
void give_loads(struct course *course, u32 k, u32 router, u32 node) {
    struct plan *plan = &course->plan;
    if (once_in(2)) {
        u32 brief = 1 + pick(5);
        set_own_loads(plan, k, router, node);
        if (once_in(2))
            set_loads(plan, brief, brief + pick(5));
    } else {
        set_own_loads(plan, k, 0, 0);
        set_loads(plan, router, node);
    }
    fit_timers(plan, &course->state);
}

void exceed(struct course *course, u32 k, u32 rounds) {
    u32 router = rounds + 1 + (once_in(2) ? 0 : pick(29000)), node = router + (once_in(2) ? 0 : pick(29000));
    give_loads(course, k, router, node);
}

u32 make_call(struct course *course, struct change change) {
    u32 number = try_change(change, &course->plan, &course->state);
    course->known &= number != 0;
    return number;
}

u32 host_calls(struct course *course, enum call call, u32 device, u32 k) {
    return make_call(course, (struct change){.call = call, .device = device, .other = k});
}

/* May the call be taken in the window? */
static flag may_be_made(const struct course *course, struct change change, u32 k) {
    if (change.call == TICK)
        return !course->ticks_apart;
    return (change.call == REQUEST || change.call == ACKNOWLEDGES) && (u32)change.other != k;
}

/* A call on another identifier, a tick, or a call that is refused: no other call is made in the window. */
static void other_call(struct course *course, u32 k) {
    static struct state scratch;
    struct plan *plan = &course->plan;
    struct change change = likely_change(plan);
    scratch = course->state;
    if (!may_be_made(course, change, k) && judge_change(change, plan->bytes, plan->length, scratch.words, scratch.length) == 0)
        return;
    make_call(course, change);
}

void play_on(struct course *course, u32 k, u32 calls) {
    for (u32 i = pick(1 + calls); i; i--)
        other_call(course, k);
    if (course->ticks && once_in(course->ticks))
        make_call(course, (struct change){.call = TICK, .device = master_of(&course->plan)});
    if (!course->known)
        read_records(course);
    course->known = 1;
    must_be("a round is played", 0, try_round_of(&course->records, &course->plan, &course->state, &course->played));
    course->state = course->played.next;
}

_Noreturn void broken(const struct spread *spread, const char *what, u32 one, u32 other) {
    printf("judge: %s: identifier %u from device %u\n", spread->name, spread->k, spread->start);
    fail(what, one, other);
}

flag holds(struct course *course, u32 device, u32 k) {
    return device_words(&course->state, device)[0] >> k & 1;
}

flag tells_of(u32 word, u32 k) {
    return word / 65536 != OF_TIME && word % 256 == k;
}

void has_come(struct spread *spread, u32 device, u32 round) {
    if (spread->distance[device] != 1 || spread->crossed[device])
        return;
    spread->crossed[device] = 1;
    spread->slowest = round;
}

void check_held(struct spread *spread, struct course *course, u32 round) {
    for (u32 d = 0; d < DEVICES; d++) {
        flag held = holds(course, d, spread->k);
        if (spread->distance[d] == UNREACHED && held)
            broken(spread, "held out of reach (device, round)", d, round);
        if (spread->distance[d] != UNREACHED && round >= CROSSING * spread->distance[d] && !held)
            broken(spread, "not held (device, round)", d, round);
        if (held)
            has_come(spread, d, round);
    }
}

void check_sent(struct spread *spread, const struct course *course, u32 round) {
    for (u32 i = 0; i < SENT_WORDS; i++) {
        u32 sent = course->played.sent[i];
        if (sent != 128 + spread->k && sent != 160 + spread->k)
            continue;
        const struct device *sender = &course->records.device[i / PORTS];
        if (spread->sent[i])
            broken(spread, "sent twice (port, round)", i, round);
        if (spread->distance[i / PORTS] == UNREACHED)
            broken(spread, "sent out of reach (port, round)", i, round);
        if (!sender->router && i / PORTS != spread->start)
            broken(spread, "passed on by a node (port, round)", i, round);
        spread->sent[i] = 1;
    }
}

void check_all_sent(const struct spread *spread, struct course *course) {
    for (u32 p = 0; p < PORTS; p++)
        if (spread->sent[PORTS * spread->start + p] != sends(course, spread->start, p, spread->kind))
            broken(spread, "sent by another port than those that run and may (device, port)", spread->start, p);
}

flag meets_bars(const struct spread *spread, struct course *course) {
    for (u32 i = 0; i < course->plan.bytes[1] * PORTS; i++) {
        u32 d = i / PORTS, p = i % PORTS, received = spread->kind == INTERRUPT ? 2 : 8;
        flag router = device_block(&course->plan, d)[2] == 1;
        if (spread->distance[d] == UNREACHED || !(router || d == spread->start) || !sends(course, d, p, spread->kind))
            continue;
        const u8 *entry = port_entry(&course->plan, d, p), *peer = port_entry(&course->plan, entry[0], entry[1]);
        if (peer[2] & received && is_barred(&course->plan, entry[0], entry[1], spread->kind, spread->k))
            return 1;
    }
    return 0;
}

void check_rest(const struct spread *spread, struct course *course) {
    for (u32 d = 0; d < DEVICES; d++)
        for (u32 p = 0; p < PORTS; p++) {
            const u32 *words = port_words(&course->state, d, p);
            if ((words[AT_INTERRUPTS] | words[AT_ACKNOWLEDGES]) >> spread->k & 1)
                broken(spread, "still waiting (device, port)", d, p);
        }
}
