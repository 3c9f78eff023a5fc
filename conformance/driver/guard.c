/* T-11, tried: the guarded edge. Which bars a file may have, and what plans have of them; how drops are counted; and what it is
 * for: where all links of a node lead to ports that bar a code, it gets from there to nobody, whatever the node's host does. */
#include "driver.h"

enum { NOWHERE = 255, TRIES = 6, MOST_LOAD = 6, MOST_CALLS = 3, ROUNDS = 24 };

/* ---- what plans have, and what files may have */

enum having {
    NOTHING_BARRED, OF_INTERRUPTS, OF_ACKNOWLEDGES, OF_BOTH, OF_ONE, OF_ALL, AT_NODES, AT_ROUTERS, AT_NOTHING, HAVINGS
};
static const char *const having_names[HAVINGS] = {
    "nothing barred", "interrupts barred", "acknowledges barred", "both at one port", "a mask of one identifier",
    "a mask of all identifiers", "a bar where a node is joined", "a bar where a router is joined",
    "a bar where nothing is joined"};
static size havings[HAVINGS];

static flag is_router(struct plan *plan, u32 device) {
    return device_block(plan, device)[2] == 1;
}

static void port_has(struct plan *plan, u32 d, u32 p, flag has[HAVINGS]) {
    u32 interrupts = number_at(port_bars(plan, d, p), 4), acknowledges = number_at(port_bars(plan, d, p) + 4, 4);
    u32 peer = port_entry(plan, d, p)[0], any = interrupts | acknowledges;
    has[OF_INTERRUPTS] |= interrupts != 0;
    has[OF_ACKNOWLEDGES] |= acknowledges != 0;
    has[OF_BOTH] |= interrupts && acknowledges;
    has[OF_ONE] |= any && !(any & (any - 1));
    has[OF_ALL] |= interrupts == 0xFFFFFFFF || acknowledges == 0xFFFFFFFF;
    has[AT_NOTHING] |= any && peer == NOWHERE;
    has[AT_ROUTERS] |= any && peer != NOWHERE && is_router(plan, peer);
    has[AT_NODES] |= any && peer != NOWHERE && !is_router(plan, peer);
}

void count_bars(struct plan *plan) {
    flag has[HAVINGS] = {0};
    for (u32 i = 0; i < plan->bytes[1] * PORTS; i++)
        port_has(plan, i / PORTS, i % PORTS, has);
    has[NOTHING_BARRED] = !has[OF_INTERRUPTS] && !has[OF_ACKNOWLEDGES];
    for (u32 i = 0; i < HAVINGS; i++)
        havings[i] += has[i];
}

/* Where a byte is changed: in the masks of a port, or behind them all. */
enum place { OF_NODE, NODE_LACKS, ROUTER_LACKS, JOINED, OPEN, FIRST_ZERO, A_ZERO, BOTH_WRONG, PLACES };
static const char *const place_names[PLACES] = {
    "of a port of a node: 23", "of a port that a node lacks: 23", "of a port that a router lacks: 23", "of a port of a router",
    "of one that is joined to nothing", "the first behind the masks: 24", "any behind them: 24",
    "behind them, and in a wrong mask: 23"};
static size places[PLACES];

static enum place place_of(struct plan *plan, u32 d, u32 p) {
    flag has = p < device_block(plan, d)[3];
    if (!is_router(plan, d))
        return has ? OF_NODE : NODE_LACKS;
    return !has ? ROUTER_LACKS : port_entry(plan, d, p)[0] == NOWHERE ? OPEN : JOINED;
}

/* One byte of a mask, one behind them, or one of each. */
static void try_byte(struct plan *plan, u32 d, u32 p, u32 which) {
    u32 behind = once_in(2) ? BEHIND_BARS : BEHIND_BARS + pick(510 - BEHIND_BARS);
    enum place place = place_of(plan, d, p);
    flag mask = which != 1, zero = which != 0, wrong = mask && place != JOINED && place != OPEN;
    if (mask) {
        u8 dirt = 1 + pick(255);
        port_bars(plan, d, p)[pick(8)] = dirt;
    }
    if (zero)
        device_block(plan, d)[behind] = 1 + pick(255);
    seal(plan, 1 + d);
    must_be("a file with this byte", wrong ? 23 : zero ? 24 : 0, try_plan_read(plan));
    must_be("the block", wrong || zero ? 1 + d : 0, value_given(0));
    places[!zero ? place : wrong ? BOTH_WRONG : behind == BEHIND_BARS ? FIRST_ZERO : A_ZERO]++;
}

void try_bars(const struct plan *given) {
    static struct plan plan;
    for (u32 i = 0; i < TRIES; i++) {
        u32 d = pick(given->bytes[1]), p = pick(PORTS);
        plan = *given;
        try_byte(&plan, d, p, i < 4 ? 0 : i - 3);
    }
}

/* ---- how drops are counted */

/* Codes that came to a port which bars them, and counts that a call could have changed. */
enum counted {
    INTERRUPTS, ACKS, OF_EVENTS, BIT_SET, BIT_CLEAR, COMES_TO_END, STAYS_INTERRUPTS, STAYS_ACKS, CLOSED, AS_OTHER, BY_RESET,
    KEPT_BY_RESET, KEPT_BY_STOP, COUNTED
};
static const char *const counted_names[COUNTED] = {
    "interrupts dropped", "acknowledges dropped", "acknowledges of events among them", "dropped, and the bit was 1",
    "dropped, and the bit was 0", "counts that come to 65,535", "interrupts dropped at 65,535", "acknowledges dropped at 65,535",
    "barred and not permitted: not counted", "barred as the other kind only", "counts that a reset clears",
    "counts that another's reset leaves", "counts at a link that stops"};
static size counted[COUNTED];

/* Is what a port sent dropped at the other end, by the bytes of the plan? The register before the round is looked at for what is
 * counted here, and for nothing else. */
static flag is_dropped(struct plan *plan, struct state *before, u32 sender, u32 byte) {
    const u8 *entry = port_entry(plan, sender / PORTS, sender % PORTS), *peer = port_entry(plan, entry[0], entry[1]);
    enum kind kind = byte < 160 ? INTERRUPT : ACKNOWLEDGE, other = kind == INTERRUPT ? ACKNOWLEDGE : INTERRUPT;
    u32 k = byte % 32, count = *drop_word(before, entry[0], entry[1], kind);
    flag barred = is_barred(plan, entry[0], entry[1], kind, k), received = peer[2] & (kind == INTERRUPT ? 2 : 8);
    flag dropped = is_router(plan, entry[0]) && received && barred, bit = *device_words(before, entry[0]) >> k & 1;
    counted[INTERRUPTS] += dropped && kind == INTERRUPT;
    counted[ACKS] += dropped && kind == ACKNOWLEDGE;
    counted[OF_EVENTS] += dropped && kind == ACKNOWLEDGE && is_event(plan, k);
    counted[BIT_SET] += dropped && bit;
    counted[BIT_CLEAR] += dropped && !bit;
    counted[COMES_TO_END] += dropped && count == MOST_DROPPED - 1;
    counted[STAYS_INTERRUPTS] += dropped && count == MOST_DROPPED && kind == INTERRUPT;
    counted[STAYS_ACKS] += dropped && count == MOST_DROPPED && kind == ACKNOWLEDGE;
    counted[CLOSED] += barred && !received;
    counted[AS_OTHER] += received && !barred && is_barred(plan, entry[0], entry[1], other, k);
    return dropped;
}

/* A port gets one code in a round at most. */
void drops_in_round(struct plan *plan, struct state *before, struct played *played) {
    static u32 due[STATE_WORDS - FIRST_DROP];
    memcpy(due, before->words + FIRST_DROP, sizeof due);
    for (u32 i = 0; i < SENT_WORDS; i++) {
        u32 byte = played->sent[i];
        if (byte < 128 || byte >= 192 || !is_dropped(plan, before, i, byte))
            continue;
        const u8 *entry = port_entry(plan, i / PORTS, i % PORTS);
        u32 *count = &due[DROP_WORDS * (PORTS * entry[0] + entry[1]) + (byte >= 160)];
        *count += *count < MOST_DROPPED;
    }
    for (u32 i = 0; i < sizeof due / sizeof *due; i++)
        if (played->next.words[FIRST_DROP + i] != due[i])
            fail("a count of drops after a round, by what was sent (count, is)", i, played->next.words[FIRST_DROP + i]);
}

/* A count falls by a reset of its device, and is changed by no other call. */
void drops_in_call(struct plan *plan, struct state *before, struct state *after, const struct change *change, u32 number) {
    flag reset = change->call == RESET && !number, stop = change->call == LINK && !number && !change->running;
    for (u32 i = 0; i < DROP_WORDS * DEVICES * PORTS; i++) {
        u32 was = before->words[FIRST_DROP + i], d = i / DROP_WORDS / PORTS, p = i / DROP_WORDS % PORTS;
        flag cleared = reset && change->device == d;
        if (after->words[FIRST_DROP + i] != (cleared ? 0 : was))
            fail("a count of drops after a call (count, is)", i, after->words[FIRST_DROP + i]);
        if (!was)
            continue;
        const u8 *entry = port_entry(plan, d, p);
        flag own = change->device == d && change->other == p, far = change->device == entry[0] && change->other == entry[1];
        counted[BY_RESET] += cleared;
        counted[KEPT_BY_RESET] += reset && !cleared;
        counted[KEPT_BY_STOP] += stop && (own || far);
    }
}

/* ---- what a guard is for */

enum way {
    NETWORKS, NO_NODE, GUARD_INTERRUPTS, GUARD_ACKS, BY_TWO, OPEN_WIDE, TAKEN, TAKEN_ACKS, HELD_BACK, HELD_BACK_ACKS, UNPLUGGED,
    PLUGGED, RESETS, OTHERS_SET, WAYS
};
static const char *const way_names[WAYS] = {
    "networks", "networks without a node for it", "nodes guarded against an interrupt", "nodes guarded against an acknowledge",
    "nodes with two guarded links", "networks with all links open", "requests of the node taken",
    "acknowledges of the node taken", "interrupts dropped at the guard", "acknowledges dropped at the guard",
    "links of the node that stop", "links of the node that start", "resets of the node",
    "bits of others that could be cleared"};
static size ways[WAYS];

static struct course course;
static struct state before;
static struct spread guarded; /* the name, the node, the kind and the identifier */

/* Is the node joined to something, and only to routers? */
static flag is_at_edge(u32 d) {
    u32 joined = 0;
    for (u32 p = 0; p < NODE_PORTS; p++) {
        u32 peer = port_entry(&course.plan, d, p)[0];
        if (peer != NOWHERE && !is_router(&course.plan, peer))
            return 0;
        joined += peer != NOWHERE;
    }
    return !is_router(&course.plan, d) && joined > 0;
}

static flag find_node(void) {
    u32 devices = course.plan.bytes[1], first = pick(devices);
    for (u32 i = 0; i < devices; i++)
        if (is_at_edge((first + i) % devices)) {
            guarded.start = (first + i) % devices;
            return 1;
        }
    return 0;
}

/* The node gets a role for k, and each port that it is joined to bars k. What is acknowledged is no event. */
static void set_guard(void) {
    u32 links = 0;
    if (guarded.kind == ACKNOWLEDGE)
        be_acknowledged(&course.plan, guarded.k);
    give_role(&course.plan, guarded.start, guarded.kind == INTERRUPT ? SOURCES : HANDLERS, guarded.k);
    for (u32 p = 0; p < NODE_PORTS; p++) {
        const u8 *entry = port_entry(&course.plan, guarded.start, p);
        if (entry[0] == NOWHERE)
            continue;
        set_bar(&course.plan, entry[0], entry[1], guarded.kind, guarded.k, 1);
        links++;
    }
    ways[BY_TWO] += links == 2;
    ways[guarded.kind == INTERRUPT ? GUARD_INTERRUPTS : GUARD_ACKS]++;
}

/* Nobody else has it waiting and, where it is an interrupt, holds it. */
static void clear_others(void) {
    u32 bit = 1u << guarded.k;
    for (u32 d = 0; d < DEVICES; d++) {
        u32 *words = device_words(&course.state, d);
        for (u32 p = 0; d != guarded.start && p < PORTS; p++)
            port_words(&course.state, d, p)[guarded.kind == INTERRUPT ? AT_INTERRUPTS : AT_ACKNOWLEDGES] &= ~bit;
        if (d == guarded.start || guarded.kind == ACKNOWLEDGE)
            continue;
        words[0] &= ~bit;
        words[1 + guarded.k] = 0;
    }
}

/* The node may hold it, and what it is to acknowledge it often holds. In half of the trials the loads of k are short. */
static void prepare(void) {
    u32 load = 1 + pick(MOST_LOAD), more = pick(MOST_LOAD), *words = device_words(&course.state, guarded.start);
    if (once_in(2)) {
        open_links(&course, 1);
        ways[OPEN_WIDE]++;
    }
    clear_others();
    if (once_in(2)) {
        give_loads(&course, guarded.k, load, load + more);
        count_loads(IN_T_11, &course, guarded.k, load + more - 1);
    }
    if (guarded.kind == ACKNOWLEDGE && !once_in(4)) {
        u32 most = load_at(&course.plan, guarded.start, loads_of(&course.plan, guarded.k));
        words[0] |= 1u << guarded.k;
        words[1 + guarded.k] = 1 + pick(most < ROUNDS ? most : ROUNDS);
    }
    let_tick(&course, guarded.start);
}

/* Another's bit that an acknowledge would have cleared: where it is cleared it was a timer, or a reset of that device. */
static void check_bits(u32 d, const struct change *change) {
    const u32 *was = device_words(&before, d);
    flag held = was[0] >> guarded.k & 1, reset = change && change->call == RESET && change->device == d;
    ways[OTHERS_SET] += held && !change;
    if (held && !holds(&course, d, guarded.k) && !reset && (change || was[1 + guarded.k] != 1))
        broken(&guarded, "a bit is cleared behind the guard (device, timer)", d, was[1 + guarded.k]);
}

/* After a call, or, where none is given, after a round: it has got to nobody else. */
static void check_others(const struct change *change) {
    u32 k = guarded.k, waits = guarded.kind == INTERRUPT ? AT_INTERRUPTS : AT_ACKNOWLEDGES;
    for (u32 d = 0; d < DEVICES; d++) {
        if (d == guarded.start)
            continue;
        for (u32 p = 0; p < PORTS; p++)
            if (port_words(&course.state, d, p)[waits] >> k & 1)
                broken(&guarded, "waits behind the guard (device, port)", d, p);
        if (guarded.kind == ACKNOWLEDGE)
            check_bits(d, change);
        else if (holds(&course, d, k))
            broken(&guarded, "held behind the guard (device, port)", d, 0);
    }
    for (u32 i = 0; !change && i < course.played.count; i++) {
        u32 word = course.played.told[i];
        if (word / 65536 == guarded.kind && tells_of(word, k) && word / 256 % 256 != guarded.start)
            broken(&guarded, "told behind the guard (word, of how many)", word, course.played.count);
    }
}

/* Would it be another's request of k, or acknowledge, where that is what the guard is against, and be taken? */
static flag is_anothers(struct change change) {
    static struct state scratch;
    const struct plan *plan = &course.plan;
    if (change.call != (guarded.kind == INTERRUPT ? REQUEST : ACKNOWLEDGES) || (u32)change.other != guarded.k ||
        change.device == guarded.start)
        return 0;
    scratch = course.state;
    return judge_change(change, plan->bytes, plan->length, scratch.words, scratch.length) == 0;
}

static void call_so(struct change change) {
    flag own = change.device == guarded.start;
    if (is_anothers(change))
        return;
    before = course.state;
    u32 number = make_call(&course, change);
    drops_in_call(&course.plan, &before, &course.state, &change, number);
    check_others(&change);
    if (number || !own)
        return;
    ways[TAKEN] += change.call == REQUEST && change.other == guarded.k && guarded.kind == INTERRUPT;
    ways[TAKEN_ACKS] += change.call == ACKNOWLEDGES && change.other == guarded.k && guarded.kind == ACKNOWLEDGE;
    ways[UNPLUGGED] += change.call == LINK && !change.running;
    ways[PLUGGED] += change.call == LINK && change.running;
    ways[RESETS] += change.call == RESET;
}

/* The node's host asks for k, one of its links stops or starts, it is reset, or any call is made. */
static void call_on(void) {
    u32 node = guarded.start, port = pick(device_block(&course.plan, node)[3]);
    u32 running = !port_words(&course.state, node, port)[AT_RUNNING];
    enum call asks = guarded.kind == INTERRUPT ? REQUEST : ACKNOWLEDGES;
    switch (pick(8)) {
    case 0:
    case 1:
    case 2: call_so((struct change){.call = asks, .device = node, .other = guarded.k}); break;
    case 3: call_so((struct change){.call = LINK, .device = node, .other = port, .running = running}); break;
    case 4:
        if (once_in(3))
            call_so((struct change){.call = RESET, .device = node});
        break;
    default: call_so(likely_change(&course.plan));
    }
}

/* What the node has sent of k, and its guard may receive, is dropped there. */
static void count_held_back(void) {
    for (u32 p = 0; p < NODE_PORTS; p++) {
        u32 sent = course.played.sent[PORTS * guarded.start + p];
        const u8 *entry = port_entry(&course.plan, guarded.start, p);
        flag interrupt = guarded.kind == INTERRUPT;
        if (sent != (interrupt ? 128 : 160) + guarded.k)
            continue;
        flag received = port_entry(&course.plan, entry[0], entry[1])[2] & (interrupt ? 2 : 8);
        ways[interrupt ? HELD_BACK : HELD_BACK_ACKS] += received;
    }
}

void try_guards(const struct plan *given) {
    begin_course(&course, given);
    guarded = (struct spread){.name = "T-11", .kind = once_in(3) ? ACKNOWLEDGE : INTERRUPT};
    guarded.k = pick(IDENTIFIERS);
    ways[NETWORKS]++;
    if (!find_node()) {
        ways[NO_NODE]++;
        return;
    }
    set_guard();
    prepare();
    for (u32 round = 0; round < ROUNDS; round++) {
        for (u32 i = pick(1 + MOST_CALLS); i; i--)
            call_on();
        before = course.state;
        play_on(&course, guarded.k, 0);
        drops_in_round(&course.plan, &before, &course.played);
        check_others(0);
        count_held_back();
    }
}

void guards_table(void) {
    printf("T-11, plans that have                          times\n");
    counts_table(having_names, havings, HAVINGS);
    printf("bytes of device blocks that are not 0          times\n");
    counts_table(place_names, places, PLACES);
    printf("drops, with any calls                          times\n");
    counts_table(counted_names, counted, COUNTED);
    printf("T-11 tried                                     times\n");
    counts_table(way_names, ways, WAYS);
}

flag all_guards_tried(void) {
    flag all = all_counted("T-11, no plan had", having_names, havings, HAVINGS);
    all &= all_counted("T-11, no byte was not 0", place_names, places, PLACES);
    all &= all_counted("no drop was so", counted_names, counted, COUNTED);
    all &= all_counted("T-11 was never tried so", way_names, ways, WAYS);
    return all;
}
