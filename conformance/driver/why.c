/* T-09, tried: by which ports an interrupt gets from its source to a device, or where it does not get on. What is answered is held
 * to the judge, and to what the driver knows by itself from the bytes of plan and state. Distances from any device are those of
 * the judge's search in breadth, which is not how its chains are found. */
#include "driver.h"

enum { NOWHERE = 255, SHAPES = 3, ASKED_OF = 4, REFUSED = 8, LINE = 32 };

/* What was asked, and what came of it. */
enum way {
    SOURCES_ASKED, ALONE, BY_TWO, TO_ITSELF, REACHED, TIED, LATE_TIE, BY_SECOND, NOT_REACHED, NONE_OUT, WAYS
};
static const char *const way_names[WAYS] = {
    "sources", "sources that reach nobody else", "sources with two ports that run", "chains to the source itself",
    "chains to another device", "chains beside others as short", "the same, and they begin alike",
    "chains by the source's second port", "devices not reached", "devices not reached, and no port leads out"};
static size ways[WAYS];

/* The causes in their order, which is not that of their numbers. */
enum { IN_ORDER = CAUSES - STOPPED };
static const enum cause in_order[IN_ORDER] = {STOPPED, MAY_NOT_SEND, MAY_NOT_RECEIVE, BARRED, DOES_NOT_FORWARD};

/* Ports that lead out, by cause; and those at which a cause behind it would be true as well. */
static const char *const cause_names[CAUSES] = {"", "stopped", "may-not-send", "may-not-receive", "does-not-forward", "barred"};
static const char *const too_names[IN_ORDER - 1] = {
    "stopped, and a cause behind it", "may-not-send, and a cause behind it", "may-not-receive, and a cause behind it",
    "barred, and the cause behind it"};
static size causes[CAUSES], causes_too[IN_ORDER - 1];

/* What a text was asked with, and what it said. */
enum said {
    BAD, NOT_SOUND = BAD + 8, NO_FOURTH, TOO_LONG, TOO_SHORT, EMPTY, NO_SOURCE, NO_DEVICE, NO_IDENTIFIER, NO_ROLE, SAYS_CHAIN,
    SAYS_CUT, NOT_GIVEN, LITTLE_ROOM, MORE_ROOM, SAID
};
static const char *const said_names[SAID] = {
    "bad 20", "bad 21", "bad 22", "bad 23", "bad 24", "bad 25", "bad 26", "bad 27", "r2: not sound",
    "r2: bytes that are no words", "r2: too many words", "r2: too few words", "r2: an empty file", "r4: no such source",
    "r4: no such device", "r5", "r6", "reached", "cut", "no state given, and any bytes", "an area too short for a text",
    "an area longer than needed"};
static size said[SAID];

static struct course course;
static u32 away[DEVICES][DEVICES]; /* crossings from any device to any other, or UNREACHED */
static u32 set; /* the devices reached */
static struct found crossed, cut, chain;
static struct state_file file;
static struct printed printed = {.text_length = WHY_BYTES};

size right_words(enum call call) {
    return call == CUT ? CUT_WORDS : call == CHAIN ? CHAIN_WORDS : CROSSINGS_WORDS;
}

static flag is_router(u32 device) {
    return device_block(&course.plan, device)[2] == 1;
}

/* ---- what is asked */

/* A link that does not run, or a permission that is missing at either end, or a bar of k at the other one, where that is a router;
 * or several of these. What bars the acknowledge, or another identifier, spoils nothing. */
static void spoil(u32 d, u32 p, u32 k) {
    struct plan *plan = &course.plan;
    u8 *entry = port_entry(plan, d, p), *peer = port_entry(plan, entry[0], entry[1]);
    u32 what = once_in(4) ? 8 : 1 + pick(15);
    if (is_router(entry[0])) {
        set_bar(plan, entry[0], entry[1], INTERRUPT, k, what & 8);
        set_bar(plan, entry[0], entry[1], INTERRUPT, (k + 1) % IDENTIFIERS, once_in(2));
        set_bar(plan, entry[0], entry[1], ACKNOWLEDGE, k, once_in(2));
    }
    flag running = port_words(&course.state, d, p)[AT_RUNNING] && !(what & 1);
    if (what & 2)
        entry[2] &= ~1;
    if (what & 4)
        peer[2] &= ~2;
    set_running(plan, &course.state, d, p, running);
    set_running(plan, &course.state, entry[0], entry[1], running);
}

/* In a quarter of the trials links are as in any state; in the others all run and grant everything, at first, and k is barred
 * nowhere. */
static void arrange(u32 k) {
    static const u32 seldom[] = {0, 0, 3, 12};
    u32 which = pick(4);
    if (which > 0) {
        open_links(&course, 1);
        unbar(&course.plan, k);
    }
    for (u32 i = 0; seldom[which] && i < course.plan.bytes[1] * PORTS; i++)
        if (port_entry(&course.plan, i / PORTS, i % PORTS)[0] != NOWHERE && once_in(seldom[which]))
            spoil(i / PORTS, i % PORTS, k);
    seal_devices(&course.plan);
}

/* A source that can send, as long as nothing is spoilt; else a node that leads nowhere. 0 where all devices are routers. */
static flag choose(struct question *asks) {
    struct spread spread = {.kind = INTERRUPT};
    u32 devices = course.plan.bytes[1], d = 0;
    if (choose_source(&course, &spread)) {
        *asks = (struct question){.source = spread.start, .k = spread.k};
        return 1;
    }
    while (d < devices && is_router(d))
        d++;
    if (d == devices)
        return 0;
    *asks = (struct question){.source = d, .k = pick(IDENTIFIERS)};
    give_role(&course.plan, d, SOURCES, asks->k);
    return 1;
}

/* ---- what is to come of it */

/* What fails at a port that is joined, by its bytes. */
static void fails_at(u32 d, u32 p, const struct question *asks, flag fails[CAUSES]) {
    const u8 *entry = port_entry(&course.plan, d, p), *peer = port_entry(&course.plan, entry[0], entry[1]);
    fails[NOT_OUT] = 0;
    fails[STOPPED] = !port_words(&course.state, d, p)[AT_RUNNING];
    fails[MAY_NOT_SEND] = !(entry[2] & 1);
    fails[MAY_NOT_RECEIVE] = !(peer[2] & 2);
    fails[BARRED] = is_barred(&course.plan, entry[0], entry[1], INTERRUPT, asks->k);
    fails[DOES_NOT_FORWARD] = !is_router(d) && d != asks->source;
}

/* The first in order that is so, from a place on, or IN_ORDER. */
static u32 first_of(const flag fails[CAUSES], u32 from) {
    while (from < IN_ORDER && !fails[in_order[from]])
        from++;
    return from;
}

/* Of the devices that are reached, those ports lead out whose peers are not among them. */
static u32 cause_of(u32 d, u32 p, const struct question *asks) {
    flag fails[CAUSES];
    const u8 *entry = port_entry(&course.plan, d, p);
    if (!(set >> d & 1) || entry[0] == NOWHERE || set >> entry[0] & 1)
        return NOT_OUT;
    fails_at(d, p, asks, fails);
    u32 first = first_of(fails, 0);
    if (first == IN_ORDER)
        fail("a port leads out for no cause (device, port)", d, p);
    causes[in_order[first]]++;
    if (first + 1 < IN_ORDER)
        causes_too[first] += first_of(fails, first + 1) < IN_ORDER;
    return in_order[first];
}

static void check_cut(const struct question *asks) {
    u32 count = 0;
    for (u32 i = 0; i < CUT_WORDS; i++) {
        u32 cause = cause_of(i / PORTS, i % PORTS, asks);
        if (cut.words[i] != cause)
            fail("another cause than by the bytes (port, cause)", i, cut.words[i]);
        count += cause != NOT_OUT;
    }
    must_be("how many ports lead out", count, cut.value);
}

/* How many ports are left to a device behind this port, which may lead nowhere: UNREACHED for no way. */
static u32 left_behind(u32 d, u32 p, const struct question *asks) {
    flag fails[CAUSES];
    u32 to = port_entry(&course.plan, d, p)[0];
    if (to == NOWHERE)
        return UNREACHED;
    fails_at(d, p, asks, fails);
    if (first_of(fails, 0) < IN_ORDER)
        return UNREACHED;
    return to == asks->device ? 0 : is_router(to) ? away[to][asks->device] : UNREACHED;
}

/* Any other port by which the way is as short has a higher number; are there such ones? */
static flag check_port(u32 d, u32 p, const struct question *asks, u32 left) {
    flag tied = 0;
    must_be("the ports left behind one of the chain", left, left_behind(d, p, asks));
    for (u32 other = 0; other < PORTS; other++) {
        if (other == p || left_behind(d, other, asks) != left)
            continue;
        if (other < p)
            fail("a lower port leads there as soon (device, port)", d, other);
        tied = 1;
    }
    return tied;
}

/* Each port is one of the device to which the one before it leads, and the last leads to the device. */
static void check_chain(const struct question *asks) {
    u32 length = chain.value == UNREACHED ? 0 : chain.value, at = asks->source;
    flag tied = 0, late = 0;
    must_be("the length of the chain", crossed.words[asks->device], chain.value);
    for (u32 i = 0; i < CHAIN_WORDS; i++) {
        u32 d = chain.words[i] / PORTS, p = chain.words[i] % PORTS;
        if (i >= length) {
            must_be("a word behind the chain", CHAIN_NONE, chain.words[i]);
            continue;
        }
        must_be("the device that the chain has come to", at, d);
        flag here = check_port(d, p, asks, length - 1 - i);
        tied |= here;
        late |= here && i > 0;
        at = port_entry(&course.plan, d, p)[0];
    }
    must_be("the device that the chain comes to", chain.value == UNREACHED ? asks->source : asks->device, at);
    ways[chain.value == UNREACHED ? NOT_REACHED : length ? REACHED : TO_ITSELF]++;
    ways[TIED] += tied;
    ways[LATE_TIE] += late;
    ways[BY_SECOND] += length && chain.words[0] % PORTS == 1;
    ways[NONE_OUT] += chain.value == UNREACHED && !cut.value;
}

/* The text that goes with chain and cut. */
static void check_text(const char *what) {
    static char text[LINE * (1 + CUT_WORDS)];
    flag reached = chain.value != UNREACHED;
    const struct found *found = reached ? &chain : &cut;
    u32 used = snprintf(text, LINE, reached ? "reached %u\n" : "cut %u\n", found->value);
    for (u32 i = 0; i < right_words(reached ? CHAIN : CUT); i++) {
        u32 at = reached ? chain.words[i] : i, d = at / PORTS, p = at % PORTS;
        if (reached ? at == CHAIN_NONE : cut.words[i] == NOT_OUT)
            continue;
        const u8 *entry = port_entry(&course.plan, d, p);
        used += reached ? snprintf(text + used, LINE, "%u %u %u %u\n", d, p, entry[0], entry[1])
                        : snprintf(text + used, LINE, "%u %u %s\n", d, p, cause_names[cut.words[i]]);
    }
    must_say(what, text, &printed);
    said[reached ? SAYS_CHAIN : SAYS_CUT]++;
}

/* Reach and crossings agree, and with the distances. */
static void check_crossings(u32 source, u32 count) {
    u32 reached = 0;
    for (u32 d = 0; d < DEVICES; d++) {
        must_be("the crossings", d < course.plan.bytes[1] ? away[source][d] : UNREACHED, crossed.words[d]);
        must_be("reached, where it is crossed to", crossed.words[d] != UNREACHED, set >> d & 1);
        reached += crossed.words[d] != UNREACHED;
    }
    must_be("how many are reached", reached, count);
    must_be("the most crossings", farthest(crossed.words), crossed.value);
    ways[SOURCES_ASKED]++;
    ways[ALONE] += reached == 1;
    ways[BY_TWO] += running_ports(&course, source) == NODE_PORTS;
}

/* ---- asking */

static u32 ask(enum call call, struct question asks, struct found *found) {
    found->length = right_words(call);
    return try_way(call, &course.plan, &course.state, asks, found);
}

static void ask_all(struct question asks) {
    read_records(&course);
    for (u32 d = 0; d < course.plan.bytes[1]; d++)
        crossings(&course.records, d, (struct code){INTERRUPT, asks.k}, 0, away[d]);
    must_be("reach", 0, examine(&course.plan, &course.state, asks.source, asks.k));
    u32 count = value_given(0);
    set = value_given(1);
    must_be("crossings", 0, ask(CROSSINGS, asks, &crossed));
    check_crossings(asks.source, count);
    must_be("a cut", 0, ask(CUT, asks, &cut));
    check_cut(&asks);
}

static void ask_of(struct question asks) {
    must_be("a chain", 0, ask(CHAIN, asks, &chain));
    check_chain(&asks);
    state_bytes(&course.state, &file);
    must_be("a text", 0, try_why(&course.plan, &file, asks, &printed));
    check_text("the text of chain or cut");
}

/* The farthest device, the source itself now and then, and any. */
static void ask_some(struct question asks) {
    u32 devices = course.plan.bytes[1];
    for (u32 i = 0; i < ASKED_OF; i++) {
        asks.device = i == 1 && once_in(4) ? asks.source : pick(devices);
        for (u32 d = 0; i == 0 && d < devices; d++)
            if (crossed.words[d] == crossed.value)
                asks.device = d;
        ask_of(asks);
    }
}

/* Where no state is given it is the start state, whatever bytes there are. */
static void ask_at_start(struct question asks) {
    asks.device = pick(course.plan.bytes[1]);
    must_be("a start", 0, try_start(&course.plan, &course.state));
    ask_all(asks);
    ask_of(asks);
    file.given = 0;
    file.bytes[pick(sizeof file.bytes)]++;
    file.length = wrong_length(4 * STATE_WORDS);
    must_be("a text without a state", 0, try_why(&course.plan, &file, asks, &printed));
    check_text("the text from the start");
    said[NOT_GIVEN]++;
}

/* ---- refusals */

/* What may be wrong beside the question: the file's number and block, or 0; and whether the words are sound. */
struct wrong {
    u32 bad, block;
    flag sound;
};

static u32 number_of(struct question asks, flag of_device) {
    u32 devices = course.plan.bytes[1];
    if (asks.source >= devices || (of_device && asks.device >= devices))
        return 4;
    return asks.k >= IDENTIFIERS ? 5 : in_mask(&course.plan, asks.source, SOURCES, asks.k) ? 0 : 6;
}

static void way_wrongly(const struct plan *plan, struct state *state, const struct wrong *wrong, struct question asks) {
    static struct found found;
    enum call call = CROSSINGS + pick(3);
    if (once_in(6))
        state->length = wrong_length(STATE_WORDS);
    found.length = once_in(4) ? wrong_length(right_words(call)) : right_words(call);
    flag sound = wrong->sound && state->length == STATE_WORDS, right = found.length == right_words(call);
    u32 number = wrong->bad ? wrong->bad : !sound ? 2 : !right ? 3 : number_of(asks, call == CHAIN);
    must_be("a question with something wrong", number, try_way(call, plan, state, asks, &found));
    state->length = STATE_WORDS;
}

/* Why a text is refused by 2. */
static enum said unsound(void) {
    if (file.length == 4 * STATE_WORDS)
        return NOT_SOUND;
    if (file.length % 4)
        return NO_FOURTH;
    return !file.length ? EMPTY : file.length < 4 * STATE_WORDS ? TOO_SHORT : TOO_LONG;
}

/* What is said of a number, which is not 0. */
static void check_refusal(u32 number, struct question asks) {
    static const enum said of[] = {[4] = NO_DEVICE, [5] = NO_IDENTIFIER, [6] = NO_ROLE};
    char text[LINE];
    snprintf(text, LINE, "r%u\n", number);
    must_say("the text of a refusal", text, &printed);
    said[number == 2 ? unsound() : number == 4 && asks.source >= course.plan.bytes[1] ? NO_SOURCE : of[number]]++;
}

static void check_bad(u32 number, u32 block) {
    char text[LINE];
    snprintf(text, LINE, "bad %u %u\n", number, block);
    must_say("the text of a file that is refused", text, &printed);
    said[BAD + number - 20]++;
}

static void why_wrongly(const struct plan *plan, const struct state *state, const struct wrong *wrong, struct question asks) {
    state_bytes(state, &file);
    if (once_in(6))
        file.given = 0;
    if (once_in(4))
        file.length = wrong_length(4 * STATE_WORDS);
    printed.text_length = once_in(6) ? wrong_length(WHY_BYTES) : WHY_BYTES;
    flag little = printed.text_length < WHY_BYTES, sound = wrong->sound && file.length == 4 * STATE_WORDS;
    asks = (struct question){.source = (u32)asks.source, .device = (u32)asks.device, .k = asks.k}; /* these are words here */
    must_be("a text with something wrong", little ? 3 : 0, try_why(plan, &file, asks, &printed));
    u32 number = file.given && !sound ? 2 : number_of(asks, 1);
    if (!little && wrong->bad)
        check_bad(wrong->bad, wrong->block);
    else if (!little && number)
        check_refusal(number, asks);
    said[LITTLE_ROOM] += little;
    said[MORE_ROOM] += printed.text_length > WHY_BYTES;
    printed.text_length = WHY_BYTES;
}

/* Any device; and some of the other numbers are others, which may be those of no device or identifier. */
static struct question other_question(struct question asks) {
    u32 devices = course.plan.bytes[1];
    asks.device = wild(devices);
    if (once_in(3))
        asks.source = wild(devices);
    if (once_in(3))
        asks.k = wild(IDENTIFIERS);
    return asks;
}

/* Up to all things are wrong at once, so that the first has to be told. */
static void ask_wrongly(struct question asks) {
    static struct plan plan;
    static struct state state;
    struct wrong wrong = {.bad = 0};
    plan = course.plan;
    state = course.state;
    if (once_in(5)) {
        damage(&plan);
        wrong.bad = try_plan_read(&plan);
        wrong.block = value_given(0);
    }
    if (!wrong.bad)
        plan = course.plan; /* the damage did no harm, but the state may not fit */
    wrong.sound = !once_in(5) || !break_state(&course.plan, &state, pick(CLAUSES));
    asks = other_question(asks);
    way_wrongly(&plan, &state, &wrong, asks);
    why_wrongly(&plan, &state, &wrong, asks);
}

void ways_over(const struct plan *plan, const struct state *state, u32 number, u32 block) {
    const struct question asks = {.k = 5};
    for (enum call call = CROSSINGS; call <= CUT; call++) {
        chain.length = right_words(call);
        must_be("a way over a file that is refused", number, try_way(call, plan, state, asks, &chain));
    }
    state_bytes(state, &file);
    must_be("a text over it", 0, try_why(plan, &file, asks, &printed));
    check_bad(number, block);
}

void try_whys(const struct plan *given) {
    struct question asks = {.k = pick(IDENTIFIERS)};
    for (u32 i = 0; i < SHAPES; i++) {
        begin_course(&course, given);
        if (!choose(&asks))
            break;
        arrange(asks.k);
        ask_all(asks);
        ask_some(asks);
        if (i == 0)
            ask_at_start(asks);
    }
    for (u32 i = 0; i < REFUSED; i++)
        ask_wrongly(asks);
}

void whys_table(void) {
    printf("T-09, questions                                times\n");
    counts_table(way_names, ways, WAYS);
    printf("ports that lead out, by cause                  times\n");
    counts_table(cause_names + STOPPED, causes + STOPPED, CAUSES - STOPPED);
    counts_table(too_names, causes_too, IN_ORDER - 1);
    printf("texts of T-09                                  times\n");
    counts_table(said_names, said, SAID);
}

flag all_whys_tried(void) {
    flag all = all_counted("T-09 was never asked so", way_names, ways, WAYS);
    all &= all_counted("no port led out for this cause", cause_names + STOPPED, causes + STOPPED, CAUSES - STOPPED);
    all &= all_counted("no port led out so", too_names, causes_too, IN_ORDER - 1);
    all &= all_counted("no text of T-09 was so", said_names, said, SAID);
    return all;
}
