/* What is tried on a network: files, calls from any state, runs of rounds, settling, reach and reports. */
#include "driver.h"

size wrong_length(size right) {
    const size lengths[] = {0, 1, right - 1, right + 1, right / 2, 2 * right, pick(2 * right)};
    return lengths[pick(sizeof lengths / sizeof *lengths)];
}

static size length_near(size right) {
    return once_in(10) ? wrong_length(right) : right;
}

/* A source or handler of something, if there is one near; kind by kind, since a request needs a source. */
static void likely_host(struct plan *plan, enum call call, size *device, size *other) {
    for (u32 tries = 0; tries < 8; tries++) {
        u32 d = pick(plan->bytes[1]), k = pick(32);
        for (u32 i = 0; i < 32; i++, k = (k + 1) % 32)
            if (in_mask(plan, d, call == ACKNOWLEDGES ? HANDLERS : SOURCES, k)) {
                *device = d;
                *other = k;
                return;
            }
    }
}

/* A call that changes a state, mostly one that can be taken. Any number but 0 starts a link. */
struct change likely_change(struct plan *plan) {
    static const struct change changes[] = {
        {.call = REQUEST}, {.call = REQUEST}, {.call = REQUEST}, {.call = REQUEST}, {.call = ACKNOWLEDGES},
        {.call = ACKNOWLEDGES}, {.call = ACKNOWLEDGES}, {.call = LINK, .running = 1},
        {.call = LINK, .running = 0x80000000}, {.call = LINK}, {.call = RESET}, {.call = TICK}, {.call = TICK}};
    struct change change = changes[pick(sizeof changes / sizeof *changes)];
    change.device = wild(plan->bytes[1]);
    change.other = wild(change.call == LINK ? PORTS : IDENTIFIERS);
    if ((change.call == REQUEST || change.call == ACKNOWLEDGES) && !once_in(6))
        likely_host(plan, change.call, &change.device, &change.other);
    if (change.call == LINK && change.device < plan->bytes[1] && !once_in(6))
        change.other = pick(device_block(plan, change.device)[3] % (PORTS + 1) + 1);
    if (change.call == TICK && master_of(plan) != NO_MASTER && !once_in(4))
        change.device = master_of(plan);
    return change;
}

/* What ticks were answered that were among other calls in networks of any shape, not in those where the answer is known. */
static const u32 tick_numbers[] = {0, 2, 4, 7, 14};
enum { TICK_NUMBERS = sizeof tick_numbers / sizeof *tick_numbers };
static size ticks[TICK_NUMBERS];

static u32 try_likely(struct change change, const struct plan *plan, struct state *state) {
    u32 number = try_change(change, plan, state);
    for (u32 i = 0; i < TICK_NUMBERS; i++)
        ticks[i] += change.call == TICK && number == tick_numbers[i];
    return number;
}

void ticks_table(void) {
    printf("ticks among other calls, by number:");
    for (u32 i = 0; i < TICK_NUMBERS; i++)
        printf(" %u: %lu%s", tick_numbers[i], ticks[i], i + 1 < TICK_NUMBERS ? "," : "\n");
}

flag all_ticks_answered(void) {
    flag all = 1;
    for (u32 i = 0; i < TICK_NUMBERS; i++)
        if (!ticks[i]) {
            printf("a tick among other calls was never answered by %u\n", tick_numbers[i]);
            all = 0;
        }
    return all;
}

void right_lengths(struct played *played) {
    played->next.length = STATE_WORDS;
    played->sent_length = SENT_WORDS;
    played->told_length = TOLD_WORDS;
}

static u32 any_allowance(void) {
    const u32 values[] = {0, 1, 2, 3, 10, pick(100), MOST_ALLOWED + 1, 2 * MOST_ALLOWED, 65536, 0x80000000, 0xFFFFFFFF};
    return values[pick(sizeof values / sizeof *values)];
}

/* One call of those that take a state. Its numbers are likely ones for a plan; the plan that it is given may be another. */
static u32 any_call(struct plan *likely, const struct plan *plan, struct state *state) {
    static struct played played;
    struct change change = likely_change(likely);
    switch (pick(8)) {
    case 0:
        played.next.length = length_near(STATE_WORDS);
        played.sent_length = length_near(SENT_WORDS);
        played.told_length = length_near(TOLD_WORDS);
        return try_round(plan, state, &played);
    case 1: return try_settle(plan, state, any_allowance());
    case 2:
        if (once_in(2))
            likely_host(likely, REQUEST, &change.device, &change.other);
        return try_reach(plan, state, change.device, change.other);
    default: return try_likely(change, plan, state);
    }
}

void try_files(struct plan *plan) {
    static struct plan damaged;
    static struct state state;
    must_be("an accepted file", 0, try_plan_read(plan));
    for (u32 i = 0; i < 16; i++) {
        damaged = *plan;
        damage(&damaged);
        u32 number = try_plan_read(&damaged);
        if (number == 0 || !once_in(3))
            continue;
        sound_state(plan, &state);
        if (once_in(4))
            state.length = wrong_length(STATE_WORDS);
        must_be("a call with a damaged file", number,
                once_in(8) ? try_start(&damaged, &state) : any_call(plan, &damaged, &state));
    }
}

/* Calls from any sound state, from ones with one clause broken, from any words, and with wrong lengths. */
void try_calls(struct plan *plan) {
    static struct state state;
    state.length = STATE_WORDS;
    must_be("a start", 0, try_start(plan, &state));
    state.length = wrong_length(STATE_WORDS);
    must_be("a start in this length", state.length == STATE_WORDS ? 0 : 3, try_start(plan, &state));
    for (u32 i = 0; i < 40; i++) {
        sound_state(plan, &state);
        any_call(plan, plan, &state);
    }
    for (u32 clause = 0; clause < CLAUSES; clause++) {
        sound_state(plan, &state);
        if (break_state(plan, &state, clause))
            must_be("a state that is not sound", 2, any_call(plan, plan, &state));
    }
    for (u32 i = 0; i < 6; i++) {
        sound_state(plan, &state);
        state.length = wrong_length(STATE_WORDS);
        if (state.length != STATE_WORDS)
            must_be("a state of wrong length", 2, any_call(plan, plan, &state));
        sound_state(plan, &state);
        u32 word = once_in(2) ? pick(34) : random_word();
        state.words[pick(STATE_WORDS)] = word;
        any_call(plan, plan, &state);
    }
}

/* Any call, and what it does to events, to the counts of drops and to timers. */
static void call_in_run(struct plan *plan, struct state *state) {
    static struct state before;
    struct change change = likely_change(plan);
    before = *state;
    u32 number = try_likely(change, plan, state);
    events_in_call(plan, &before, state, &change);
    drops_in_call(plan, &before, state, &change, number);
    loads_in_call(plan, &before, state, &change, number);
}

/* Rounds with calls between them, the state handed on. */
void try_run(struct plan *plan, u32 rounds) {
    static struct state state;
    static struct played played;
    sound_state(plan, &state);
    if (once_in(2))
        must_be("a start", 0, try_start(plan, &state));
    right_lengths(&played);
    for (u32 calls = pick(5); rounds; rounds--) {
        for (u32 i = pick(1 + calls); i; i--)
            call_in_run(plan, &state);
        must_be("a round", 0, try_round(plan, &state, &played));
        events_in_round(plan, &state, &played);
        drops_in_round(plan, &state, &played);
        loads_in_round(plan, &state, &played);
        state = played.next;
    }
}

void try_settling(struct plan *plan) {
    static struct state state;
    u32 few = 1 + pick(40), more = pick(200), most = once_in(4) ? MOST_ALLOWED : 300;
    const u32 allowances[] = {0, 1, few, more, most, MOST_ALLOWED + 1, 0xFFFFFFFF};
    for (u32 i = 0; i < sizeof allowances / sizeof *allowances; i++) {
        sound_state(plan, &state);
        u32 number = try_settle(plan, &state, allowances[i]);
        must_be("settling", allowances[i] > MOST_ALLOWED ? 11 : number == 12 ? 12 : 0, number);
    }
    for (u32 d = 0; d < plan->bytes[1]; d++) {
        size device = d, k = pick(32);
        if (d % 4 == 0)
            sound_state(plan, &state);
        examine(plan, &state, device, k);
        likely_host(plan, REQUEST, &device, &k);
        examine(plan, &state, device, k);
    }
}

/* The identifiers whose load at routers is below 256. */
static u32 short_ones(const struct plan *plan) {
    u32 set = 0;
    for (u32 k = 0; k < IDENTIFIERS; k++)
        set |= (u32)(loads_of(plan, k).router < 256) << k;
    return set;
}

static u32 count_sources(struct plan *plan, u32 of) {
    u32 count = 0;
    for (u32 d = 0; d < plan->bytes[1]; d++)
        for (u32 i = 0; i < 32; i++)
            count += of >> i & 1 && in_mask(plan, d, SOURCES, i);
    return count;
}

/* Of these identifiers so many sources at most are left. */
static void thin(struct plan *plan, u32 of, u32 most) {
    while (count_sources(plan, of) > most)
        for (u32 d = 0; d < plan->bytes[1]; d++) {
            u8 *sources = device_block(plan, d) + SOURCES;
            put_number(sources, 4, number_at(sources, 4) & (~of | random_word()));
            seal(plan, 1 + d);
        }
}

/* A report settles once for each source: with short loads that can take all rounds allowed, so fewer of these are left. */
void try_reports(struct plan *plan) {
    static struct plan file;
    static struct printed printed;
    const size texts[] = {TEXT_BYTES, TEXT_BYTES, TEXT_BYTES + 1, 2 * TEXT_BYTES, TEXT_BYTES - 1, 0, pick(TEXT_BYTES)};
    file = *plan;
    thin(&file, short_ones(plan), 2);
    thin(&file, ~short_ones(plan), once_in(20) ? 1024 : 50);
    if (once_in(3))
        damage(&file);
    printed.text_length = texts[pick(sizeof texts / sizeof *texts)];
    try_report(&file, &printed);
}
