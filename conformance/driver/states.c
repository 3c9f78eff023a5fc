/* Sound states by the letter of the paper, which are more than calls and rounds can make, and states that are not sound. */
#include "driver.h"

u32 *device_words(struct state *state, u32 device) {
    return state->words + DEVICE_WORDS * device;
}

u32 *port_words(struct state *state, u32 device, u32 port) {
    return state->words + FIRST_PORT + PORT_WORDS * (PORTS * device + port);
}

u32 *counter_word(struct state *state, u32 device) {
    return state->words + FIRST_COUNTER + device;
}

u32 *time_word(struct state *state, u32 device, u32 port) {
    return state->words + FIRST_TIME + PORTS * device + port;
}

u32 *drop_word(struct state *state, u32 device, u32 port, enum kind kind) {
    return state->words + FIRST_DROP + DROP_WORDS * (PORTS * device + port) + (kind == ACKNOWLEDGE);
}

static u32 some_of(u32 density) {
    u32 all = random_word();
    return density == 0 ? 0 : density == 1 ? all & random_word() & random_word() : density == 2 ? all : 0xFFFFFFFF;
}

/* Next may be anything below 32 at a port that exists, running or not. */
static void sound_port(struct plan *plan, struct state *state, u32 d, u32 p, u32 density, u32 stopped) {
    const u8 *entry = port_entry(plan, d, p);
    u32 *words = port_words(state, d, p);
    words[AT_NEXT] = pick(32);
    if (entry[0] == 255)
        return;
    u32 *peer = port_words(state, entry[0], entry[1]);
    flag met = entry[0] < d || (entry[0] == d && entry[1] < p);
    words[AT_RUNNING] = met ? peer[AT_RUNNING] : !once_in(stopped);
    if (!words[AT_RUNNING])
        return;
    u32 interrupts = once_in(4) ? 0xFFFFFFFF : random_word();
    words[AT_INTERRUPTS] = entry[2] & 1 ? some_of(density) & interrupts : 0;
    words[AT_ACKNOWLEDGES] = entry[2] & 4 ? some_of(density) & ~interrupts : 0;
}

/* Times are mostly close to each other, so that many codes are one above a counter. */
static u32 near_time(u32 time) {
    return once_in(6) ? pick(TIMES) : (time + pick(4)) % TIMES;
}

/* A counter, and at the ports of the device as many Time-Codes as the density says. Any port may have sent one last. */
static void sound_times(struct plan *plan, struct state *state, u32 d, u32 time, u32 density) {
    *counter_word(state, d) = near_time(time);
    for (u32 p = 0; p < device_block(plan, d)[3]; p++) {
        u32 last = once_in(2) ? AFTER_TIME : 0, waits = port_words(state, d, p)[AT_RUNNING] && pick(4) < density;
        *time_word(state, d, p) = last + (waits ? 1 + near_time(time) : 0);
    }
}

/* Any counts that there can be at the ports of a router, mostly near their ends, whatever the port bars and wherever it leads. */
static void sound_drops(struct plan *plan, struct state *state, u32 d) {
    for (u32 i = 0; i < 2u * device_block(plan, d)[3]; i++) {
        u32 any = pick(MOST_DROPPED + 1);
        const u32 counts[] = {0, 0, 1, MOST_DROPPED - 1, MOST_DROPPED, any};
        *drop_word(state, d, i / 2, i % 2 ? ACKNOWLEDGE : INTERRUPT) = counts[pick(sizeof counts / sizeof *counts)];
    }
}

/* A timer that runs has any number up to its load, and is often just loaded, or in its last round. */
static u32 some_timer(struct plan *plan, u32 d, u32 k, u32 brief) {
    u32 load = load_at(plan, d, loads_of(plan, k)), which = pick(8);
    if (which < 2)
        return which ? load : 1;
    return 1 + pick(pick(3) < brief && load > 4 ? 4 : load);
}

static void sound_timers(struct plan *plan, struct state *state, u32 d, u32 brief) {
    u32 *words = device_words(state, d);
    for (u32 k = 0; k < IDENTIFIERS; k++)
        if (words[0] >> k & 1)
            words[1 + k] = some_timer(plan, d, k, brief);
}

void fit_timers(struct plan *plan, struct state *state) {
    for (u32 i = 0; i < plan->bytes[1] * IDENTIFIERS; i++) {
        u32 d = i / IDENTIFIERS, k = i % IDENTIFIERS, *timer = &device_words(state, d)[1 + k];
        if (*timer > load_at(plan, d, loads_of(plan, k)))
            *timer = some_timer(plan, d, k, 0);
    }
}

/* What sound states have of Time-Codes, of events, of drops and of loads. */
enum having {
    ANYTHING, A_COUNTER, ONE_WAITS, LAST_AND_STILL, AN_EVENT, OF_EVENT, DROPS, FULL, NOT_BARRED, AT_OPEN, AT_COMMON, AT_OWN,
    ABOVE_COMMON, GREATEST, HAVINGS
};
static const char *const having_names[HAVINGS] = {
    "sound states", "with a counter that is not 0", "with a Time-Code that waits", "with the 128 at a port that stands still",
    "with an event that is held", "with an acknowledge of one that waits", "with drops that are counted",
    "with a count of 65,535", "with a count where nothing is barred", "with a count where nothing is joined",
    "with a timer at the common load", "with a timer at its own load", "with a timer above the common load",
    "with a timer of 65,535"};
static size having[HAVINGS];

static void count_timers(struct plan *plan, struct state *state, u32 d, flag has[HAVINGS]) {
    u32 common = load_at(plan, d, common_loads(plan));
    for (u32 k = 0; k < IDENTIFIERS; k++) {
        u32 timer = device_words(state, d)[1 + k];
        flag loaded = timer == load_at(plan, d, loads_of(plan, k));
        has[AT_COMMON] |= loaded && !has_pair(plan, k);
        has[AT_OWN] |= loaded && has_pair(plan, k);
        has[ABOVE_COMMON] |= timer > common;
        has[GREATEST] |= timer == 65535;
    }
}

static void count_drops(struct plan *plan, struct state *state, u32 d, u32 p, flag has[HAVINGS]) {
    for (enum kind kind = INTERRUPT; kind <= ACKNOWLEDGE; kind++) {
        u32 count = *drop_word(state, d, p, kind), mask = number_at(port_bars(plan, d, p) + (kind == ACKNOWLEDGE ? 4 : 0), 4);
        has[DROPS] |= count > 0;
        has[FULL] |= count == MOST_DROPPED;
        has[NOT_BARRED] |= count && !mask;
        has[AT_OPEN] |= count && port_entry(plan, d, p)[0] == 255;
    }
}

static void count_havings(struct plan *plan, struct state *state) {
    flag has[HAVINGS] = {[ANYTHING] = 1};
    u32 events = events_of(plan);
    for (u32 i = 0; i < DEVICES * PORTS; i++) {
        u32 d = i / PORTS, p = i % PORTS, time = *time_word(state, d, p);
        has[A_COUNTER] |= *counter_word(state, d) != 0;
        has[ONE_WAITS] |= time % AFTER_TIME != 0;
        has[LAST_AND_STILL] |= time == AFTER_TIME && !port_words(state, d, p)[AT_RUNNING];
        has[AN_EVENT] |= (*device_words(state, d) & events) != 0;
        has[OF_EVENT] |= (port_words(state, d, p)[AT_ACKNOWLEDGES] & events) != 0;
        if (d < plan->bytes[1])
            count_drops(plan, state, d, p, has);
    }
    for (u32 d = 0; d < plan->bytes[1]; d++)
        count_timers(plan, state, d, has);
    for (u32 h = 0; h < HAVINGS; h++)
        having[h] += has[h];
}

/* In half of the states there is nothing of Time-Codes, and in half of them nothing was dropped. */
void sound_state(struct plan *plan, struct state *state) {
    u32 set = pick(4), waiting = pick(4), brief = pick(3), stopped = once_in(3) ? 3 : 30;
    u32 timed = once_in(2), time = pick(TIMES), times = pick(4), guarded = once_in(2);
    state->length = STATE_WORDS;
    memset(state->words, 0, sizeof state->words);
    for (u32 d = 0; d < plan->bytes[1]; d++) {
        *device_words(state, d) = some_of(set);
        sound_timers(plan, state, d, brief);
        for (u32 p = 0; p < device_block(plan, d)[3]; p++)
            sound_port(plan, state, d, p, waiting, stopped);
        if (timed)
            sound_times(plan, state, d, time, times);
        if (guarded && device_block(plan, d)[2] == 1)
            sound_drops(plan, state, d);
    }
    count_havings(plan, state);
}

void set_running(struct plan *plan, struct state *state, u32 device, u32 port, flag running) {
    u32 *words = port_words(state, device, port), permissions = port_entry(plan, device, port)[2];
    words[AT_RUNNING] = running;
    if (!running)
        *time_word(state, device, port) &= AFTER_TIME;
    if (!running || !(permissions & 1))
        words[AT_INTERRUPTS] = 0;
    if (!running || !(permissions & 4))
        words[AT_ACKNOWLEDGES] = 0;
}

/* The clauses, in the order of the functions below. */
static const char *const clauses[CLAUSES] = {
    "a timer of 0 whose bit is 1", "a timer above 65,535", "a timer whose bit is 0", "a bit turned round", "next above 31",
    "a flag above 1", "ends that do not agree", "a port that runs and is joined to nothing", "an identifier as both kinds",
    "an interrupt at a port that stands still", "an acknowledge at such a port", "an interrupt that may not be sent",
    "an acknowledge that may not", "a register or timer of no device", "a word of no port", "a counter above 63",
    "a Time-Code word of 65 to 127", "a Time-Code word above 192", "a Time-Code at a port that stands still",
    "a Time-Code at a port joined to nothing", "a counter of no device", "a Time-Code word of no port of a device",
    "a Time-Code word of no device", "a count of drops above 65,535", "a count at a port of a node",
    "a count at a port that a node lacks", "a count at a port that a router lacks", "a count of no device",
    "a timer above its load, without a pair", "a timer above its own load alone", "a timer above its own load and the common",
    "a router's timer up to the load of nodes"};
static size broken_so[CLAUSES];

static u32 out_of(u32 limit) {
    const u32 values[] = {limit, limit + 1, 65536 + pick(limit), 0x80000000, 0xFFFFFFFF};
    return values[pick(5)];
}

/* Clauses about a device's register and timers. */
static flag break_timer(u32 *words, u32 clause) {
    u32 k = pick(32);
    flag set = words[0] >> k & 1;
    switch (clause) {
    case 0: words[1 + k] = 0; return set;
    case 1: words[1 + k] = out_of(65536); return set;
    case 2: words[1 + k] = 1 + pick(65535); return !set;
    default: words[0] ^= 1u << k; return 1;
    }
}

/* Clauses about a port that exists. */
static flag break_port(const u8 *entry, u32 *words, u32 clause) {
    u32 bit = 1u << pick(32);
    flag connected = entry[0] != 255;
    switch (clause) {
    case 4: words[AT_NEXT] = out_of(32); return 1;
    case 5: words[AT_RUNNING] = out_of(2); return 1;
    case 6: words[AT_RUNNING] ^= 1; words[AT_INTERRUPTS] = words[AT_ACKNOWLEDGES] = 0; return connected;
    case 7: words[AT_RUNNING] = 1; return !connected;
    case 8: words[AT_INTERRUPTS] |= bit; words[AT_ACKNOWLEDGES] |= bit; return words[AT_RUNNING] && (entry[2] & 5) == 5;
    case 9: words[AT_INTERRUPTS] |= bit; return !words[AT_RUNNING];
    case 10: words[AT_ACKNOWLEDGES] |= bit; return !words[AT_RUNNING];
    case 11: words[AT_INTERRUPTS] |= bit; words[AT_ACKNOWLEDGES] &= ~bit; return words[AT_RUNNING] && !(entry[2] & 1);
    default: words[AT_ACKNOWLEDGES] |= bit; words[AT_INTERRUPTS] &= ~bit; return words[AT_RUNNING] && !(entry[2] & 4);
    }
}

/* Clauses about the counter of a device and the Time-Code word of a port, where there are or are not such ones. */
static flag break_time(struct plan *plan, struct state *state, u32 d, u32 p, u32 clause) {
    flag device = d < plan->bytes[1], port = device && p < device_block(plan, d)[3];
    flag joined = port && port_entry(plan, d, p)[0] != 255, runs = port && port_words(state, d, p)[AT_RUNNING];
    u32 *counter = counter_word(state, d), *time = time_word(state, d, p), waiting = 1 + pick(TIMES), above = pick(63);
    u32 any = once_in(3) ? AFTER_TIME : waiting + (once_in(2) ? AFTER_TIME : 0);
    const u32 great[] = {193, 193 + above, 255, 256, 256 + waiting, 0x80000000, 0x80000080 + waiting, 0xFFFFFFFF};
    switch (clause) {
    case 15: *counter = out_of(TIMES); return device;
    case 16: *time = 65 + above; return runs;
    case 17: *time = great[pick(sizeof great / sizeof *great)]; return runs;
    case 18: *time = waiting + (once_in(2) ? AFTER_TIME : 0); return joined && !runs;
    case 19: *time = waiting + (once_in(2) ? AFTER_TIME : 0); return port && !joined;
    case 20: *counter = waiting; return !device;
    case 21: *time = any; return device && !port;
    default: *time = any; return !device;
    }
}

/* Clauses about the drops of a port, where there are or are not such ones. */
static flag break_drops(struct plan *plan, struct state *state, u32 d, u32 p, u32 clause) {
    flag device = d < plan->bytes[1], router = device && device_block(plan, d)[2] == 1;
    flag port = device && p < device_block(plan, d)[3];
    u32 *count = drop_word(state, d, p, once_in(2) ? INTERRUPT : ACKNOWLEDGE);
    *count = clause == 23 || once_in(4) ? out_of(MOST_DROPPED + 1) : once_in(2) ? 1 : 1 + pick(MOST_DROPPED);
    switch (clause) {
    case 23: return router && port;
    case 24: return device && !router && port;
    case 25: return device && !router && !port;
    case 26: return router && !port;
    default: return !device;
    }
}

/* Clauses about a timer whose bit is 1 and that is above its load, by one or by more, up to just above what two bytes hold. It is
 * above the common load; above that of a pair, where the common one would allow it, or would not; or that of a router, where a
 * node could have it. */
static flag break_load(struct plan *plan, struct state *state, u32 d, u32 clause) {
    u32 k = pick(IDENTIFIERS), load = load_at(plan, d, loads_of(plan, k)), common = load_at(plan, d, common_loads(plan));
    u32 of_nodes = loads_of(plan, k).node, from = load + 1, to = 65536;
    flag pair = has_pair(plan, k), fits;
    switch (clause) {
    case 28: fits = !pair; break;
    case 29: fits = pair && common > load; to = common; break;
    case 30: fits = pair; from = 1 + (load > common ? load : common); break;
    default: fits = of_nodes > load; to = of_nodes;
    }
    if (!fits)
        return 0;
    device_words(state, d)[0] |= 1u << k;
    device_words(state, d)[1 + k] = once_in(2) ? from : from + pick(to + 1 - from);
    return 1;
}

static flag break_at(struct plan *plan, struct state *state, u32 clause) {
    u32 d = pick(DEVICES), p = pick(PORTS), value = once_in(2) ? 1 : 1u << pick(32);
    flag device = d < plan->bytes[1], port = device && p < device_block(plan, d)[3];
    if (clause > 27)
        return device && break_load(plan, state, d, clause);
    if (clause > 22)
        return break_drops(plan, state, d, p, clause);
    if (clause > 14)
        return break_time(plan, state, d, p, clause);
    if (clause == 13) {
        device_words(state, d)[pick(DEVICE_WORDS)] = value;
        return !device;
    }
    if (clause == 14) {
        port_words(state, d, p)[pick(PORT_WORDS)] = value;
        return !port;
    }
    if (clause < 4)
        return device && break_timer(device_words(state, d), clause);
    return port && break_port(port_entry(plan, d, p), port_words(state, d, p), clause);
}

/* Places are tried until one breaks this clause, and no other change is left behind. */
flag break_state(struct plan *plan, struct state *state, u32 clause) {
    struct state sound = *state;
    for (u32 times = 0; times < 60; times++) {
        if (break_at(plan, state, clause)) {
            broken_so[clause]++;
            return 1;
        }
        *state = sound;
    }
    return 0;
}

void state_bytes(const struct state *state, struct state_file *file) {
    file->given = once_in(2) ? 1 : 1u << pick(32);
    file->length = 4 * state->length;
    for (size i = 0; i < state->length; i++)
        put_number(file->bytes + 4 * i, 4, state->words[i]);
}

void states_table(void) {
    for (u32 h = 0; h < HAVINGS; h++)
        printf("%s%-*s %8lu\n", h ? "  " : "", h ? 41 : 43, having_names[h], having[h]);
    printf("states with one thing wrong                    times\n");
    counts_table(clauses, broken_so, CLAUSES);
}

flag all_states_tried(void) {
    flag all = all_counted("no state was so", having_names, having, HAVINGS);
    all &= all_counted("no state was wrong so", clauses, broken_so, CLAUSES);
    return all;
}
