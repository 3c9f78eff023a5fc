/* The bench once more, in plain C and for speed: what speed/run measures ours by. It makes the same checks, but takes the
   lengths of areas, the device and the identifier for right. */
#include "plain.h"

typedef unsigned short u16;

void *memcpy(void *, const void *, usize);
void *memset(void *, int, usize);

enum { INTERRUPT, ACKNOWLEDGE };
enum { NONE = BENCH_NOTHING, NEXT = BENCH_NEXT, RUNNING = BENCH_RUNNING };
enum { UNREACHED = BENCH_UNREACHED };

/* Of the word of a port's Time-Code: what waits, plus 1, and whether one was sent last. */
enum { WAITING = 127, LAST = 128 };

/* In block 0 the common loads, the set of events, the byte of the master, a pair of loads for each identifier, and what is behind
   them; in a device's block the sets that its ports bar, by port and then by kind, and what is behind them. */
enum { LOADS = 2, EVENTS = 6, MASTER = 10, PAIRS = 16, BEHIND_PAIRS = 144, BARS = 44, BEHIND_BARS = 108 };

/* Where a count of drops stays. */
enum { MOST_DROPS = 65535 };

struct plan {
    u32 devices, events, master; /* or NONE */
    u32 loads[2][32]; /* by role, and then by identifier */
    u8 role[32], ports[32];
    u32 source[32], handler[32];
    u8 permissions[BENCH_SENT];
    u16 peers[BENCH_SENT];
    u32 bars[BENCH_SENT][2];
};

static u32 two(const u8 *b) {
    return b[0] | b[1] << 8;
}

static u32 four(const u8 *b) {
    return two(b) | two(b + 2) << 16;
}

/* ---- the plan file */

static u32 zeros(const u8 *b, int from, int to) {
    for (int i = from; i < to; i++)
        if (b[i])
            return 24;
    return 0;
}

static u32 any_block(const u8 *b, int from, int good, int marked) {
    u32 sum = 0;
    for (u32 i = 0; i < 510; i++)
        sum += (i + 1) * b[i];
    if (sum % 65521 != two(b + 510))
        return 21;
    if (!marked)
        return 22;
    if (!good)
        return 23;
    return zeros(b, from, 510);
}

/* Of two loads that of routers stands first. */
static int pair_fits(const u8 *pair) {
    return two(pair) && two(pair) <= two(pair + 2);
}

/* What every identifier is loaded with; whether it fits. Where its own pair is zeros it takes the common one. */
static int load_pairs(const u8 *b, struct plan *plan) {
    int good = pair_fits(b + LOADS);
    for (int k = 0; k < 32; k++) {
        const u8 *own = b + PAIRS + 4 * k, *pair = four(own) ? own : b + LOADS;
        plan->loads[0][k] = two(pair + 2);
        plan->loads[1][k] = two(pair);
        good &= pair_fits(pair);
    }
    return good;
}

static u32 load_header(const u8 *b, struct plan *plan) {
    u32 n = b[1], master = b[MASTER] ? b[MASTER] - 1u : NONE;
    *plan = (struct plan){.devices = n, .events = four(b + EVENTS), .master = master};
    int good = n >= 1 && n <= 32 && b[MASTER] <= n && load_pairs(b, plan);
    u32 bad = any_block(b, BEHIND_PAIRS, good, b[0] == 1);
    return bad ? bad : zeros(b, MASTER + 1, PAIRS);
}

static int fits(const u8 *b, u32 n) {
    u8 role = b[2], ports = b[3];
    u32 source = four(b + 4), handler = four(b + 8);
    if (role > 1 || ports < 1 || ports > (role ? 8 : 2) || (role ? source | handler : source & handler))
        return 0;
    for (int p = 0; p < 8; p++) {
        const u8 *e = b + 12 + 4 * p;
        int none = e[0] == 255 && e[1] == 255 && !e[2] && !e[3];
        int some = e[0] < n && e[1] < 8 && e[2] <= 15 && !e[3];
        if (!(none || (p < ports && some)))
            return 0;
    }
    return 1;
}

/* Only the ports that a router has bar anything. */
static int bars_fit(const u8 *b) {
    u8 any = 0;
    for (int i = BARS + (b[2] ? 8 * b[3] : 0); i < BEHIND_BARS; i++)
        any |= b[i];
    return !any;
}

static void load_device(const u8 *b, u32 d, struct plan *plan) {
    plan->role[d] = b[2];
    plan->ports[d] = b[3];
    plan->source[d] = four(b + 4);
    plan->handler[d] = four(b + 8);
    for (u32 p = 0; p < 8; p++) {
        const u8 *e = b + 12 + 4 * p;
        plan->permissions[8 * d + p] = e[2];
        plan->peers[8 * d + p] = e[0] == 255 ? NONE : 8 * e[0] + e[1];
        plan->bars[8 * d + p][INTERRUPT] = four(b + BARS + 8 * p);
        plan->bars[8 * d + p][ACKNOWLEDGE] = four(b + BARS + 8 * p + 4);
    }
}

/* Does an identifier that is no event have two sources? Of all sources seen so far one set is enough. */
static int two_sources(const struct plan *plan) {
    u32 seen = 0, again = 0;
    for (u32 d = 0; d < plan->devices; d++) {
        again |= seen & plan->source[d];
        seen |= plan->source[d];
    }
    return (again & ~plan->events) != 0;
}

static u32 read_plan(const u8 *file, usize length, struct plan *plan, u32 *block) {
    *block = 0;
    if (length < 512 || length > BENCH_FILE || length % 512)
        return 20;
    u32 bad = load_header(file, plan), n = plan->devices;
    if (bad)
        return bad;
    if (length != 512 * (1 + n))
        return 25;
    for (u32 d = 0; d < n; d++) {
        const u8 *b = file + 512 * (1 + d);
        *block = 1 + d;
        int good = fits(b, n) && bars_fit(b) && !(b[2] && d == plan->master);
        if ((bad = any_block(b, BEHIND_BARS, good, b[0] == 2 && b[1] == d)))
            return bad;
        load_device(b, d, plan);
    }
    for (u32 q = 0; q < 8 * n; q++) {
        u32 peer = plan->peers[q];
        *block = 1 + q / 8;
        if (peer != NONE && (peer % 8 >= plan->ports[peer / 8] || plan->peers[peer] != q || peer == q))
            return 26;
    }
    *block = 0;
    return two_sources(plan) ? 27 : 0;
}

/* ---- the state */

/* What device d loads the timer of k with. */
static u32 load_of(const struct plan *plan, u32 d, u32 k) {
    return plan->loads[plan->role[d]][k];
}

static int timers_sound(const struct plan *plan, const u32 *s) {
    for (u32 d = 0; d < plan->devices; d++)
        for (u32 k = 0; k < 32; k++) {
            const u32 *w = s + device_at(d);
            u32 t = w[1 + k];
            if (w[0] >> k & 1 ? t < 1 || t > load_of(plan, d, k) : t)
                return 0;
        }
    return 1;
}

static int counters_sound(const u32 *counters, u32 n) {
    u32 great = 0, absent = 0;
    for (u32 d = 0; d < n; d++)
        great |= counters[d];
    for (u32 d = n; d < 32; d++)
        absent |= counters[d];
    return great < 64 && !absent;
}

static int port_sound(const struct plan *plan, const u32 *s, u32 q) {
    const u32 *w = s + port_at(q), time = s[BENCH_TIMES + q];
    if (q % 8 >= plan->ports[q / 8])
        return !(w[0] | w[1] | w[NEXT] | w[RUNNING] | time);
    if (time > LAST + 64 || (time & WAITING) > (w[RUNNING] ? 64 : 0))
        return 0;
    u32 peer = plan->peers[q], may = plan->permissions[q];
    if (w[NEXT] > 31 || w[RUNNING] > 1 || w[RUNNING] != (peer == NONE ? 0 : s[port_at(peer) + RUNNING]) || (w[0] & w[1]))
        return 0;
    return !((w[0] && !(w[RUNNING] && (may & 1))) || (w[1] && !(w[RUNNING] && (may & 4))));
}

/* Only the ports that a router has drop anything. */
static int drops_sound(const struct plan *plan, const u32 *drops) {
    u32 counts = 0, others = 0;
    for (u32 d = 0; d < plan->devices; d++, drops += 16) {
        u32 own = plan->role[d] ? 2 * plan->ports[d] : 0;
        for (u32 i = 0; i < own; i++)
            counts |= drops[i];
        for (u32 i = own; i < 16; i++)
            others |= drops[i];
    }
    for (u32 i = 0; i < 16 * (32 - plan->devices); i++)
        others |= drops[i];
    return counts <= MOST_DROPS && !others;
}

static int sound(const struct plan *plan, const u32 *s) {
    if (!timers_sound(plan, s) || !counters_sound(s + BENCH_COUNTERS, plan->devices) ||
        !drops_sound(plan, s + BENCH_DROPS))
        return 0;
    for (u32 i = device_at(plan->devices); i < BENCH_PORTS; i++)
        if (s[i])
            return 0;
    for (u32 q = 0; q < BENCH_SENT; q++)
        if (!port_sound(plan, s, q))
            return 0;
    return 1;
}

static void start(const struct plan *plan, u32 *s) {
    memset(s, 0, BENCH_STATE * sizeof *s);
    for (u32 q = 0; q < 8 * plan->devices; q++)
        s[port_at(q) + RUNNING] = plan->peers[q] != NONE;
}

/* ---- calls and rounds */

static void queue(const struct plan *plan, u32 *s, u32 q, u32 kind, u32 k) {
    u32 *w = s + port_at(q);
    if (w[RUNNING] && (plan->permissions[q] >> 2 * kind & 1)) {
        w[kind] |= 1u << k;
        w[1 - kind] &= ~(1u << k);
    }
}

/* A Time-Code goes over an older one. */
static void queue_time(u32 *s, u32 q, u32 value) {
    u32 *w = s + BENCH_TIMES + q;
    if (s[port_at(q) + RUNNING])
        *w = (*w & LAST) | (value + 1);
}

/* The request of a source whose bit is clear. */
static u32 request(const struct plan *plan, u32 *s, u32 d, u32 k) {
    u32 first = 8 * d, past = first + plan->ports[d], runs = 0, sends = 0;
    for (u32 q = first; q < past; q++) {
        runs |= s[port_at(q) + RUNNING];
        sends |= s[port_at(q) + RUNNING] & plan->permissions[q]; /* the flag is 1, and so is the permission */
    }
    if (!runs)
        return 7;
    if (!sends)
        return 8;
    s[device_at(d)] |= 1u << k;
    s[device_at(d) + 1 + k] = load_of(plan, d, k);
    for (u32 q = first; q < past; q++)
        queue(plan, s, q, INTERRUPT, k);
    return 0;
}

static u32 tick(const struct plan *plan, u32 *s, u32 d) {
    u32 first = 8 * d, past = first + plan->ports[d], runs = 0, *counter = s + BENCH_COUNTERS + d;
    if (d != plan->master)
        return 14;
    for (u32 q = first; q < past; q++)
        runs |= s[port_at(q) + RUNNING];
    if (!runs)
        return 7;
    *counter = (*counter + 1) % 64;
    for (u32 q = first; q < past; q++)
        queue_time(s, q, *counter);
    return 0;
}

static u32 count_down(const struct plan *plan, u32 *next, u32 *told) {
    u32 count = 0;
    for (u32 d = 0; d < plan->devices; d++) {
        u32 *w = next + device_at(d);
        for (u32 rest = w[0]; rest; rest &= rest - 1) {
            u32 k = __builtin_ctz(rest);
            if (--w[1 + k])
                continue;
            w[0] &= ~(1u << k);
            if (told && !plan->role[d])
                told[count++] = 3 << 16 | d << 8 | k;
        }
    }
    return count;
}

static void post(const struct plan *plan, const u32 *old, u32 *next, u32 *sent) {
    for (u32 q = 0; q < BENCH_SENT; q++)
        sent[q] = NONE;
    for (u32 d = 0; d < plan->devices; d++)
        for (u32 q = 8 * d; q < 8 * d + plan->ports[d]; q++) {
            const u32 *w = old + port_at(q);
            u32 *v = next + port_at(q), all = w[0] | w[1], time = old[BENCH_TIMES + q];
            if ((time & WAITING) && !((time & LAST) && all)) {
                sent[q] = (time & WAITING) - 1;
                next[BENCH_TIMES + q] = LAST;
                continue;
            }
            if (!all)
                continue;
            next[BENCH_TIMES + q] = time & WAITING;
            u32 above = all >> w[NEXT] << w[NEXT];
            u32 k = __builtin_ctz(above ? above : all);
            sent[q] = (w[0] >> k & 1 ? 128 : 160) + k;
            v[0] &= ~(1u << k);
            v[1] &= ~(1u << k);
            v[NEXT] = (k + 1) % 32;
        }
}

/* A Time-Code comes to port q of device d; whether it is the next one, which is passed on. */
static int arrive_time(const struct plan *plan, u32 *next, u32 d, u32 q, u32 value) {
    u32 *counter = next + BENCH_COUNTERS + d;
    int above = (*counter + 1) % 64 == value;
    *counter = value;
    for (u32 other = 8 * d; above && plan->role[d] && other < 8 * d + plan->ports[d]; other++)
        if (other != q)
            queue_time(next, other, value);
    return above;
}

/* An interrupt or an acknowledge of k comes to port q of device d; whether it is accepted. */
static int arrive_code(const struct plan *plan, u32 *next, u32 d, u32 q, u32 kind, u32 k) {
    u32 *w = next + device_at(d), *drops = next + BENCH_DROPS + 2 * q + kind;
    if (!next[port_at(q) + RUNNING] || !(plan->permissions[q] >> (2 * kind + 1) & 1))
        return 0;
    if (plan->bars[q][kind] >> k & 1) {
        *drops += *drops < MOST_DROPS;
        return 0;
    }
    if ((w[0] >> k & 1) != kind || (kind & plan->events >> k)) /* nobody takes an acknowledge of an event */
        return 0;
    w[0] ^= 1u << k;
    w[1 + k] = kind == ACKNOWLEDGE ? 0 : load_of(plan, d, k);
    for (u32 other = 8 * d; plan->role[d] && other < 8 * d + plan->ports[d]; other++)
        if (other != q)
            queue(plan, next, other, kind, k);
    return 1;
}

static u32 arrive(const struct plan *plan, const u32 *sent, u32 *next, u32 *told, u32 count) {
    for (u32 d = 0; d < plan->devices; d++)
        for (u32 q = 8 * d; q < 8 * d + plan->ports[d]; q++) {
            u32 peer = plan->peers[q];
            if (peer == NONE || sent[peer] == NONE)
                continue;
            if (sent[peer] < 64) {
                if (arrive_time(plan, next, d, q, sent[peer]) && told && !plan->role[d])
                    told[count++] = 4 << 16 | d << 8 | sent[peer];
                continue;
            }
            u32 kind = sent[peer] >= 160, k = sent[peer] % 32;
            if (arrive_code(plan, next, d, q, kind, k) && told && !plan->role[d])
                told[count++] = (1 + kind) << 16 | d << 8 | k;
        }
    return count;
}

/* A round; told is null where nobody reads it. */
static inline u32 play(const struct plan *plan, const u32 *old, u32 *next, u32 *sent, u32 *told) {
    memcpy(next, old, BENCH_STATE * sizeof *next);
    u32 count = count_down(plan, next, told);
    post(plan, old, next, sent);
    return arrive(plan, sent, next, told, count);
}

static int waits(const struct plan *plan, const u32 *s) {
    for (u32 q = 0; q < 8 * plan->devices; q++)
        if (s[port_at(q)] | s[port_at(q) + 1] | (s[BENCH_TIMES + q] & WAITING))
            return 1;
    return 0;
}

/* Rounds until no port waits. The two areas take turns, and *home tells which has the state. */
static u32 settle(const struct plan *plan, u32 *areas[2], u32 allowance, u32 *rounds, int *home) {
    u32 sent[BENCH_SENT];
    *home = 0;
    for (*rounds = 0; waits(plan, areas[*home]); ++*rounds) {
        if (*rounds == allowance)
            return 12;
        play(plan, areas[*home], areas[!*home], sent, 0);
        *home = !*home;
    }
    return 0;
}

/* ---- reach, and ways */

/* What keeps an interrupt of k from going by a port, or 0. A port that runs has a peer. */
static inline u32 cause(const struct plan *plan, const u32 *s, u32 q, u32 k) {
    if (!s[port_at(q) + RUNNING])
        return BENCH_STOPPED;
    if (!(plan->permissions[q] & 1))
        return BENCH_MAY_NOT_SEND;
    if (!(plan->permissions[plan->peers[q]] & 2))
        return BENCH_MAY_NOT_RECEIVE;
    return plan->bars[plan->peers[q]][INTERRUPT] >> k & 1 ? BENCH_BARRED : 0;
}

/* In depth. No device is visited twice, so that each port that is looked at counts once. */
static u32 visit(const struct plan *plan, const u32 *s, u32 d, u32 k, u32 set, u32 *examined) {
    *examined += plan->ports[d];
    for (u32 q = 8 * d; q < 8 * d + plan->ports[d]; q++) {
        if (cause(plan, s, q, k))
            continue;
        u32 ahead = plan->peers[q] / 8;
        if (set >> ahead & 1)
            continue;
        set |= 1u << ahead;
        if (plan->role[ahead])
            set = visit(plan, s, ahead, k, set, examined);
    }
    return set;
}

/* In breadth: devices leave the row in the order of their crossings, and of those that are as far, in the order of their
   chains. So the port by which a device is found first is the last one of its chain; it is kept where that is wanted. The
   answer is the most crossings. */
static u32 spread(const struct plan *plan, const u32 *s, u32 source, u32 k, u32 *crossings, u8 *found) {
    u32 row[32], in = 0;
    for (u32 d = 0; d < 32; d++)
        crossings[d] = UNREACHED;
    crossings[source] = 0;
    row[in++] = source;
    for (u32 out = 0; out < in; out++) {
        u32 d = row[out];
        if (out && !plan->role[d])
            continue;
        for (u32 q = 8 * d; q < 8 * d + plan->ports[d]; q++) {
            u32 ahead = plan->peers[q] / 8;
            if (cause(plan, s, q, k) || crossings[ahead] != UNREACHED)
                continue;
            crossings[ahead] = crossings[d] + 1;
            row[in++] = ahead;
            if (found)
                found[ahead] = q;
        }
    }
    return crossings[row[in - 1]];
}

/* ---- the report */

static u8 *put_number(u8 *at, u32 n, u8 behind) {
    u8 digits[10], *d = digits;
    do
        *d++ = '0' + n % 10;
    while (n /= 10);
    while (d > digits)
        *at++ = *--d;
    *at++ = behind;
    return at;
}

static u8 *put_line(const struct plan *plan, u32 *areas[2], u32 d, u32 k, u8 *at) {
    u32 rounds, held = 0;
    int home;
    at = put_number(put_number(at, d, ' '), k, ' ');
    start(plan, areas[0]);
    u32 refused = request(plan, areas[0], d, k);
    if (refused) {
        *at++ = 'r';
        return put_number(put_number(at, refused, ' '), 0, '\n');
    }
    if (settle(plan, areas, BENCH_ROUNDS, &rounds, &home)) {
        *at++ = '-';
        *at++ = ' ';
    } else
        at = put_number(at, rounds, ' ');
    for (u32 e = 0; e < plan->devices; e++)
        held += areas[home][device_at(e)] >> k & 1;
    return put_number(at, held, '\n');
}

static u8 *put_text(const u8 *file, usize length, u32 *areas[2], u8 *at) {
    struct plan plan;
    u32 block, bad = read_plan(file, length, &plan, &block);
    if (bad) {
        memcpy(at, "bad ", 4);
        return put_number(put_number(at + 4, bad, ' '), block, '\n');
    }
    memcpy(at, "network ", 8);
    at = put_number(at + 8, plan.devices, '\n');
    for (u32 d = 0; d < plan.devices; d++)
        for (u32 k = 0; k < 32; k++)
            if (plan.source[d] >> k & 1)
                at = put_line(&plan, areas, d, k, at);
    return at;
}

/* ---- the calls */

/* What every call asks: a file that is accepted, and a sound state. */
static u32 refusal(const u8 *file, usize length, const u32 *state, struct plan *plan) {
    u32 block, bad = read_plan(file, length, plan, &block);
    return bad ? bad : sound(plan, state) ? 0 : 2;
}

u32 plain_plan_read(const u8 *file, usize length, u32 *block) {
    struct plan plan;
    return read_plan(file, length, &plan, block);
}

u32 plain_tick(const u8 *file, usize length, u32 *state, usize state_length, usize device) {
    struct plan plan;
    u32 number = refusal(file, length, state, &plan);
    (void)state_length;
    return number ? number : tick(&plan, state, device);
}

u32 plain_round(const u8 *file, usize length, const u32 *old, usize old_length, u32 *next, usize next_length, u32 *sent,
                usize sent_length, u32 *told, usize told_length, u32 *count) {
    struct plan plan;
    u32 number = refusal(file, length, old, &plan);
    (void)old_length, (void)next_length, (void)sent_length;
    *count = 0;
    if (number)
        return number;
    memset(told, 0, told_length * sizeof *told);
    *count = play(&plan, old, next, sent, told);
    return 0;
}

u32 plain_settle(const u8 *file, usize length, u32 *state, usize state_length, u32 allowance, u32 *rounds) {
    struct plan plan;
    u32 second[BENCH_STATE], *areas[2] = {state, second}, number = refusal(file, length, state, &plan);
    int home;
    *rounds = 0;
    if (number)
        return number;
    number = settle(&plan, areas, allowance, rounds, &home);
    if (home)
        memcpy(state, second, state_length * sizeof *state);
    return number;
}

/* What the calls about a source ask: that it is one of k. */
static u32 source_refusal(const u8 *file, usize length, const u32 *state, usize source, u32 k, struct plan *plan) {
    u32 number = refusal(file, length, state, plan);
    return number ? number : plan->source[source] >> k & 1 ? 0 : 6;
}

u32 plain_reach_ports(const u8 *file, usize length, const u32 *state, usize state_length, usize device, u32 k, u32 *devices,
                      u32 *set, u32 *examined) {
    struct plan plan;
    u32 number = source_refusal(file, length, state, device, k, &plan);
    (void)state_length;
    *devices = *set = *examined = 0;
    if (number)
        return number;
    *set = visit(&plan, state, device, k, 1u << device, examined);
    *devices = __builtin_popcount(*set);
    return 0;
}

u32 plain_crossings(const u8 *file, usize length, const u32 *state, usize state_length, usize source, u32 k, u32 *crossings,
                    usize crossings_length, u32 *most) {
    struct plan plan;
    u32 number = source_refusal(file, length, state, source, k, &plan);
    (void)state_length, (void)crossings_length;
    *most = number ? 0 : spread(&plan, state, source, k, crossings, 0);
    return number;
}

u32 plain_chain(const u8 *file, usize length, const u32 *state, usize state_length, usize source, u32 k, usize device,
                u32 *ports, usize ports_length, u32 *crossings) {
    struct plan plan;
    u8 found[32];
    u32 away[32], number = source_refusal(file, length, state, source, k, &plan);
    (void)state_length;
    *crossings = 0;
    if (number)
        return number;
    spread(&plan, state, source, k, away, found);
    *crossings = away[device];
    for (u32 i = 0; i < ports_length; i++)
        ports[i] = BENCH_NOBODY;
    for (u32 left = away[device] % UNREACHED; left; device = found[device] / 8)
        ports[--left] = found[device];
    return 0;
}

u32 plain_cut(const u8 *file, usize length, const u32 *state, usize state_length, usize source, u32 k, u32 *causes,
              usize causes_length, u32 *count) {
    struct plan plan;
    u32 number = source_refusal(file, length, state, source, k, &plan);
    (void)state_length;
    *count = 0;
    if (number)
        return number;
    u32 examined = 0, set = visit(&plan, state, source, k, 1u << source, &examined);
    memset(causes, 0, causes_length * sizeof *causes);
    for (u32 q = 0; q < 8 * plan.devices; q++) {
        u32 peer = plan.peers[q];
        if (peer == NONE || !(set >> q / 8 & 1) || (set >> peer / 8 & 1))
            continue;
        u32 first = cause(&plan, state, q, k);
        causes[q] = first ? first : BENCH_DOES_NOT_FORWARD;
        ++*count;
    }
    return 0;
}

u32 plain_report(const u8 *file, usize length, u8 *text, usize text_length, u32 *text_used) {
    u32 state[BENCH_STATE], second[BENCH_STATE];
    (void)text_length;
    *text_used = put_text(file, length, (u32 *[]){state, second}, text) - text;
    return 0;
}
