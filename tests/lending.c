/* What C can lend and a language with lending would not: areas that share bytes, words that are not aligned, null.
 *
 *     lending pairs < PLAN     every pair of what a call is lent, sharing all, a word or a byte; no alignment; null; lengths
 *                              that no memory has; for codes and one device, at a guarded port and at one that is not, all
 *                              places of their values together. PLAN is examples/timed.plan.
 *     lending text < PLAN      what the program settle prints, by the calls of the header
 *
 * What has to happen is worked out here by another method than the header's: each byte lent is counted. */
#include "bench.h"

/* The kit's compiler has no headers of C's library. */
long read(int file, void *into, unsigned long bytes);
int printf(const char *format, ...);
_Noreturn void exit(int status);
int memcmp(const void *one, const void *other, unsigned long bytes);
void *memcpy(void *to, const void *from, unsigned long bytes);
void *memset(void *to, int byte, unsigned long bytes);
int strcmp(const char *one, const char *other);

static bench_u8 file[BENCH_FILE + 1];
static bench_size file_length;
static bench_u32 started[BENCH_STATE];

/* ---- the calls, over what they are lent in the order of their parameters */

enum kind { NONE, PLAN, DAMAGED, MENDED, STATE, STORED, OUT, TEXT, VALUE };
enum { LENT = 6, NODE = 0, ROUTER = 1, HANDLER = 2, MASTER = 5, IDENTIFIER = 5 };

typedef void *const *places;
typedef const bench_size *lengths;

static bench_u32 plan_read(places at, lengths n) {
    return bench_plan_read(at[0], n[0], at[1]);
}

static bench_u32 start(places at, lengths n) {
    return bench_start(at[0], n[0], at[1], n[1]);
}

static bench_u32 request(places at, lengths n) {
    return bench_request(at[0], n[0], at[1], n[1], NODE, IDENTIFIER);
}

static bench_u32 acknowledge(places at, lengths n) {
    return bench_acknowledge(at[0], n[0], at[1], n[1], HANDLER, IDENTIFIER);
}

static bench_u32 stop(places at, lengths n) {
    return bench_link(at[0], n[0], at[1], n[1], ROUTER, 1, 0);
}

static bench_u32 run(places at, lengths n) {
    return bench_link(at[0], n[0], at[1], n[1], ROUTER, 1, 1);
}

static bench_u32 reset(places at, lengths n) {
    return bench_reset(at[0], n[0], at[1], n[1], ROUTER);
}

static bench_u32 tick(places at, lengths n) {
    return bench_tick(at[0], n[0], at[1], n[1], MASTER);
}

static bench_u32 round(places at, lengths n) {
    return bench_round(at[0], n[0], at[1], n[1], at[2], n[2], at[3], n[3], at[4], n[4], at[5]);
}

static bench_u32 settle(places at, lengths n) {
    return bench_settle(at[0], n[0], at[1], n[1], BENCH_ROUNDS, at[2]);
}

static bench_u32 reach(places at, lengths n) {
    return bench_reach(at[0], n[0], at[1], n[1], NODE, IDENTIFIER, at[2], at[3]);
}

static bench_u32 reach_ports(places at, lengths n) {
    return bench_reach_ports(at[0], n[0], at[1], n[1], NODE, IDENTIFIER, at[2], at[3], at[4]);
}

static bench_u32 report(places at, lengths n) {
    return bench_report(at[0], n[0], at[1], n[1], at[2]);
}

static bench_u32 crossings(places at, lengths n) {
    return bench_crossings(at[0], n[0], at[1], n[1], NODE, IDENTIFIER, at[2], n[2], at[3]);
}

static bench_u32 chain(places at, lengths n) {
    return bench_chain(at[0], n[0], at[1], n[1], NODE, IDENTIFIER, HANDLER, at[2], n[2], at[3]);
}

static bench_u32 cut(places at, lengths n) {
    return bench_cut(at[0], n[0], at[1], n[1], NODE, IDENTIFIER, at[2], n[2], at[3]);
}

static bench_u32 why(places at, lengths n) {
    return bench_why(at[0], n[0], 1, at[1], n[1], NODE, IDENTIFIER, HANDLER, at[2], n[2], at[3]);
}

static bench_u32 why_at_start(places at, lengths n) {
    return bench_why(at[0], n[0], 0, at[1], n[1], NODE, IDENTIFIER, HANDLER, at[2], n[2], at[3]);
}

static bench_u32 rescue(places at, lengths n) {
    return bench_rescue(at[0], n[0], at[1], n[1], at[2], n[2], at[3], at[4]);
}

/* What each is lent, how long all but plans and values are, in words or bytes, and what it answers in a network that has just
 * started; then what it answers for each of its areas where that is empty. */
enum { STORED_STATE = 4 * BENCH_STATE };
static const struct call {
    const char *name;
    bench_u32 (*make)(places, lengths);
    enum kind lent[LENT];
    bench_size long_as[LENT];
    bench_u32 answer, empty[LENT];
} calls[] = {
    {"plan read", plan_read, {PLAN, VALUE}, {0}, 0, {20}},
    {"start", start, {PLAN, STATE}, {0, BENCH_STATE}, 0, {20, 3}},
    {"request", request, {PLAN, STATE}, {0, BENCH_STATE}, 0, {20, 2}},
    {"acknowledge", acknowledge, {PLAN, STATE}, {0, BENCH_STATE}, 9, {20, 2}},
    {"link, 0", stop, {PLAN, STATE}, {0, BENCH_STATE}, 0, {20, 2}},
    {"link, 1", run, {PLAN, STATE}, {0, BENCH_STATE}, 10, {20, 2}},
    {"reset", reset, {PLAN, STATE}, {0, BENCH_STATE}, 0, {20, 2}},
    {"tick", tick, {PLAN, STATE}, {0, BENCH_STATE}, 0, {20, 2}},
    {"round", round, {PLAN, STATE, OUT, OUT, OUT, VALUE}, {0, BENCH_STATE, BENCH_STATE, BENCH_SENT, BENCH_TOLD}, 0,
     {20, 2, 3, 3, 3}},
    {"settle", settle, {PLAN, STATE, VALUE}, {0, BENCH_STATE}, 0, {20, 2}},
    {"reach", reach, {PLAN, STATE, VALUE, VALUE}, {0, BENCH_STATE}, 0, {20, 2}},
    {"reach, ports", reach_ports, {PLAN, STATE, VALUE, VALUE, VALUE}, {0, BENCH_STATE}, 0, {20, 2}},
    {"report", report, {PLAN, TEXT, VALUE}, {0, BENCH_TEXT}, 0, {0, 3}},
    {"crossings", crossings, {PLAN, STATE, OUT, VALUE}, {0, BENCH_STATE, BENCH_CROSSINGS}, 0, {20, 2, 3}},
    {"chain", chain, {PLAN, STATE, OUT, VALUE}, {0, BENCH_STATE, BENCH_CHAIN}, 0, {20, 2, 3}},
    {"cut", cut, {PLAN, STATE, OUT, VALUE}, {0, BENCH_STATE, BENCH_CUT}, 0, {20, 2, 3}},
    {"why", why, {PLAN, STORED, TEXT, VALUE}, {0, STORED_STATE, BENCH_WHY}, 0, {0, 0, 3}},
    {"why, at the start", why_at_start, {PLAN, STORED, TEXT, VALUE}, {0, STORED_STATE, BENCH_WHY}, 0, {0, 0, 3}},
    {"rescue", rescue, {DAMAGED, MENDED, TEXT, VALUE, VALUE}, {0, 0, BENCH_RESCUE}, 0, {3, 3, 3}},
};
enum { CALLS = sizeof calls / sizeof *calls };

/* ---- memory, and what stands where */

enum { ARENA = 1 << 18, SPARE = 100000, REGION = 20000, MIDDLE = 40000 };
static _Alignas(16) bench_u8 arena[ARENA];
static bench_u8 wanted[ARENA], counts[ARENA];

static const struct call *call;
static bench_u8 *at[LENT];
static bench_size n[LENT];
static bench_size refused, taken;

static int lent(unsigned i) {
    return i < LENT && call->lent[i] != NONE;
}

static int in_words(unsigned i) {
    return call->lent[i] == STATE || call->lent[i] == OUT;
}

/* As long as the plan, which it is, a damaged one, or the area for a mended one. */
static int is_file(unsigned i) {
    return call->lent[i] == PLAN || call->lent[i] == DAMAGED || call->lent[i] == MENDED;
}

static bench_size bytes(unsigned i) {
    return in_words(i) ? 4 * n[i] : n[i];
}

static _Noreturn void fail(const char *what, bench_size one, bench_size other) {
    printf("lending: %s: %s: %lu, %lu\n", call ? call->name : "codes", what, one, other);
    for (unsigned i = 0; call && lent(i); i++)
        printf("  %u: %ld, %lu bytes\n", i, at[i] ? (long)(at[i] - arena) : -1, bytes(i));
    exit(1);
}

/* All areas of a call, far apart. */
static void apart(const struct call *of) {
    call = of;
    for (unsigned i = 0; lent(i); i++) {
        at[i] = arena + SPARE + REGION * i;
        n[i] = is_file(i) ? file_length : call->lent[i] == VALUE ? 4 : call->long_as[i];
    }
}

/* One behind the other, with no byte between them. */
static void adjoining(const struct call *of) {
    apart(of);
    for (unsigned i = 1; lent(i); i++)
        at[i] = at[i - 1] + bytes(i - 1);
}

/* In a damaged plan the check of the router's block fails. */
static void fill(void) {
    for (bench_size i = 0; i < ARENA; i++)
        arena[i] = 7 * i + 1;
    for (unsigned i = 0; lent(i); i++) {
        if (at[i] && n[i] && (call->lent[i] == PLAN || call->lent[i] == DAMAGED))
            memcpy(at[i], file, file_length);
        if (at[i] && n[i] && call->lent[i] == DAMAGED)
            at[i][512 * (1 + ROUTER) + 509] ^= 1;
        if (at[i] && n[i] && (call->lent[i] == STATE || call->lent[i] == STORED))
            memcpy(at[i], started, sizeof started);
    }
}

/* ---- what has to happen */

static void count_bytes(void) {
    memset(counts, 0, ARENA);
    for (unsigned i = 0; lent(i); i++)
        for (bench_size b = 0; at[i] && b < bytes(i); b++)
            counts[at[i] - arena + b]++;
}

static int shares(unsigned i) {
    for (bench_size b = 0; at[i] && b < bytes(i); b++)
        if (counts[at[i] - arena + b] > 1)
            return 1;
    return 0;
}

/* Something of what is lent cannot be. */
static int faulty(void) {
    int fault = 0;
    for (unsigned i = 0; lent(i); i++)
        fault |= shares(i) || (in_words(i) && n[i] && (at[i] - arena) % 4) || (!at[i] && n[i] && call->lent[i] != VALUE);
    return fault;
}

/* What is refused by 3 changes nothing, but for a value of 0 where its place is its own. */
static void must_refuse(void) {
    memcpy(wanted, arena, ARENA);
    for (unsigned i = 0; lent(i); i++)
        if (call->lent[i] == VALUE && at[i] && !shares(i))
            memset(wanted + (at[i] - arena), 0, 4);
    bench_u32 number = call->make((places)at, n);
    if (number != 3)
        fail("not refused by 3 (should be, is)", 3, number);
    for (bench_size i = 0; i < ARENA; i++)
        if (wanted[i] != arena[i])
            fail("a byte changed by a refusal (place, byte)", i, arena[i]);
    refused++;
}

/* What is taken changes nothing but what it is lent, and not the plan. */
static void must_answer(bench_u32 number) {
    memcpy(wanted, arena, ARENA);
    bench_u32 given = call->make((places)at, n);
    if (number != given)
        fail("another answer (should be, is)", number, given);
    for (bench_size i = 0; i < ARENA; i++)
        if (wanted[i] != arena[i] && (!counts[i] || (at[0] && i - (at[0] - arena) < n[0])))
            fail("a byte changed that was not lent to be (place, byte)", i, arena[i]);
    taken++;
}

static void check(int fault) {
    fill();
    count_bytes();
    if (fault != faulty())
        fail("this test does not try what it should (fault wanted, made)", fault, !fault);
    if (fault)
        must_refuse();
    else
        must_answer(call->answer);
}

/* ---- what is tried */

/* Area j stands so many bytes behind the beginning of area i, or before it, and shares some with it. */
static void try_shared(const struct call *of, unsigned i, unsigned j, long behind) {
    apart(of);
    at[i] = arena + MIDDLE;
    at[j] = at[i] + behind;
    check(1);
}

/* They begin together; j begins inside i; and j shares a byte, or up to a word, with the end of i or with its front. */
static void try_pair(const struct call *of, unsigned i, unsigned j) {
    apart(of);
    long long_i = bytes(i), long_j = bytes(j);
    try_shared(of, i, j, 0);
    try_shared(of, i, j, long_i / 8 * 4);
    for (long shared = 1; shared <= 4; shared++) {
        try_shared(of, i, j, long_i - shared);
        try_shared(of, i, j, shared - long_j);
    }
}

static void try_pairs(const struct call *of) {
    for (unsigned i = 0; lent(i); i++)
        for (unsigned j = 0; lent(j); j++)
            if (i != j)
                try_pair(of, i, j);
}

/* An empty area shares nothing, wherever it is. */
static void try_empty(const struct call *of, unsigned i, bench_u8 *place) {
    apart(of);
    at[i] = place;
    n[i] = 0;
    fill();
    count_bytes();
    must_answer(call->empty[i]);
}

/* One area at a time: not aligned; null with a length; empty. A value may be anywhere, or nowhere. */
static void try_alone(const struct call *of, unsigned i) {
    for (unsigned off = 1; off < 4; off++) {
        apart(of);
        at[i] += off;
        check(in_words(i));
    }
    apart(of);
    at[i] = 0;
    check(call->lent[i] != VALUE);
    if (call->lent[i] == VALUE)
        return;
    try_empty(of, i, 0);
    try_empty(of, i, at[!i] + 8);
}

/* A length that no memory has. */
static void try_endless(const struct call *of, unsigned i, bench_size length) {
    apart(of);
    fill();
    n[i] = length;
    bench_u32 number = call->make((places)at, n);
    if (number != 3)
        fail("a length that no memory has (length, number)", length, number);
    refused++;
}

/* For words also lengths that wrap around where they are counted in bytes: to 0, and to the right one. */
static void try_ends(const struct call *of, unsigned i) {
    const bench_size most = -1ul;
    try_endless(of, i, most);
    try_endless(of, i, most - 1);
    for (bench_size wraps = 1; in_words(i) && wraps < 4; wraps++) {
        try_endless(of, i, wraps * (most / 4 + 1));
        try_endless(of, i, wraps * (most / 4 + 1) + of->long_as[i]);
    }
}

static void try_call(const struct call *of) {
    apart(of);
    check(0);
    adjoining(of);
    check(0);
    try_pairs(of);
    for (unsigned i = 0; lent(i); i++) {
        try_alone(of, i);
        if (call->lent[i] != VALUE)
            try_ends(of, i);
    }
}

/* ---- codes and one device: nothing is refused by 3, and each value goes anywhere or nowhere */

enum { VALUES = 5, OFFSETS = 8, ANYWHERE = OFFSETS + 1, WAYS = ANYWHERE * ANYWHERE * ANYWHERE * ANYWHERE * ANYWHERE };
static bench_u32 *place[VALUES];

/* The front of the arena is filled anew. Each of the values has any place in it, aligned or not, shared or not, or none at all. */
static void choose(unsigned way) {
    for (unsigned i = 0; i < VALUES; i++, way /= ANYWHERE)
        place[i] = way % ANYWHERE < OFFSETS ? (void *)(arena + way % ANYWHERE) : 0;
    for (unsigned i = 0; i < 2 * OFFSETS; i++)
        arena[i] = 37 * i + 11;
    memcpy(wanted, arena, 2 * OFFSETS);
}

/* Of the values of a call each is to stand where it has a place, over what was put before it, and no other byte has changed. */
static void must_stand(const bench_u32 *values, unsigned count, bench_u32 returned, bench_u32 due) {
    for (unsigned i = 0; i < count; i++)
        if (place[i])
            memcpy(wanted + ((bench_u8 *)place[i] - arena), &values[i], 4);
    if (returned != due)
        fail("what a call over a code returns (should be, is)", due, returned);
    for (unsigned i = 0; i < 2 * OFFSETS; i++)
        if (wanted[i] != arena[i])
            fail("a byte of what a call over a code gives (place, byte)", i, arena[i]);
}

/* What stands at a place before a call; nowhere it is 0. */
static bench_u32 standing(unsigned i) {
    bench_u32 value = 0;
    if (place[i])
        memcpy(&value, place[i], 4);
    return value;
}

/* The only event of the router that bytes come to, and what its guarded port bars: an interrupt, and acknowledges of the event. */
enum { EVENT = 11, BARRED = 21 };

/* A byte comes to a router, whose register stands at the first place and its counter at the second; both are put there again. An
 * interrupt is taken where its bit is clear and an acknowledge where it is set, but no acknowledge of the event; and nothing that
 * its port bars. */
static void try_reaction(int guarded, bench_u8 byte, bench_u32 kind, bench_u32 top, bench_u32 value, unsigned way) {
    choose(way);
    int time = kind == BENCH_TIME, back = kind == BENCH_ACKNOWLEDGE, coded = back || kind == BENCH_INTERRUPT;
    int barred = guarded && coded && value == (back ? EVENT : BARRED);
    bench_u32 held = standing(0), counter = standing(1), bit = coded ? 1u << value : 0;
    int ready = coded && !barred && (back ? value != EVENT && held & bit : !(held & bit));
    int taken = time ? (counter + 1) % 64 == value : ready;
    bench_u32 given = guarded ? bench_react_guarded(1, 1, 15, 1u << EVENT, 1u << BARRED, 1u << EVENT, place[0], place[1], byte,
                                                    place[2], place[3], place[4])
                              : bench_react(1, 1, 15, 1u << EVENT, place[0], place[1], byte, place[2], place[3], place[4]);
    must_stand((bench_u32[]){ready ? held ^ bit : held, time ? value : counter, kind, top, value}, 5, given,
               taken ? BENCH_FORWARDED : barred ? BENCH_DROPPED : coded ? BENCH_IGNORED : BENCH_NAMED);
}

/* A byte is read; a code is written; and the byte comes to a router. */
static void try_code(bench_u8 byte, bench_u32 kind, bench_u32 top, bench_u32 value, unsigned way) {
    choose(way);
    must_stand((bench_u32[]){top, value}, 2, bench_code_read(byte, place[0], place[1]), kind);
    choose(way);
    must_stand((bench_u32[]){kind == BENCH_RESERVED ? 0 : byte}, 1, bench_code_write(kind, value, place[0]),
               kind == BENCH_RESERVED ? 5 : 0);
    for (int guarded = 0; guarded < 2; guarded++)
        try_reaction(guarded, byte, kind, top, value, way);
}

/* Of Time-Codes also the one that is next where the counter stands. */
static void try_codes(void) {
    call = 0;
    for (unsigned way = 0; way < WAYS; way++) {
        choose(way);
        bench_u32 next = (standing(1) + 1) % 64;
        try_code(next, BENCH_TIME, 0, next, way);
        try_code(40, BENCH_TIME, 0, 40, way);
        try_code(128 + 9, BENCH_INTERRUPT, 2, 9, way);
        try_code(160 + 9, BENCH_ACKNOWLEDGE, 2, 9, way);
        try_code(128 + EVENT, BENCH_INTERRUPT, 2, EVENT, way);
        try_code(160 + EVENT, BENCH_ACKNOWLEDGE, 2, EVENT, way);
        try_code(128 + BARRED, BENCH_INTERRUPT, 2, BARRED, way);
        try_code(160 + BARRED, BENCH_ACKNOWLEDGE, 2, BARRED, way);
        try_code(64 + 5, BENCH_RESERVED, 1, 5, way);
        try_code(192 + 63, BENCH_RESERVED, 3, 63, way);
    }
}

/* ---- the incident: old and next were one area, and all settled after one round */

static int in_mask(bench_u32 device, bench_u32 k) {
    return file[512 * (1 + device) + 4 + k / 8] >> k % 8 & 1;
}

static void try_one_area(bench_u32 device, bench_u32 k) {
    static bench_u32 state[BENCH_STATE], before[BENCH_STATE], sent[BENCH_SENT], told[BENCH_TOLD];
    bench_u32 rounds, held = 0;
    bench_start(file, file_length, state, BENCH_STATE);
    bench_u32 number = bench_request(file, file_length, state, BENCH_STATE, device, k);
    if (number) {
        printf("%u %u r%u 0\n", device, k, number);
        return;
    }
    memcpy(before, state, sizeof state);
    number = bench_round(file, file_length, state, BENCH_STATE, state, BENCH_STATE, sent, BENCH_SENT, told, BENCH_TOLD, 0);
    if (number != 3 || memcmp(state, before, sizeof state))
        fail("a round in one area (device, answer)", device, number);
    number = bench_settle(file, file_length, state, BENCH_STATE, BENCH_ROUNDS, &rounds);
    for (bench_u32 d = 0; d < file[1]; d++)
        held += state[BENCH_DEVICE * d] >> k & 1;
    if (number == 12)
        printf("%u %u - %u\n", device, k, held);
    else
        printf("%u %u %u %u\n", device, k, rounds, held);
}

static void print_text(void) {
    printf("network %u\n", file[1]);
    for (bench_u32 d = 0; d < file[1]; d++)
        for (bench_u32 k = 0; k < 32; k++)
            if (in_mask(d, k))
                try_one_area(d, k);
}

int main(int count, char **words) {
    long got;
    while ((got = read(0, file + file_length, sizeof file - file_length)) > 0)
        file_length += got;
    if (bench_start(file, file_length, started, BENCH_STATE))
        fail("no plan", file_length, 0);
    if (count == 2 && !strcmp(words[1], "text")) {
        print_text();
        return 0;
    }
    for (unsigned i = 0; i < CALLS; i++)
        try_call(&calls[i]);
    try_codes();
    printf("lending: %lu refused by 3, %lu taken\n", refused, taken);
    return 0;
}
