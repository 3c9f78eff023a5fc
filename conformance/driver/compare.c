/* One comparison is one call made to the judge and to the bench, with everything that it touches compared.
 *
 * Each area is lent to each of the two in a place of its own, with guard bytes at both sides, and with the same content. */
#include "driver.h"

enum { GUARD = 64, GUARD_BYTE = 0xA5, LENT = 6, ASKED = 9 };

/* What a call may do with an area: nothing, write it unless it refuses, or write it in any case. */
enum use { INPUT, AREA, VALUE };

struct lent {
    const char *name;
    enum use use;
    u32 width; /* bytes in an item */
    size from, bytes;
    _Alignas(16) u8 before[ROOM + sizeof(size)], judge[ROOM + 3 * GUARD], bench[ROOM + 3 * GUARD];
};

static struct lent lents[LENT];
static u32 lent_count;
static enum call this_call;
static size asked[ASKED];
static size comparisons[CALLS], hits[CALLS][2][29]; /* those of a link by its flag, of all others the first of the two */

static const char *const names[CALLS] = {
    "code read", "code write", "react", "plan read", "start", "request", "acknowledge", "link", "reset", "tick", "round",
    "settle", "reach", "report", "crossings", "chain", "cut", "why", "rescue"};

/* Every number that a call can answer; the run has to hit each, for a link with either flag. */
enum { END = 255 };
#define OF_FILES 20, 21, 22, 23, 24, 25, 26, 27
static const u8 numbers[CALLS][18] = {
    [CODE_READ] = {0, END}, [CODE_WRITE] = {0, 5, END}, [REACT] = {0, END},
    [PLAN_READ] = {0, OF_FILES, END}, [START] = {0, OF_FILES, 3, END},
    [REQUEST] = {0, OF_FILES, 2, 4, 5, 6, 7, 8, 9, END}, [ACKNOWLEDGES] = {0, OF_FILES, 2, 4, 5, 6, 13, 7, 8, 9, END},
    [LINK] = {0, OF_FILES, 2, 4, 7, 10, END}, [RESET] = {0, OF_FILES, 2, 4, END},
    [TICK] = {0, OF_FILES, 2, 4, 14, 7, END}, [ROUND] = {0, OF_FILES, 2, 3, END},
    [SETTLE] = {0, OF_FILES, 2, 11, 12, END}, [REACH] = {0, OF_FILES, 2, 4, 5, 6, END}, [REPORT] = {0, 3, END},
    [CROSSINGS] = {0, OF_FILES, 2, 3, 4, 5, 6, END}, [CHAIN] = {0, OF_FILES, 2, 3, 4, 5, 6, END},
    [CUT] = {0, OF_FILES, 2, 3, 4, 5, 6, END}, [WHY] = {0, 3, END},
    [RESCUE] = {0, 3, OF_FILES, 28, END}};

_Noreturn void fail(const char *what, size one, size other) {
    printf("judge: %s: %lu, %lu\n", what, one, other);
    printf("in %s(%lu", names[this_call], asked[0]);
    for (u32 i = 1; i < ASKED; i++)
        printf(", %lu", asked[i]);
    printf(")\n");
    say_where();
    exit(1);
}

/* What the paper says of both. */
void must_be(const char *what, size wanted, size given) {
    if (wanted != given)
        fail(what, wanted, given);
}

void must_say(const char *what, const char *text, const struct printed *printed) {
    must_be(what, strlen(text), printed->used);
    must_be(what, 0, memcmp(text, printed->text, printed->used) != 0);
}

/* A call, and the numbers that it is given, for where it fails. */
#define GIVEN(...) (const size[ASKED]){__VA_ARGS__}
static void begin(enum call call, const size *given) {
    this_call = call;
    memcpy(asked, given, sizeof asked);
    lent_count = 0;
}

/* Lends an area; one with no content is full of random bytes. An area of bytes may start at any address. */
static struct lent *lend(const char *name, enum use use, u32 width, const void *content, size length) {
    struct lent *lent = &lents[lent_count++];
    lent->name = name;
    lent->use = use;
    lent->width = width;
    lent->bytes = length * width;
    lent->from = GUARD + (width == 1 ? pick(16) : 0);
    if (content)
        memcpy(lent->before, content, lent->bytes);
    for (size i = 0; !content && i < lent->bytes; i += sizeof(size)) {
        size word = random_word();
        memcpy(lent->before + i, &word, sizeof word);
    }
    u8 *both[] = {lent->judge, lent->bench};
    for (u32 i = 0; i < 2; i++) {
        memset(both[i], GUARD_BYTE, lent->from);
        memcpy(both[i] + lent->from, lent->before, lent->bytes);
        memset(both[i] + lent->from + lent->bytes, GUARD_BYTE, GUARD);
    }
    return lent;
}

static void *by_judge(struct lent *lent) {
    return lent->judge + lent->from;
}

static void *by_bench(struct lent *lent) {
    return lent->bench + lent->from;
}

static flag guarded(const u8 *place, const struct lent *lent) {
    flag kept = 1;
    for (size i = 0; i < lent->from; i++)
        kept &= place[i] == GUARD_BYTE;
    for (size i = 0; i < GUARD; i++)
        kept &= place[lent->from + lent->bytes + i] == GUARD_BYTE;
    return kept;
}

/* Two contents that should be the same; where they are not, the first item that differs is named. */
static void same(const struct lent *lent, const char *what, const u8 *judge, const u8 *bench) {
    if (!memcmp(judge, bench, lent->bytes))
        return;
    size i = 0;
    while (!memcmp(judge + i * lent->width, bench + i * lent->width, lent->width))
        i++;
    u32 ours = 0, theirs = 0;
    memcpy(&ours, judge + i * lent->width, lent->width);
    memcpy(&theirs, bench + i * lent->width, lent->width);
    printf("judge: the %s, %s, first at %lu\n", lent->name, what, i);
    fail("it differs (should be, is)", ours, theirs);
}

/* Compares what a call answered and all that it was lent. A refusal but 12 changes no area. */
static u32 finish(u32 judge, u32 bench) {
    flag answers_number = this_call != CODE_READ && this_call != REACT;
    must_be("the numbers of judge and bench", judge, bench);
    flag refused = answers_number && bench != 0 && bench != 12;
    for (u32 i = 0; i < lent_count; i++) {
        struct lent *lent = &lents[i];
        if (!guarded(lent->judge, lent) || !guarded(lent->bench, lent))
            fail("an area's guards (1 if kept by judge, by bench)", guarded(lent->judge, lent), guarded(lent->bench, lent));
        same(lent, "after the call", by_judge(lent), by_bench(lent));
        if (lent->use == INPUT || (lent->use == AREA && refused))
            same(lent, "which may not change", lent->before, by_bench(lent));
    }
    comparisons[this_call]++;
    hits[this_call][this_call == LINK && asked[4]][answers_number ? bench : 0]++;
    return bench;
}

u32 value_given(u32 which) {
    u32 value = 0, values = 0;
    for (u32 i = 0; i < lent_count; i++)
        if (lents[i].use == VALUE && values++ == which)
            memcpy(&value, by_bench(&lents[i]), sizeof value);
    if (which >= values)
        fail("a value that the call does not give (which, of how many)", which, values);
    return value;
}

/* What stands where parts of a code go: no part of any, so that a place which neither of the two writes is seen by what the driver
 * knows of codes. */
static const u32 no_part = 256;

u32 try_code_read(u8 byte) {
    begin(CODE_READ, GIVEN(byte));
    struct lent *top = lend("top", VALUE, 4, &no_part, 1), *value = lend("value", VALUE, 4, 0, 1);
    u32 judge = judge_code_read(byte, by_judge(top), by_judge(value));
    return finish(judge, bench_code_read(byte, by_bench(top), by_bench(value)));
}

u32 try_code_write(u32 kind, u32 value) {
    begin(CODE_WRITE, GIVEN(kind, value));
    struct lent *byte = lend("byte", VALUE, 4, 0, 1);
    u32 judge = judge_code_write(kind, value, by_judge(byte));
    return finish(judge, bench_code_write(kind, value, by_bench(byte)));
}

u32 try_react_guarded(u32 role, u32 running, u32 permissions, u32 events, struct bars bars, u32 *device_register, u32 *counter,
                      u8 byte) {
    begin(REACT, GIVEN(role, running, permissions, events, bars.interrupts, bars.acknowledges, *device_register, *counter, byte));
    struct lent *bits = lend("register", AREA, 4, device_register, 1), *count = lend("counter", AREA, 4, counter, 1);
    struct lent *kind = lend("kind", VALUE, 4, &no_part, 1), *top = lend("top", VALUE, 4, &no_part, 1);
    struct lent *value = lend("value", VALUE, 4, &no_part, 1);
    u32 judge = judge_react_guarded(role, running, permissions, events, bars.interrupts, bars.acknowledges, by_judge(bits),
                                    by_judge(count), byte, by_judge(kind), by_judge(top), by_judge(value));
    u32 bench = bench_react_guarded(role, running, permissions, events, bars.interrupts, bars.acknowledges, by_bench(bits),
                                    by_bench(count), byte, by_bench(kind), by_bench(top), by_bench(value));
    finish(judge, bench);
    memcpy(device_register, by_bench(bits), bits->bytes);
    memcpy(counter, by_bench(count), count->bytes);
    return bench;
}

/* For a port that bars nothing the header has a function without bars, which does the same. */
u32 try_react(u32 role, u32 running, u32 permissions, u32 events, u32 *device_register, u32 *counter, u8 byte) {
    u32 bits = *device_register, count = *counter, kind = no_part, top = no_part, value = no_part;
    u32 action = try_react_guarded(role, running, permissions, events, (struct bars){0, 0}, device_register, counter, byte);
    must_be("the action without bars", action,
            bench_react(role, running, permissions, events, &bits, &count, byte, &kind, &top, &value));
    must_be("the register without bars", *device_register, bits);
    must_be("the counter without bars", *counter, count);
    must_be("the kind without bars", value_given(0), kind);
    must_be("the top bits without bars", value_given(1), top);
    must_be("the value without bars", value_given(2), value);
    return action;
}

u32 try_plan_read(const struct plan *plan) {
    begin(PLAN_READ, GIVEN(plan->length));
    struct lent *file = lend("file", INPUT, 1, plan->bytes, plan->length), *block = lend("block", VALUE, 4, 0, 1);
    u32 judge = judge_plan_read(by_judge(file), plan->length, by_judge(block));
    return finish(judge, bench_plan_read(by_bench(file), plan->length, by_bench(block)));
}

u32 judge_change(struct change change, const u8 *plan, size plan_length, u32 *state, size state_length) {
    size device = change.device, other = change.other;
    switch (change.call) {
    case START: return judge_start(plan, plan_length, state, state_length);
    case REQUEST: return judge_request(plan, plan_length, state, state_length, device, other);
    case ACKNOWLEDGES: return judge_acknowledge(plan, plan_length, state, state_length, device, other);
    case LINK: return judge_link(plan, plan_length, state, state_length, device, other, change.running);
    case TICK: return judge_tick(plan, plan_length, state, state_length, device);
    default: return judge_reset(plan, plan_length, state, state_length, device);
    }
}

static u32 bench_change(struct change change, const u8 *plan, size plan_length, u32 *state, size state_length) {
    size device = change.device, other = change.other;
    switch (change.call) {
    case START: return bench_start(plan, plan_length, state, state_length);
    case REQUEST: return bench_request(plan, plan_length, state, state_length, device, other);
    case ACKNOWLEDGES: return bench_acknowledge(plan, plan_length, state, state_length, device, other);
    case LINK: return bench_link(plan, plan_length, state, state_length, device, other, change.running);
    case TICK: return bench_tick(plan, plan_length, state, state_length, device);
    default: return bench_reset(plan, plan_length, state, state_length, device);
    }
}

u32 try_change(struct change change, const struct plan *plan, struct state *state) {
    begin(change.call, GIVEN(plan->length, state->length, change.device, change.other, change.running));
    struct lent *file = lend("plan", INPUT, 1, plan->bytes, plan->length);
    struct lent *area = lend("state", AREA, 4, state->words, state->length);
    u32 judge = judge_change(change, by_judge(file), plan->length, by_judge(area), state->length);
    finish(judge, bench_change(change, by_bench(file), plan->length, by_bench(area), state->length));
    memcpy(state->words, by_bench(area), area->bytes);
    return judge;
}

u32 try_start(const struct plan *plan, struct state *state) {
    return try_change((struct change){.call = START}, plan, state);
}

/* Where the judge has the old state in its records, as the round before left them, it need not read it again. */
u32 try_round_of(struct network *known, const struct plan *plan, const struct state *old, struct played *played) {
    size next_length = played->next.length, sent_length = played->sent_length, told_length = played->told_length;
    begin(ROUND, GIVEN(plan->length, old->length, next_length, sent_length, told_length));
    struct lent *file = lend("plan", INPUT, 1, plan->bytes, plan->length);
    struct lent *from = lend("old state", INPUT, 4, old->words, old->length);
    struct lent *next = lend("next state", AREA, 4, 0, next_length), *sent = lend("bytes sent", AREA, 4, 0, sent_length);
    struct lent *told = lend("words told", AREA, 4, 0, told_length), *count = lend("count", VALUE, 4, 0, 1);
    u32 judge = 0;
    if (known)
        build_round(known, by_judge(next), by_judge(sent), by_judge(told), by_judge(count));
    else
        judge = judge_round(by_judge(file), plan->length, by_judge(from), old->length, by_judge(next), next_length,
                            by_judge(sent), sent_length, by_judge(told), told_length, by_judge(count));
    u32 bench = bench_round(by_bench(file), plan->length, by_bench(from), old->length, by_bench(next), next_length,
                            by_bench(sent), sent_length, by_bench(told), told_length, by_bench(count));
    finish(judge, bench);
    memcpy(played->next.words, by_bench(next), next->bytes);
    memcpy(played->sent, by_bench(sent), sent->bytes);
    memcpy(played->told, by_bench(told), told->bytes);
    memcpy(&played->count, by_bench(count), count->bytes);
    return bench;
}

u32 try_round(const struct plan *plan, const struct state *old, struct played *played) {
    return try_round_of(0, plan, old, played);
}

u32 try_settle(const struct plan *plan, struct state *state, u32 allowance) {
    begin(SETTLE, GIVEN(plan->length, state->length, allowance));
    struct lent *file = lend("plan", INPUT, 1, plan->bytes, plan->length);
    struct lent *area = lend("state", AREA, 4, state->words, state->length);
    struct lent *rounds = lend("rounds", VALUE, 4, 0, 1);
    u32 judge = judge_settle(by_judge(file), plan->length, by_judge(area), state->length, allowance, by_judge(rounds));
    u32 bench = bench_settle(by_bench(file), plan->length, by_bench(area), state->length, allowance, by_bench(rounds));
    finish(judge, bench);
    memcpy(state->words, by_bench(area), area->bytes);
    return bench;
}

/* No reach examines more ports than a node and 31 routers have. More than that stands where the count goes, so that a place which
 * neither of the two writes is seen. */
enum { MOST_EXAMINED = NODE_PORTS + (DEVICES - 1) * PORTS };
static const u32 no_count = MOST_EXAMINED + 1;

/* Reach without the count answers what the one with it has just answered. What stands in its places before is something else. */
static void same_without_count(struct lent *plan, struct lent *state, size device, u32 k, u32 number) {
    u32 devices = ~value_given(0), set = ~value_given(1);
    must_be("the number of reach without the count", number,
            bench_reach(by_bench(plan), plan->bytes, by_bench(state), state->bytes / state->width, device, k, &devices, &set));
    must_be("the devices of reach without the count", value_given(0), devices);
    must_be("the set of reach without the count", value_given(1), set);
}

/* What T-10 counts, by the bytes of the plan and the set alone: byte 3 of the source's block and of those of reached routers. */
static u32 ports_of(const struct plan *plan, size source, u32 set) {
    u32 ports = 0;
    for (u32 d = 0; d < DEVICES; d++) {
        const u8 *block = plan->bytes + BLOCK * (1 + d);
        if (set >> d & 1 && (d == source || block[2] == 1))
            ports += block[3];
    }
    return ports;
}

static u32 check_examined(const struct plan *plan, size source, u32 number) {
    u32 examined = value_given(2);
    must_be("the ports examined, by the bytes", number ? 0 : ports_of(plan, source, value_given(1)), examined);
    if (examined > MOST_EXAMINED)
        fail("more ports were examined than there are (ports, most)", examined, MOST_EXAMINED);
    return number;
}

u32 try_reach(const struct plan *plan, const struct state *state, size device, u32 k) {
    begin(REACH, GIVEN(plan->length, state->length, device, k));
    struct lent *file = lend("plan", INPUT, 1, plan->bytes, plan->length);
    struct lent *area = lend("state", INPUT, 4, state->words, state->length);
    struct lent *devices = lend("devices", VALUE, 4, 0, 1), *set = lend("set", VALUE, 4, 0, 1);
    struct lent *examined = lend("ports examined", VALUE, 4, &no_count, 1);
    u32 judge = judge_reach_ports(by_judge(file), plan->length, by_judge(area), state->length, device, k, by_judge(devices),
                                  by_judge(set), by_judge(examined));
    u32 bench = bench_reach_ports(by_bench(file), plan->length, by_bench(area), state->length, device, k, by_bench(devices),
                                  by_bench(set), by_bench(examined));
    same_without_count(file, area, device, k, bench);
    return check_examined(plan, device, finish(judge, bench));
}

static u32 judge_way(enum call call, const u8 *plan, size plan_length, const u32 *state, size state_length,
                     struct question asks, u32 *words, size length, u32 *value) {
    switch (call) {
    case CROSSINGS: return judge_crossings(plan, plan_length, state, state_length, asks.source, asks.k, words, length, value);
    case CUT: return judge_cut(plan, plan_length, state, state_length, asks.source, asks.k, words, length, value);
    default:
        return judge_chain(plan, plan_length, state, state_length, asks.source, asks.k, asks.device, words, length, value);
    }
}

static u32 bench_way(enum call call, const u8 *plan, size plan_length, const u32 *state, size state_length,
                     struct question asks, u32 *words, size length, u32 *value) {
    switch (call) {
    case CROSSINGS: return bench_crossings(plan, plan_length, state, state_length, asks.source, asks.k, words, length, value);
    case CUT: return bench_cut(plan, plan_length, state, state_length, asks.source, asks.k, words, length, value);
    default:
        return bench_chain(plan, plan_length, state, state_length, asks.source, asks.k, asks.device, words, length, value);
    }
}

u32 try_way(enum call call, const struct plan *plan, const struct state *state, struct question asks, struct found *found) {
    begin(call, GIVEN(plan->length, state->length, asks.source, asks.k, asks.device, found->length));
    struct lent *file = lend("plan", INPUT, 1, plan->bytes, plan->length);
    struct lent *area = lend("state", INPUT, 4, state->words, state->length);
    struct lent *words = lend("words", AREA, 4, 0, found->length), *value = lend("value", VALUE, 4, 0, 1);
    u32 judge = judge_way(call, by_judge(file), plan->length, by_judge(area), state->length, asks, by_judge(words),
                          found->length, by_judge(value));
    finish(judge, bench_way(call, by_bench(file), plan->length, by_bench(area), state->length, asks, by_bench(words),
                            found->length, by_bench(value)));
    memcpy(found->words, by_bench(words), words->bytes);
    memcpy(&found->value, by_bench(value), value->bytes);
    if (judge)
        must_be("the value beside a refusal", 0, found->value);
    return judge;
}

/* A text stands in front of its area, and behind it nothing is changed. Where there is none its length is 0. */
static u32 take_text(u32 number, struct printed *printed, struct lent *text, struct lent *used) {
    const u8 *bytes = by_bench(text);
    memcpy(printed->text, bytes, text->bytes);
    memcpy(&printed->used, by_bench(used), used->bytes);
    if (printed->used > text->bytes)
        fail("a text that is longer than its area (text, area)", printed->used, text->bytes);
    if (memcmp(text->before + printed->used, bytes + printed->used, text->bytes - printed->used))
        fail("something is changed behind a text (text, area)", printed->used, text->bytes);
    if (number)
        must_be("the length of a text that is refused", 0, printed->used);
    return number;
}

u32 try_why(const struct plan *plan, const struct state_file *given, struct question asks, struct printed *printed) {
    u32 source = asks.source, device = asks.device;
    begin(WHY, GIVEN(plan->length, given->given, given->length, source, asks.k, device, printed->text_length));
    struct lent *file = lend("plan", INPUT, 1, plan->bytes, plan->length);
    struct lent *area = lend("state", INPUT, 1, given->bytes, given->length);
    struct lent *text = lend("text", AREA, 1, 0, printed->text_length), *used = lend("length used", VALUE, 4, 0, 1);
    u32 judge = judge_why(by_judge(file), plan->length, given->given, by_judge(area), given->length, source, asks.k, device,
                          by_judge(text), printed->text_length, by_judge(used));
    u32 bench = bench_why(by_bench(file), plan->length, given->given, by_bench(area), given->length, source, asks.k, device,
                          by_bench(text), printed->text_length, by_bench(used));
    return take_text(finish(judge, bench), printed, text, used);
}

u32 try_report(const struct plan *plan, struct printed *printed) {
    begin(REPORT, GIVEN(plan->length, printed->text_length));
    struct lent *file = lend("file", INPUT, 1, plan->bytes, plan->length);
    struct lent *text = lend("text", AREA, 1, 0, printed->text_length), *used = lend("length used", VALUE, 4, 0, 1);
    u32 judge = judge_report(by_judge(file), plan->length, by_judge(text), printed->text_length, by_judge(used));
    u32 bench = bench_report(by_bench(file), plan->length, by_bench(text), printed->text_length, by_bench(used));
    return take_text(finish(judge, bench), printed, text, used);
}

u32 try_rescue(const struct plan *plan, struct rescued *rescued) {
    size mended_length = rescued->mended_length, text_length = rescued->printed.text_length;
    begin(RESCUE, GIVEN(plan->length, mended_length, text_length));
    struct lent *file = lend("file", INPUT, 1, plan->bytes, plan->length);
    struct lent *mended = lend("mended file", AREA, 1, 0, mended_length), *text = lend("text", AREA, 1, 0, text_length);
    struct lent *block = lend("block", VALUE, 4, 0, 1), *used = lend("length used", VALUE, 4, 0, 1);
    u32 judge = judge_rescue(by_judge(file), plan->length, by_judge(mended), mended_length, by_judge(text), text_length,
                             by_judge(block), by_judge(used));
    u32 bench = bench_rescue(by_bench(file), plan->length, by_bench(mended), mended_length, by_bench(text), text_length,
                             by_bench(block), by_bench(used));
    finish(judge, bench);
    memcpy(rescued->mended, by_bench(mended), mended->bytes);
    memcpy(&rescued->block, by_bench(block), block->bytes);
    return take_text(bench, &rescued->printed, text, used);
}

static flag hit(enum call call, flag running) {
    const char *which = call != LINK ? "" : running ? " to run" : " to stop";
    flag all = 1;
    for (u32 i = 0; numbers[call][i] != END; i++)
        if (!hits[call][running][numbers[call][i]]) {
            printf("%s%s was never answered by %u\n", names[call], which, numbers[call][i]);
            all = 0;
        }
    return all;
}

flag all_hit(void) {
    flag all = hit(LINK, 1);
    for (u32 c = 0; c < CALLS; c++)
        all &= hit(c, 0);
    return all;
}

size compared(void) {
    size sum = 0;
    for (u32 c = 0; c < CALLS; c++)
        sum += comparisons[c];
    return sum;
}

void table(void) {
    for (u32 c = 0; c < CALLS; c++)
        printf("%-12s %9lu\n", names[c], comparisons[c]);
    printf("%-12s %9lu\nnumber     answers\n", "comparisons", compared());
    for (u32 n = 0; n <= 28; n++) {
        size times = 0;
        for (u32 c = 0; c < CALLS; c++)
            times += hits[c][0][n] + hits[c][1][n];
        if (times)
            printf("%6u %11lu\n", n, times);
    }
}
