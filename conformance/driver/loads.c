/* T-12, tried: timers per identifier. Which pairs of loads a file may have, and what plans have of them; that in any run a timer
 * is loaded with what its identifier has at its device, and with nothing else; and whose loads k had in the other trials that
 * need some. */
#include "driver.h"

enum { MOST_LOAD = 65535 };

/* ---- what plans have */

enum having { NO_PAIR, ONE_PAIR, SOME_PAIRS, ALL_PAIRS, A_LONGER, A_SHORTER, AN_EQUAL, OF_1, OF_MOST, HAVINGS };
static const char *const having_names[HAVINGS] = {
    "no pair", "one pair", "several pairs", "a pair for each identifier", "a pair that is longer than the common",
    "a pair that is shorter", "a pair of equal loads", "a load of 1 in a pair", "a load of 65,535 in a pair"};
static size havings[HAVINGS];

void count_pairs(const struct plan *plan) {
    struct loads common = common_loads(plan);
    flag has[HAVINGS] = {0};
    u32 pairs = 0;
    for (u32 k = 0; k < IDENTIFIERS; k++) {
        struct loads own = own_loads(plan, k);
        if (!has_pair(plan, k))
            continue;
        pairs++;
        has[A_LONGER] |= own.router > common.router && own.node > common.node;
        has[A_SHORTER] |= own.router < common.router && own.node < common.node;
        has[AN_EQUAL] |= own.router == own.node;
        has[OF_1] |= own.router == 1;
        has[OF_MOST] |= own.node == MOST_LOAD;
    }
    has[!pairs ? NO_PAIR : pairs == 1 ? ONE_PAIR : pairs < IDENTIFIERS ? SOME_PAIRS : ALL_PAIRS] = 1;
    for (u32 i = 0; i < HAVINGS; i++)
        havings[i] += has[i];
}

/* ---- what files may have */

/* A pair that is put: three that are right, and three that are not. */
enum put { LONGER, SHORTER, EQUAL, NO_ROUTER, NO_NODE, ABOVE, PUTS };
static const char *const put_names[PUTS] = {
    "longer than the common ones", "shorter than those", "equal for routers and nodes", "0 for routers", "0 for nodes",
    "for routers above that for nodes"};
static size pairs_put[PUTS];

/* And what else is wrong with the file; by what it is refused where the pair is right, and where it is wrong. The block is 0, but
 * for that of a device. */
enum beside { NOTHING_ELSE, CHECK, FIRST_BYTE, COMMON_LOADS, ZERO_BEFORE, ZERO_BEHIND, BLOCKS, OF_DEVICE, BESIDES };
static const char *const beside_names[BESIDES] = {
    "nothing else", "a wrong check", "a wrong byte 0", "wrong common loads", "a byte of 11 to 15 that is not 0",
    "a byte behind 143 that is not 0", "a block too many, or one too few", "the check of a device's block"};
static const u32 of_right[BESIDES] = {0, 21, 22, 23, 24, 24, 25, 21}, of_wrong[BESIDES] = {23, 21, 22, 23, 23, 23, 23, 23};
static size beside_right[BESIDES], beside_wrong[BESIDES];

static u32 some_load(void) {
    return 1 + pick(once_in(2) ? 4 : MOST_LOAD);
}

/* Where nothing is longer than the common loads, or nothing is shorter, the two are equal. */
static enum put put_pair(struct plan *plan, u32 k) {
    struct loads common = common_loads(plan);
    enum put put = pick(PUTS);
    u32 router = some_load(), node = router;
    if (put == LONGER && common.node < MOST_LOAD) {
        node = common.node + 1 + pick(once_in(2) ? 1 : MOST_LOAD - common.node);
        router = once_in(2) ? node : 1 + pick(node);
    } else if (put == SHORTER && common.router > 1) {
        node = common.router - 1 - pick(once_in(2) ? 1 : common.router - 1);
        router = once_in(2) ? node : 1 + pick(node);
    } else if (put == NO_ROUTER) {
        router = 0;
    } else if (put == NO_NODE) {
        node = 0;
    } else if (put == ABOVE) {
        router += router == 1;
        node = once_in(2) ? router - 1 : 1 + pick(router - 1);
    } else {
        put = EQUAL;
    }
    set_own_loads(plan, k, router, node);
    return put;
}

/* The block in which the fault is. Where there are 32 devices, no file has a block more. */
static u32 put_beside(struct plan *plan, enum beside beside) {
    u32 dirt = 1 + pick(255), d = pick(plan->bytes[1]), load = some_load();
    switch (beside) {
    case FIRST_BYTE: plan->bytes[0] ^= dirt; break;
    case COMMON_LOADS: set_loads(plan, once_in(2) ? 0 : load, load - 1); break;
    case ZERO_BEFORE: plan->bytes[MASTER + 1 + pick(OWN_LOADS - MASTER - 1)] = dirt; break;
    case ZERO_BEHIND: plan->bytes[BEHIND_LOADS + pick(once_in(2) ? 1 : 510 - BEHIND_LOADS)] = dirt; break;
    case BLOCKS:
        memset(plan->bytes + plan->length, 0, BLOCK);
        plan->length += plan->length < LONGEST_FILE ? BLOCK : -BLOCK;
        break;
    case OF_DEVICE: device_block(plan, d)[511] ^= dirt; return 1 + d;
    default: break;
    }
    seal(plan, 0);
    if (beside == CHECK)
        plan->bytes[511] ^= dirt;
    return 0;
}

void try_pairs(const struct plan *given) {
    static struct plan plan;
    for (enum beside beside = 0; beside < BESIDES; beside++) {
        plan = *given;
        enum put put = put_pair(&plan, pick(IDENTIFIERS));
        flag right = put <= EQUAL;
        u32 block = put_beside(&plan, beside), number = right ? of_right[beside] : of_wrong[beside];
        must_be("a file with this pair", number, try_plan_read(&plan));
        must_be("the block", right ? block : 0, value_given(0));
        pairs_put[put]++;
        (right ? beside_right : beside_wrong)[beside]++;
    }
}

/* ---- what timers are loaded with */

/* Where it happens, and by which loads: the common ones first, and then a pair. */
enum loaded { BY_REQUEST, AT_ROUTER, AT_NODE, LOADED };
static const char *const loaded_names[2 * LOADED] = {
    "a request, by the common loads", "a request, by a pair", "a router, by the common loads", "a router, by a pair",
    "a node, by the common loads", "a node, by a pair"};
static size loaded[2 * LOADED];

static void check_load(struct plan *plan, u32 d, u32 k, u32 timer, enum loaded where) {
    u32 load = load_at(plan, d, loads_of(plan, k));
    if (timer != load) {
        printf("judge: T-12: the load of identifier %u at device %u\n", k, d);
        fail("a timer is loaded otherwise (should be, is)", load, timer);
    }
    loaded[2 * where + has_pair(plan, k)]++;
}

/* A call changes a timer where it clears it, or is a request of that identifier there. */
void loads_in_call(struct plan *plan, struct state *before, struct state *after, const struct change *change, u32 number) {
    for (u32 i = 0; i < plan->bytes[1] * IDENTIFIERS; i++) {
        u32 d = i / IDENTIFIERS, k = i % IDENTIFIERS, was = device_words(before, d)[1 + k], is = device_words(after, d)[1 + k];
        flag requested = !number && change->call == REQUEST && change->device == d && (u32)change->other == k;
        if (requested)
            check_load(plan, d, k, is, BY_REQUEST);
        else if (is && is != was)
            fail("a timer is loaded by no request (identifier, is)", k, is);
    }
}

/* In a round a timer that runs falls by one. One that is there behind it all the same was loaded. */
void loads_in_round(struct plan *plan, struct state *before, struct played *played) {
    for (u32 i = 0; i < plan->bytes[1] * IDENTIFIERS; i++) {
        u32 d = i / IDENTIFIERS, k = i % IDENTIFIERS;
        u32 was = device_words(before, d)[1 + k], is = device_words(&played->next, d)[1 + k];
        if (is && is + 1 != was)
            check_load(plan, d, k, is, device_block(plan, d)[2] == 1 ? AT_ROUTER : AT_NODE);
    }
}

/* ---- what loads are for */

/* By which loads k lasts as long as it has to: the common ones, and among these trials those in which a pair of another is too
 * short; or a pair, and among these those in which the common ones are. Too short is what is so for nodes, too. */
enum means { COMMON, BESIDE_SHORT, PAIR, OVER_SHORT, MEANS };
static const char *const means_names[MEANS] = {"common", "beside short pairs", "a pair", "over short common"};
static const char *const trial_names[TRIALS] = {"demand 3", "T-01", "T-03", "T-08", "T-11"};
static size by_means[TRIALS][MEANS];

static flag others_short(const struct plan *plan, u32 k, u32 rounds) {
    for (u32 other = 0; other < IDENTIFIERS; other++)
        if (other != k && has_pair(plan, other) && own_loads(plan, other).node <= rounds)
            return 1;
    return 0;
}

void count_loads(enum trial trial, const struct course *course, u32 k, u32 rounds) {
    const struct plan *plan = &course->plan;
    flag pair = has_pair(plan, k);
    by_means[trial][COMMON] += !pair;
    by_means[trial][BESIDE_SHORT] += !pair && others_short(plan, k, rounds);
    by_means[trial][PAIR] += pair;
    by_means[trial][OVER_SHORT] += pair && common_loads(plan).node <= rounds;
}

void loads_table(void) {
    printf("T-12, plans that have                          times\n");
    counts_table(having_names, havings, HAVINGS);
    printf("pairs put into a file                          times\n");
    counts_table(put_names, pairs_put, PUTS);
    printf("and beside a pair                              right     wrong\n");
    for (u32 b = 0; b < BESIDES; b++)
        printf("  %-41s %8lu %9lu\n", beside_names[b], beside_right[b], beside_wrong[b]);
    printf("timers loaded, with any calls                  times\n");
    counts_table(loaded_names, loaded, 2 * LOADED);
    printf("loads of k     ");
    for (u32 m = 0; m < MEANS; m++)
        printf(" %18s", means_names[m]);
    for (u32 t = 0; t < TRIALS; t++) {
        printf("\n  %-13s", trial_names[t]);
        for (u32 m = 0; m < MEANS; m++)
            printf(" %18lu", by_means[t][m]);
    }
    printf("\n");
}

flag all_loads_tried(void) {
    flag all = all_counted("T-12, no plan had", having_names, havings, HAVINGS);
    all &= all_counted("no pair was put that is", put_names, pairs_put, PUTS);
    all &= all_counted("beside a right pair there never was", beside_names, beside_right, BESIDES);
    all &= all_counted("beside a wrong pair there never was", beside_names, beside_wrong, BESIDES);
    all &= all_counted("no timer was loaded so", loaded_names, loaded, 2 * LOADED);
    for (u32 t = 0; t < TRIALS; t++) {
        char what[64];
        snprintf(what, sizeof what, "k never had its loads so in %s", trial_names[t]);
        all &= all_counted(what, means_names, by_means[t], MEANS);
    }
    return all;
}
