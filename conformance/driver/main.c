/* The cases, each from the seed and its number alone. */
#include "driver.h"

static struct plan plan;
static size seed, this_case, before_case;
static size drops[ANSWERS], replugged[ANSWERS], one_of_two, both_of_two, of_events;
static struct demands demands;
static struct trips trips;

void say_where(void) {
    printf("comparison %lu of the case; again: conformance/run --seed %lu --case %lu\n", compared() - before_case, seed,
           this_case);
}

/* What the driver knows by itself of both, which needs no network of any shape. */
static void play_known(void) {
    known_values();
    known_times();
    known_events();
    known_chains();
    known_examined();
    known_bars();
    known_loads();
    known_rescues();
    try_tables();
}

static void play(size which) {
    this_case = which;
    before_case = compared();
    random_begin(seed, which);
    if (which == 0)
        play_known();
    make_plan(&plan);
    count_shapes(&plan);
    count_bars(&plan);
    count_pairs(&plan);
    try_files(&plan);
    try_masters(&plan);
    try_sources(&plan);
    try_bars(&plan);
    try_pairs(&plan);
    try_calls(&plan);
    try_ports(&plan);
    try_run(&plan, which % 16 == 15 ? 500 : 40);
    try_settling(&plan);
    try_reports(&plan);
    try_demand_3(&plan, &demands);
    try_cycles(&plan, &trips);
    try_time(&plan);
    struct drop drop = try_drop(&plan);
    drops[drop.answer]++;
    replugged[drop.answer] += drop.again;
    one_of_two += drop.one;
    both_of_two += drop.both;
    of_events += drop.event;
    try_events(&plan);
    try_whys(&plan);
    try_guards(&plan);
    try_rescues(&plan);
}

static flag tried(const char *what, size times) {
    if (!times)
        printf("never tried: %s\n", what);
    return times != 0;
}

/* Whatever the run is to try was tried at least once. */
static flag all_tried(void) {
    flag all = tried("demand 3", demands.networks);
    all &= tried("demand 3 of an event", demands.events);
    all &= tried("demand 3 of an identifier that is none", demands.others);
    all &= tried("demand 3 from two ports", demands.from_both);
    all &= tried("demand 3 with a bar in the way", demands.barred);
    all &= tried("demand 3 with a first crossing of 64 rounds", demands.slowest == CROSSING);
    all &= tried("T-01", trips.networks);
    all &= tried("T-01, two cycles in a row", trips.cycles - trips.networks);
    all &= tried("T-01 from a source with two ports that run", trips.from_both);
    all &= tried("T-01 with a handler that has two", trips.back_by_both);
    all &= tried("T-01 with an acknowledge that gets to devices out of the source's reach", trips.beyond);
    all &= tried("T-01 while others are barred", trips.barred);
    all &= tried("T-01 with a first crossing of 64 rounds by an acknowledge", trips.slowest_back == CROSSING);
    all &= tried("a pair that does not allow T-01", trips.other_pairs);
    all &= tried("T-03, an acknowledge after a cable was out and in again", replugged[ACKNOWLEDGED]);
    all &= tried("T-03, a timeout after that", replugged[TIMED_OUT]);
    all &= tried("T-03, one of two cables out", one_of_two);
    all &= tried("T-03, both out", both_of_two);
    all &= tried("T-03 of an event", of_events);
    return all;
}

/* A line on standard error at each tenth. */
static void progress(size played, size cases) {
    if (cases > 1 && 10 * played / cases > 10 * (played - 1) / cases)
        dprintf(2, "%lu of %lu networks\n", played, cases);
}

/* What was tried beside the calls one by one. */
static void report(void) {
    printf("demand 3 tried on %lu of the networks, for up to %u rounds; in the others no node is joined to anything\n"
           "  of an event: %lu, of another identifier: %lu\n"
           "  from a source with two ports that run: %lu, with ticks all the while: %lu, with a bar in the way: %lu\n"
           "  the slowest first crossing: %u rounds\n",
           demands.networks, demands.longest, demands.events, demands.others, demands.from_both, demands.ticked, demands.barred,
           demands.slowest);
    printf("T-01 tried on %lu of the networks, in %lu cycles of up to %u rounds; in %lu no node reaches another, and in %lu one\n"
           "  does, but no pair of them allows it\n"
           "  pairs that allow it: %lu, and that do not: %lu\n",
           trips.networks, trips.cycles, trips.longest, trips.alone, trips.unfound, trips.pairs, trips.other_pairs);
    printf("  cycles from a source with two ports that run: %lu, with such a handler: %lu, with an acknowledge that gets to devices\n"
           "  out of the source's reach: %lu, with ticks all the while: %lu, while others are barred: %lu\n"
           "  the slowest first crossing of an interrupt: %u rounds, of an acknowledge: %u\n",
           trips.from_both, trips.back_by_both, trips.beyond, trips.ticked, trips.barred, trips.slowest, trips.slowest_back);
    printf("T-03 tried on %lu of the networks; in the others no node is joined to anything\n",
           drops[ACKNOWLEDGED] + drops[TIMED_OUT]);
    printf("  told of the acknowledge %lu times, %lu of them after a cable was out and in again; of the timeout %lu times, %lu of "
           "them after that\n"
           "  of two cables one was out %lu times, and both %lu times; the request was of an event %lu times\n",
           drops[ACKNOWLEDGED], replugged[ACKNOWLEDGED], drops[TIMED_OUT], replugged[TIMED_OUT], one_of_two, both_of_two,
           of_events);
}

static size number(const char *word) {
    return strtoul(word, 0, 10);
}

/* For conformance/run, which has tested the numbers: the seed, the first case, how many cases, and 1 where every number
 * that a call can answer has to be answered, and all be tried. */
int main(int count, char **words) {
    if (count != 5)
        return 2;
    size first = number(words[2]), cases = number(words[3]);
    seed = number(words[1]);
    flag whole = number(words[4]);
    for (size i = 0; i < cases; i++) {
        play(first + i);
        progress(1 + i, cases);
    }
    printf("seed %lu, cases %lu to %lu\n", seed, first, first + cases - 1);
    table();
    ticks_table();
    states_table();
    ports_table();
    report();
    time_table();
    events_table();
    whys_table();
    examined_table();
    guards_table();
    loads_table();
    rescues_table();
    if (whole && !(all_hit() && all_ticks_answered() && all_states_tried() && all_tried() && all_ports_tried() &&
                   all_time_tried() && all_events_tried() && all_whys_tried() && all_examined_tried() && all_guards_tried() &&
                   all_loads_tried() && all_rescues_tried()))
        return 1;
    printf("judge: ok\n");
    return 0;
}
