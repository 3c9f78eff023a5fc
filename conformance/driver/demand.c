/* Demand 3, tried: how an interrupt spreads, of an event or of another identifier, as far as nothing bars it, while others are used
 * and a master ticks. */
#include "driver.h"

static struct course course;

static u32 greater(u32 one, u32 other) {
    return one > other ? one : other;
}

static void count(const struct spread *spread, struct demands *demands) {
    demands->networks++;
    demands->events += is_event(&course.plan, spread->k);
    demands->others += !is_event(&course.plan, spread->k);
    demands->from_both += running_ports(&course, spread->start) == NODE_PORTS;
    demands->ticked += course.ticks > 0;
    demands->barred += meets_bars(spread, &course);
    demands->longest = greater(demands->longest, spread->window);
    demands->slowest = greater(demands->slowest, spread->slowest);
}

void try_demand_3(const struct plan *given, struct demands *demands) {
    struct spread spread = {.name = "demand 3", .kind = INTERRUPT};
    begin_course(&course, given);
    if (!choose_source(&course, &spread))
        return;
    unset(&course, spread.k);
    if (once_in(2))
        crowd(&course, spread.k);
    let_tick(&course, spread.start);
    measure(&course, &spread, 0);
    exceed(&course, spread.k, spread.window);
    must_be("demand 3: the request is taken", 0, host_calls(&course, REQUEST, spread.start, spread.k));
    check_held(&spread, &course, 0);
    u32 calls = pick(4);
    for (u32 round = 1; round <= spread.window; round++) {
        play_on(&course, spread.k, calls);
        check_sent(&spread, &course, round);
        check_held(&spread, &course, round);
    }
    check_all_sent(&spread, &course);
    check_rest(&spread, &course);
    count(&spread, demands);
    count_loads(IN_DEMAND_3, &course, spread.k, spread.window);
}
