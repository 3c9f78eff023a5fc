/* A unit that babbles, from C: a spare computer that takes itself for the one in charge. First it acknowledges what is not for it
 * to handle, while the computer is cut off. Then it requests an event as fast as its link allows: it is reset before each
 * round, so that nothing holds it back, and now and then its cable is out and in again. A router that guards the edge drops
 * both, and its counts say at which port.
 *
 *     bin/example babble < examples/babble.plan
 *     bin/example babble < examples/guarded.plan
 */
#include "host.h"

enum { UNIT = 2, COMPUTER = 3, SPARE = 5, REPORT = 5, ALIVE = 9 };

/* How long it babbles, and between how many rounds the cable is out. */
enum { ROUNDS = 1000, PULLED = 100 };

/* What a count of drops is of, in the order in which a port has them. */
static const char *const kinds[] = {"interrupts", "acknowledges"};

/* Is the host of a device told of an identifier, by one of these words? */
static int is_told(bench_u32 count, bench_u32 kind, bench_u32 device, bench_u32 k) {
    for (bench_u32 i = 0; i < count; i++)
        if (told[i] == kind * 65536 + device * 256 + k)
            return 1;
    return 0;
}

static void begin(void) {
    must("start", bench_start(file, length, AREA(states[now])));
}

/* Every count that is not 0. */
static void print_drops(void) {
    const bench_u32 *drops = states[now] + BENCH_DROPS;
    int any = 0;
    for (bench_u32 i = 0; i < 2 * BENCH_SENT; i++)
        if (drops[i]) {
            printf("%s dropped at port %u of device %u: %u\n", kinds[i % 2], i / 2 % 8, i / 16, drops[i]);
            any = 1;
        }
    if (!any)
        printf("nothing was dropped\n");
}

/* The unit reports, and the computer does not hear it. The spare hears it and acknowledges at once. Nobody else does; so what the
 * unit's host should be told is the timeout. */
static void answer_for_another(void) {
    begin();
    must("link", bench_link(file, length, AREA(states[now]), COMPUTER, 0, 0));
    must("request", bench_request(file, length, AREA(states[now]), UNIT, REPORT));
    bench_u32 turn = 0, heard = 0;
    while (!heard) {
        bench_u32 count = play_round();
        turn++;
        if (is_told(count, INTERRUPT, SPARE, REPORT))
            must("acknowledge", bench_acknowledge(file, length, AREA(states[now]), SPARE, REPORT));
        heard = is_told(count, ACKNOWLEDGE, UNIT, REPORT) ? ACKNOWLEDGE : is_told(count, TIMEOUT, UNIT, REPORT) ? TIMEOUT : 0;
    }
    printf("device %u is cut off; device %u requests %u, and is told of the %s in round %u\n", COMPUTER, UNIT, REPORT,
           heard == TIMEOUT ? "timeout" : "acknowledge", turn);
    print_drops();
}

static void pull_cable(void) {
    for (bench_u32 running = 0; running < 2; running++)
        must("link", bench_link(file, length, AREA(states[now]), SPARE, 0, running));
}

/* The devices that hold the event, when all is over. */
static void print_holders(void) {
    printf("device %u requests %u before each of %u rounds: held by", SPARE, ALIVE, ROUNDS);
    for (bench_u32 d = 0; d < file[DEVICES]; d++)
        if (states[now][BENCH_DEVICE * d] >> ALIVE & 1)
            printf(" %u", d);
}

static void babble(void) {
    bench_u32 times = 0;
    begin();
    for (bench_u32 turn = 1; turn <= ROUNDS; turn++) {
        if (turn % PULLED == 0)
            pull_cable();
        must("reset", bench_reset(file, length, AREA(states[now]), SPARE));
        must("request", bench_request(file, length, AREA(states[now]), SPARE, ALIVE));
        bench_u32 count = play_round();
        for (bench_u32 d = 0; d < file[DEVICES]; d++)
            times += is_told(count, INTERRUPT, d, ALIVE);
    }
    print_holders();
    printf("; hosts were told of it %u times\n", times);
    print_drops();
}

int main(void) {
    read_plan();
    answer_for_another();
    babble();
    return 0;
}
