/* The incident, from C: five sources keep a way busy, and interrupt 7 is requested at device 3. Its handler, device 4,
 * acknowledges too early, and its host is told of the one interrupt again and again. With the wait that the bench gives it
 * is told once.
 *
 *     bin/example incident < examples/incident.plan
 */
#include "host.h"

enum { SOURCE = 3, HANDLER = 4, IDENTIFIER = 7 };

/* How a told word is made up: kind x 65,536 + device x 256 + identifier. */
enum { TOLD = 1 * 65536 + HANDLER * 256 + IDENTIFIER };

/* The network starts afresh, and everybody requests. */
static void begin(void) {
    must("start", bench_start(file, length, AREA(states[now])));
    for (bench_u32 i = 0; i < 5; i++)
        must("request", bench_request(file, length, AREA(states[now]), 5 + i, 8 + i));
    must("request", bench_request(file, length, AREA(states[now]), SOURCE, IDENTIFIER));
}

/* Plays rounds, and counts how often the handler's host is told of the interrupt. */
static bench_u32 play(bench_u32 rounds) {
    bench_u32 times = 0;
    for (; rounds; rounds--) {
        bench_u32 count = play_round();
        for (bench_u32 i = 0; i < count; i++)
            times += told[i] == TOLD;
    }
    return times;
}

/* The handler acknowledges after a wait, and the network runs on. */
static void acknowledge_after(bench_u32 wait) {
    begin();
    bench_u32 times = play(wait);
    must("acknowledge", bench_acknowledge(file, length, AREA(states[now]), HANDLER, IDENTIFIER));
    times += play(14);
    printf("acknowledged after %u rounds: told %u time%s\n", wait, times, times == 1 ? "" : "s");
}

int main(void) {
    read_plan();
    printf("interrupt %u of device %u, handled by device %u\n", IDENTIFIER, SOURCE, HANDLER);
    acknowledge_after(4);

    /* How long the handler has to wait: until nothing waits. */
    bench_u32 wait;
    begin();
    must("settle", bench_settle(file, length, AREA(states[now]), BENCH_ROUNDS, &wait));
    printf("nothing waits after %u rounds\n", wait);

    acknowledge_after(wait);
    return 0;
}
