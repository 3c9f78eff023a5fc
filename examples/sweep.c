/* What a sweep costs, from C: every source is asked about each of its identifiers, how many devices that reaches and how many
 * ports are examined for it. These are the ports of the source and of every router that is reached. The network has just
 * started, and all its links run; in no other state are there more.
 *
 *     bin/example sweep < examples/ring.plan
 */
#include "host.h"

/* How often was asked, the ports in all, and the most for one. */
static bench_u32 asked, ports, most;

static void ask(bench_u32 device, bench_u32 k) {
    bench_u32 reached, examined;
    must("reach", bench_reach_ports(file, length, AREA(states[now]), device, k, &reached, 0, &examined));
    printf("device %u, identifier %u: devices reached %u, ports examined %u\n", device, k, reached, examined);
    asked++;
    ports += examined;
    if (examined > most)
        most = examined;
}

int main(void) {
    read_plan();
    must("start", bench_start(file, length, AREA(states[now])));
    for (bench_u32 device = 0; device < file[DEVICES]; device++)
        for (bench_u32 k = 0; k < 32; k++)
            if (has(device, SOURCES, k))
                ask(device, k);
    printf("asked %u, ports in all %u, most for one %u\n", asked, ports, most);
    return 0;
}
