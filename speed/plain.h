/* The calls of include/bench.h that speed/run measures, in plain C: plain.c. */
#include "bench.h"

typedef bench_u8 u8;
typedef bench_u32 u32;
typedef bench_size usize;

/* Where the words of device d stand in a state, and those of port q. */
static inline u32 device_at(u32 d) {
    return BENCH_DEVICE * d;
}

static inline u32 port_at(u32 q) {
    return BENCH_PORTS + BENCH_PORT * q;
}

u32 plain_plan_read(const u8 *file, usize length, u32 *block);
u32 plain_tick(const u8 *file, usize length, u32 *state, usize state_length, usize device);
u32 plain_round(const u8 *file, usize length, const u32 *old, usize old_length, u32 *next, usize next_length, u32 *sent,
                usize sent_length, u32 *told, usize told_length, u32 *count);
u32 plain_settle(const u8 *file, usize length, u32 *state, usize state_length, u32 allowance, u32 *rounds);
u32 plain_reach_ports(const u8 *file, usize length, const u32 *state, usize state_length, usize device, u32 k, u32 *devices,
                      u32 *set, u32 *examined);
u32 plain_report(const u8 *file, usize length, u8 *text, usize text_length, u32 *text_used);
u32 plain_crossings(const u8 *file, usize length, const u32 *state, usize state_length, usize source, u32 k, u32 *crossings,
                    usize crossings_length, u32 *most);
u32 plain_chain(const u8 *file, usize length, const u32 *state, usize state_length, usize source, u32 k, usize device,
                u32 *ports, usize ports_length, u32 *crossings);
u32 plain_cut(const u8 *file, usize length, const u32 *state, usize state_length, usize source, u32 k, u32 *causes,
              usize causes_length, u32 *count);
