/* The stack that each call of include/bench.h needs: it is made on a stack of paint, and what is no paint afterwards was used.
 *
 *     stack PLAN...     prints the call, the bytes used at most over all plans, those used where it is the first call of its
 *                       process, and the bytes that the header says; then what the header says of the programs. Fails
 *                       where a call needs more, and where one was never done but always refused, as its measure then
 *                       says nothing. */
#include "bench.h"

/* The kit's compiler has no headers of C's library. */
int open(const char *name, int how);
int close(int file);
long read(int file, void *into, unsigned long bytes);
int fork(void);
int wait(int *status);
_Noreturn void _exit(int status);
void *mmap(void *at, unsigned long bytes, int may, int how, int file, long from);
int printf(const char *format, ...);
void *memcpy(void *to, const void *from, unsigned long bytes);
void *memset(void *to, int byte, unsigned long bytes);

enum { STACK = 1 << 18, PAINT = 0xA5 };
static _Alignas(16) bench_u8 stack[STACK];

/* What the calls are given. */
static bench_u8 file[BENCH_FILE + 1], damaged[BENCH_FILE + 1], mended[BENCH_FILE + 1], text[BENCH_TEXT];
static bench_size length, device, handler;
static bench_u32 k, value, set, examined, bits, counter, kind, top, answer;
static bench_u32 before[BENCH_STATE], state[BENCH_STATE], next[BENCH_STATE], sent[BENCH_SENT], told[BENCH_TOLD];
static bench_u32 away[BENCH_CROSSINGS], ports[BENCH_CHAIN], causes[BENCH_CUT];

/* ---- the calls */

static void code_read(void) {
    bench_code_read(255, &top, &value);
}

static void code_write(void) {
    answer = bench_code_write(BENCH_INTERRUPT, 31, &value);
}

static void react(void) {
    bench_react(1, 1, 15, 0, &bits, &counter, 133, &kind, &top, &value);
}

static void react_guarded(void) {
    bench_react_guarded(1, 1, 15, 0, ~0u, 0, &bits, &counter, 133, &kind, &top, &value);
}

static void plan_read(void) {
    answer = bench_plan_read(file, length, &value);
}

static void start(void) {
    answer = bench_start(file, length, state, BENCH_STATE);
}

static void request(void) {
    answer = bench_request(file, length, state, BENCH_STATE, device, k);
}

static void acknowledge(void) {
    answer = bench_acknowledge(file, length, state, BENCH_STATE, handler, k);
}

static void stop(void) {
    answer = bench_link(file, length, state, BENCH_STATE, device, 0, 0);
}

static void run(void) {
    answer = bench_link(file, length, state, BENCH_STATE, device, 0, 1);
}

static void reset(void) {
    answer = bench_reset(file, length, state, BENCH_STATE, device);
}

/* The plan names its master in byte 10; without one the call is refused. */
static void tick(void) {
    answer = bench_tick(file, length, state, BENCH_STATE, file[10] - 1);
}

static void round(void) {
    answer = bench_round(file, length, state, BENCH_STATE, next, BENCH_STATE, sent, BENCH_SENT, told, BENCH_TOLD, &value);
}

static void settle(void) {
    answer = bench_settle(file, length, state, BENCH_STATE, BENCH_ROUNDS, &value);
}

static void reach(void) {
    answer = bench_reach(file, length, state, BENCH_STATE, device, k, &value, &set);
}

static void reach_ports(void) {
    answer = bench_reach_ports(file, length, state, BENCH_STATE, device, k, &value, &set, &examined);
}

static void report(void) {
    answer = bench_report(file, length, text, BENCH_TEXT, &value);
}

/* The way to the last device, or what is in it. */
static void crossings(void) {
    answer = bench_crossings(file, length, state, BENCH_STATE, device, k, away, BENCH_CROSSINGS, &value);
}

static void chain(void) {
    answer = bench_chain(file, length, state, BENCH_STATE, device, k, file[1] - 1, ports, BENCH_CHAIN, &value);
}

static void cut(void) {
    answer = bench_cut(file, length, state, BENCH_STATE, device, k, causes, BENCH_CUT, &value);
}

static void why(void) {
    answer = bench_why(file, length, 1, (bench_u8 *)state, sizeof state, device, k, file[1] - 1, text, BENCH_TEXT, &value);
}

static void why_at_start(void) {
    answer = bench_why(file, length, 0, 0, 0, device, k, file[1] - 1, text, BENCH_TEXT, &value);
}

static void rescue(void) {
    answer = bench_rescue(damaged, length, mended, length, text, BENCH_TEXT, &value, &set);
}

static void rescue_whole(void) {
    answer = bench_rescue(file, length, mended, length, text, BENCH_TEXT, &value, &set);
}

static struct call {
    const char *name;
    void (*make)(void);
    bench_size says, needs, first;
    int done, first_done;
} calls[] = {
    {"bench_code_read", code_read, BENCH_STACK_CODE_READ, 0, 0, 0, 0},
    {"bench_code_write", code_write, BENCH_STACK_CODE_WRITE, 0, 0, 0, 0},
    {"bench_react", react, BENCH_STACK_REACT, 0, 0, 0, 0},
    {"bench_react_guarded", react_guarded, BENCH_STACK_REACT, 0, 0, 0, 0},
    {"bench_plan_read", plan_read, BENCH_STACK_PLAN_READ, 0, 0, 0, 0},
    {"bench_start", start, BENCH_STACK_START, 0, 0, 0, 0},
    {"bench_request", request, BENCH_STACK_REQUEST, 0, 0, 0, 0},
    {"bench_acknowledge", acknowledge, BENCH_STACK_ACKNOWLEDGE, 0, 0, 0, 0},
    {"bench_link,0", stop, BENCH_STACK_LINK, 0, 0, 0, 0},
    {"bench_link,1", run, BENCH_STACK_LINK, 0, 0, 0, 0},
    {"bench_reset", reset, BENCH_STACK_RESET, 0, 0, 0, 0},
    {"bench_tick", tick, BENCH_STACK_TICK, 0, 0, 0, 0},
    {"bench_round", round, BENCH_STACK_ROUND, 0, 0, 0, 0},
    {"bench_settle", settle, BENCH_STACK_SETTLE, 0, 0, 0, 0},
    {"bench_reach", reach, BENCH_STACK_REACH, 0, 0, 0, 0},
    {"bench_reach_ports", reach_ports, BENCH_STACK_REACH, 0, 0, 0, 0},
    {"bench_report", report, BENCH_STACK_REPORT, 0, 0, 0, 0},
    {"bench_crossings", crossings, BENCH_STACK_CROSSINGS, 0, 0, 0, 0},
    {"bench_chain", chain, BENCH_STACK_CHAIN, 0, 0, 0, 0},
    {"bench_cut", cut, BENCH_STACK_CUT, 0, 0, 0, 0},
    {"bench_why,0", why_at_start, BENCH_STACK_WHY, 0, 0, 0, 0},
    {"bench_why,1", why, BENCH_STACK_WHY, 0, 0, 0, 0},
    {"bench_rescue,0", rescue_whole, BENCH_STACK_RESCUE, 0, 0, 0, 0},
    {"bench_rescue,1", rescue, BENCH_STACK_RESCUE, 0, 0, 0, 0},
};
enum { CALLS = sizeof calls / sizeof *calls };

/* ---- the measure */

/* Makes a call at the top of the painted stack. */
static void on_paint(void (*make)(void)) {
    __asm__ volatile("movq %%rsp, %%rbx\n\tmovq %0, %%rsp\n\tcall *%1\n\tmovq %%rbx, %%rsp"
                     :
                     : "r"(stack + STACK), "r"(make)
                     : "rbx", "rax", "rcx", "rdx", "rsi", "rdi", "r8", "r9", "r10", "r11", "xmm0", "xmm1", "xmm2", "xmm3",
                       "xmm4", "xmm5", "xmm6", "xmm7", "xmm8", "xmm9", "xmm10", "xmm11", "xmm12", "xmm13", "xmm14", "xmm15",
                       "cc", "memory");
}

/* The state in which a call is measured. */
static void prepare(const struct call *call) {
    memcpy(state, before, sizeof state);
    if (call->make == run)
        bench_link(file, length, state, BENCH_STATE, device, 0, 0);
}

/* Makes the call, and gives the bytes that are no paint then. */
static bench_size used(const struct call *call) {
    bench_size bare = 0;
    answer = 0;
    on_paint(call->make);
    while (bare < STACK && stack[bare] == PAINT)
        bare++;
    return STACK - bare;
}

static void measure(struct call *call) {
    prepare(call);
    memset(stack, PAINT, STACK);
    bench_size needs = used(call);
    call->done |= answer == 0;
    if (needs > call->needs)
        call->needs = needs;
}

static void measure_all(void) {
    for (unsigned i = 0; i < CALLS; i++)
        measure(&calls[i]);
}

/* ---- what is tried */

/* Is the device in a mask of its block: 4 for sources, 8 for handlers? */
static int in_mask(bench_u32 mask, bench_size d, bench_u32 i) {
    return file[512 * (1 + d) + mask + i / 8] >> i % 8 & 1;
}

/* The device requests k, or everybody requests what it can, and the master ticks; then rounds go by. The handler is one that holds
 * k by then, if there is one. */
static void let_go_by(int everybody, bench_u32 rounds) {
    bench_request(file, length, before, BENCH_STATE, device, k);
    bench_tick(file, length, before, BENCH_STATE, file[10] - 1);
    for (bench_size d = 0; everybody && d < file[1]; d++)
        for (bench_u32 i = 0; i < 32; i++)
            bench_request(file, length, before, BENCH_STATE, d, i);
    for (; rounds; rounds--) {
        bench_round(file, length, before, BENCH_STATE, next, BENCH_STATE, sent, BENCH_SENT, told, BENCH_TOLD, 0);
        memcpy(before, next, sizeof before);
    }
    for (bench_size d = 0; d < file[1]; d++)
        if (in_mask(8, d, k) && before[BENCH_DEVICE * d] >> k & 1)
            handler = d;
}

/* The network as it starts; then with the codes of the device alone, or of everybody, before, on and after their way. */
enum { ALONE = 5, SCENES = 9 };
static void play_scene(int scene) {
    static const bench_u32 rounds[] = {0, 2, 21, 40};
    bench_start(file, length, before, BENCH_STATE);
    if (scene)
        let_go_by((scene - 1) / 4, rounds[(scene - 1) % 4]);
}

static void measure_source(void) {
    for (int scene = 0; scene < SCENES; scene++) {
        play_scene(scene);
        measure_all();
    }
}

/* Every source in turn; then a state that is not sound, and a file that is not accepted. */
static void measure_plan(void) {
    for (device = 0; device < file[1]; device++)
        for (k = 0; k < 32; k++)
            if (in_mask(4, device, k))
                measure_source();
    device = handler = k = 0;
    before[0] ^= 1;
    measure_all();
    file[600] ^= 1;
    measure_all();
}

/* The last device becomes a router of eight ports: no walk goes deeper than a row of 31 routers. */
static void lengthen(void) {
    bench_u8 *block = file + 512 * file[1];
    bench_u32 sum = 0;
    block[2] = 1;
    block[3] = 8;
    memset(block + 4, 0, 8);
    for (bench_u32 i = 0; i < 510; i++)
        sum += (i + 1) * block[i];
    block[510] = sum % 65521 % 256;
    block[511] = sum % 65521 / 256;
}

/* A copy in which the check of every second device's block fails: by a loop alone, as C's functions may not be bound yet. */
static void damage(void) {
    for (bench_size i = 0; i < length; i++)
        ((volatile bench_u8 *)damaged)[i] = file[i] ^ (i % 1024 == 509 && i > 512);
}

static void load(const char *name) {
    int from = open(name, 0);
    long got;
    length = 0;
    while ((got = read(from, file + length, sizeof file - length)) > 0)
        length += got;
    close(from);
    damage();
}

/* ---- a call that is the first of its process
 *
 * C's functions may be bound at their first use, which takes stack too, and a process that has called the bench, or one of them,
 * has bound them. So a state is made in one process, and the call in another. Both are begun by a third, which has paint on its
 * stack for them, and up to then copies and fills by loops alone. */

/* What these processes share. */
static struct shared {
    bench_size handler, used;
    int done;
    bench_u32 state[BENCH_STATE];
} *shared;

static void lay_paint(void) {
    for (volatile bench_u8 *at = stack; at < stack + STACK; at++)
        *at = PAINT;
}

static void measure_first(struct call *call, int scene) {
    shared->used = shared->done = 0;
    if (fork() == 0) {
        play_scene(scene);
        prepare(call);
        shared->handler = handler;
        memcpy(shared->state, state, sizeof state);
        _exit(0);
    }
    wait(0);
    if (fork() == 0) {
        handler = shared->handler;
        for (unsigned i = 0; i < BENCH_STATE; i++)
            state[i] = ((volatile bench_u32 *)shared->state)[i];
        shared->used = used(call);
        shared->done = answer == 0;
        _exit(0);
    }
    wait(0);
    call->first_done |= shared->done;
    if (shared->used > call->first)
        call->first = shared->used;
}

/* The first source of a plan stands for all, and its codes for everybody's: where C's functions are bound does not hang on them. */
static void measure_first_calls(void) {
    for (device = 0, k = 0; !in_mask(4, device, k); device += ++k / 32, k %= 32)
        ;
    for (int scene = 0; scene < ALONE; scene++)
        for (unsigned i = 0; i < CALLS; i++)
            measure_first(&calls[i], scene);
}

static int accepted(void) {
    return bench_plan_read(file, length, 0) == 0;
}

int main(int count, char **plans) {
    int faults = 0;
    shared = mmap(0, sizeof *shared, 3, 0x21, -1, 0);
    lay_paint();
    for (int i = 1; i < count; i++) {
        load(plans[i]);
        measure_first_calls();
    }
    for (int i = 1; i < count; i++) {
        load(plans[i]);
        if (!accepted()) {
            printf("no plan: %s\n", plans[i]);
            return 1;
        }
        measure_plan();
        load(plans[i]);
        lengthen();
        measure_plan();
    }
    for (unsigned i = 0; i < CALLS; i++) {
        struct call call = calls[i];
        printf("%s %lu %lu %lu\n", call.name, call.needs, call.first, call.says);
        if (!call.done || !call.first_done)
            printf("%s was never done\n", call.name);
        faults |= call.needs > call.says || call.first > call.says || !call.done || !call.first_done;
    }
    printf("bin/settle - %u\nbin/decode - %u\nbin/why - %u\n", BENCH_STACK_PROGRAM_SETTLE, BENCH_STACK_PROGRAM_DECODE,
           BENCH_STACK_PROGRAM_WHY);
    return faults;
}
