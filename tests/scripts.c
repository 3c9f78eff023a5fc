/* Plays a script through the door, and beside it by the judge; prints every call's answer and, round by round, every byte
 * sent and every word told; and of a byte that is read, or that arrives, all that is said of it.
 *
 *     scripts < SCRIPT     in the folder of the plans that SCRIPT names
 *
 * A line is a word and what the word needs; a call is printed as its line stands. All that a call touches is compared by
 * conformance/driver/compare.c. Where the two differ, and where a line is not understood, the program says so and fails. */
#include "files.h"

int open(const char *name, int how);
int close(int file);
unsigned long strlen(const char *text);
int strcmp(const char *one, const char *other);
unsigned long strcspn(const char *text, const char *ends);
char *strsep(char **text, const char *ends);

static struct plan plan;
static struct state state = {.length = STATE_WORDS};
static struct played played;

/* The line, and what of it is not read yet. */
static const char *line, *rest;
static u32 line_number;

void say_where(void) {
    printf("in line %u: %s\n", line_number, line);
}

static _Noreturn void wrong(const char *what) {
    printf("scripts: %s\n", what);
    say_where();
    exit(1);
}

/* ---- what stands in a line */

/* The rest of the line, behind a space. */
static const char *name(void) {
    if (*rest++ != ' ')
        wrong("a name is missing");
    const char *from = rest;
    rest += strlen(rest);
    return from;
}

/* The next number, behind a space; it has up to 9 digits. */
static u32 number(void) {
    u32 value = 0, digits = 0;
    if (*rest++ != ' ')
        wrong("a number is missing");
    for (; *rest >= '0' && *rest <= '9'; rest++, digits++)
        value = 10 * value + *rest - '0';
    if (digits < 1 || digits > 9)
        wrong("a number has 1 to 9 digits");
    return value;
}

/* ---- what a line does */

static void pass_over(void) {
    rest += strlen(rest);
}

static void print_title(void) {
    printf("%s\n", line);
    pass_over();
}

/* The plan in a file; `none` is a file with nothing in it. */
static void take_plan(void) {
    const char *of = name();
    plan.length = 0;
    if (!strcmp(of, "none"))
        return;
    int file = open(of, 0);
    if (file < 0)
        wrong("there is no such plan");
    plan.length = read_all(file, plan.bytes, sizeof plan.bytes);
    close(file);
}

/* Other loads than the plan has, of routers and of nodes. */
static void change_loads(void) {
    u32 router = number(), node = number();
    set_loads(&plan, router, node);
}

/* The identifier of the line. */
static u32 identifier(void) {
    u32 k = number();
    if (k >= IDENTIFIERS)
        wrong("there is no such identifier");
    return k;
}

/* Other loads than an identifier has of its own: two zeros for none. */
static void change_own_loads(void) {
    u32 k = identifier(), router = number(), node = number();
    set_own_loads(&plan, k, router, node);
}

/* Other events than the plan has. */
static void change_events(void) {
    put_number(plan.bytes + EVENTS, 4, number());
    seal(&plan, 0);
}

/* A device and a port of the line, whether the plan has them or not, as 8 x device + port. */
static u32 any_port(void) {
    u32 device = number(), port = number();
    if (device >= DEVICES || port >= PORTS)
        wrong("there is no such port");
    return PORTS * device + port;
}

/* Other bars than a port has in the plan: a set of interrupts, and one of acknowledges. */
static void change_bars(void) {
    u32 q = any_port();
    u8 *bars = port_bars(&plan, q / PORTS, q % PORTS);
    put_number(bars, 4, number());
    put_number(bars + 4, 4, number());
    seal(&plan, 1 + q / PORTS);
}

/* Where the state has anything of Time-Codes: the counters of all devices, and device, port and word of each port whose Time-Code
 * word is not 0. */
static void print_times(void) {
    const u32 *counters = state.words + FIRST_COUNTER, *times = state.words + FIRST_TIME;
    u32 devices = plan.bytes[1], any = 0;
    for (u32 i = 0; i < DEVICES + DEVICES * PORTS; i++)
        any |= counters[i];
    if (!any)
        return;
    printf("counters");
    for (u32 d = 0; d < devices; d++)
        printf(" %u", counters[d]);
    printf("; times");
    for (u32 q = 0; q < PORTS * devices; q++)
        if (times[q])
            printf(" %u/%u:%u", q / PORTS, q % PORTS, times[q]);
    printf("\n");
}

/* Where anything was dropped: device and port of each port that did so, and how many interrupts and acknowledges. */
static void print_drops(void) {
    const u32 *drops = state.words + FIRST_DROP;
    u32 any = 0;
    for (u32 q = 0; q < DEVICES * PORTS; q++) {
        const u32 *of = drops + DROP_WORDS * q;
        if (of[0] || of[1])
            printf("%s %u/%u:%u,%u", any++ ? "" : "drops", q / PORTS, q % PORTS, of[0], of[1]);
    }
    if (any)
        printf("\n");
}

static void print_state(void) {
    print_times();
    print_drops();
}

/* The timers that run: device, identifier, and where each stands. */
static void print_timers(void) {
    printf("timers");
    for (u32 d = 0; d < DEVICES; d++)
        for (u32 k = 0; k < IDENTIFIERS; k++) {
            u32 timer = state.words[DEVICE_WORDS * d + 1 + k];
            if (timer)
                printf(" %u/%u:%u", d, k, timer);
        }
    printf("\n");
}

/* A call takes its numbers from the line; only a link has a flag, and a tick has its device alone. What is refused changes nothing
 * that could be printed. */
static void change(enum call call) {
    struct change change = {.call = call};
    change.device = number();
    if (call != TICK)
        change.other = number();
    if (call == LINK)
        change.running = number();
    u32 answer = try_change(change, &plan, &state);
    printf("%s: %u\n", line, answer);
    if (!answer)
        print_state();
}

/* Over an area that held something else. */
static void start_afresh(void) {
    memset(state.words, 7, sizeof state.words);
    change(START);
}

static void ask(void) {
    change(REQUEST);
}

static void acknowledge(void) {
    change(ACKNOWLEDGES);
}

static void link(void) {
    change(LINK);
}

static void reset(void) {
    change(RESET);
}

static void tick(void) {
    change(TICK);
}

/* The last word of a state counts drops at a port which no plan of the scripts has: the state is not sound where it is not 0. */
static void put_last(void) {
    state.words[STATE_WORDS - 1] = number();
}

/* Makes an acknowledge wait at a port, whether a call could do so or not: device, port, identifier. */
static void put_waiting(void) {
    u32 q = any_port(), k = identifier();
    state.words[FIRST_PORT + PORT_WORDS * q + AT_ACKNOWLEDGES] |= (u32)1 << k;
}

/* Makes a port have dropped so many interrupts and acknowledges, whether it could do so or not. */
static void put_drops(void) {
    u32 *of = state.words + FIRST_DROP + DROP_WORDS * any_port();
    of[AT_DROPPED_INTERRUPTS] = number();
    of[AT_DROPPED_ACKNOWLEDGES] = number();
}

static void print_round(void) {
    for (u32 i = 0; i < SENT_WORDS; i++)
        if (played.sent[i] != SENT_NONE)
            printf("sent %u %u %u\n", i / PORTS, i % PORTS, played.sent[i]);
    for (u32 i = 0; i < played.count; i++)
        printf("told %u %u %u\n", played.told[i] / 65536, played.told[i] / 256 % 256, played.told[i] % 256);
}

/* A round in areas of these lengths. */
static u32 round_in(const struct state *old, size next, size sent, size told) {
    played.next.length = next;
    played.sent_length = sent;
    played.told_length = told;
    return try_round(&plan, old, &played);
}

/* A round that is refused has no areas to print, and the state stays. */
static void play_rounds(void) {
    for (u32 rounds = number(); rounds; rounds--) {
        u32 answer = round_in(&state, STATE_WORDS, SENT_WORDS, TOLD_WORDS);
        printf("round %u %u: 0\n", answer, played.count);
        if (answer)
            continue;
        print_round();
        state = played.next;
        print_state();
    }
}

static void settle_all(void) {
    u32 allowance = number(), answer = try_settle(&plan, &state, allowance);
    printf("settle %u %u: %u\n", answer, allowance, value_given(0));
    if (!answer || answer == 12)
        print_state();
}

/* Whom interrupts of an identifier reach from a device: unless that is refused, how many devices they are, the set of them, and
 * the ports examined. */
static void find_reach(void) {
    u32 device = number(), k = number(), answer = try_reach(&plan, &state, device, k);
    printf("%s: %u", line, answer);
    if (!answer)
        printf(" %u %u %u", value_given(0), value_given(1), value_given(2));
    printf("\n");
}

static const char *const kinds[] = {"time", "interrupt", "acknowledge", "reserved"};
static const char *const actions[] = {"named", "link-error", "ignored", "forwarded", "told", "dropped"};

static u8 byte(void) {
    u32 value = number();
    if (value > 255)
        wrong("a byte is at most 255");
    return value;
}

/* A byte's kind, its top bits and its value. */
static void read_byte(void) {
    u32 kind = try_code_read(byte());
    printf("%s: %s %u %u\n", line, kinds[kind], value_given(0), value_given(1));
}

/* What is done with a byte, the register afterwards, the counter where it is timed, and the code that is handed on, as above. */
static void print_reaction(u32 action, u32 bits, flag timed, u32 counter) {
    printf("%s: %s %u", line, actions[action], bits);
    if (timed)
        printf(" %u", counter);
    printf(" %s %u %u\n", kinds[value_given(0)], value_given(1), value_given(2));
}

/* A byte arrives at a port of a device with this role and register, in a network with these events, and, where it is timed, with this
 * counter, which is 0 else. */
static void arrive(flag timed) {
    u32 role = number(), running = number(), permissions = number(), events = number(), bits = number();
    u32 counter = timed ? number() : 0;
    u32 action = try_react(role, running, permissions, events, &bits, &counter, byte());
    print_reaction(action, bits, timed, counter);
}

static void arrive_anyhow(void) {
    arrive(0);
}

static void arrive_timed(void) {
    arrive(1);
}

/* The same, timed, where the port bars a set of interrupts and one of acknowledges. */
static void arrive_guarded(void) {
    u32 role = number(), running = number(), permissions = number(), events = number(), interrupts = number();
    struct bars bars = {.interrupts = interrupts, .acknowledges = number()};
    u32 bits = number(), counter = number();
    u32 action = try_react_guarded(role, running, permissions, events, bars, &bits, &counter, byte());
    print_reaction(action, bits, 1, counter);
}

/* Areas of the wrong length, several at once, beside a state that is sound. */
static void try_lengths(void) {
    static struct state fresh = {.length = STATE_WORDS}, less = {.length = STATE_WORDS - 1};
    must_be("a start", 0, try_start(&plan, &fresh));
    printf("short start 0 0: %u\n", try_start(&plan, &less));
    printf("short state 0 5: %u\n", try_change((struct change){.call = REQUEST, .other = 5}, &plan, &less));
    printf("short next 0 0: %u\n", round_in(&fresh, STATE_WORDS - 1, SENT_WORDS + 1, TOLD_WORDS + 1));
    printf("long sent 0 0: %u\n", round_in(&fresh, STATE_WORDS, SENT_WORDS + 1, TOLD_WORDS + 1));
    printf("long told 0 0: %u\n", round_in(&fresh, STATE_WORDS, SENT_WORDS, TOLD_WORDS + 1));
}

/* The text of the program settle. */
static void print_report(void) {
    static struct printed printed = {.text_length = TEXT_BYTES};
    must_be("a report", 0, try_report(&plan, &printed));
    printf("%.*s", (int)printed.used, (const char *)printed.text);
}

/* ---- lines */

static const struct word {
    const char *name;
    void (*play)(void);
} words[] = {
    {"--", print_title}, {"#", pass_over}, {"plan", take_plan}, {"loads", change_loads}, {"own", change_own_loads},
    {"events", change_events}, {"bars", change_bars}, {"start", start_afresh}, {"request", ask}, {"acknowledge", acknowledge},
    {"link", link}, {"reset", reset}, {"tick", tick}, {"last", put_last}, {"waits", put_waiting}, {"drops", put_drops},
    {"timers", print_timers}, {"rounds", play_rounds}, {"settle", settle_all}, {"reach", find_reach}, {"byte", read_byte},
    {"arrives", arrive_anyhow}, {"comes", arrive_timed}, {"meets", arrive_guarded}, {"lengths", try_lengths},
    {"report", print_report},
};

static const struct word *word_of_line(void) {
    size length = strcspn(line, " ");
    rest = line + length;
    for (u32 i = 0; i < sizeof words / sizeof *words; i++)
        if (length == strlen(words[i].name) && !memcmp(line, words[i].name, length))
            return &words[i];
    wrong("there is no such word");
}

int main(void) {
    static char script[1 << 16];
    char *left = script;
    read_all(0, script, sizeof script);
    random_begin(0, 0);
    while ((line = strsep(&left, "\n"))) {
        line_number++;
        if (!*line)
            continue;
        word_of_line()->play();
        if (*rest)
            wrong("there is more than the word needs");
    }
    return 0;
}
