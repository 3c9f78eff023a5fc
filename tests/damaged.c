/* Reads a plan and damaged copies of it, through the door and beside it by the judge: each refusal in each block, faults
 * together, and files of a wrong length. A line for each: what was done and where, then the number and the block that both
 * answer. Where they differ it says so and fails.
 *
 *     damaged [FOLDER] < PLAN     FOLDER gets a file NUMBER-BLOCK for each refusal; PLAN has 32 devices */
#include "files.h"

int chdir(const char *folder);
int creat(const char *name, unsigned may);
int close(int file);
long write(int file, const void *from, unsigned long bytes);
int snprintf(char *into, unsigned long room, const char *format, ...);

enum { PORT = 12, LAST_ZERO = BLOCK - 3 };

static struct plan whole, copy;
static flag keeps;

/* What was done to the copy, and where. */
static const char *done;
static u32 place;

void say_where(void) {
    printf("in the copy: %s %u\n", done, place);
}

/* Of the files that are refused alike the last stays. */
static void keep(u32 number, u32 block) {
    char name[32];
    snprintf(name, sizeof name, "%u-%u", number, block);
    int file = creat(name, 0644);
    if (file < 0 || write(file, copy.bytes, copy.length) != (long)copy.length || close(file)) {
        printf("damaged: %s could not be written\n", name);
        exit(1);
    }
}

static void say(const char *what, u32 where, size length) {
    done = what;
    place = where;
    copy.length = length;
    u32 number = try_plan_read(&copy), block = value_given(0);
    printf("%s %u: %u %u\n", done, place, number, block);
    if (keeps && number)
        keep(number, block);
}

/* A byte of a block, with nothing mended. A port that leads nowhere has a far end outside the file. */
static void spoil(u32 block, u32 at, u8 byte) {
    if (block <= DEVICES)
        copy.bytes[BLOCK * block + at] = byte;
}

/* A byte of a block, and the block's check made right again. */
static void put(u32 block, u32 at, u8 byte) {
    spoil(block, at, byte);
    if (block <= DEVICES)
        seal(&copy, block);
}

/* The far end of the first port of a block's device knows nothing of it. */
static void loosen(u32 block) {
    const u8 *port = copy.bytes + BLOCK * block + PORT;
    u32 far = 1 + port[0], at = PORT + 4 * port[1];
    put(far, at, 255);
    put(far, at + 1, 255);
    put(far, at + 2, 0);
}

static void try_sizes(void) {
    static const u32 sizes[] = {0, 1, 511, 512, 513, 16384, 16895, 16896, 16897, 17408};
    copy = whole;
    for (u32 i = 0; i < sizeof sizes / sizeof *sizes; i++)
        say("length", sizes[i], sizes[i]);
}

static void try_loads(u32 router, u32 node) {
    copy = whole;
    set_loads(&copy, router, node);
    say("loads", router, LONGEST_FILE);
}

/* Block 0 by itself. */
static void try_alone(u32 devices) {
    copy = whole;
    put(0, 1, devices);
    say("alone with devices", devices, BLOCK);
}

/* Each refusal in one block. Block 0 has other fields at some of these places. */
static void try_block(u32 block) {
    static const struct {
        const char *done;
        u32 at;
        u8 byte;
    } faults[] = {
        {"kind", 0, 7}, {"number", 1, 99}, {"role", 2, 7}, {"ports", 3, 9}, {"source", SOURCES, 255},
        {"handler", HANDLERS, 255}, {"peer device", PORT, 200}, {"peer port", PORT + 1, 8}, {"permissions", PORT + 2, 16},
        {"fourth", PORT + 3, 1}, {"absent port", PORT + 31, 1}, {"bar", BARS, 1}, {"last bar", BEHIND_BARS - 1, 1},
        {"first zero", BEHIND_BARS, 1}, {"last zero", LAST_ZERO, 1}, {"other port", PORT + 1, 7}};
    copy = whole;
    spoil(block, LAST_ZERO, 1);
    say("spoiled", block, LONGEST_FILE);
    for (u32 i = 0; i < sizeof faults / sizeof *faults; i++) {
        copy = whole;
        put(block, faults[i].at, faults[i].byte);
        say(faults[i].done, block, LONGEST_FILE);
    }
    copy = whole;
    loosen(block);
    say("loose", block, LONGEST_FILE);
}

/* Byte 10 of block 0 names the master: nobody, a router, a node, or a device that there is not. The plan has routers first. */
static void name_masters(void) {
    static const u8 bytes[] = {0, 1, 8, 9, 32, 33, 64, 128, 255};
    for (u32 i = 0; i < sizeof bytes / sizeof *bytes; i++) {
        copy = whole;
        put(0, MASTER, bytes[i]);
        say("master", bytes[i], LONGEST_FILE);
    }
}

/* A router is the master, or a device that there is not, and there is a fault more: before the block that is answered, in it, and
 * behind it. */
static void name_masters_together(void) {
    static const struct {
        const char *done;
        u32 block, at;
        u8 byte;
    } faults[] = {{"zero", 0, LAST_ZERO, 1}, {"zero", 2, LAST_ZERO, 1}, {"kind", 3, 0, 7}, {"number", 3, 1, 99},
                  {"zero", 3, LAST_ZERO, 1}, {"kind", 4, 0, 7}};
    for (u32 i = 0; i < sizeof faults / sizeof *faults; i++) {
        copy = whole;
        put(0, MASTER, 3);
        put(faults[i].block, faults[i].at, faults[i].byte);
        printf("master 3, and ");
        say(faults[i].done, faults[i].block, LONGEST_FILE);
    }
    copy = whole;
    put(0, MASTER, 3);
    spoil(3, LAST_ZERO, 1);
    say("master 3, and spoiled in", 3, LONGEST_FILE);
    copy = whole;
    put(0, MASTER, 33);
    put(0, MASTER + 1, 1);
    say("master 33, and zero in", 0, LONGEST_FILE);
    put(0, 1, 31);
    say("and devices", 31, LONGEST_FILE);
}

/* Several faults at once: the first in the order of the tests is answered. */
static void try_together(void) {
    copy = whole;
    put(1, LAST_ZERO, 1);
    spoil(2, LAST_ZERO, 1);
    say("zero, and spoiled in", 2, LONGEST_FILE);
    copy = whole;
    loosen(1);
    put(32, LAST_ZERO, 1);
    say("loose, and zero in", 32, LONGEST_FILE);
    copy = whole;
    put(0, 1, 33);
    spoil(0, LAST_ZERO, 1);
    say("devices, and spoiled in", 0, LONGEST_FILE);
    say("all of it at length", LONGEST_FILE + BLOCK, LONGEST_FILE + BLOCK);
    copy = whole;
    put(0, 1, 31);
    spoil(1, LAST_ZERO, 1);
    say("count, and spoiled in", 1, LONGEST_FILE);
    put(0, MASTER + 1, 1);
    say("and zero in", 0, LONGEST_FILE);
}

/* ---- events, which are the set in bytes 6 to 9 of block 0, and two sources of what is none */

static void put_events(u32 set) {
    put_number(copy.bytes + EVENTS, 4, set);
    seal(&copy, 0);
}

/* The device of a block is a source of k too. */
static void add_source(u32 block, u32 k) {
    u32 at = SOURCES + k / 8;
    put(block, at, copy.bytes[BLOCK * block + at] | 1 << k % 8);
}

/* Any set is accepted, and its bytes are under the check as all are. */
static void name_events(void) {
    static const u32 sets[] = {0, 1, 0xff, 0x8000, 0x10000, 0x80000000, 0x7fffffff, 0xffffffff};
    for (u32 i = 0; i < sizeof sets / sizeof *sets; i++) {
        copy = whole;
        put_events(sets[i]);
        say("events", sets[i], LONGEST_FILE);
    }
    for (u32 at = EVENTS; at < EVENTS + 4; at++) {
        copy = whole;
        spoil(0, at, 1);
        say("events spoiled in byte", at, LONGEST_FILE);
    }
}

/* The last device is a source of k as well: beside no events, beside k, and beside all others. It is the only source of 23, and the
 * handler of 11. */
static void double_source(u32 k) {
    copy = whole;
    add_source(DEVICES, k);
    say("second source of", k, LONGEST_FILE);
    put_events((u32)1 << k);
    say("which is an event,", k, LONGEST_FILE);
    put_events(~((u32)1 << k));
    say("where all others are,", k, LONGEST_FILE);
}

/* Sources of 0, which device 8 is in block 9: one more in a block before it, which is a router's; behind it, and in the last one;
 * then all nodes but its handler. With 0 for an event these are accepted, but for the router's. */
static void crowd_sources(void) {
    static const u32 blocks[] = {8, 10, DEVICES};
    for (u32 i = 0; i < sizeof blocks / sizeof *blocks; i++) {
        copy = whole;
        add_source(blocks[i], 0);
        say("0 also in", blocks[i], LONGEST_FILE);
        put_events(1);
        say("as an event in", blocks[i], LONGEST_FILE);
    }
    copy = whole;
    for (u32 block = 9; block <= DEVICES; block++)
        if (!in_mask(&copy, block - 1, HANDLERS, 0))
            add_source(block, 0);
    say("0 in all from", 9, LONGEST_FILE);
    put_events(1);
    say("as an event from", 9, LONGEST_FILE);
}

/* Two identifiers have two sources, and one of them is an event, or both are. */
static void double_two(void) {
    static const u32 sets[] = {0, 1, 2, 3};
    copy = whole;
    add_source(DEVICES, 0);
    add_source(DEVICES, 1);
    for (u32 i = 0; i < sizeof sets / sizeof *sets; i++) {
        put_events(sets[i]);
        say("second sources of 0 and 1, events", sets[i], LONGEST_FILE);
    }
}

/* Two sources, and a fault more, which is answered: 27 is the last of the tests. */
static void double_together(void) {
    static const struct {
        const char *done;
        u32 block, at;
        u8 byte;
    } faults[] = {{"load", 0, 3, 255}, {"zero", 0, LAST_ZERO, 1}, {"devices", 0, 1, 31}, {"master", 0, MASTER, 1},
                  {"kind", DEVICES, 0, 7}, {"role", DEVICES, 2, 7}, {"zero", DEVICES, LAST_ZERO, 1},
                  {"other port", DEVICES, PORT + 1, 7}};
    for (u32 i = 0; i < sizeof faults / sizeof *faults; i++) {
        copy = whole;
        add_source(10, 0);
        put(faults[i].block, faults[i].at, faults[i].byte);
        printf("second source, and ");
        say(faults[i].done, faults[i].block, LONGEST_FILE);
    }
    copy = whole;
    add_source(10, 0);
    loosen(DEVICES);
    say("second source, and loose", DEVICES, LONGEST_FILE);
    spoil(DEVICES, LAST_ZERO, 1);
    say("and spoiled in", DEVICES, LONGEST_FILE);
}

/* ---- loads of an identifier's own, which are the pairs in bytes 16 to 143 of block 0: that of routers, and that of nodes */

/* A pair of k, in the plan as it is. Its common loads are 2,000 and 2,400. */
static void own(u32 k, u32 router, u32 node) {
    copy = whole;
    set_own_loads(&copy, k, router, node);
    printf("loads %u and %u of ", router, node);
    say("identifier", k, LONGEST_FILE);
}

/* Of each identifier a pair that is right, and wrong ones: that of routers above that of nodes, and each byte by itself, where
 * the others are zeros. */
static void name_pairs(void) {
    for (u32 k = 0; k < IDENTIFIERS; k++) {
        own(k, 8, 8);
        own(k, 9, 8);
        own(k, 8, 0);
        own(k, 8 * 256, 0);
        own(k, 0, 8);
        own(k, 0, 8 * 256);
    }
}

/* Loads as small and as great as there are, less than the common ones and greater, and compared by both bytes. */
static void name_loads(void) {
    static const struct {
        u32 router, node;
    } pairs[] = {{0, 0}, {1, 1}, {1, 65535}, {65535, 65535}, {65535, 65534}, {65535, 1}, {0, 65535}, {65535, 0}, {255, 256},
                 {256, 255}, {257, 256}, {256, 257}, {1999, 2400}, {2000, 2401}, {2401, 2401}, {2400, 2000}};
    for (u32 i = 0; i < sizeof pairs / sizeof *pairs; i++)
        own(23, pairs[i].router, pairs[i].node);
}

/* The zeros before the pairs and those behind them. */
static void fill_zeros(void) {
    static const u32 places[] = {11, 12, 13, 14, 15, 144, 145, 146, 147, 148, 160, 255, 256, 384, 508, 509};
    for (u32 i = 0; i < sizeof places / sizeof *places; i++) {
        copy = whole;
        put(0, places[i], 1);
        say("a zero that is none, byte", places[i], LONGEST_FILE);
    }
}

/* A pair that is right and one that is wrong, each with a fault more: the first in the order of the tests is answered. Then
 * pairs for all, beside which the common loads have to be right too. */
static void pair_together(void) {
    static const struct {
        const char *done;
        u32 block, at;
        u8 byte;
    } faults[] = {{"kind", 0, 0, 7}, {"devices", 0, 1, 33}, {"fewer devices", 0, 1, 31}, {"common load", 0, 3, 255},
                  {"master", 0, MASTER, 33}, {"zero before", 0, OWN_LOADS - 1, 1}, {"zero behind", 0, BEHIND_LOADS, 1},
                  {"kind", 1, 0, 7}, {"source", 10, SOURCES, 255}};
    for (u32 wrong = 0; wrong < 2; wrong++)
        for (u32 i = 0; i < sizeof faults / sizeof *faults; i++) {
            copy = whole;
            set_own_loads(&copy, 31, 8 + wrong, 8);
            put(faults[i].block, faults[i].at, faults[i].byte);
            printf("%s pair, and ", wrong ? "wrong" : "right");
            say(faults[i].done, faults[i].block, LONGEST_FILE);
        }
    copy = whole;
    for (u32 k = 0; k < IDENTIFIERS; k++)
        set_own_loads(&copy, k, 1 + k, 32);
    say("pairs for all, up to", 32, LONGEST_FILE);
    set_loads(&copy, 9, 8);
    say("and common loads with", 9, LONGEST_FILE);
    set_loads(&copy, 9, 9);
    set_own_loads(&copy, 16, 33, 32);
    say("and that of routers", 33, LONGEST_FILE);
    spoil(0, LAST_ZERO, 1);
    say("and spoiled in", 0, LONGEST_FILE);
}

/* ---- what ports bar, which are bytes 44 to 107 of a device's block */

/* A byte of a block, in the plan as it is. Its routers have six ports. */
static void bar(u32 block, u32 at, u8 byte) {
    copy = whole;
    put(block, at, byte);
    printf("barred in block %u by ", block);
    say("byte", at, LONGEST_FILE);
}

/* Each byte in a router's block and in a node's, and the zero behind them. Those of a router's six ports may be anything. */
static void name_bars(void) {
    for (u32 at = BARS; at <= BEHIND_BARS; at++) {
        bar(1, at, 1 << at % 8);
        bar(9, at, 128 >> at % 8);
    }
    bar(8, BARS, 255);
    bar(DEVICES, BEHIND_BARS - 1, 255);
    copy = whole;
    spoil(1, BARS, 1);
    say("bar spoiled in", 1, LONGEST_FILE);
}

/* The row of the sixth port of a router's block is that of a port joined to nothing. */
static void unjoin(u32 block) {
    put(block, PORT + 20, 255);
    put(block, PORT + 21, 255);
    put(block, PORT + 22, 0);
}

/* A router bars all at its six ports, and has two more; its eighth port bars something, and it lacks that; its sixth port leads
 * nowhere, and it lacks that. Then a node with two ports, of which the second bars something. */
static void bar_by_ports(void) {
    copy = whole;
    for (u32 at = BARS; at < BARS + 48; at++)
        put(1, at, 255);
    put(1, 3, 8);
    say("all of six barred, ports", 8, LONGEST_FILE);
    put(1, BEHIND_BARS - 1, 128);
    say("and the eighth, ports", 8, LONGEST_FILE);
    put(1, 3, 7);
    say("and the eighth, ports", 7, LONGEST_FILE);
    copy = whole;
    unjoin(1);
    unjoin(5);
    put(1, BARS + 44, 1);
    say("barred where it leads nowhere, ports", 6, LONGEST_FILE);
    put(1, 3, 5);
    say("barred where it leads nowhere, ports", 5, LONGEST_FILE);
    copy = whole;
    put(DEVICES, 3, 2);
    put(DEVICES, BARS + 8, 1);
    say("node's second port barred in", DEVICES, LONGEST_FILE);
}

/* A node with a bar, and a fault more: before it, in its block, and behind it. */
static void bar_together(void) {
    static const struct {
        const char *done;
        u32 block, at;
        u8 byte;
    } faults[] = {{"load", 0, 3, 255}, {"zero", 0, LAST_ZERO, 1}, {"zero", 9, LAST_ZERO, 1}, {"kind", 10, 0, 7},
                  {"number", 10, 1, 99}, {"role", 10, 2, 7}, {"zero", 10, BEHIND_BARS, 1}, {"other port", 1, PORT + 1, 7},
                  {"kind", 11, 0, 7}, {"source", 11, SOURCES, 255}};
    for (u32 i = 0; i < sizeof faults / sizeof *faults; i++) {
        copy = whole;
        put(10, BARS + 5, 16);
        put(faults[i].block, faults[i].at, faults[i].byte);
        printf("bar in block 10, and ");
        say(faults[i].done, faults[i].block, LONGEST_FILE);
    }
    spoil(10, LAST_ZERO, 1);
    say("and spoiled in", 10, LONGEST_FILE);
}

int main(int count, char **words) {
    random_begin(0, 0);
    whole.length = read_all(0, whole.bytes, sizeof whole.bytes);
    keeps = count == 2;
    if (count > 2 || whole.length != LONGEST_FILE || (keeps && chdir(words[1]))) {
        printf("damaged [FOLDER] < PLAN, with a folder that is there and a plan of 32 devices\n");
        return 1;
    }
    try_sizes();
    try_loads(9, 8);
    try_loads(8, 8);
    try_loads(0, 8);
    try_loads(0, 0);
    try_alone(33);
    try_alone(1);
    try_alone(0);
    for (u32 block = 0; block <= DEVICES; block++)
        try_block(block);
    try_together();
    name_masters();
    name_masters_together();
    name_events();
    for (u32 k = 0; k < IDENTIFIERS; k++)
        double_source(k);
    crowd_sources();
    double_two();
    double_together();
    name_pairs();
    name_loads();
    fill_zeros();
    pair_together();
    name_bars();
    bar_by_ports();
    bar_together();
    return 0;
}
