/* What is known of a rescue, asked of both in fixed networks: what becomes of each damaged block, byte by byte and line by line,
 * who claims a port and what comes of two who do, each refusal in its place, and the lengths of areas. */
#include "driver.h"

enum { NOWHERE = 255, SIX = 6, EIGHT = 8 };

static struct plan plan;
static struct rescued rescued;

/* The text is empty where it is refused. What is known is then held against what the driver works out by the bytes. */
static void must_mend(u32 number, u32 block, const char *text, const struct plan *due) {
    must_be("a known rescue", number, try_rescue(&plan, &rescued));
    must_be("its block", block, rescued.block);
    must_say("its text", text, &rescued.printed);
    if (due)
        must_be("its mended file", 0, memcmp(due->bytes, rescued.mended, due->length) != 0);
    must_be("the same by the bytes", number, try_mending(&plan, &rescued));
}

static void must_print(const char *text) {
    rescue_lengths(&plan, &rescued);
    must_mend(0, 0, text, 0);
}

static void must_refuse(u32 number, u32 block) {
    rescue_lengths(&plan, &rescued);
    must_mend(number, block, "", 0);
}

static void names(u32 device, u32 port, u32 peer, u32 peer_port) {
    put_number(port_entry(&plan, device, port), 2, peer + 256 * peer_port);
    seal(&plan, 1 + device);
}

/* ---- what becomes of damaged blocks */

/* Node 0 has two ports, and leads to routers 1 and 2, which are joined. Node 3 is behind router 1, and router 4, with node 5 behind
 * it, behind router 2, of which ports 6 and 7 are joined. Ports 1, 2 and 4 of router 2 and port 3 of router 1 lead nowhere.
 * Everything that a rebuilt block has to lose is there: masks, permissions and bars. */
static void six(void) {
    blank(&plan, SIX);
    be_node(&plan, 0, NODE_PORTS);
    be_router(&plan, 1, 4);
    be_router(&plan, 2, PORTS);
    be_router(&plan, 4, 2);
    connect_ports(&plan, 0, 0, 1, 0, 15);
    connect_ports(&plan, 0, 1, 2, 3, 15);
    connect_ports(&plan, 1, 1, 2, 0, 15);
    connect_ports(&plan, 1, 2, 3, 0, 15);
    connect_ports(&plan, 2, 5, 4, 0, 15);
    connect_ports(&plan, 2, 6, 2, 7, 15);
    connect_ports(&plan, 4, 1, 5, 0, 15);
    device_block(&plan, 0)[SOURCES] = device_block(&plan, 3)[HANDLERS] = 1 << 5;
    device_block(&plan, 5)[SOURCES + 3] = 1 << 7;
    memset(port_bars(&plan, 1, 3), 255, 8);
    memset(port_bars(&plan, 2, 0), 1, 8);
    memset(port_bars(&plan, 4, 1), 128, 8);
    set_loads(&plan, 100, 200);
    seal_devices(&plan);
}

/* The check alone; a byte of a field, and one that is to be zero; nothing but ones; or entries which all say that they lead to port
 * 0 of router 2, of a router with eight ports: nobody is to believe them. */
enum { WAYS = 6 };
static void hurt(u32 device, u32 way) {
    u8 *block = device_block(&plan, device);
    switch (way) {
    case 0: block[511] ^= 1; break;
    case 1: block[510] ^= 255; break;
    case 2: block[0] = 9; break;
    case 3: block[509] = 1; break;
    case 4: memset(block, 255, BLOCK); break;
    default:
        be_router(&plan, device, PORTS);
        for (u32 p = 0; p < PORTS; p++)
            put_number(port_entry(&plan, device, p), 4, 2 + 65536 * 15);
    }
    must_be("a check that fails", 1, number_at(block + 510, 2) != block_check(block));
}

static void hurt_all(u32 devices, u32 way) {
    for (u32 d = 0; d < DEVICES; d++)
        if (devices >> d & 1)
            hurt(d, way);
}

/* The damaged devices, what is printed, and how many ports they have then. */
static const struct loss {
    u32 devices;
    const char *text;
    u8 ports[SIX];
} losses[] = {
    {0, "", {0}},
    {1 << 0, "block 1\n0 0 1 0\n0 1 2 3\n", {2}},
    {1 << 1, "block 2\n1 0 0 0\n1 1 2 0\n1 2 3 0\n", {0, 3}},
    {1 << 2, "block 3\n2 0 1 1\n2 3 0 1\n2 5 4 0\n", {0, 0, 6}},
    {1 << 3, "block 4\n3 0 1 2\n", {0, 0, 0, 1}},
    {1 << 4, "block 5\n4 0 2 5\n4 1 5 0\n", {0, 0, 0, 0, 2}},
    {1 << 5, "block 6\n5 0 4 1\n", {0, 0, 0, 0, 0, 1}},
    {1 << 1 | 1 << 2, "block 2\n1 0 0 0\n1 2 3 0\nblock 3\n2 3 0 1\n2 5 4 0\n", {0, 3, 6}},
    {1 << 1 | 1 << 3, "block 2\n1 0 0 0\n1 1 2 0\nblock 4\n", {0, 2, 0, 1}},
    {1 << 4 | 1 << 5, "block 5\n4 0 2 5\nblock 6\n", {0, 0, 0, 0, 1, 1}},
    {1 << 0 | 1 << 4, "block 1\n0 0 1 0\n0 1 2 3\nblock 5\n4 0 2 5\n4 1 5 0\n", {2, 0, 0, 0, 2}},
    {0x3E, "block 2\n1 0 0 0\nblock 3\n2 3 0 1\nblock 4\nblock 5\nblock 6\n", {0, 1, 4, 1, 1, 1}},
    {0x3B, "block 1\n0 1 2 3\nblock 2\n1 1 2 0\nblock 4\nblock 5\n4 0 2 5\nblock 6\n", {2, 2, 0, 1, 1, 1}},
    {0x3F, "block 1\nblock 2\nblock 3\nblock 4\nblock 5\nblock 6\n", {1, 1, 1, 1, 1, 1}},
};

/* A rebuilt block has of a whole one the ends of links that are good at their other end. */
static void lose(struct plan *whole, const struct loss *loss, u32 d) {
    u8 *block = device_block(whole, d);
    memset(block, 0, 12);
    block[0] = 2;
    block[1] = d;
    block[2] = 1;
    block[3] = loss->ports[d];
    for (u32 p = 0; p < PORTS; p++) {
        u8 *entry = port_entry(whole, d, p);
        flag lost = entry[0] == NOWHERE || loss->devices >> entry[0] & 1;
        put_number(entry, 4, lost ? NOWHERE + 256 * NOWHERE : number_at(entry, 2));
    }
    memset(block + BARS, 0, 510 - BARS);
    seal(whole, 1 + d);
}

/* With each device as the master, or none: a damaged one would be a router. */
static void known_loss(const struct loss *loss, u32 way, u32 master) {
    static struct plan due;
    flag refused = master < SIX && loss->devices >> master & 1;
    six();
    if (master < SIX)
        name_master(&plan, master);
    due = plan;
    for (u32 d = 0; d < SIX; d++)
        if (loss->devices >> d & 1)
            lose(&due, loss, d);
    hurt_all(loss->devices, way);
    rescue_lengths(&plan, &rescued);
    if (refused)
        must_mend(23, 1 + master, "", 0);
    else
        must_mend(0, 0, loss->text, &due);
}

static void known_losses(void) {
    static const u32 masters[] = {NO_MASTER, 0, 3, 5};
    for (u32 i = 0; i < sizeof losses / sizeof *losses; i++)
        for (u32 way = 0; way < WAYS; way++)
            for (u32 m = 0; m < sizeof masters / sizeof *masters; m++)
                known_loss(&losses[i], way, masters[m]);
}

/* Block 3, of router 2, by its bytes. */
static void known_block(void) {
    static const u8 front[] = {
        2, 2, 1, 6, 0, 0, 0, 0, 0, 0, 0, 0, 1, 1, 0, 0, 255, 255, 0, 0, 255, 255, 0, 0,
        0, 1, 0, 0, 255, 255, 0, 0, 4, 0, 0, 0, 255, 255, 0, 0, 255, 255, 0, 0};
    six();
    hurt(2, 4);
    rescue_lengths(&plan, &rescued);
    must_be("a known block is rebuilt", 0, try_rescue(&plan, &rescued));
    const u8 *block = rescued.mended + 3 * BLOCK;
    must_be("the fields of a rebuilt block", 0, memcmp(front, block, sizeof front) != 0);
    for (u32 i = sizeof front; i < 510; i++)
        must_be("a byte behind them", 0, block[i]);
    must_be("byte 510", 194, block[510]);
    must_be("byte 511", 38, block[511]);
}

/* A block of zeros has the right check for them, and is no damaged one. A check that leaves the right remainder is not that one. */
static void known_checks(void) {
    six();
    hurt(1, 0);
    memset(device_block(&plan, 4), 0, BLOCK);
    must_refuse(22, 5);
    six();
    u8 *block = device_block(&plan, 1);
    for (u32 i = 1; block_check(block) > 14; i++)
        put_number(port_bars(&plan, 1, 0), 4, i * 2654435761u);
    seal(&plan, 2);
    must_print("");
    put_number(block + 510, 2, block_check(block) + 65521);
    must_print("block 2\n1 0 0 0\n1 1 2 0\n1 2 3 0\n");
}

static void known_alone(void) {
    blank(&plan, 1);
    be_node(&plan, 0, NODE_PORTS);
    connect_ports(&plan, 0, 0, 0, 1, 15);
    set_loads(&plan, 1, 1);
    seal_devices(&plan);
    hurt(0, 0);
    must_print("block 1\n");
    must_be("its ports", 1, rescued.mended[BLOCK + 3]);
    name_master(&plan, 0);
    must_refuse(23, 1);
}

/* Sixteen routers of eight ports, and as many behind them that are damaged: no text is longer. */
static void known_longest(void) {
    static char text[2 * RESCUE_BYTES];
    u32 used = 0, half = DEVICES / 2;
    blank(&plan, DEVICES);
    for (u32 d = 0; d < DEVICES; d++)
        be_router(&plan, d, PORTS);
    for (u32 i = 0; i < half * PORTS; i++)
        connect_ports(&plan, half + i / PORTS, i % PORTS, i / PORTS, PORTS - 1 - i % PORTS, 15);
    set_loads(&plan, 1, 1);
    seal_devices(&plan);
    for (u32 d = half; d < DEVICES; d++) {
        hurt(d, d % WAYS);
        used += snprintf(text + used, 16, "block %u\n", 1 + d);
        for (u32 p = 0; p < PORTS; p++)
            used += snprintf(text + used, 16, "%u %u %u %u\n", d, p, d - half, PORTS - 1 - p);
    }
    must_print(text);
    must_be("the longest text", 1344, rescued.printed.used);
}

/* ---- who claims a port */

/* Damaged devices of the six, ports of good blocks that are made to name others, as device, port, device, port, and the number
 * and the block, or the text. The claim of a damaged block is none, and one on a port of a good block is a connection, which the
 * other end has to know of. */
static const struct claim {
    u32 devices, count;
    u8 names[4][4];
    u32 number, block;
    const char *text;
} all_claims[] = {
    {1 << 2, 1, {{1, 3, 2, 0}}, 28, 3, ""},
    {1 << 2, 1, {{1, 3, 2, 1}}, 0, 0, "block 3\n2 0 1 1\n2 1 1 3\n2 3 0 1\n2 5 4 0\n"},
    {1 << 2, 1, {{1, 3, 2, 7}}, 0, 0, "block 3\n2 0 1 1\n2 3 0 1\n2 5 4 0\n2 7 1 3\n"},
    {1 << 2, 2, {{1, 1, 2, 3}, {0, 1, 2, 0}}, 0, 0, "block 3\n2 0 0 1\n2 3 1 1\n2 5 4 0\n"},
    {1 << 2, 2, {{1, 2, 2, 6}, {3, 0, 2, 6}}, 28, 3, ""},
    {1 << 2, 3, {{1, 3, 2, 7}, {1, 2, 2, 7}, {3, 0, 2, 7}}, 28, 3, ""},
    {1 << 2 | 1 << 4, 0, {{0}}, 0, 0, "block 3\n2 0 1 1\n2 3 0 1\nblock 5\n4 1 5 0\n"},
    {1 << 2 | 1 << 4, 1, {{1, 3, 4, 0}}, 0, 0, "block 3\n2 0 1 1\n2 3 0 1\nblock 5\n4 0 1 3\n4 1 5 0\n"},
    {1 << 2 | 1 << 4, 1, {{1, 3, 4, 1}}, 28, 5, ""},
    {1 << 2 | 1 << 4, 3, {{1, 2, 4, 0}, {1, 3, 4, 0}, {3, 0, 2, 0}}, 28, 3, ""},
    {1 << 2 | 1 << 4, 2, {{0, 0, 2, 0}, {3, 0, 4, 1}}, 28, 3, ""},
    {1 << 4, 1, {{1, 3, 3, 0}}, 26, 2, ""},
    {1 << 4, 1, {{1, 3, 1, 3}}, 26, 2, ""},
    {1 << 4, 1, {{1, 3, 2, 1}}, 26, 2, ""},
    {1 << 4, 1, {{2, 1, 3, 7}}, 26, 3, ""},
    {1 << 4, 2, {{2, 1, 3, 0}, {2, 2, 3, 0}}, 26, 3, ""},
    {1 << 4, 2, {{2, 1, 0, 1}, {1, 3, 0, 1}}, 26, 2, ""},
    {1 << 4, 2, {{2, 1, 1, 3}, {1, 3, 2, 1}}, 0, 0, "block 5\n4 0 2 5\n4 1 5 0\n"},
    {1 << 4, 2, {{2, 1, 3, 0}, {1, 3, 4, 1}}, 28, 5, ""},
    {1 << 4, 1, {{2, 5, 4, 6}}, 0, 0, "block 5\n4 1 5 0\n4 6 2 5\n"},
    {1 << 4, 2, {{2, 5, 4, 1}, {5, 0, 4, 0}}, 0, 0, "block 5\n4 0 5 0\n4 1 2 5\n"},
    {1 << 1 | 1 << 3, 1, {{2, 2, 3, 0}}, 0, 0, "block 2\n1 0 0 0\n1 1 2 0\nblock 4\n3 0 2 2\n"},
};

static void known_claim(const struct claim *claim, u32 way) {
    six();
    for (u32 i = 0; i < claim->count; i++)
        names(claim->names[i][0], claim->names[i][1], claim->names[i][2], claim->names[i][3]);
    hurt_all(claim->devices, way);
    rescue_lengths(&plan, &rescued);
    must_mend(claim->number, claim->block, claim->text, 0);
}

/* The master as a router whose block is good, and as one whose block is damaged; with a clash in either block. */
static void known_masters(void) {
    six();
    hurt_all(1 << 2 | 1 << 4, 5);
    name_master(&plan, 1);
    must_refuse(23, 2);
    names(1, 3, 2, 0);
    must_refuse(23, 2);
    name_master(&plan, 2);
    must_refuse(28, 3);
    names(1, 3, 4, 1);
    must_refuse(28, 5);
    names(1, 3, 3, 0);
    must_refuse(23, 3);
    name_master(&plan, 5);
    must_refuse(26, 2);
}

/* Two sources are one where the other's block is damaged. An event has as many as it likes. */
static void known_sources(void) {
    six();
    device_block(&plan, 3)[SOURCES] = 1 << 5;
    device_block(&plan, 3)[HANDLERS] = 0;
    seal(&plan, 4);
    hurt(2, 0);
    must_refuse(27, 0);
    set_event(&plan, 5, 1);
    must_print("block 3\n2 0 1 1\n2 3 0 1\n2 5 4 0\n");
    set_event(&plan, 5, 0);
    hurt(3, 0);
    must_print("block 3\n2 0 1 1\n2 3 0 1\n2 5 4 0\nblock 4\n3 0 1 2\n");
    seal(&plan, 4);
    must_refuse(27, 0);
    hurt(0, 3);
    must_print("block 1\n0 0 1 0\nblock 3\n2 0 1 1\n2 5 4 0\n");
}

/* ---- the refusals in their order */

/* Router 1 is joined to all others but router 7, by its ports in their order. Routers 2 and 4 are damaged; 2 and 3 are joined, too.
 * Node 0 is the source of 5, and node 5 the master. */
static void eight(void) {
    blank(&plan, EIGHT);
    be_router(&plan, 1, PORTS);
    be_router(&plan, 2, 2);
    be_router(&plan, 3, 4);
    be_router(&plan, 4, 3);
    be_router(&plan, 7, 3);
    connect_ports(&plan, 0, 0, 1, 0, 15);
    for (u32 d = 2; d < 7; d++)
        connect_ports(&plan, d, 0, 1, d - 1, 15);
    connect_ports(&plan, 2, 1, 3, 1, 15);
    device_block(&plan, 0)[SOURCES] = 1 << 5;
    device_block(&plan, 6)[HANDLERS] = 1 << 7;
    set_loads(&plan, 100, 200);
    seal_devices(&plan);
    name_master(&plan, 5);
    hurt(2, 3);
    hurt(4, 5);
}

/* Each fault that there is to tell, from the first: an area or a file that is too long, a byte of a block that is changed, with its
 * check put right or not, or a port of the block that names another one. */
enum what { AREA, FILE_LENGTH, UNSEALED, SEALED, NAMES };
static const struct fault {
    enum what what;
    u32 block, at, value;
    u32 number, told;
} faults[] = {
    {AREA, 0, 0, 0, 3, 0}, {FILE_LENGTH, 0, 0, 0, 20, 0}, {UNSEALED, 0, 510, 1, 21, 0}, {SEALED, 0, 0, 2, 22, 0},
    {SEALED, 0, 3, 255, 23, 0}, {SEALED, 0, 509, 1, 24, 0}, {SEALED, 0, 1, 9, 25, 0}, {SEALED, 2, 1, 7, 22, 2},
    {SEALED, 2, 2, 2, 23, 2}, {SEALED, 2, 509, 1, 24, 2}, {SEALED, 4, 0, 1, 22, 4}, {SEALED, 4, 15, 1, 23, 4},
    {SEALED, 4, 108, 1, 24, 4}, {SEALED, 8, 3, 9, 23, 8}, {NAMES, 8, 0, 2, 28, 3}, {NAMES, 8, 1, 4, 28, 5},
    {UNSEALED, 6, 511, 1, 23, 6}, {NAMES, 2, 6, 3 + 256 * 2, 26, 2}, {NAMES, 8, 2, 7 + 256 * 2, 26, 8},
    {SEALED, 7, SOURCES, 1 << 5, 27, 0},
};
enum { FAULTS = sizeof faults / sizeof *faults };

static void put_fault(const struct fault *fault) {
    u8 *byte = plan.bytes + BLOCK * fault->block + fault->at;
    switch (fault->what) {
    case AREA: rescued.mended_length++; break;
    case FILE_LENGTH: plan.length++; rescued.mended_length++; break;
    case UNSEALED: *byte ^= fault->value; break;
    case SEALED: *byte = fault->value; seal(&plan, fault->block); break;
    default: names(fault->block - 1, fault->at, fault->value % 256, fault->value / 256);
    }
}

/* Some of the faults, the last first, so that a check is spoilt when all else is put. The first is answered. */
static void known_order(u32 some) {
    u32 first = 0;
    eight();
    rescue_lengths(&plan, &rescued);
    for (u32 i = FAULTS; i; i--)
        if (some >> (i - 1) & 1)
            put_fault(&faults[first = i - 1]);
    if (some)
        must_mend(faults[first].number, faults[first].told, "", 0);
    else
        must_mend(0, 0, "block 3\n2 0 1 1\n2 1 3 1\nblock 5\n4 0 1 3\n", 0);
}

/* None; each alone, and with each that comes behind it; and all, of which the first is taken away, and again. */
static void known_orders(void) {
    known_order(0);
    for (u32 i = 0; i < FAULTS; i++) {
        for (u32 j = i; j < FAULTS; j++)
            known_order(1u << i | 1u << j);
        known_order((1u << FAULTS) - (1u << i));
    }
}

/* ---- lengths */

static void known_area(size file, size mended, size text, u32 number) {
    six();
    hurt(2, 0);
    plan.length = file;
    rescued.mended_length = mended;
    rescued.printed.text_length = text;
    must_be("a rescue in these areas", number, try_rescue(&plan, &rescued));
    must_be("its block", 0, rescued.block);
}

static void known_areas(void) {
    const size right = BLOCK * (1 + SIX);
    const size lengths[] = {0, 1, BLOCK, right - BLOCK, right - 1, right, right + 1, right + BLOCK, 2 * right, ROOM};
    const size texts[] = {0, 1, 1344, RESCUE_BYTES - 1, RESCUE_BYTES, RESCUE_BYTES + 1, ROOM};
    for (u32 i = 0; i < sizeof lengths / sizeof *lengths; i++)
        for (u32 j = 0; j < sizeof texts / sizeof *texts; j++) {
            known_area(right, lengths[i], texts[j], lengths[i] == right && texts[j] >= RESCUE_BYTES ? 0 : 3);
            known_area(right + 1, lengths[i], texts[j], lengths[i] == right + 1 && texts[j] >= RESCUE_BYTES ? 20 : 3);
        }
    const size files[] = {0, 1, 511, 513, right - 1, LONGEST_FILE + 1, LONGEST_FILE + BLOCK};
    for (u32 i = 0; i < sizeof files / sizeof *files; i++)
        known_area(files[i], files[i], RESCUE_BYTES, 20);
    known_area(BLOCK, BLOCK, RESCUE_BYTES, 25);
    known_area(right - BLOCK, right - BLOCK, RESCUE_BYTES, 25);
}

void known_rescues(void) {
    known_losses();
    known_block();
    known_checks();
    known_alone();
    known_longest();
    for (u32 i = 0; i < sizeof all_claims / sizeof *all_claims; i++)
        for (u32 way = 0; way < WAYS; way++)
            known_claim(&all_claims[i], way);
    known_masters();
    known_sources();
    known_orders();
    known_areas();
}
