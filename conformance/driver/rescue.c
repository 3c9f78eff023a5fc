/* T-13, tried: a plan with damaged blocks. What is due is worked out from the bytes of the file alone: the number, the block, each
 * byte of the mended file, and the text; and where the file was an accepted one before its blocks were damaged, which links it has
 * to have then, and which are lost. */
#include "driver.h"

enum { NOWHERE = 255, LEADS_NOWHERE = NOWHERE + 256 * NOWHERE, CHECK = 510 };

/* ---- what the bytes say */

/* A block whose check fails is damaged, and all others are good. */
static flag damaged[DEVICES];

static flag is_damaged(struct plan *plan, u32 device) {
    const u8 *block = device_block(plan, device);
    return number_at(block + CHECK, 2) != block_check(block);
}

/* Devices by the blocks that are there, as the file may say another number. */
static u32 blocks_of(const struct plan *plan) {
    u32 blocks = plan->length / BLOCK;
    return blocks < 1 ? 0 : blocks > DEVICES ? DEVICES : blocks - 1;
}

static u32 look_at(struct plan *plan) {
    u32 count = 0;
    memset(damaged, 0, sizeof damaged);
    for (u32 d = 0; d < blocks_of(plan); d++)
        count += damaged[d] = is_damaged(plan, d);
    return count;
}

/* How many ports of good blocks claim a port, and the last of them. */
static u32 claims(struct plan *plan, u32 device, u32 port, const u8 **by) {
    u32 count = 0;
    for (u32 d = 0; d < blocks_of(plan); d++)
        for (u32 p = 0; !damaged[d] && p < PORTS; p++)
            if (number_at(port_entry(plan, d, p), 2) == device + 256 * port) {
                *by = port_entry(plan, d, p);
                count++;
            }
    return count;
}

/* The device and the port to which an entry belongs. */
static u32 device_at(const struct plan *plan, const u8 *entry) {
    return (entry - plan->bytes) / BLOCK - 1;
}

static u32 port_at(const struct plan *plan, const u8 *entry) {
    return ((entry - plan->bytes) % BLOCK - 12) / 4;
}

/* ---- what is due */

/* What may be wrong, in the order of the refusals; each with its number, 0 where that is not so, and its block. */
enum fault { OF_READER, CLASH, OF_MASTER, CONNECTION, OF_SOURCES, FAULTS };
static struct {
    u32 number, block;
} faults[FAULTS];
static enum fault first; /* of those that are found, or FAULTS */

static void found(enum fault fault, u32 number, u32 block) {
    faults[fault].number = number;
    faults[fault].block = block;
}

/* What the reader says of the file where each damaged block is a right one that leads nowhere. Of that only counts what it says
 * before it comes to connections. */
static void find_of_reader(struct plan *plan) {
    static struct plan filled, blanks;
    if (!blanks.length) {
        blank(&blanks, DEVICES);
        seal_devices(&blanks);
    }
    filled.length = plan->length;
    memcpy(filled.bytes, plan->bytes, plan->length);
    for (u32 d = 0; d < blocks_of(plan); d++)
        if (damaged[d])
            memcpy(device_block(&filled, d), device_block(&blanks, d), BLOCK);
    u32 number = try_plan_read(&filled);
    if (number && number < 26)
        found(OF_READER, number, value_given(0));
}

/* The lowest block, and whether there is another. */
static flag clash_above;

static void find_clash(struct plan *plan) {
    const u8 *by;
    clash_above = 0;
    for (u32 i = 0; i < blocks_of(plan) * PORTS; i++) {
        if (!damaged[i / PORTS] || claims(plan, i / PORTS, i % PORTS, &by) < 2)
            continue;
        if (!faults[CLASH].number)
            found(CLASH, 28, 1 + i / PORTS);
        clash_above |= faults[CLASH].block != 1 + i / PORTS;
    }
}

/* A port of a good block is joined well to any damaged one, which is rebuilt for that, but for two that claim one port. */
static flag is_joined_well(struct plan *plan, u32 d, u32 p) {
    const u8 *entry = port_entry(plan, d, p);
    if (entry[0] == NOWHERE || damaged[entry[0]])
        return 1;
    const u8 *back = port_entry(plan, entry[0], entry[1]);
    return entry[1] < device_block(plan, entry[0])[3] && back != entry && back[0] == d && back[1] == p;
}

static void find_connection(struct plan *plan) {
    for (u32 i = 0; !faults[CONNECTION].number && i < plan->bytes[1] * PORTS; i++)
        if (!damaged[i / PORTS] && !is_joined_well(plan, i / PORTS, i % PORTS))
            found(CONNECTION, 26, 1 + i / PORTS);
}

static void find_of_sources(struct plan *plan) {
    u32 once = 0, twice = 0;
    for (u32 d = 0; d < plan->bytes[1]; d++) {
        u32 sources = damaged[d] ? 0 : number_at(device_block(plan, d) + SOURCES, 4);
        twice |= once & sources;
        once |= sources;
    }
    if (twice & ~events_of(plan))
        found(OF_SOURCES, 27, 0);
}

/* Connections and sources are looked at where all fields are right. */
static void find_faults(struct plan *plan) {
    u32 count = look_at(plan), master = master_of(plan);
    memset(faults, 0, sizeof faults);
    find_of_reader(plan);
    if (count)
        find_clash(plan);
    if (master < blocks_of(plan) && damaged[master])
        found(OF_MASTER, 23, 1 + master);
    if (!faults[OF_READER].number) {
        find_connection(plan);
        find_of_sources(plan);
    }
    first = 0;
    while (first < FAULTS && !faults[first].number)
        first++;
}

/* A rebuilt block, and its lines of the text. */
static u32 due_block(struct plan *plan, u32 d, u8 *block, char *text) {
    const u8 *by;
    u32 used = snprintf(text, RESCUE_BYTES, "block %u\n", 1 + d);
    memset(block, 0, BLOCK);
    block[0] = 2;
    block[1] = d;
    block[2] = block[3] = 1;
    for (u32 p = 0; p < PORTS; p++) {
        flag claimed = claims(plan, d, p, &by) != 0;
        put_number(block + 12 + 4 * p, 4, claimed ? device_at(plan, by) + 256 * port_at(plan, by) : LEADS_NOWHERE);
        if (!claimed)
            continue;
        block[3] = p + 1;
        used += snprintf(text + used, RESCUE_BYTES, "%u %u %u %u\n", d, p, device_at(plan, by), port_at(plan, by));
    }
    put_number(block + CHECK, 2, block_check(block));
    return used;
}

/* ---- a rescue, with all that is due of it */

void rescue_lengths(const struct plan *plan, struct rescued *rescued) {
    rescued->mended_length = plan->length;
    rescued->printed.text_length = RESCUE_BYTES;
}

static void check_mended(struct plan *plan, const struct rescued *rescued) {
    static char text[2 * RESCUE_BYTES];
    u32 used = 0;
    u8 block[BLOCK];
    must_be("block 0 of the mended file", 0, memcmp(plan->bytes, rescued->mended, BLOCK) != 0);
    text[0] = 0;
    for (u32 d = 0; d < plan->bytes[1]; d++) {
        const u8 *mended = rescued->mended + BLOCK * (1 + d);
        if (damaged[d])
            used += due_block(plan, d, block, text + used);
        if (memcmp(damaged[d] ? block : device_block(plan, d), mended, BLOCK))
            fail("a block of the mended file is not as it has to be (block, 1 if rebuilt)", 1 + d, damaged[d]);
    }
    must_say("the text of a rescue", text, &rescued->printed);
}

/* The mended file is a plan; and where it is given to a rescue it comes out as it is. */
static void check_again(const struct rescued *rescued) {
    static struct rescued again;
    static struct plan mended;
    mended.length = rescued->mended_length;
    memcpy(mended.bytes, rescued->mended, mended.length);
    must_be("a mended file", 0, try_plan_read(&mended));
    rescue_lengths(&mended, &again);
    must_be("the rescue of a mended file", 0, try_rescue(&mended, &again));
    must_be("a mended file that is changed", 0, memcmp(mended.bytes, again.mended, mended.length) != 0);
    must_say("the text of a mended file", "", &again.printed);
}

u32 try_mending(struct plan *plan, struct rescued *rescued) {
    find_faults(plan);
    flag wrong_area = rescued->mended_length != plan->length || rescued->printed.text_length < RESCUE_BYTES;
    flag is_found = !wrong_area && first < FAULTS;
    u32 number = try_rescue(plan, rescued);
    must_be("the number of a rescue, by the bytes", wrong_area ? 3 : is_found ? faults[first].number : 0, number);
    must_be("the block of a rescue", is_found ? faults[first].block : 0, rescued->block);
    if (number)
        return number;
    check_mended(plan, rescued);
    check_again(rescued);
    return 0;
}

/* ---- what is tried */

static const u8 answers[] = {0, 3, 20, 21, 22, 23, 24, 25, 26, 27, 28};
enum { ANSWERED = sizeof answers };
static const char *const answer_names[ANSWERED] = {"0", "3", "20", "21", "22", "23", "24", "25", "26", "27", "28"};
static size answered[ANSWERED];

/* How blocks are damaged. What is changed leaves the check as it was, but once in a while the check is right for it. */
enum spoilt { A_BYTE, THE_CHECK, ANY_BYTES, THE_ENTRIES, ALL_ONES, SPOILT };
static const char *const spoilt_names[SPOILT] = {
    "a byte", "the check alone", "all bytes", "the entries of its ports", "every bit set"};
static size spoilt[SPOILT], accidents;

static void spoil_entries(struct plan *plan, u32 device) {
    for (u32 p = 0; p < PORTS; p++) {
        u32 peer = pick(blocks_of(plan)), peer_port = pick(PORTS);
        put_number(port_entry(plan, device, p), 3, peer + 256 * peer_port + 65536 * 15);
    }
}

static void spoil(struct plan *plan, u32 device) {
    u8 *block = device_block(plan, device), dirt = 1 + pick(255);
    enum spoilt how = pick(SPOILT);
    switch (how) {
    case A_BYTE: block[pick(CHECK)] ^= dirt; break;
    case THE_CHECK: block[CHECK + pick(2)] ^= dirt; break;
    case THE_ENTRIES: spoil_entries(plan, device); break;
    case ALL_ONES: memset(block, 255, BLOCK); break;
    default:
        for (u32 i = 0; i < BLOCK; i++)
            block[i] = pick(256);
    }
    spoilt[how]++;
    if (is_damaged(plan, device))
        return;
    accidents++;
    block[CHECK] ^= dirt;
}

/* What there is in files that were rescued, all of them accepted before they were damaged. */
enum having {
    NONE, ONE, SEVERAL, ALL, REBUILT, OF_NODE, UNCLAIMED, GAP, FEWER, MOST, RESTORED, LOST, LOST_OWN, KEPT, HAVINGS
};
static const char *const having_names[HAVINGS] = {
    "files with nothing damaged", "files with one block damaged", "with several", "with all",
    "blocks rebuilt", "of nodes among them", "of which no port is claimed", "with a port that is not, and one above it",
    "with fewer ports than before", "with eight ports", "connections restored", "links lost between two of them",
    "links lost of one to itself", "links of good blocks kept"};
static size havings[HAVINGS];

/* A link of the whole file, from its end at device d. The rebuilt block has the link where the other end is good, and otherwise
 * nothing: nobody tells of it. */
static void check_link(struct plan *whole, struct plan *mended, u32 d, u32 p) {
    const u8 *was = port_entry(whole, d, p), *is = port_entry(mended, d, p);
    flag joined = was[0] != NOWHERE, lost = joined && damaged[d] && damaged[was[0]];
    must_be("the other end of a port (its device and 256 times its port)", lost ? LEADS_NOWHERE : number_at(was, 2),
            number_at(is, 2));
    must_be("its permissions", damaged[d] ? 0 : was[2], is[2]);
    u32 end = PORTS * was[0] + was[1];
    flag far = joined && end > PORTS * d + p; /* a link is counted once */
    havings[RESTORED] += joined && damaged[d] && !lost;
    havings[LOST] += far && lost && was[0] != d;
    havings[LOST_OWN] += far && lost && was[0] == d;
    havings[KEPT] += far && !damaged[d] && !damaged[was[0]];
}

static void count_rebuilt(struct plan *whole, struct plan *mended, u32 d) {
    const u8 *block = device_block(mended, d);
    u32 open = 0;
    for (u32 p = 0; p < block[3]; p++)
        open += port_entry(mended, d, p)[0] == NOWHERE;
    havings[REBUILT]++;
    havings[OF_NODE] += device_block(whole, d)[2] == 0;
    havings[UNCLAIMED] += open == block[3];
    havings[GAP] += open > 0 && open < block[3];
    havings[FEWER] += block[3] < device_block(whole, d)[3];
    havings[MOST] += block[3] == PORTS;
}

static void check_links(struct plan *whole, const struct rescued *rescued) {
    static struct plan mended;
    u32 devices = whole->bytes[1], count = 0;
    memcpy(mended.bytes, rescued->mended, whole->length);
    for (u32 d = 0; d < devices; d++) {
        for (u32 p = 0; p < PORTS; p++)
            check_link(whole, &mended, d, p);
        if (!damaged[d])
            continue;
        count++;
        count_rebuilt(whole, &mended, d);
    }
    havings[count == 0 ? NONE : count == 1 ? ONE : count < devices ? SEVERAL : ALL]++;
}

/* A fault that was answered, and another behind it that was there as well. */
static const struct {
    enum fault first, other;
} pairs[] = {{OF_READER, CLASH}, {OF_READER, OF_MASTER}, {CLASH, OF_MASTER}, {CLASH, CONNECTION}, {CLASH, OF_SOURCES},
             {OF_MASTER, CONNECTION}, {OF_MASTER, OF_SOURCES}, {CONNECTION, OF_SOURCES}};
enum { PAIRS = sizeof pairs / sizeof *pairs };
static const char *const pair_names[PAIRS] = {
    "the reader's own, and 28", "the reader's own, and the master's 23", "28, and the master's 23", "28, and 26",
    "28, and 27", "the master's 23, and 26", "the master's 23, and 27", "26, and 27"};
static const char *const above_name = "28, and 28 in a higher block";
static size paired[PAIRS], clashes_above;
static const char *const fault_names[FAULTS] = {
    "the reader's own", "28, two good ports that claim one", "23, the master", "26, of good blocks", "27, of good blocks"};
static size firsts[FAULTS];

static u32 mend(struct plan *plan, struct rescued *rescued) {
    u32 number = try_mending(plan, rescued);
    for (u32 i = 0; i < ANSWERED; i++)
        answered[i] += answers[i] == number;
    if (!number || number == 3)
        return number;
    firsts[first]++;
    clashes_above += first == CLASH && clash_above;
    for (u32 i = 0; i < PAIRS; i++)
        paired[i] += pairs[i].first == first && faults[pairs[i].other].number;
    return number;
}

/* How many blocks are to be damaged: none, one, some, all but one, or all. */
enum { WAYS = 5 };
static void spoil_some(struct plan *plan, u32 way) {
    u32 devices = plan->bytes[1], one = pick(devices), often = 2 + pick(5);
    for (u32 d = 0; d < devices; d++) {
        flag some = once_in(often);
        if (way == 1 ? d == one : way == 2 ? some : way == 3 ? d != one : way == 4)
            spoil(plan, d);
    }
}

/* In half of the trials there is no master, so that all blocks can be rebuilt. */
static void no_master(struct plan *plan) {
    plan->bytes[MASTER] = 0;
    seal(plan, 0);
}

/* An accepted file of which blocks are damaged, and nothing else is wrong. */
static void try_damaged(struct plan *whole, u32 way) {
    static struct plan plan;
    static struct rescued rescued;
    plan = *whole;
    if (once_in(2))
        no_master(&plan);
    spoil_some(&plan, way);
    rescue_lengths(&plan, &rescued);
    u32 master = master_of(&plan), number = mend(&plan, &rescued);
    flag refused = master != NO_MASTER && damaged[master];
    must_be("the rescue of an accepted file", refused ? 23 : 0, number);
    must_be("its block", refused ? 1 + master : 0, rescued.block);
    if (!refused)
        check_links(whole, &rescued);
}

/* ---- what else may be wrong, in good blocks: the check is right for it */

/* DEVICES where all blocks are damaged. */
static u32 some_good(struct plan *plan) {
    u32 devices = plan->bytes[1], from = pick(devices);
    for (u32 i = 0; i < devices; i++)
        if (!is_damaged(plan, (from + i) % devices))
            return (from + i) % devices;
    return DEVICES;
}

/* Any port of a good block names this one. */
static void claim(struct plan *plan, u32 device, u32 port) {
    u32 d = some_good(plan);
    if (d == DEVICES)
        return;
    put_number(port_entry(plan, d, pick(device_block(plan, d)[3])), 2, device + 256 * port);
    seal(plan, 1 + d);
}

/* Two ports of good blocks claim a port of a damaged one. */
static void clash(struct plan *plan) {
    u32 devices = plan->bytes[1], from = pick(devices), port = pick(PORTS);
    for (u32 i = 0; i < devices; i++) {
        u32 d = (from + i) % devices;
        if (!is_damaged(plan, d))
            continue;
        claim(plan, d, port);
        claim(plan, d, port);
        return;
    }
}

/* Any two good blocks have k, which is no event, as a source has it: a fault where they are two nodes. */
static void share_source(struct plan *plan) {
    u32 k = pick(IDENTIFIERS), one = some_good(plan), other = some_good(plan);
    set_event(plan, k, 0);
    for (u32 d = 0; d < plan->bytes[1]; d++) {
        u8 *block = device_block(plan, d);
        if ((d != one && d != other) || block[2] == 1)
            continue;
        block[SOURCES + k / 8] |= 1 << k % 8;
        block[HANDLERS + k / 8] &= ~(1 << k % 8);
        seal(plan, 1 + d);
    }
}

/* A block whose check holds, and that is refused by 22, 23 or 24. One that is all zeros has such a check. */
static void misfill(struct plan *plan) {
    u32 d = some_good(plan), dirt = 2 + pick(254);
    if (d == DEVICES)
        return;
    u8 *block = device_block(plan, d);
    switch (pick(5)) {
    case 0: block[pick(2)] ^= dirt; break;
    case 1: block[2] = dirt; break;
    case 2: port_entry(plan, d, pick(PORTS))[3] = dirt; break;
    case 3: memset(block, 0, BLOCK); break;
    default: block[BEHIND_BARS + pick(CHECK - BEHIND_BARS)] = dirt;
    }
    seal(plan, 1 + d);
}

/* Several of these, or any damage. */
static void try_faulty(struct plan *whole) {
    static struct plan plan;
    static struct rescued rescued;
    u32 peer = pick(whole->bytes[1]), peer_port = pick(PORTS), master = master_of(whole);
    plan = *whole;
    spoil_some(&plan, 1 + pick(3));
    for (u32 i = pick(3); i; i--)
        clash(&plan);
    if (once_in(2))
        share_source(&plan);
    if (once_in(3))
        claim(&plan, peer, peer_port);
    if (master != NO_MASTER && once_in(4))
        no_master(&plan);
    else if (master != NO_MASTER && !is_damaged(&plan, master) && once_in(3))
        spoil(&plan, master);
    if (once_in(6))
        misfill(&plan);
    if (once_in(5))
        damage(&plan);
    rescue_lengths(&plan, &rescued);
    mend(&plan, &rescued);
}

/* ---- lengths of areas */

enum area { MENDED_SHORT, MENDED_LONG, TEXT_SHORT, TEXT_LONG, AREAS };
static const char *const area_names[AREAS] = {
    "a shorter area for the file: 3", "a longer one: 3", "too short an area for the text: 3", "a longer one, and done"};
static size areas[AREAS];

static void try_areas(struct plan *whole) {
    static struct plan plan;
    static struct rescued rescued;
    plan = *whole;
    spoil_some(&plan, pick(WAYS));
    if (once_in(4))
        damage(&plan);
    size length = plan.length, any = pick(ROOM), any_text = pick(ROOM);
    const size files[] = {length, length, length, length + 1, length ? length - 1 : 0, 0, length % ROOM / 2, any};
    const size texts[] = {RESCUE_BYTES, RESCUE_BYTES + 1, 2 * RESCUE_BYTES, ROOM, RESCUE_BYTES - 1, 0, any_text};
    rescued.mended_length = files[pick(sizeof files / sizeof *files)];
    rescued.printed.text_length = texts[pick(sizeof texts / sizeof *texts)];
    u32 number = mend(&plan, &rescued);
    areas[MENDED_SHORT] += rescued.mended_length < length;
    areas[MENDED_LONG] += rescued.mended_length > length;
    areas[TEXT_SHORT] += rescued.mended_length == length && number == 3;
    areas[TEXT_LONG] += !number && rescued.printed.text_length > RESCUE_BYTES && rescued.printed.used > 0;
}

enum { FAULTY = 10 };
void try_rescues(const struct plan *given) {
    static struct plan whole;
    whole = *given;
    for (u32 way = 0; way < WAYS; way++)
        try_damaged(&whole, way);
    for (u32 i = 0; i < FAULTY; i++)
        try_faulty(&whole);
    try_areas(&whole);
}

void rescues_table(void) {
    printf("T-13, rescues, by number                       times\n");
    counts_table(answer_names, answered, ANSWERED);
    printf("refused, by what was found first               times\n");
    counts_table(fault_names, firsts, FAULTS);
    printf("and what stood behind it as well               times\n");
    counts_table(pair_names, paired, PAIRS);
    counts_table(&above_name, &clashes_above, 1);
    printf("of accepted files with blocks damaged          times\n");
    counts_table(having_names, havings, HAVINGS);
    printf("what was damaged of a block                    times\n");
    counts_table(spoilt_names, spoilt, SPOILT);
    printf("  its check was right all the same, and was changed: %lu\n", accidents);
    printf("areas of a rescue                              times\n");
    counts_table(area_names, areas, AREAS);
}

flag all_rescues_tried(void) {
    flag all = all_counted("T-13, in networks of any shape no rescue was answered by", answer_names, answered, ANSWERED);
    all &= all_counted("no rescue was refused by", fault_names, firsts, FAULTS);
    all &= all_counted("no rescue was refused where there were both", pair_names, paired, PAIRS);
    all &= all_counted("no rescue was refused where there were both", &above_name, &clashes_above, 1);
    all &= all_counted("no rescue had", having_names, havings, HAVINGS);
    all &= all_counted("of no block was damaged", spoilt_names, spoilt, SPOILT);
    all &= all_counted("no rescue had", area_names, areas, AREAS);
    return all;
}
