/* The judge: the paper's bench, written again from the paper alone and made to be read beside it.
 *
 * It keeps no area of words and no masks. A device has a flag and a timer per identifier, and a counter; a port points to its
 * peer and knows for each identifier what is barred and what waits, and which Time-Code does, and how much it has dropped; and a
 * network knows for each identifier whether it is acknowledged, and what its timers are loaded with. Files and areas are turned
 * into these records, and back, at the edge: file.c and state.c. The calls at the end take what those of include/bench.h take,
 * and answer with the same numbers. */
#ifndef JUDGE_H
#define JUDGE_H

typedef _Bool flag;
typedef unsigned char u8;
typedef unsigned int u32;
typedef unsigned long size;

enum { DEVICES = 32, PORTS = 8, NODE_PORTS = 2, IDENTIFIERS = 32, TIMES = 64 };
enum { BLOCK = 512, LONGEST_FILE = BLOCK * (1 + DEVICES) };
enum { STATE_WORDS = 2880, SENT_WORDS = 256, TOLD_WORDS = 1088, TEXT_BYTES = 14347, MOST_ALLOWED = 4096, SENT_NONE = 256 };
enum { CROSSINGS_WORDS = 32, CHAIN_WORDS = 32, CUT_WORDS = 256, WHY_BYTES = 5640, CHAIN_NONE = 256, RESCUE_BYTES = 2848 };

/* The words of a state. Of a device: the register and the timers. Behind all devices, of a port: these four. */
enum { AT_INTERRUPTS, AT_ACKNOWLEDGES, AT_NEXT, AT_RUNNING, PORT_WORDS };
enum { DEVICE_WORDS = 1 + IDENTIFIERS, FIRST_PORT = DEVICE_WORDS * DEVICES };

/* Behind all ports the counters, by device, and then a word of each port: the Time-Code that waits plus 1, or 0, and AFTER_TIME
 * more where the last code that the port sent was a Time-Code. */
enum { FIRST_COUNTER = FIRST_PORT + PORT_WORDS * PORTS * DEVICES, FIRST_TIME = FIRST_COUNTER + DEVICES, AFTER_TIME = 128 };

/* Behind those two words of each port: how many interrupts it has dropped, and how many acknowledges. */
enum { AT_DROPPED_INTERRUPTS, AT_DROPPED_ACKNOWLEDGES, DROP_WORDS };
enum { FIRST_DROP = FIRST_TIME + PORTS * DEVICES, MOST_DROPPED = 65535 };

/* Kinds of code. NOTHING is what waits, or is sent, where no code does. */
enum kind { TIME_CODE, INTERRUPT, ACKNOWLEDGE, RESERVED, NOTHING };
struct code {
    enum kind kind;
    u32 value;
};

enum { NO_TIME = TIMES, NO_MASTER = DEVICES };

/* What a device does with a code. */
enum action { NAMED, LINK_ERROR, IGNORED, FORWARDED, TELLS_HOST, DROPPED };

/* Permissions are looked up by kind: TIME_CODE, which needs none, INTERRUPT or ACKNOWLEDGE. So is what a port bars and has
 * dropped, where no Time-Code is looked up: none is barred. Only ports of routers bar anything. */
struct port {
    struct device *device;
    struct port *peer; /* null where the port leads nowhere */
    flag may_send[ACKNOWLEDGE + 1], may_receive[ACKNOWLEDGE + 1];
    flag barred[ACKNOWLEDGE + 1][IDENTIFIERS];
    flag running;
    enum kind waiting[IDENTIFIERS]; /* one kind at most: the two waiting sets have nothing in common */
    u32 next;
    u32 time; /* the Time-Code that waits, or NO_TIME */
    flag after_time; /* the last code sent was a Time-Code */
    u32 dropped[ACKNOWLEDGE + 1];
    struct code sent; /* in the round that is being played */
};

struct device {
    u32 number;
    flag router;
    u32 ports;
    flag source[IDENTIFIERS], handler[IDENTIFIERS];
    flag set[IDENTIFIERS]; /* the register */
    u32 timer[IDENTIFIERS];
    u32 counter;
    struct port port[PORTS];
};

/* What timers are loaded with. */
struct loads {
    u32 router, node;
};

struct network {
    u32 devices;
    struct loads common, own[IDENTIFIERS]; /* an identifier whose own are zeros takes the common ones */
    u32 master; /* a device, or NO_MASTER */
    flag event[IDENTIFIERS]; /* in the un-acknowledged profile */
    struct device device[DEVICES];
};

/* What hosts are told in a round, in the order of the telling. */
struct told {
    u32 count;
    u32 word[TOLD_WORDS];
};

/* code.c: codes, and one device's reaction, which changes the register and the counter and says what is done. A mask becomes a
 * flag for each identifier. */
u32 code_byte(struct code code);
void permit(u32 permissions, flag may_send[], flag may_receive[]);
void mask_read(u32 mask, flag member[]);
enum action react(flag router, flag running, const flag may_receive[], flag barred[][IDENTIFIERS], const flag event[],
                  flag set[], u32 *counter, struct code code);

/* file.c: the number of the first fault in a plan file, or 0 with the plan in the network. A number stands in bytes with the lowest
 * first. The front is all that is asked before the first device's block: the length, block 0, and how many blocks there are. The
 * record of a device has its number before its block is read, and where that is refused the record may be half full. */
u32 number_at(const u8 *at, u32 bytes);
void number_put(u8 *at, u32 bytes, u32 number);
u32 block_check(const u8 *block);
u32 front_read(struct network *net, const u8 *file, size length);
u32 device_block_read(struct device *device, const u8 *file, const struct network *net);
struct port *port_named(struct network *net, const u8 *file, u32 device, u32 port); /* by the port's entry; null for nowhere */
void device_block_write(const struct device *device, u8 *block); /* a device that bars nothing, has no masks and no permissions */
u32 file_read(struct network *net, const u8 *file, size length, u32 *block);

/* state.c: the areas' edge. network_read gives the number of a refused file, 2, or 0 with plan and state in the network. */
void clear_device(struct device *device);
void clear_waiting(struct port *port); /* of Time-Codes the last one sent too, so that the port's word is 0 */
void clear_dropped(struct port *port);
u32 load_of(const struct network *net, const struct device *device, u32 k); /* of k's timer there, and the most that it can be */
void start(struct network *net);
flag state_read(struct network *net, const u32 *words, size length); /* of a plan that is there; 0 where it is not sound */
u32 network_read(struct network *net, const u8 *plan, size plan_length, const u32 *state, size state_length);
void state_write(const struct network *net, u32 *words);

/* calls.c and round.c: what happens to a network. */
u32 host_asks(struct network *net, size device, enum kind kind, u32 k);
void queue(struct port *port, struct code code);
void play_round(struct network *net, struct told *told);
void build_round(struct network *net, u32 *next, u32 *sent, u32 *told, u32 *count); /* the same, into its areas */
u32 settle(struct network *net, u32 allowance, u32 *rounds);

/* reach.c: does a code that the port sends get into the device at its other end? Of a Time-Code any value will do. */
flag passes(const struct port *port, struct code code);

/* The least crossings by which a code gets from one device to each, UNREACHED for none; the number of devices reached. Where
 * distances are given as within, only devices that these reach are entered; null is no such limit. */
enum { UNREACHED = DEVICES };
u32 crossings(const struct network *net, u32 start, struct code code, const u32 *within, u32 distance[DEVICES]);

/* The number that answers a question about the way of interrupts of k from a source to a device, or 0. */
u32 way_refused(const struct network *net, size source, u32 k, size device);

/* Why a port that leads out of what is reached does not lead its code there: the first of these that is so. BARRED has the last
 * number, as it came last, and its place is before DOES_NOT_FORWARD: the causes at the receiving end stand together. */
enum cause { NOT_OUT, STOPPED, MAY_NOT_SEND, MAY_NOT_RECEIVE, DOES_NOT_FORWARD, BARRED, CAUSES };

/* text.c: what texts are made of. */
struct text {
    u8 *bytes;
    u32 used;
};
void print(struct text *text, const char *word);
void print_number(struct text *text, u32 number);
void print_numbers(struct text *text, const u32 *numbers, u32 count); /* with a space between two */
void print_bad(struct text *text, u32 number, u32 block); /* of a file that is not accepted */

/* The calls, as in include/bench.h. */
u32 judge_code_read(u8 byte, u32 *top, u32 *value);
u32 judge_code_write(u32 kind, u32 value, u32 *byte);
u32 judge_react_guarded(u32 role, u32 running, u32 permissions, u32 events, u32 interrupts, u32 acknowledges,
                        u32 *device_register, u32 *counter, u8 byte, u32 *kind, u32 *top, u32 *value);
u32 judge_plan_read(const u8 *file, size length, u32 *block);
u32 judge_start(const u8 *plan, size plan_length, u32 *state, size state_length);
u32 judge_request(const u8 *plan, size plan_length, u32 *state, size state_length, size device, u32 k);
u32 judge_acknowledge(const u8 *plan, size plan_length, u32 *state, size state_length, size device, u32 k);
u32 judge_link(const u8 *plan, size plan_length, u32 *state, size state_length, size device, size port, u32 running);
u32 judge_reset(const u8 *plan, size plan_length, u32 *state, size state_length, size device);
u32 judge_tick(const u8 *plan, size plan_length, u32 *state, size state_length, size device);
u32 judge_round(const u8 *plan, size plan_length, const u32 *old, size old_length, u32 *next, size next_length, u32 *sent,
                size sent_length, u32 *told, size told_length, u32 *count);
u32 judge_settle(const u8 *plan, size plan_length, u32 *state, size state_length, u32 allowance, u32 *rounds);
u32 judge_reach_ports(const u8 *plan, size plan_length, const u32 *state, size state_length, size device, u32 k, u32 *devices,
                      u32 *set, u32 *examined);
u32 judge_report(const u8 *file, size length, u8 *text, size text_length, u32 *text_used);
u32 judge_crossings(const u8 *plan, size plan_length, const u32 *state, size state_length, size source, u32 k, u32 *crossings,
                    size crossings_length, u32 *most);
u32 judge_chain(const u8 *plan, size plan_length, const u32 *state, size state_length, size source, u32 k, size device,
                u32 *ports, size ports_length, u32 *crossings);
u32 judge_cut(const u8 *plan, size plan_length, const u32 *state, size state_length, size source, u32 k, u32 *causes,
              size causes_length, u32 *count);
u32 judge_why(const u8 *plan, size plan_length, u32 given, const u8 *state, size state_length, u32 source, u32 k, u32 device,
              u8 *text, size text_length, u32 *used);
u32 judge_rescue(const u8 *file, size length, u8 *mended, size mended_length, u8 *text, size text_length, u32 *block, u32 *used);

#endif
