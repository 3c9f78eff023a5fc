/* The driver: makes input, gives it to the judge and through the C door to the bench, and compares all that they touch. */
#ifndef DRIVER_H
#define DRIVER_H
#include "../judge/judge.h"
#include "bench.h"

/* The kit's compiler has no headers of C's library. */
int printf(const char *format, ...);
int dprintf(int file, const char *format, ...);
_Noreturn void exit(int status);
int memcmp(const void *one, const void *other, unsigned long bytes);
void *memcpy(void *restrict to, const void *restrict from, unsigned long bytes);
void *memset(void *to, int byte, unsigned long bytes);
int snprintf(char *to, unsigned long bytes, const char *format, ...);
unsigned long strlen(const char *text);
unsigned long strtoul(const char *text, char **end, int base);

/* The longest area lent: a text of twice the least length. */
enum { ROOM = 2 * TEXT_BYTES };

struct plan {
    size length;
    u8 bytes[ROOM];
};

struct state {
    size length; /* in words; wrong ones are tried too */
    u32 words[2 * STATE_WORDS];
};

/* What a round builds. The lengths are given, and may be wrong. */
struct played {
    struct state next;
    size sent_length, told_length;
    u32 sent[2 * SENT_WORDS], told[2 * TOLD_WORDS], count;
};

/* What a report prints, and the length of the area for it. */
struct printed {
    size text_length;
    u32 used;
    u8 text[ROOM];
};

/* What a rescue makes of a file, and what it prints. The lengths are given, and may be wrong. */
struct rescued {
    size mended_length;
    u32 block; /* 0 where it is done */
    u8 mended[ROOM];
    struct printed printed;
};

/* What is asked about the way of interrupts of k: from which source, and, unless it is asked about all devices, to which. */
struct question {
    size source, device;
    u32 k;
};

/* What is found out about it, in words and a value. The length is given, and may be wrong. */
struct found {
    size length;
    u32 words[2 * CUT_WORDS], value;
};

/* A state as the bytes of a file, or none, which is a given of 0. Wrong lengths are tried too. */
struct state_file {
    u32 given;
    size length;
    u8 bytes[2 * 4 * STATE_WORDS];
};

/* What a port bars, in masks. */
struct bars {
    u32 interrupts, acknowledges;
};

/* What a word that a host is told is about. */
enum { OF_INTERRUPT = 1, OF_ACKNOWLEDGE, OF_TIMEOUT, OF_TIME };

/* random.c: numbers that follow from a seed and a case alone. */
void random_begin(size seed, size which);
size random_word(void);
u32 pick(u32 below);
flag once_in(u32 times);
size wild(u32 limit);

/* compare.c: a call to both. Every try_ compares all numbers and areas, counts, and gives what the bench answered. */
enum call {
    CODE_READ, CODE_WRITE, REACT, PLAN_READ, START, REQUEST, ACKNOWLEDGES, LINK, RESET, TICK, ROUND, SETTLE, REACH, REPORT,
    CROSSINGS, CHAIN, CUT, WHY, RESCUE, CALLS
};

/* A call that changes a state, and what it takes beside plan and state: other is an identifier or a port, and running is what
 * a link is to be, 0 where it is to stop. */
struct change {
    enum call call;
    size device, other;
    u32 running;
};

_Noreturn void fail(const char *what, size one, size other);
void must_be(const char *what, size wanted, size given);
void must_say(const char *what, const char *text, const struct printed *printed); /* the text and nothing else */
u32 value_given(u32 which); /* by the call just tried, from 0 on: plan read its block, settle its rounds, react kind, top, value */
size compared(void);
flag all_hit(void);
void table(void);
u32 try_code_read(u8 byte);
u32 try_code_write(u32 kind, u32 value);
u32 try_react(u32 role, u32 running, u32 permissions, u32 events, u32 *device_register, u32 *counter, u8 byte);
u32 try_react_guarded(u32 role, u32 running, u32 permissions, u32 events, struct bars bars, u32 *device_register, u32 *counter,
                      u8 byte);
u32 try_plan_read(const struct plan *plan);
u32 judge_change(struct change change, const u8 *plan, size plan_length, u32 *state, size state_length);
u32 try_change(struct change change, const struct plan *plan, struct state *state);
u32 try_start(const struct plan *plan, struct state *state);
u32 try_round(const struct plan *plan, const struct state *old, struct played *played);
u32 try_round_of(struct network *known, const struct plan *plan, const struct state *old, struct played *played);
u32 try_settle(const struct plan *plan, struct state *state, u32 allowance);
u32 try_reach(const struct plan *plan, const struct state *state, size device, u32 k);
u32 try_report(const struct plan *file, struct printed *printed);
u32 try_way(enum call call, const struct plan *plan, const struct state *state, struct question asks, struct found *found);
u32 try_why(const struct plan *plan, const struct state_file *given, struct question asks, struct printed *printed);
u32 try_rescue(const struct plan *plan, struct rescued *rescued);

/* counts.c: counts and their names, in a table; and whether none is 0. */
void counts_table(const char *const *names, const size *counts, u32 number);
flag all_counted(const char *what, const char *const *names, const size *counts, u32 number); /* what: said before the name */

/* Of each program with a main: says what was being tried, when something fails. */
void say_where(void);

/* plans.c: accepted files of every shape. A mask is named by where it stands in a block, and so are the events, the master and
 * what identifiers have for loads of their own, four bytes for each, in block 0. The bars of the ports stand behind their
 * entries, eight bytes for each. */
enum { SOURCES = 4, HANDLERS = 8, BARS = 44, BEHIND_BARS = 108, EVENTS = 6, MASTER = 10, OWN_LOADS = 16, BEHIND_LOADS = 144 };
u32 master_of(const struct plan *plan); /* NO_MASTER for none */
void name_master(struct plan *plan, u32 device);
flag in_mask(struct plan *plan, u32 device, u32 mask, u32 k);
u8 *device_block(struct plan *plan, u32 device);
u8 *port_entry(struct plan *plan, u32 device, u32 port);
void seal(struct plan *plan, u32 block);
void seal_devices(struct plan *plan); /* all blocks but block 0 */
u32 events_of(const struct plan *plan); /* the mask of those in the un-acknowledged profile */
flag is_event(const struct plan *plan, u32 k);
void set_event(struct plan *plan, u32 k, flag event); /* its sources stay, so that it may have too many */
void lose_sources(struct plan *plan, u32 k, u32 but); /* all that k has, but this one */
void be_acknowledged(struct plan *plan, u32 k); /* no event, and of its sources any one stays */
void give_role(struct plan *plan, u32 device, u32 mask, u32 k);
u8 *port_bars(struct plan *plan, u32 device, u32 port); /* four bytes for interrupts, and four for acknowledges */
flag is_barred(struct plan *plan, u32 device, u32 port, enum kind kind, u32 k); /* by the bytes, whatever the device is */
void set_bar(struct plan *plan, u32 device, u32 port, enum kind kind, u32 k, flag barred);
void unbar(struct plan *plan, u32 k); /* of neither kind is it barred anywhere */
void blank(struct plan *plan, u32 devices);
void be_router(struct plan *plan, u32 device, u32 ports);
void be_node(struct plan *plan, u32 device, u32 ports);
void connect_ports(struct plan *plan, u32 device, u32 port, u32 peer, u32 peer_port, u8 permissions);
void set_loads(struct plan *plan, u32 router, u32 node); /* the common ones */
void set_own_loads(struct plan *plan, u32 k, u32 router, u32 node); /* the pair of k; zeros are no pair */
struct loads common_loads(const struct plan *plan);
struct loads own_loads(const struct plan *plan, u32 k); /* zeros where k has no pair */
flag has_pair(const struct plan *plan, u32 k);
struct loads loads_of(const struct plan *plan, u32 k); /* its own, or else the common ones */
u32 load_at(struct plan *plan, u32 device, struct loads loads); /* the one of the two that is for the device's role */
void put_number(u8 *at, u32 bytes, u32 number);
void make_plan(struct plan *plan);

/* damage.c: the same with something wrong. */
void damage(struct plan *plan);

/* states.c: any sound state, and states with one clause of soundness broken; 0 where the plan has no place for it. */
enum { CLAUSES = 32 };
u32 *device_words(struct state *state, u32 device);
u32 *port_words(struct state *state, u32 device, u32 port);
u32 *counter_word(struct state *state, u32 device);
u32 *time_word(struct state *state, u32 device, u32 port);
u32 *drop_word(struct state *state, u32 device, u32 port, enum kind kind);
void sound_state(struct plan *plan, struct state *state);
void fit_timers(struct plan *plan, struct state *state); /* where loads have become shorter: none is above its load then */
void set_running(struct plan *plan, struct state *state, u32 device, u32 port, flag running); /* what cannot wait there is lost */
flag break_state(struct plan *plan, struct state *state, u32 clause);
void state_bytes(const struct state *state, struct state_file *file); /* with any given but 0 */
void states_table(void); /* what sound ones have of Time-Codes, events, drops and loads, and how often each clause was broken */
flag all_states_tried(void);

/* A network whose rounds are played one after the other, and what the last of them built. The judge keeps it in its records,
 * which are known as long as no call changes the state. */
struct course {
    struct plan plan;
    struct state state;
    struct played played;
    u32 ticks; /* the master ticks before a round, once in so many; 0 is never */
    flag ticks_apart; /* a tick is no call that may be made meanwhile */
    flag known;
    struct network records;
};

/* A code of k that goes from one device to all that it reaches, in a window of 64 x (D + 1) rounds: a port may send all others
 * before it, and a Time-Code before each code. */
enum { CROSSING = 64 };
struct spread {
    const char *name; /* of what is being tried */
    enum kind kind;
    u32 k, start, window;
    u32 distance[DEVICES]; /* in crossings by codes of the kind, or UNREACHED */
    flag sent[SENT_WORDS];
    u32 told[DEVICES]; /* the round in which the host was told of it, 0 before that */
    flag crossed[DEVICES]; /* it has come to this device, which is one crossing away */
    u32 slowest; /* the last round in which it came to such a one */
};

/* spread.c: what is given, and what is to be seen, in such a window. A check that fails ends the run. */
void begin_course(struct course *course, const struct plan *plan); /* in any sound state */
flag choose_source(struct course *course, struct spread *spread); /* one that can send: start and k; 0 where no node is joined */
void open_links(struct course *course, flag all); /* what runs grants everything at both ends; where all are to, each link runs */
void unset(struct course *course, u32 k); /* held by nobody and waiting nowhere */
void no_times(struct course *course); /* no Time-Code waits */
void let_tick(struct course *course, u32 node); /* in half of the trials, all the while: the plan's master, or this node */
void crowd(struct course *course, u32 k); /* the most in its way: all others wait at every port, and come before it */
void read_records(struct course *course);
u32 running_ports(struct course *course, u32 device);
flag can_send(struct course *course, u32 device); /* an interrupt, by some port */
u32 farthest(const u32 distance[DEVICES]); /* the greatest of those that are reached */
void measure(struct course *course, struct spread *spread, const u32 *within); /* the window, and the distances as in reach.c */
void give_loads(struct course *course, u32 k, u32 router, u32 node); /* by a pair of its own, or by the common loads */
void exceed(struct course *course, u32 k, u32 rounds); /* loads of k that are longer, by one in half of the trials */
u32 make_call(struct course *course, struct change change);
u32 host_calls(struct course *course, enum call call, u32 device, u32 k); /* a request or an acknowledge */
void play_on(struct course *course, u32 k, u32 calls); /* a round, and calls before it: ticks, on others, or refused */
flag holds(struct course *course, u32 device, u32 k);
flag tells_of(u32 word, u32 k); /* is a word that a host was told about this identifier? */
_Noreturn void broken(const struct spread *spread, const char *what, u32 one, u32 other);
void has_come(struct spread *spread, u32 device, u32 round); /* to a device that it reaches */
void check_held(struct spread *spread, struct course *course, u32 round);
void check_sent(struct spread *spread, const struct course *course, u32 round);
void check_all_sent(const struct spread *spread, struct course *course); /* by each port of the start that runs and may */
flag meets_bars(const struct spread *spread, struct course *course); /* is it kept from going on, somewhere, by a bar alone? */
void check_rest(const struct spread *spread, struct course *course);

/* What a source's host is told first of its request. UNTOLD: nothing yet, or no node is joined to anything and can request. */
enum answer { UNTOLD, ACKNOWLEDGED, TIMED_OUT, ANSWERS };

/* What became of a source's request, and of its cables meanwhile. */
struct drop {
    enum answer answer;
    flag event; /* it was one of an event */
    flag again; /* a cable was out and in again */
    flag one, both; /* the source had two that ran: one was out while the other ran, both were out */
};

/* How T-01 was tried. Pairs are of a node and another that it reaches. */
struct trips {
    size networks, cycles;
    size alone, unfound; /* networks with no pair, and with none for which all that the one reached is found from the other */
    size pairs, other_pairs; /* that allow T-01, and that do not */
    size from_both, back_by_both, beyond; /* cycles: by source and handler with two ports that run; see cycle.c */
    size ticked; /* cycles with ticks all the while */
    size barred; /* cycles while others are barred */
    u32 longest; /* in rounds, of the cycles */
    u32 slowest, slowest_back; /* the rounds of a first crossing, by interrupts and by acknowledges */
};

/* How demand 3 was tried. */
struct demands {
    size networks, from_both, ticked;
    size events, others; /* by what k was */
    size barred; /* k was stopped by bars alone somewhere */
    u32 longest, slowest; /* the rounds of a window, and of a first crossing */
};

/* ports.c: nodes with two ports, by where these lead; and calls at one of them, by what the ports decide. */
void count_shapes(struct plan *plan);
void try_ports(const struct plan *plan);
void ports_table(void);
flag all_ports_tried(void);

/* time.c: who may be the master, and how time is distributed. */
void try_masters(const struct plan *plan);
void try_time(const struct plan *plan);
void time_table(void);
flag all_time_tried(void);

/* event.c: how many sources an identifier may have, what clears the bit of an event, and what becomes of a request of one. */
void try_sources(const struct plan *plan);
void events_in_call(struct plan *plan, struct state *before, struct state *after, const struct change *change);
void events_in_round(struct plan *plan, struct state *before, struct played *played);
void try_events(const struct plan *plan);
void events_table(void);
flag all_events_tried(void);

/* why.c: why an interrupt gets to a device, or does not. */
size right_words(enum call call); /* of crossings, a chain or a cut */
void ways_over(const struct plan *plan, const struct state *state, u32 number, u32 block); /* a file that is refused so */
void try_whys(const struct plan *plan);
void whys_table(void);
flag all_whys_tried(void);

/* examined.c: how many ports reach has examined. A reach by examine is compared, and it is counted what came up. */
u32 examine(struct plan *plan, struct state *state, size device, u32 k);
void known_examined(void);
void examined_table(void);
flag all_examined_tried(void);

/* guard.c: which bars a file may have, how drops are counted, and what a guard is for. */
void count_bars(struct plan *plan);
void try_bars(const struct plan *plan);
void drops_in_call(struct plan *plan, struct state *before, struct state *after, const struct change *change, u32 number);
void drops_in_round(struct plan *plan, struct state *before, struct played *played);
void try_guards(const struct plan *plan);
void guards_table(void);
flag all_guards_tried(void);

/* loads.c: which pairs of loads a file may have, what timers are loaded with in any run, and by which loads k lasts in a trial where
 * it has to, which is for longer than so many rounds. */
enum trial { IN_DEMAND_3, IN_T_01, IN_T_03, IN_T_08, IN_T_11, TRIALS };
void count_pairs(const struct plan *plan);
void try_pairs(const struct plan *plan);
void loads_in_call(struct plan *plan, struct state *before, struct state *after, const struct change *change, u32 number);
void loads_in_round(struct plan *plan, struct state *before, struct played *played);
void count_loads(enum trial trial, const struct course *course, u32 k, u32 rounds);
void loads_table(void);
flag all_loads_tried(void);

/* rescue.c: what a rescue makes of a file with damaged blocks. A try_mending works out by the bytes which number has to be answered,
 * and with which block; and where that is 0, all bytes of the mended file and of the text. */
void rescue_lengths(const struct plan *plan, struct rescued *rescued); /* the right ones */
u32 try_mending(struct plan *plan, struct rescued *rescued); /* in the lengths that are given */
void try_rescues(const struct plan *plan);
void rescues_table(void);
flag all_rescues_tried(void);

/* known.c, clock.c, profile.c, chains.c, edge.c, pairs.c, mended.c, codes.c, trials.c, demand.c, cycle.c and drop.c: what is
 * tried. */
void known_values(void);
void known_times(void);
void known_events(void);
void known_chains(void);
void known_bars(void);
void known_loads(void);
void known_rescues(void);
void try_tables(void);
void try_files(struct plan *plan);
void try_calls(struct plan *plan);
void try_run(struct plan *plan, u32 rounds);
void try_settling(struct plan *plan);
void try_reports(struct plan *plan);
void right_lengths(struct played *played);
size wrong_length(size right); /* sometimes it is right all the same */
void ticks_table(void);
flag all_ticks_answered(void);
struct change likely_change(struct plan *plan);
void try_demand_3(const struct plan *plan, struct demands *demands); /* adds what was tried */
void try_cycles(const struct plan *plan, struct trips *trips); /* the same */
struct drop try_drop(const struct plan *plan);

#endif
