/* "Code bytes" and "One device". */
#include "judge.h"

/* The bytes, row by row, with the two top bits that all bytes of a row have. What a byte is above the first of its row is its
 * value; of a reserved byte that is the low six. Reserved has two rows, so that only the top bits say which byte it was. */
static const struct row {
    u32 first;
    enum kind kind;
    u32 top;
} rows[] = {{0, TIME_CODE, 0}, {64, RESERVED, 1}, {128, INTERRUPT, 2}, {160, ACKNOWLEDGE, 2}, {192, RESERVED, 3}};

static const struct row *row_of(u8 byte) {
    const struct row *row = rows + sizeof rows / sizeof *rows - 1;
    while (byte < row->first)
        row--;
    return row;
}

/* Of a kind that is written, which has one row. */
u32 code_byte(struct code code) {
    const struct row *row = rows;
    while (row->kind != code.kind)
        row++;
    return row->first + code.value;
}

void permit(u32 permissions, flag may_send[], flag may_receive[]) {
    may_send[TIME_CODE] = may_receive[TIME_CODE] = 1;
    may_send[INTERRUPT] = permissions & 1;
    may_receive[INTERRUPT] = permissions & 2;
    may_send[ACKNOWLEDGE] = permissions & 4;
    may_receive[ACKNOWLEDGE] = permissions & 8;
}

void mask_read(u32 mask, flag member[]) {
    for (u32 k = 0; k < IDENTIFIERS; k++)
        member[k] = mask >> k & 1;
}

/* Any Time-Code becomes the counter, and one that is just above it is taken, whatever the port is and may. */
static enum action react_to_time(flag router, u32 *counter, u32 value) {
    flag above = (*counter + 1) % TIMES == value;
    *counter = value;
    return !above ? NAMED : router ? FORWARDED : TELLS_HOST;
}

/* The order is the paper's: a stopped port is a link error even where nothing may be received. A router drops what is barred
 * before it looks at anything else; a node does not look at bars. An event is not acknowledged, whatever its bit is: a timer
 * clears that, or a reset. */
enum action react(flag router, flag running, const flag may_receive[], flag barred[][IDENTIFIERS], const flag event[],
                  flag set[], u32 *counter, struct code code) {
    if (code.kind == TIME_CODE)
        return react_to_time(router, counter, code.value);
    if (code.kind == RESERVED)
        return NAMED;
    if (!running)
        return LINK_ERROR;
    if (!may_receive[code.kind])
        return IGNORED;
    if (router && barred[code.kind][code.value])
        return DROPPED;
    if (code.kind == ACKNOWLEDGE && event[code.value])
        return IGNORED;
    flag wanted = code.kind == INTERRUPT;
    if (set[code.value] == wanted)
        return IGNORED;
    set[code.value] = wanted;
    return router ? FORWARDED : TELLS_HOST;
}

u32 judge_code_read(u8 byte, u32 *top, u32 *value) {
    const struct row *row = row_of(byte);
    *top = row->top;
    *value = byte - row->first;
    return row->kind;
}

u32 judge_code_write(u32 kind, u32 value, u32 *byte) {
    *byte = 0;
    if (kind != TIME_CODE && kind != INTERRUPT && kind != ACKNOWLEDGE)
        return 5;
    if (value > (kind == TIME_CODE ? 63 : 31))
        return 5;
    *byte = code_byte((struct code){kind, value});
    return 0;
}

/* The code is handed on as it was read, whatever is done with it. */
u32 judge_react_guarded(u32 role, u32 running, u32 permissions, u32 events, u32 interrupts, u32 acknowledges,
                        u32 *device_register, u32 *counter, u8 byte, u32 *kind, u32 *top, u32 *value) {
    flag may_send[ACKNOWLEDGE + 1], may_receive[ACKNOWLEDGE + 1], barred[ACKNOWLEDGE + 1][IDENTIFIERS];
    flag event[IDENTIFIERS], set[IDENTIFIERS];
    *kind = judge_code_read(byte, top, value);
    permit(permissions, may_send, may_receive);
    mask_read(interrupts, barred[INTERRUPT]);
    mask_read(acknowledges, barred[ACKNOWLEDGE]);
    mask_read(events, event);
    mask_read(*device_register, set);
    enum action action = react(role != 0, running != 0, may_receive, barred, event, set, counter, (struct code){*kind, *value});
    *device_register = 0;
    for (u32 k = 0; k < IDENTIFIERS; k++)
        *device_register |= (u32)set[k] << k;
    return action;
}
