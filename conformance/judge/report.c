/* The text that the program settle prints. */
#include "judge.h"

static u32 holders(const struct network *net, u32 k) {
    u32 count = 0;
    for (u32 d = 0; d < net->devices; d++)
        count += net->device[d].set[k];
    return count;
}

/* The rounds and the devices then holding the bit, from a fresh start. */
static void print_settling(struct text *text, struct network *net, u32 device, u32 k) {
    start(net);
    u32 rounds, refused = host_asks(net, device, INTERRUPT, k);
    if (refused) {
        print(text, "r");
        print_number(text, refused);
        print(text, " 0");
        return;
    }
    if (settle(net, MOST_ALLOWED, &rounds) == 12)
        print(text, "-");
    else
        print_number(text, rounds);
    print(text, " ");
    print_number(text, holders(net, k));
}

static void print_network(struct text *text, struct network *net) {
    print(text, "network ");
    print_number(text, net->devices);
    print(text, "\n");
    for (u32 d = 0; d < net->devices; d++)
        for (u32 k = 0; k < IDENTIFIERS; k++) {
            if (!net->device[d].source[k])
                continue;
            print_numbers(text, (const u32[]){d, k}, 2);
            print(text, " ");
            print_settling(text, net, d, k);
            print(text, "\n");
        }
}

u32 judge_report(const u8 *file, size length, u8 *text, size text_length, u32 *text_used) {
    struct network net;
    struct text printed = {text, 0};
    u32 block;
    *text_used = 0;
    if (text_length < TEXT_BYTES)
        return 3;
    u32 number = file_read(&net, file, length, &block);
    if (number)
        print_bad(&printed, number, block);
    else
        print_network(&printed, &net);
    *text_used = printed.used;
    return 0;
}
