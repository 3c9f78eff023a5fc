/* What texts are made of: words, and numbers in decimal. */
#include "judge.h"

void print(struct text *text, const char *word) {
    while (*word)
        text->bytes[text->used++] = *word++;
}

void print_number(struct text *text, u32 number) {
    if (number >= 10)
        print_number(text, number / 10);
    text->bytes[text->used++] = '0' + number % 10;
}

void print_numbers(struct text *text, const u32 *numbers, u32 count) {
    for (u32 i = 0; i < count; i++) {
        print(text, i ? " " : "");
        print_number(text, numbers[i]);
    }
}

void print_bad(struct text *text, u32 number, u32 block) {
    print(text, "bad ");
    print_numbers(text, (const u32[]){number, block}, 2);
    print(text, "\n");
}
