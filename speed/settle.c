/* The program settle in plain C, for speed/run to time both from start to end. */
#include "plain.h"

long read(int, void *, usize);
long write(int, const void *, usize);

static u8 file[BENCH_FILE + 1], text[BENCH_TEXT];

int main(void) {
    usize length = 0;
    long got;
    while ((got = read(0, file + length, sizeof file - length)) > 0)
        length += got;
    u32 used;
    plain_report(file, length, text, BENCH_TEXT, &used);
    return write(1, text, used) != (long)used;
}
