/* What was tried, counted under names: a line for each in the tables at the end, and what was never so. */
#include "driver.h"

void counts_table(const char *const *names, const size *counts, u32 number) {
    for (u32 i = 0; i < number; i++)
        printf("  %-41s %8lu\n", names[i], counts[i]);
}

flag all_counted(const char *what, const char *const *names, const size *counts, u32 number) {
    flag all = 1;
    for (u32 i = 0; i < number; i++)
        if (!counts[i]) {
            printf("%s: %s\n", what, names[i]);
            all = 0;
        }
    return all;
}
