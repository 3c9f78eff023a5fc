/* Input for the programs of tests/ that play the judge beside the bench. */
#ifndef FILES_H
#define FILES_H
#include "../conformance/driver/driver.h"

long read(int file, void *into, unsigned long bytes);

/* All of a file, for which there has to be room and a byte more: what would be cut off fails. */
static size read_all(int file, void *into, size room) {
    size length = 0;
    long got;
    while ((got = read(file, (u8 *)into + length, room - length)) > 0)
        length += got;
    if (got < 0 || length == room) {
        printf("a file could not be read, or is too long\n");
        exit(1);
    }
    return length;
}

#endif
