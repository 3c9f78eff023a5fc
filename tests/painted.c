/* Preloaded into a program: it paints the stack below main before main begins, and says on standard error at the end how
 * many bytes were used, from the program's arguments down. */

/* The kit's compiler has no headers of C's library. */
int dprintf(int file, const char *format, ...);
extern char **environ;

enum { STACK = 1 << 18, PAINT = 0xA5 };
static const volatile unsigned char *painted;

__attribute__((constructor)) static void paint(void) {
    volatile unsigned char below[STACK];
    for (unsigned i = 0; i < STACK; i++)
        below[i] = PAINT;
    painted = below;
}

__attribute__((destructor)) static void measure(void) {
    unsigned bare = 0;
    while (bare < STACK && painted[bare] == PAINT)
        bare++;
    dprintf(2, "%lu\n", (unsigned long)((const volatile unsigned char *)environ - painted - bare));
}
