/* Measures how much stack each call of the library needs. It is included after mvs.h, and followed by a macro for each function, as
 *   #define mvs_line(...) MEASURED(mvs_line, __VA_ARGS__)
 * At its end the program prints the names of the functions that it called, each with the most that a call needed, on standard error. */
#include <stdio.h>
#include <stdlib.h>

enum { PAINTED = 32 * 1024, PAINT = 0x5A, NAMES = 64 };

static struct { const char *name; size_t most; } uses[NAMES];

/* The stack below the caller is painted before a call. After it, the lowest word of another colour is the deepest one that was used. */
#define BELOW ((volatile unsigned long *)__builtin_frame_address(0) - 64)

__attribute__((noinline)) static void paint(void) {
    volatile unsigned long *top = BELOW;
    long k;
    for (k = 1; k <= PAINTED; k++) top[-k] = PAINT;
}

static void print_uses(void) {
    size_t n;
    for (n = 0; n < NAMES && uses[n].name; n++) fprintf(stderr, "%s %zu\n", uses[n].name, uses[n].most);
}

__attribute__((noinline)) static void measure(const char *name) {
    volatile unsigned long *top = BELOW;
    long k = PAINTED;
    size_t n = 0, used;
    while (k > 0 && top[-k] == PAINT) k--;
    used = (size_t)((volatile unsigned long *)__builtin_frame_address(0) - (top - k)) * sizeof *top;
    while (uses[n].name && strcmp(uses[n].name, name)) n++;
    if (n == 0 && !uses[0].name) atexit(print_uses);
    uses[n].name = name;
    if (used > uses[n].most) uses[n].most = used;
}

#define MEASURED(call, ...) __extension__({ uint32_t status_; paint(); status_ = call(__VA_ARGS__); measure(#call); status_; })
