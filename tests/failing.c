/* Replaces the C library's malloc, realloc, read and write, and lets one of them fail, or move few bytes.
 *
 * FAIL=alloc:N, read:N or write:N: the Nth call of this kind fails. FAIL=none:N: the Nth write takes no byte.
 * PIECES=K: a read or write of several bytes moves 1 to K bytes, by turns.
 * CALLS=FILE: at the end the numbers of calls of the three kinds are written there.
 */
#define _GNU_SOURCE
#include <dlfcn.h>
#include <errno.h>
#include <fcntl.h>
#include <stdio.h>
#include <stdlib.h>
#include <string.h>
#include <unistd.h>

enum { ALLOC, READ, WRITE, NONE, KINDS };
static const char *const names[KINDS] = {"alloc", "read", "write", "none"};
static long calls[KINDS], wanted[KINDS], pieces, turn;
static void *(*next_malloc)(size_t);
static void *(*next_realloc)(void *, size_t);
static ssize_t (*next_read)(int, void *, size_t);
static ssize_t (*next_write)(int, const void *, size_t);

__attribute__((constructor)) static void begin(void) {
    next_malloc = dlsym(RTLD_NEXT, "malloc");
    next_realloc = dlsym(RTLD_NEXT, "realloc");
    next_read = dlsym(RTLD_NEXT, "read");
    next_write = dlsym(RTLD_NEXT, "write");
    const char *fail = getenv("FAIL"), *size = getenv("PIECES");
    pieces = size ? atol(size) : 0;
    for (int kind = 0; fail && kind < KINDS; kind++) {
        size_t len = strlen(names[kind]);
        if (!strncmp(fail, names[kind], len) && fail[len] == ':') wanted[kind] = atol(fail + len + 1);
    }
    memset(calls, 0, sizeof calls);
}

__attribute__((destructor)) static void end(void) {
    const char *file = getenv("CALLS");
    char text[80];
    if (!file) return;
    int fd = open(file, O_WRONLY | O_CREAT | O_TRUNC, 0600);
    int len = snprintf(text, sizeof text, "%ld %ld %ld\n", calls[ALLOC], calls[READ], calls[WRITE]);
    if (fd >= 0 && next_write(fd, text, len) == len) close(fd);
}

static int fails(int kind) { return ++calls[kind] == wanted[kind]; }

static size_t piece(size_t len) {
    if (!pieces || len < 2) return len;
    size_t most = 1 + turn++ % pieces;
    return most < len ? most : len;
}

void *malloc(size_t len) {
    if (!next_malloc) begin();
    if (fails(ALLOC)) return errno = ENOMEM, NULL;
    return next_malloc(len);
}

void *realloc(void *old, size_t len) {
    if (fails(ALLOC)) return errno = ENOMEM, NULL;
    return next_realloc(old, len);
}

ssize_t read(int fd, void *to, size_t len) {
    if (fails(READ)) return errno = EIO, -1;
    return next_read(fd, to, piece(len));
}

/* Standard error is not touched: the program prints there why it stopped. */
ssize_t write(int fd, const void *from, size_t len) {
    if (fd != 2) {
        if (fails(WRITE)) return errno = EIO, -1;
        if (calls[WRITE] == wanted[NONE]) return 0;
        len = piece(len);
    }
    return next_write(fd, from, len);
}

ssize_t __write(int fd, const void *from, size_t len) { return write(fd, from, len); }
