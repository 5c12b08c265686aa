// Preloaded into a program, disturbs one of its streams: standard input (STREAM 0), by its reads, or standard output
// (STREAM 1), by its writes. The first AFTER bytes move as ever. Then a call fails (THEN fail), is interrupted once
// (interrupt), moves no byte though it succeeds (none), or, from there on, moves one byte (one).
#define _GNU_SOURCE
#include "serve.h"
#include <errno.h>
#include <stdlib.h>
#include <string.h>
#include <sys/syscall.h>
#include <unistd.h>

static int stream = -1, is_interrupted;
static size_t left;
static const char *then = "";

void begin(void) {
    if (!setting("STREAM") || !setting("AFTER") || !setting("THEN")) return;
    stream = atoi(setting("STREAM"));
    left = strtoul(setting("AFTER"), NULL, 10);
    then = setting("THEN");
}

static ssize_t fail(int number) {
    errno = number;
    return -1;
}

// Moves bytes by the system's call, and counts them.
static ssize_t move(long call, int file, void *bytes, size_t count) {
    ssize_t moved = syscall(call, file, bytes, count);
    if (file == stream && moved > 0) left -= (size_t)moved < left ? (size_t)moved : left;
    return moved;
}

static ssize_t disturbed(long call, int file, void *bytes, size_t count) {
    if (file != stream || count == 0) return move(call, file, bytes, count);
    if (left > 0) return move(call, file, bytes, count < left ? count : left);
    if (!strcmp(then, "fail")) return fail(EIO);
    if (!strcmp(then, "none")) return 0;
    if (!strcmp(then, "one")) return move(call, file, bytes, 1);
    if (!is_interrupted) {
        is_interrupted = 1;
        return fail(EINTR);
    }
    return move(call, file, bytes, count);
}

ssize_t read(int file, void *bytes, size_t count) { return disturbed(SYS_read, file, bytes, count); }

ssize_t write(int file, const void *bytes, size_t count) { return disturbed(SYS_write, file, (void *)bytes, count); }
