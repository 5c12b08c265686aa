// Preloaded into a program, lets one of its calls that change files fail: the one of the number FAULT, counted from 1.
// Before a write fails, some of its bytes may be written (PARTLY). It says by a byte to the file TELLS that it came to that.
#define _GNU_SOURCE
#include <errno.h>
#include <fcntl.h>
#include <stdarg.h>
#include <stdio.h>
#include <stdlib.h>
#include <sys/syscall.h>
#include <unistd.h>

enum { SECONDS = 20 };

static long left = -1;
static int partly, tells = -1;

__attribute__((constructor)) static void start(void) {
    alarm(SECONDS);
    if (!getenv("FAULT") || !getenv("TELLS")) return;
    left = atol(getenv("FAULT"));
    partly = getenv("PARTLY") != NULL;
    tells = atoi(getenv("TELLS"));
}

static int is_to_fail(void) {
    if (left <= 0 || --left > 0) return 0;
    syscall(SYS_write, tells, "!", 1);
    errno = EIO;
    return 1;
}

static int opened(int folder, const char *path, int flags, mode_t mode) {
    if (flags & O_CREAT && is_to_fail()) return -1;
    return (int)syscall(SYS_openat, folder, path, flags, mode);
}

#define OPEN(NAME, HEAD, FOLDER)                      \
    int NAME(HEAD const char *path, int flags, ...) { \
        va_list rest;                                 \
        va_start(rest, flags);                        \
        mode_t mode = va_arg(rest, mode_t);           \
        va_end(rest);                                 \
        return opened(FOLDER, path, flags, mode);     \
    }
#define FOLDER_FIRST int folder,
OPEN(open, , AT_FDCWD)
OPEN(open64, , AT_FDCWD)
OPEN(openat, FOLDER_FIRST, folder)
OPEN(openat64, FOLDER_FIRST, folder)

ssize_t write(int file, const void *bytes, size_t count) {
    if (file > 2 && is_to_fail()) {
        if (partly) syscall(SYS_write, file, bytes, count / 2);
        errno = EIO;
        return -1;
    }
    return syscall(SYS_write, file, bytes, count);
}

int fdatasync(int file) { return is_to_fail() ? -1 : (int)syscall(SYS_fdatasync, file); }

int rename(const char *from, const char *to) {
    return is_to_fail() ? -1 : (int)syscall(SYS_renameat, AT_FDCWD, from, AT_FDCWD, to);
}

int unlink(const char *path) { return is_to_fail() ? -1 : (int)syscall(SYS_unlinkat, AT_FDCWD, path, 0); }
