// Preloaded into a program, runs it again and again: each time in a copy of the process that is made just before `main`,
// so that nothing of one run is left for the next, and no run waits for the loader. Through the socket SERVES come the
// settings and the input of each run, and go its status and what it wrote (served.py). A run that goes on for longer than
// SECONDS is stopped. Without SERVES the program runs once.
#define _GNU_SOURCE
#include "serve.h"
#include <stdint.h>
#include <stdlib.h>
#include <string.h>
#include <sys/mman.h>
#include <sys/sendfile.h>
#include <sys/syscall.h>
#include <sys/wait.h>
#include <unistd.h>

// The lengths of the settings and of the input, which follow.
struct request {
    uint32_t settings, has_input;
    uint64_t input;
};

// How a run ended, as a status or a signal below zero, whether it told something, and the lengths of what it wrote.
struct answer {
    int32_t status;
    uint32_t told;
    uint64_t out, err;
};

enum { IN, OUT, ERR, FILES, SECONDS = 20, MOST_SETTINGS = 256, BLOCK = 1 << 16 };

static int serves = -1, files[FILES];
// Each as NAME=VALUE and a zero.
static char settings[MOST_SETTINGS + 1];
static volatile char *told;

const char *setting(const char *name) {
    size_t length = strlen(name);
    if (serves < 0) return getenv(name);
    for (const char *at = settings; *at; at += strlen(at) + 1)
        if (!strncmp(at, name, length) && at[length] == '=') return at + length + 1;
    return NULL;
}

void tell(void) {
    if (told) *told = 1;
}

// (by the system's own calls, since a shim may stand in the way of `read` and `write`)
static void receive(void *bytes, size_t count) {
    for (char *at = bytes; count > 0;) {
        ssize_t some = syscall(SYS_read, serves, at, count);
        if (some <= 0) _exit(0);
        at += some;
        count -= (size_t)some;
    }
}

static void store(int file, const char *bytes, size_t count) {
    while (count > 0) {
        ssize_t some = syscall(SYS_write, file, bytes, count);
        if (some <= 0) _exit(1);
        bytes += some;
        count -= (size_t)some;
    }
}

static void clear(int file) {
    if (ftruncate(file, 0) || lseek(file, 0, SEEK_SET)) _exit(1);
}

static void receive_input(uint64_t count) {
    static char block[BLOCK];
    clear(files[IN]);
    while (count > 0) {
        size_t some = count < BLOCK ? count : BLOCK;
        receive(block, some);
        store(files[IN], block, some);
        count -= some;
    }
}

static void send_file(int file, uint64_t count) {
    for (off_t at = 0; (uint64_t)at < count;)
        if (sendfile(serves, file, &at, count - (uint64_t)at) <= 0) _exit(1);
}

// Takes a run's settings and input. Returns in the copy that is to run.
static int is_run(void) {
    struct request asked;
    receive(&asked, sizeof asked);
    if (asked.settings > MOST_SETTINGS) _exit(1);
    memset(settings, 0, sizeof settings);
    receive(settings, asked.settings);
    if (asked.has_input) receive_input(asked.input);
    if (lseek(files[IN], 0, SEEK_SET)) _exit(1);
    clear(files[OUT]);
    clear(files[ERR]);
    *told = 0;
    pid_t child = fork();
    if (child == 0) return 1;
    int status;
    if (child < 0 || waitpid(child, &status, 0) != child) _exit(1);
    struct answer made = {WIFEXITED(status) ? WEXITSTATUS(status) : -WTERMSIG(status), (uint32_t)*told,
                          (uint64_t)lseek(files[OUT], 0, SEEK_END), (uint64_t)lseek(files[ERR], 0, SEEK_END)};
    store(serves, (const char *)&made, sizeof made);
    send_file(files[OUT], made.out);
    send_file(files[ERR], made.err);
    return 0;
}

static void serve(void) {
    serves = atoi(getenv("SERVES"));
    told = mmap(NULL, 1, PROT_READ | PROT_WRITE, MAP_SHARED | MAP_ANONYMOUS, -1, 0);
    for (int file = IN; file < FILES; file++)
        if ((files[file] = memfd_create("served", 0)) < 0) _exit(1);
    while (!is_run()) {
    }
    for (int file = IN; file < FILES; file++) {
        dup2(files[file], file);
        close(files[file]);
    }
    close(serves);
    alarm(SECONDS);
}

__attribute__((constructor)) static void start(void) {
    if (getenv("SERVES")) serve();
    if (begin) begin();
}
