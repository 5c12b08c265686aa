/* Makes the calls that the lines of its standard input say over a reporter of dochirwa_curl.h, and prints an answer for each:
 * `error TEXT`, `long LENGTH` (an error with a text of that length), `log TEXT`, `transaction CHILDREN`, `session`,
 * `drop TEXT` (of what has it nothing is posted), `flush MILLISECONDS`, `flushes COUNT` (each of a log), `wait` (for a signal
 * of the process, which it sends), `inherited` (how many of its connections a program has that it starts), `refuse COUNT`
 * (so many calls of getrandom), `starved TEXT` (a message, and a flush without memory) and `close MILLISECONDS`. Its
 * argument is the DSN. tests/c_interface runs it. */
#ifndef _DEFAULT_SOURCE
#define _DEFAULT_SOURCE
#endif
#include "dochirwa_curl.h"
#include <errno.h>
#include <fcntl.h>
#include <netdb.h>
#include <pthread.h>
#include <signal.h>
#include <stdio.h>
#include <stdlib.h>
#include <sys/random.h>
#include <sys/socket.h>
#include <sys/syscall.h>
#include <unistd.h>

static dochirwa_curl *reporter;
static long refused;

/* In place of the C library's, as a sandbox has it. */
ssize_t getrandom(void *room, size_t length, unsigned flags) {
    if (__atomic_load_n(&refused, __ATOMIC_RELAXED) <= 0 || __atomic_fetch_sub(&refused, 1, __ATOMIC_RELAXED) <= 0) return syscall(SYS_getrandom, room, length, flags);
    errno = EPERM;
    return -1;
}

static bool keeps(void *given, const uint8_t *envelope, size_t length) {
    const char *text = (const char *)given;
    size_t size = strlen(text);
    for (; length >= size; envelope++, length--)
        if (memcmp(envelope, text, size) == 0) return false;
    return true;
}

static uint32_t end(dochirwa *engine, bool is_span, uint64_t number) {
    uint32_t held;
    uint64_t now = dochirwa_curl_fresh().now;
    if (is_span) return dochirwa_end_span(engine, number, now, &held);
    return dochirwa_end_transaction(engine, number, dochirwa_curl_hub(reporter), now, &held);
}

static uint32_t transaction(dochirwa *engine, int children) {
    uint64_t number, child;
    dochirwa_fresh fresh = dochirwa_curl_fresh();
    uint32_t fault = dochirwa_start_transaction(engine, dochirwa_curl_hub(reporter), DOCHIRWA_TEXT("a \"spans\":[ name"), DOCHIRWA_TEXT("op"), &fresh, &number);
    if (!fault) fault = dochirwa_set_span_data(engine, false, number, DOCHIRWA_TEXT("spans"), DOCHIRWA_TEXT("[{},{},{}]"));
    while (!fault && children-- > 0) {
        fresh = dochirwa_curl_fresh();
        fault = dochirwa_start_child(engine, false, number, DOCHIRWA_TEXT("op"), DOCHIRWA_TEXT("{\"type\":\"event\"}"), &fresh, &child);
        if (!fault) fault = dochirwa_set_span_data(engine, true, child, DOCHIRWA_TEXT("list"), DOCHIRWA_TEXT("[{},[]]"));
        if (!fault) fault = end(engine, true, child);
    }
    return fault ? fault : end(engine, false, number);
}

static uint32_t call(const char *name, const char *text) {
    dochirwa_fresh fresh = dochirwa_curl_fresh();
    dochirwa *engine = dochirwa_curl_lock(reporter);
    uint64_t hub = dochirwa_curl_hub(reporter);
    uint32_t fault = 99;
    if (strcmp(name, "log") == 0) fault = dochirwa_capture_log(engine, hub, DOCHIRWA_LOG_INFO, DOCHIRWA_TEXT(text), NULL, 0, fresh.now);
    if (strcmp(name, "transaction") == 0) fault = transaction(engine, atoi(text));
    if (strcmp(name, "session") == 0) {
        fault = dochirwa_start_session(engine, hub, &fresh);
        if (!fault) fault = dochirwa_end_session(engine, hub, DOCHIRWA_SESSION_EXITED, fresh.now);
    }
    dochirwa_curl_unlock(reporter);
    return fault;
}

/* The signal that this thread, which alone waits for it, gets. */
static int waited(void) {
    sigset_t set;
    int came = 0;
    sigemptyset(&set);
    sigaddset(&set, SIGTERM);
    pthread_sigmask(SIG_BLOCK, &set, NULL);
    return kill(getpid(), SIGTERM) || sigwait(&set, &came) ? -1 : came;
}

/* In place of the C library's: the address of a host that is named by letters doesn't come. */
int getaddrinfo(const char *node, const char *service, const struct addrinfo *hints, struct addrinfo **found) {
    (void)node, (void)service, (void)hints, (void)found;
    sleep(30);
    return EAI_AGAIN;
}

static bool is_starved;
extern void *__libc_realloc(void *, size_t);

/* In place of the C library's. */
void *realloc(void *old, size_t size) {
    return __atomic_load_n(&is_starved, __ATOMIC_RELAXED) ? NULL : __libc_realloc(old, size);
}

/* What a flush answers where there is no memory for the text of a message that waits. */
static bool starved(const char *text) {
    dochirwa_id id;
    dochirwa_fresh fresh = dochirwa_curl_fresh();
    dochirwa *engine = dochirwa_curl_lock(reporter);
    uint32_t fault = dochirwa_capture_message(engine, dochirwa_curl_hub(reporter), DOCHIRWA_ERROR, DOCHIRWA_TEXT(text), &fresh, &id);
    __atomic_store_n(&is_starved, true, __ATOMIC_RELAXED);
    dochirwa_curl_unlock(reporter);
    bool is_well = dochirwa_curl_flush(reporter, 1000);
    __atomic_store_n(&is_starved, false, __ATOMIC_RELAXED);
    return is_well || fault;
}

static int inherited(void) {
    int count = 0;
    for (int file = 0; file < 256; file++) {
        struct sockaddr_storage address;
        socklen_t size = sizeof address;
        bool is_connection = getpeername(file, (struct sockaddr *)&address, &size) == 0 && address.ss_family == AF_INET;
        if (is_connection && !(fcntl(file, F_GETFD) & FD_CLOEXEC)) count++;
    }
    return count;
}

static uint32_t long_error(size_t length) {
    char *text = (char *)malloc(length + 1);
    if (!text) return 1;
    memset(text, 'x', length);
    text[length] = 0;
    uint32_t fault = dochirwa_curl_error(reporter, "long", text, NULL);
    free(text);
    return fault;
}

static bool flushes(int count) {
    bool is_well = true;
    while (is_well && count-- > 0) is_well = call("log", "a log") == 0 && dochirwa_curl_flush(reporter, 20000);
    return is_well;
}

int main(int count, char **words) {
    char options[300], line[300], dropped[300] = "", name[20], text[280];
    snprintf(options, sizeof options, "dsn=%s\nrelease=r\ntraces=1\n", count > 1 ? words[1] : "");
    uint32_t fault = dochirwa_curl_open(&reporter, options, "posting\r\n/1");
    if (fault != DOCHIRWA_FAULT_UNKNOWN || reporter) return 2;
    fault = dochirwa_curl_open(&reporter, options, "posting/1");
    printf("%u\n", fault);
    while (!fault && fflush(stdout) == 0 && fgets(line, sizeof line, stdin)) {
        text[0] = 0;
        if (sscanf(line, "%19s %279[^\n]", name, text) < 1) continue;
        if (strcmp(name, "error") == 0) printf("%u\n", dochirwa_curl_error(reporter, "a \"type\"", text, NULL));
        else if (strcmp(name, "drop") == 0) {
            snprintf(dropped, sizeof dropped, "%s", text);
            dochirwa_curl_before_send(reporter, keeps, dropped);
            printf("0\n");
        } else if (strcmp(name, "flush") == 0) printf("%d\n", dochirwa_curl_flush(reporter, (uint32_t)atoi(text)));
        else if (strcmp(name, "long") == 0) printf("%u\n", long_error((size_t)atol(text)));
        else if (strcmp(name, "inherited") == 0) printf("%d\n", inherited());
        else if (strcmp(name, "flushes") == 0) printf("%d\n", flushes(atoi(text)));
        else if (strcmp(name, "starved") == 0) printf("%d\n", starved(text));
        else if (strcmp(name, "refuse") == 0) {
            __atomic_store_n(&refused, atol(text), __ATOMIC_RELAXED);
            printf("0\n");
        } else if (strcmp(name, "wait") == 0) printf("%d\n", waited());
        else if (strcmp(name, "close") == 0) {
            printf("%d\n", dochirwa_curl_close(reporter, (uint32_t)atoi(text)));
            return 0;
        } else printf("%u\n", call(name, text));
    }
    return 1;
}
