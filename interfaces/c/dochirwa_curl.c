/* dochirwa_curl.c: see dochirwa_curl.h. */
#ifndef _DEFAULT_SOURCE
#define _DEFAULT_SOURCE
#endif
#include "dochirwa_curl.h"
#include <curl/curl.h>
#include <errno.h>
#include <pthread.h>
#include <signal.h>
#include <stdio.h>
#include <stdlib.h>
#include <strings.h>
#include <sys/random.h>
#include <sys/socket.h>
#include <time.h>

enum { CATEGORIES = 7, ALL = CATEGORIES, TICK_MILLISECONDS = 1000, POST_MILLISECONDS = 10000, DAY_SECONDS = 86400 };

static const char *const category_names[CATEGORIES] = {"error", "transaction", "span", "session", "attachment", "log_item", "metric"};
static const char *const reason_names[] = {"event_processor", "before_send", "sample_rate", "buffer_overflow", "send_error", "internal_sdk_error", "network_error", "ratelimit_backoff", "queue_overflow"};
/* The types of items, and the category of each. */
static const struct { const char *type; uint32_t category; } item_types[] = {
    {"event", DOCHIRWA_LOST_ERROR}, {"transaction", DOCHIRWA_LOST_TRANSACTION}, {"session", DOCHIRWA_LOST_SESSION},
    {"sessions", DOCHIRWA_LOST_SESSION}, {"attachment", DOCHIRWA_LOST_ATTACHMENT}, {"log", DOCHIRWA_LOST_LOG_ITEM},
    {"trace_metric", DOCHIRWA_LOST_METRIC}};

/* An envelope that waits. */
typedef struct waiting { struct waiting *next; size_t length; uint8_t *text; } waiting;

struct dochirwa_curl {
    /* Under the lock `calls`: the engine. */
    pthread_mutex_t calls;
    dochirwa engine;
    uint64_t client, hub;
    /* Under the lock `mail`: the queue, and what the thread is at. */
    pthread_mutex_t mail;
    pthread_cond_t come, done;
    waiting *first, **last;
    size_t count, flushes;
    bool is_posting, is_over;
    /* The thread's alone. */
    pthread_t thread;
    CURL *curl;
    struct curl_slist *headers;
    char *url;
    uint64_t until[CATEGORIES + 1]; /* limits, by category and for all, in milliseconds of the clock that goes on */
    char limits[512], retry[64];    /* headers of an answer */
    bool (*keeps)(void *, const uint8_t *, size_t);
    void *given;
};

/* Clocks and random numbers */

static uint64_t milliseconds(void) {
    struct timespec at;
    clock_gettime(CLOCK_MONOTONIC, &at);
    return (uint64_t)at.tv_sec * 1000 + (uint64_t)at.tv_nsec / 1000000;
}

static uint64_t now(void) {
    struct timespec at;
    clock_gettime(CLOCK_REALTIME, &at);
    return (uint64_t)at.tv_sec * 1000000000 + (uint64_t)at.tv_nsec;
}

static struct timespec deadline(uint32_t after) {
    struct timespec at;
    clock_gettime(CLOCK_MONOTONIC, &at);
    at.tv_sec += after / 1000;
    at.tv_nsec += (long)(after % 1000) * 1000000;
    if (at.tv_nsec >= 1000000000) at.tv_sec++, at.tv_nsec -= 1000000000;
    return at;
}

dochirwa_fresh dochirwa_curl_fresh(void) {
    dochirwa_fresh fresh;
    memset(&fresh, 0, sizeof fresh);
    size_t got = 0;
    while (got < sizeof fresh) {
        ssize_t more = getrandom((char *)&fresh + got, sizeof fresh - got, 0);
        if (more > 0) got += (size_t)more;
        else if (errno != EINTR) break;
    }
    if (got < sizeof fresh) { /* in a sandbox that refuses the call */
        FILE *file = fopen("/dev/urandom", "rb");
        if (file && fread(&fresh, sizeof fresh, 1, file) != 1) memset(&fresh, 0, sizeof fresh);
        if (file) fclose(file);
    }
    fresh.draw %= 1000000;
    fresh.now = now();
    return fresh;
}

/* What is lost with an envelope. The engine writes its JSON without spaces and the members that are looked for first, and in
 * a text a quotation mark has a backslash before it, so that none of it looks like a member. */

/* What follows a text within another one, or null. */
static const char *after(const char *text, const char *end, const char *name) {
    size_t length = strlen(name);
    for (; (size_t)(end - text) >= length; text++)
        if (memcmp(text, name, length) == 0) return text + length;
    return NULL;
}

static uint64_t number_after(const char *text, const char *end, const char *name, uint64_t otherwise) {
    const char *at = after(text, end, name);
    if (!at || at == end || *at < '0' || *at > '9') return otherwise;
    uint64_t number = 0;
    while (at < end && *at >= '0' && *at <= '9') number = number * 10 + (uint64_t)(*at++ - '0');
    return number;
}

static bool is_text(const char *text, const char *end, const char *wanted) {
    size_t length = strlen(wanted);
    return (size_t)(end - text) > length && memcmp(text, wanted, length) == 0 && text[length] == '"';
}

/* Where a text of JSON ends that begins at a quotation mark. */
static const char *text_end(const char *at, const char *end) {
    for (at++; at < end && *at != '"'; at++)
        if (*at == '\\') at++;
    return at < end ? at : end;
}

/* How many items the list has that is the member `spans` of an object. */
static uint64_t spans_of(const char *at, const char *end) {
    uint64_t depth = 0, items = 0;
    bool is_in = false;
    for (; at < end; at++) {
        if (*at == '"') {
            const char *begin = at + 1;
            at = text_end(at, end);
            if (depth == 1 && !is_in && is_text(begin, end, "spans") && end - at > 1 && at[1] == ':') is_in = true;
        } else if (*at == '{' || *at == '[') {
            if (is_in && depth == 2 && *at == '{') items++;
            depth++;
        } else if (*at == '}' || *at == ']') {
            if (--depth == 1 && is_in) return items;
        }
    }
    return items;
}

/* One item of an envelope: its header, and all of it. */
typedef struct { const char *header, *payload, *end; uint32_t category; bool is_report; } item;

/* The item that begins there; false where none does. */
static bool read_item(const char *at, const char *end, item *read) {
    const char *line = at < end ? (const char *)memchr(at, '\n', (size_t)(end - at)) : NULL;
    if (!line) return false;
    uint64_t length = number_after(at, line, "\"length\":", UINT64_MAX);
    if (length > (uint64_t)(end - line) - 1) return false;
    read->header = at, read->payload = line + 1, read->end = line + 1 + length, read->category = CATEGORIES;
    const char *type = after(at, line, "\"type\":\"");
    read->is_report = type && is_text(type, line, "client_report");
    for (size_t i = 0; type && i < sizeof item_types / sizeof *item_types; i++)
        if (is_text(type, line, item_types[i].type)) read->category = item_types[i].category;
    return true;
}

static void lose(dochirwa_curl *curl, uint32_t category, uint32_t reason, uint64_t quantity) {
    dochirwa_record_loss(&curl->engine, 0, category, reason, quantity);
}

/* What a report says is to be reported once more. */
static void lose_report(dochirwa_curl *curl, const char *at, const char *end) {
    while ((at = after(at, end, "{\"reason\":\""))) {
        const char *category = after(at, end, "\"category\":\"");
        uint64_t quantity = number_after(at, end, "\"quantity\":", 0);
        for (uint32_t reason = 0; category && reason < sizeof reason_names / sizeof *reason_names; reason++)
            for (uint32_t of = 0; of < CATEGORIES; of++)
                if (is_text(at, end, reason_names[reason]) && is_text(category, end, category_names[of])) lose(curl, of, reason, quantity);
    }
}

/* An item is lost for a reason. A transaction is also a span, beside its own. The lock of the engine is held. */
static void lose_item(dochirwa_curl *curl, const item *lost, uint32_t reason) {
    if (lost->is_report) lose_report(curl, lost->payload, lost->end);
    if (lost->category == CATEGORIES) return;
    lose(curl, lost->category, reason, number_after(lost->header, lost->payload, "\"item_count\":", 1));
    if (lost->category == DOCHIRWA_LOST_TRANSACTION) lose(curl, DOCHIRWA_LOST_SPAN, reason, 1 + spans_of(lost->payload, lost->end));
}

/* Goes over the items of an envelope: the next one, and where what follows it begins. */
static bool next_item(const char **at, const char *end, item *read) {
    if (!read_item(*at, end, read)) return false;
    *at = read->end < end ? read->end + 1 : end;
    return true;
}

static const char *first_item(const waiting *mail, const char **end) {
    const char *text = (const char *)mail->text;
    const char *line = (const char *)memchr(text, '\n', mail->length);
    *end = text + mail->length;
    return line ? line + 1 : *end;
}

/* Loses all items of an envelope, or its reports alone. The lock of the engine is held. */
static void lose_envelope(dochirwa_curl *curl, const waiting *mail, uint32_t reason, bool reports_alone) {
    const char *end, *at = first_item(mail, &end);
    item lost;
    while (next_item(&at, end, &lost))
        if (!reports_alone || lost.is_report) lose_item(curl, &lost, reason);
}

static void lose_locking(dochirwa_curl *curl, const waiting *mail, uint32_t reason, bool reports_alone) {
    pthread_mutex_lock(&curl->calls);
    lose_envelope(curl, mail, reason, reports_alone);
    pthread_mutex_unlock(&curl->calls);
}

/* Limits */

static void limit(dochirwa_curl *curl, const char *name, size_t length, uint64_t seconds) {
    uint64_t until = milliseconds() + seconds * 1000;
    size_t of = length == 0 ? ALL : CATEGORIES + 1;
    for (size_t i = 0; i < CATEGORIES; i++)
        if (strlen(category_names[i]) == length && memcmp(category_names[i], name, length) == 0) of = i;
    if (length == 12 && memcmp(name, "trace_metric", 12) == 0) of = DOCHIRWA_LOST_METRIC;
    if (of <= ALL && curl->until[of] < until) curl->until[of] = until;
}

/* The seconds that a text begins with, a day at most, or 60 where it begins with none. */
static uint64_t seconds_of(const char *text) {
    if (*text < '0' || *text > '9') return 60;
    unsigned long seconds = strtoul(text, NULL, 10);
    return seconds > DAY_SECONDS ? (uint64_t)DAY_SECONDS : seconds;
}

/* Keeps limits such as `60:error;transaction:organization, 2700::key`. */
static void read_limits(dochirwa_curl *curl, const char *text) {
    while (*text) {
        uint64_t seconds = seconds_of(text);
        text += strcspn(text, ":,");
        while (*text == ':' || *text == ';') {
            size_t length = strcspn(++text, ";:,");
            limit(curl, text, length, seconds);
            text += length;
            if (*text != ';') break;
        }
        text += strcspn(text, ",");
        text += strspn(text, ", ");
    }
}

static bool holds(const dochirwa_curl *curl, uint32_t category) {
    uint64_t at = milliseconds();
    return curl->until[ALL] > at || (category < CATEGORIES && curl->until[category] > at);
}

/* Takes out of an envelope what a limit holds, and counts it as lost. Answers whether anything is left to post: reports
 * alone wait with the engine for the next envelope, unless somebody flushes. */
static bool keep_to_limits(dochirwa_curl *curl, waiting *mail, bool is_flush) {
    const char *end, *at = first_item(mail, &end);
    char *to = (char *)mail->text + (at - (const char *)mail->text);
    bool is_left = false;
    item read;
    pthread_mutex_lock(&curl->calls);
    while (next_item(&at, end, &read)) {
        if (holds(curl, read.category)) {
            lose_item(curl, &read, DOCHIRWA_BY_RATELIMIT_BACKOFF);
            continue;
        }
        is_left = is_left || !read.is_report || is_flush;
        size_t length = (size_t)(at - read.header);
        memmove(to, read.header, length);
        to += length;
    }
    mail->length = (size_t)(to - (char *)mail->text);
    if (!is_left) lose_envelope(curl, mail, DOCHIRWA_BY_RATELIMIT_BACKOFF, true);
    pthread_mutex_unlock(&curl->calls);
    return is_left;
}

/* Posting */

static size_t ignore(char *text, size_t size, size_t count, void *given) {
    (void)text, (void)given;
    return size * count;
}

static void keep_value(char *to, size_t room, const char *line, size_t length, const char *name) {
    size_t begin = strlen(name);
    if (length <= begin || strncasecmp(line, name, begin) != 0) return;
    while (begin < length && line[begin] == ' ') begin++;
    while (length > begin && (line[length - 1] == '\r' || line[length - 1] == '\n')) length--;
    if (length - begin >= room) return;
    memcpy(to, line + begin, length - begin);
    to[length - begin] = 0;
}

static size_t read_header(char *line, size_t size, size_t count, void *given) {
    dochirwa_curl *curl = (dochirwa_curl *)given;
    keep_value(curl->limits, sizeof curl->limits, line, size * count, "x-sentry-rate-limits:");
    keep_value(curl->retry, sizeof curl->retry, line, size * count, "retry-after:");
    return size * count;
}

/* A socket that no program has which this one starts: it would keep the connection. */
static curl_socket_t open_socket(void *given, curlsocktype purpose, struct curl_sockaddr *address) {
    (void)given, (void)purpose;
    return socket(address->family, address->socktype | SOCK_CLOEXEC, address->protocol);
}

/* Stops a post where the reporter is to end. */
static int go_on(void *given, curl_off_t a, curl_off_t b, curl_off_t c, curl_off_t d) {
    dochirwa_curl *curl = (dochirwa_curl *)given;
    (void)a, (void)b, (void)c, (void)d;
    pthread_mutex_lock(&curl->mail);
    bool is_over = curl->is_over;
    pthread_mutex_unlock(&curl->mail);
    return is_over;
}

static void post(dochirwa_curl *curl, waiting *mail, bool is_flush) {
    if (!keep_to_limits(curl, mail, is_flush)) return;
    if (curl->keeps && !curl->keeps(curl->given, mail->text, mail->length)) {
        lose_locking(curl, mail, DOCHIRWA_BY_BEFORE_SEND, false);
        return;
    }
    long status = 0;
    curl->limits[0] = curl->retry[0] = 0;
    curl_easy_setopt(curl->curl, CURLOPT_POSTFIELDS, (char *)mail->text);
    curl_easy_setopt(curl->curl, CURLOPT_POSTFIELDSIZE_LARGE, (curl_off_t)mail->length);
    if (curl_easy_perform(curl->curl) != CURLE_OK) {
        lose_locking(curl, mail, DOCHIRWA_BY_NETWORK_ERROR, false);
        return;
    }
    curl_easy_getinfo(curl->curl, CURLINFO_RESPONSE_CODE, &status);
    if (curl->limits[0]) read_limits(curl, curl->limits);
    else if (status == 429) limit(curl, "", 0, seconds_of(curl->retry));
    if (status < 200 || status > 299) lose_locking(curl, mail, DOCHIRWA_BY_SEND_ERROR, status == 429);
}

/* Takes what waits in the engine into the queue, and answers whether nothing stays for want of memory. The lock of the
 * engine is held. */
static bool fetch(dochirwa_curl *curl) {
    uint64_t client;
    uint32_t fault;
    size_t size = 0, length = 0;
    uint8_t *room = NULL;
    while (!(fault = dochirwa_next_envelope(&curl->engine, &client, room, size, &length)) && length) {
        if (length > size) {
            uint8_t *more = (uint8_t *)realloc(room, length);
            if (!more) break;
            room = more, size = length;
            continue;
        }
        waiting *mail = (waiting *)malloc(sizeof *mail);
        waiting held = {NULL, length, room};
        pthread_mutex_lock(&curl->mail);
        bool is_full = !mail || curl->count >= DOCHIRWA_CURL_MOST_WAITING;
        if (!is_full) {
            *mail = held;
            *curl->last = mail;
            curl->last = &mail->next;
            curl->count++;
            pthread_cond_signal(&curl->come);
        }
        pthread_mutex_unlock(&curl->mail);
        if (is_full) {
            lose_envelope(curl, &held, DOCHIRWA_BY_QUEUE_OVERFLOW, false);
            free(mail);
            continue;
        }
        room = NULL, size = 0;
    }
    free(room);
    return !fault && !length;
}

/* The next envelope that waits, or null where none came within a second; and whether somebody flushes. */
static waiting *take(dochirwa_curl *curl, bool *is_flush, bool *is_over) {
    struct timespec until = deadline(TICK_MILLISECONDS);
    pthread_mutex_lock(&curl->mail);
    curl->is_posting = false;
    if (!curl->first) pthread_cond_broadcast(&curl->done);
    while (!curl->first && !curl->is_over)
        if (pthread_cond_timedwait(&curl->come, &curl->mail, &until)) break;
    waiting *mail = curl->is_over ? NULL : curl->first;
    if (mail) {
        curl->first = mail->next;
        if (!curl->first) curl->last = &curl->first;
        curl->count--;
        curl->is_posting = true;
    }
    *is_flush = curl->flushes > 0;
    *is_over = curl->is_over;
    pthread_mutex_unlock(&curl->mail);
    return mail;
}

static void *run(void *given) {
    dochirwa_curl *curl = (dochirwa_curl *)given;
    uint64_t ticked = milliseconds();
    bool is_over = false, is_flush = false;
    while (!is_over) {
        waiting *mail = take(curl, &is_flush, &is_over);
        if (mail) {
            post(curl, mail, is_flush);
            free(mail->text);
            free(mail);
        }
        if (!is_over && milliseconds() - ticked >= TICK_MILLISECONDS) {
            ticked = milliseconds();
            dochirwa *engine = dochirwa_curl_lock(curl);
            dochirwa_tick(engine, curl->client, now());
            dochirwa_curl_unlock(curl);
        }
    }
    return NULL;
}

/* Opening and closing */

/* Where the DSN stands in the options, of the last line that names one; empty where none does. */
static const char *dsn_of(const char *options, size_t *length) {
    const char *dsn = "";
    *length = 0;
    for (; *options; options += strcspn(options, "\n"), options += *options == '\n') {
        if (strncmp(options, "dsn=", 4) == 0) dsn = options + 4, *length = strcspn(dsn, "\n");
    }
    return dsn;
}

/* The text that `copy` copies into room of the length that it asks for, behind another one; null without memory. */
static char *address(const char *begin, const char *options, const char *agent) {
    size_t dsn_length, length = 0, before = strlen(begin);
    const char *dsn = dsn_of(options, &dsn_length);
    char *text = NULL;
    for (int turn = 0; turn < 2; turn++) {
        uint8_t *room = text ? (uint8_t *)text + before : NULL;
        size_t size = text ? length : 0;
        uint32_t fault = agent ? dochirwa_to_auth((const uint8_t *)dsn, dsn_length, DOCHIRWA_TEXT(agent), room, size, &length)
                               : dochirwa_envelope_api_url((const uint8_t *)dsn, dsn_length, room, size, &length);
        if (fault) break;
        if (text) {
            text[before + length] = 0;
            return text;
        }
        if (!(text = (char *)malloc(before + length + 1))) break;
        memcpy(text, begin, before);
    }
    free(text);
    return NULL;
}

static bool set_up_curl(dochirwa_curl *curl, const char *options, const char *agent) {
    char *auth = address("X-Sentry-Auth: ", options, agent ? agent : "");
    curl->url = address("", options, NULL);
    curl->curl = curl_easy_init();
    if (auth && curl->curl) curl->headers = curl_slist_append(NULL, auth);
    free(auth);
    struct curl_slist *more = curl->headers ? curl_slist_append(curl->headers, "Content-Type: application/x-sentry-envelope") : NULL;
    /* without this libcurl waits for the server to ask for a long body */
    if (more) more = curl_slist_append(curl->headers, "Expect:");
    if (!more || !curl->url) return false;
    curl_easy_setopt(curl->curl, CURLOPT_URL, curl->url);
    curl_easy_setopt(curl->curl, CURLOPT_HTTPHEADER, curl->headers);
    curl_easy_setopt(curl->curl, CURLOPT_POST, 1L);
    curl_easy_setopt(curl->curl, CURLOPT_NOSIGNAL, 1L);
#if LIBCURL_VERSION_NUM >= 0x075700
    curl_easy_setopt(curl->curl, CURLOPT_QUICK_EXIT, 1L); /* waits for no address after a post's time */
#endif
    curl_easy_setopt(curl->curl, CURLOPT_OPENSOCKETFUNCTION, open_socket);
    curl_easy_setopt(curl->curl, CURLOPT_TIMEOUT_MS, (long)POST_MILLISECONDS);
    curl_easy_setopt(curl->curl, CURLOPT_WRITEFUNCTION, ignore);
    curl_easy_setopt(curl->curl, CURLOPT_HEADERFUNCTION, read_header);
    curl_easy_setopt(curl->curl, CURLOPT_HEADERDATA, curl);
    curl_easy_setopt(curl->curl, CURLOPT_NOPROGRESS, 0L);
    curl_easy_setopt(curl->curl, CURLOPT_XFERINFOFUNCTION, go_on);
    curl_easy_setopt(curl->curl, CURLOPT_XFERINFODATA, curl);
    return true;
}

static uint32_t open_engine(dochirwa_curl *curl, const char *options) {
    dochirwa_fresh fresh = dochirwa_curl_fresh();
    uint32_t fault = dochirwa_open(&curl->engine);
    if (!fault) fault = dochirwa_add_client(&curl->engine, DOCHIRWA_TEXT(options), 0, fresh.now, &curl->client);
    if (!fault) fault = dochirwa_new_hub(&curl->engine, curl->client, &fresh, &curl->hub);
    return fault;
}

static void free_all(dochirwa_curl *curl) {
    for (waiting *mail = curl->first, *next; mail; mail = next) {
        next = mail->next;
        free(mail->text);
        free(mail);
    }
    dochirwa_free(&curl->engine);
    curl_slist_free_all(curl->headers);
    if (curl->curl) curl_easy_cleanup(curl->curl);
    free(curl->url);
    free(curl);
}

/* Starts the thread, without the signals of the process: the program's own threads wait for those. */
static bool start(dochirwa_curl *curl) {
    static const int faults[] = {SIGBUS, SIGFPE, SIGILL, SIGSEGV};
    sigset_t others, before;
    sigfillset(&others);
    for (size_t i = 0; i < sizeof faults / sizeof *faults; i++) sigdelset(&others, faults[i]);
    pthread_sigmask(SIG_SETMASK, &others, &before);
    bool is_started = pthread_create(&curl->thread, NULL, run, curl) == 0;
    pthread_sigmask(SIG_SETMASK, &before, NULL);
    return is_started;
}

uint32_t dochirwa_curl_open(dochirwa_curl **made, const char *options, const char *client_agent) {
    *made = NULL;
    if (client_agent && strpbrk(client_agent, "\r\n")) return DOCHIRWA_FAULT_UNKNOWN;
    dochirwa_curl *curl = (dochirwa_curl *)calloc(1, sizeof *curl);
    size_t dsn_length;
    if (!curl) return DOCHIRWA_FAULT_OUT_OF_MEMORY;
    curl->last = &curl->first;
    dsn_of(options, &dsn_length);
    uint32_t fault = open_engine(curl, options);
    if (!fault && dsn_length && !set_up_curl(curl, options, client_agent)) fault = DOCHIRWA_FAULT_OUT_OF_MEMORY;
    pthread_condattr_t clock;
    if (!fault && pthread_condattr_init(&clock)) fault = DOCHIRWA_FAULT_OUT_OF_MEMORY;
    if (fault) {
        free_all(curl);
        return fault;
    }
    pthread_condattr_setclock(&clock, CLOCK_MONOTONIC);
    pthread_mutex_init(&curl->calls, NULL);
    pthread_mutex_init(&curl->mail, NULL);
    pthread_cond_init(&curl->come, &clock);
    pthread_cond_init(&curl->done, &clock);
    pthread_condattr_destroy(&clock);
    if (!start(curl)) {
        free_all(curl);
        return DOCHIRWA_FAULT_OUT_OF_MEMORY;
    }
    *made = curl;
    return 0;
}

dochirwa *dochirwa_curl_lock(dochirwa_curl *curl) {
    pthread_mutex_lock(&curl->calls);
    return &curl->engine;
}

void dochirwa_curl_unlock(dochirwa_curl *curl) {
    fetch(curl);
    pthread_mutex_unlock(&curl->calls);
}

uint64_t dochirwa_curl_client(const dochirwa_curl *curl) { return curl->client; }
uint64_t dochirwa_curl_hub(const dochirwa_curl *curl) { return curl->hub; }

void dochirwa_curl_before_send(dochirwa_curl *curl, bool (*keeps)(void *, const uint8_t *, size_t), void *given) {
    curl->keeps = keeps, curl->given = given;
}

bool dochirwa_curl_flush(dochirwa_curl *curl, uint32_t so_long) {
    struct timespec until = deadline(so_long);
    pthread_mutex_lock(&curl->mail);
    curl->flushes++; /* before the thread can take what the engine hands out */
    pthread_mutex_unlock(&curl->mail);
    bool is_sent = dochirwa_flush(dochirwa_curl_lock(curl), curl->client) == 0;
    if (!fetch(curl)) is_sent = false;
    pthread_mutex_unlock(&curl->calls);
    pthread_mutex_lock(&curl->mail);
    while (curl->first || curl->is_posting)
        if (pthread_cond_timedwait(&curl->done, &curl->mail, &until)) break;
    curl->flushes--;
    bool is_done = is_sent && !curl->first && !curl->is_posting;
    pthread_mutex_unlock(&curl->mail);
    return is_done;
}

bool dochirwa_curl_close(dochirwa_curl *curl, uint32_t so_long) {
    if (!curl) return true;
    bool is_done = dochirwa_curl_flush(curl, so_long);
    pthread_mutex_lock(&curl->mail);
    curl->is_over = true;
    pthread_cond_broadcast(&curl->come);
    pthread_mutex_unlock(&curl->mail);
    pthread_join(curl->thread, NULL);
    pthread_cond_destroy(&curl->come);
    pthread_cond_destroy(&curl->done);
    pthread_mutex_destroy(&curl->mail);
    pthread_mutex_destroy(&curl->calls);
    free_all(curl);
    return is_done;
}

/* Errors */

/* Writes a text as JSON, and answers where it ends. There is room for six bytes of each. */
static char *write_text(char *to, const char *text) {
    static const char digits[] = "0123456789abcdef";
    *to++ = '"';
    for (; *text; text++) {
        unsigned char byte = (unsigned char)*text;
        if (byte == '"' || byte == '\\') {
            *to++ = '\\';
            *to++ = (char)byte;
        } else if (byte < 0x20) {
            memcpy(to, "\\u00", 4);
            to[4] = digits[byte >> 4], to[5] = digits[byte & 15];
            to += 6;
        } else {
            *to++ = (char)byte;
        }
    }
    *to++ = '"';
    return to;
}

static char *write_word(char *to, const char *word) {
    size_t length = strlen(word);
    memcpy(to, word, length);
    return to + length;
}

uint32_t dochirwa_curl_error(dochirwa_curl *curl, const char *type, const char *value, dochirwa_id *id) {
    char *text = (char *)malloc(6 * (strlen(type) + strlen(value)) + 100);
    if (!text) return DOCHIRWA_FAULT_OUT_OF_MEMORY;
    char *end = write_text(write_word(text, "{\"level\":\"error\",\"exception\":[{\"type\":"), type);
    end = write_word(write_text(write_word(end, ",\"value\":"), value), "}]}");
    dochirwa_id made = {0, 0};
    dochirwa_fresh fresh = dochirwa_curl_fresh();
    dochirwa *engine = dochirwa_curl_lock(curl);
    uint32_t fault = dochirwa_capture_event(engine, curl->hub, (const uint8_t *)text, (size_t)(end - text), &fresh, &made);
    dochirwa_curl_unlock(curl);
    free(text);
    if (id && !fault) *id = made;
    return fault;
}
