// Makes 10,000 random calls of the library, or as many as its argument says, with stale and wild numbers and texts that are
// no texts; with a second argument an empty text is null. An open engine must answer a number below 12, and a closed one 12.
// tests/c_interface writes cases.h.
#include "dochirwa.h"
#include <stdio.h>
#include <stdlib.h>
#include <string.h>

// A call has fewer texts than this.
enum { MOST_TEXTS = 40, CALLS = 10000 };

static const char *texts[] = {
    "",
    "a",
    "\xff\xfe",
    "{}",
    "[1,",
    "null",
    "{\"tags\":{\"a\":\"b\",\"c\":null},\"user\":{\"id\":\"1\"},\"level\":\"error\"}",
    "{\"exception\":[{\"type\":\"T\",\"value\":\"v\"}],\"extra\":{\"n\":[1,2,{\"x\":true}]}}",
    "{\"message\":\"m\",\"n\":1.5}",
    "dsn=https://k@h/1\nrelease=r\ntraces=1\nlogs=1\nmetrics=1\nmaxbatch=3",
    "dsn=x",
    "internal_error",
    "0123456789abcdef0123456789abcdef-0123456789abcdef-1",
    "dsn=https://k@h/1\nlogs=1\nmetrics=1\ndrop_events=0\ndrop_breadcrumbs=\ndrop_logs={\ndrop_metrics=a",
    "0.5",
    "{\"exception\":[{\"type\":\"T\",\"stacktrace\":{\"frames\":[{}]}},{\"type\":\"U\"}],\"platform\":\"p\",\"sdk\":{\"name\":\"n\",\"version\":\"v\"}}",
    "{\"stacktrace\":{\"frames\":[]}}",
};
enum { OPTIONS = 9 };

// What the calls are made with, and where they write.
static dochirwa engine = DOCHIRWA_CLOSED;
static const char *picked[MOST_TEXTS];
static uint64_t number;
static uint32_t flag;
static size_t length;
static dochirwa_id id;
static uint8_t room[3000];

static uint64_t next(void) {
    static uint64_t state = 88172645463325252ull;
    state ^= state << 13;
    state ^= state >> 7;
    state ^= state << 17;
    return state;
}

static uint64_t below(uint64_t n) { return (next() >> 8) % n; }

static uint64_t wild(void) { return below(8) ? below(6) : below(3) ? next() : UINT64_MAX - below(3); }

// The text picked for an argument, and its length.
static bool is_null_for_empty;
static const uint8_t *pick(int at) { return is_null_for_empty && !*picked[at] ? NULL : (const uint8_t *)picked[at]; }
static size_t size(int at) { return strlen(picked[at]); }

static const dochirwa_fresh *fresh(void) {
    static dochirwa_fresh it;
    it = (dochirwa_fresh){below(2) ? next() : below(1000000000000), {next(), next()}, {next(), next()}, next(), below(20) ? below(1000000) : (uint32_t)next()};
    return &it;
}

// `one_of_all` makes one of all calls on an engine, and `one_without_engine` one of the others.
#include "cases.h"

static void pick_all(void) {
    for (int at = 0; at < MOST_TEXTS; at++) picked[at] = texts[below(4) ? below(sizeof texts / sizeof *texts) : 0];
}

static uint32_t call(void) {
    pick_all();
    return one_of_all();
}

static void must(int is_so, uint32_t answer) {
    if (is_so) return;
    fprintf(stderr, "a call answers %u\n", answer);
    exit(1);
}

static void open_engine(void) {
    uint64_t client = 0, hub = 0;
    must(dochirwa_open(&engine) == 0, 0);
    must(dochirwa_open(&engine) == 13, 13);
    const char *options = texts[OPTIONS];
    must(dochirwa_add_client(&engine, (const uint8_t *)options, strlen(options), 0, 1, &client) == 0, 1);
    dochirwa_fresh it = {1, {0, 1}, {0, 1}, 1, 0};
    must(dochirwa_new_hub(&engine, client, &it, &hub) == 0, 2);
}

int main(int count, char **words) {
    long left = count > 1 ? atol(words[1]) : CALLS, done = 0;
    uint64_t sum = 0;
    is_null_for_empty = count > 2;
    while (left-- > 0) {
        if (below(400) == 0) dochirwa_free(&engine);
        if (engine.at == NULL) {
            uint32_t answer = call();
            must(answer == 12 && engine.at == NULL, answer);
            if (below(4)) continue;
            open_engine();
        }
        uint32_t answer = call();
        must(answer < 12, answer);
        done += answer == 0;
        sum = (sum ^ answer) * 1099511628211u + number + flag + length + id.low;
        pick_all();
        answer = one_without_engine();
        must(answer < 12, answer);
        sum = (sum ^ answer) * 1099511628211u + length;
        for (size_t at = 0; at < sizeof room; at++) sum = (sum ^ room[at]) * 1099511628211u;
    }
    dochirwa_free(&engine);
    must(done > 100 || count > 1, 0);
    printf("%ld calls were made, with the sum %016llx of what they answered\n", done, (unsigned long long)sum);
}
