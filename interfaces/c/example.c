/* A program in C over libdochirwa.a: a client, a hub, a tag, an error with its cause, a log, a transaction with a span. */
#include "dochirwa.h"
#include <inttypes.h>
#include <stdio.h>
#include <stdlib.h>
#include <string.h>

#define TEXT(t) (const uint8_t *)(t), strlen(t)

static uint64_t next_id = 1;

/* A program has the clock and random numbers here. */
static dochirwa_fresh fresh(void) {
    uint64_t id = next_id++;
    return (dochirwa_fresh){id * 1000000000, {0, id}, {0, id}, id, 0};
}

static void must(uint32_t fault) {
    if (fault) {
        fprintf(stderr, "fault %" PRIu32 "\n", fault);
        exit(1);
    }
}

/* Prints the envelopes that wait, as a transport would post them. */
static void print_envelopes(dochirwa *engine) {
    size_t length, size = 64;
    uint8_t *room = malloc(size);
    for (;;) {
        uint64_t client = 0;
        if (!room) exit(1);
        must(dochirwa_next_envelope(engine, &client, room, size, &length));
        if (length == 0) break;
        if (length > size) { /* not taken yet: once more with room for it */
            free(room);
            room = malloc(size = length);
            continue;
        }
        printf("client %" PRIu64 ", an envelope:\n", client);
        fwrite(room, 1, length, stdout);
        printf("\n");
    }
    free(room);
}

int main(void) {
    dochirwa engine = DOCHIRWA_CLOSED;
    uint64_t client = 0, hub = 0, transaction = 0, span = 0;
    dochirwa_id event = {0, 0}, last = {0, 0};
    must(dochirwa_open(&engine));
    const char *options = "dsn=https://public@sentry.invalid/1\nrelease=shop@1.0.0\ntraces=1\nlogs=1\nmetrics=1\n";
    dochirwa_fresh f = fresh();
    must(dochirwa_add_client(&engine, TEXT(options), 0, f.now, &client));
    f = fresh();
    must(dochirwa_new_hub(&engine, client, &f, &hub));
    must(dochirwa_set_tag(&engine, hub, TEXT("os"), TEXT("linux"), f.now));
    must(dochirwa_edit_scope(&engine, hub, TEXT("{\"user\":{\"id\":\"7\"},\"contexts\":{\"till\":{\"number\":3}}}"), f.now));
    f = fresh();
    must(dochirwa_start_session(&engine, hub, &f));
    f = fresh();
    must(dochirwa_capture_event(&engine, hub, TEXT("{\"level\":\"error\",\"exception\":[{\"type\":\"NoPaper\",\"value\":\"the roll is empty\"},{\"type\":\"NoReceipt\",\"mechanism\":{\"type\":\"generic\",\"handled\":true}}]}"), &f, &event));
    must(dochirwa_last_event_id(&engine, hub, &last));
    printf("event %016" PRIx64 "%016" PRIx64 ", the last one: %s\n", event.high, event.low, last.low == event.low ? "yes" : "no");
    must(dochirwa_capture_log(&engine, hub, DOCHIRWA_LOG_INFO, TEXT("a lamp was sold"), TEXT("{\"price\":12}"), f.now));
    must(dochirwa_capture_metric(&engine, hub, DOCHIRWA_COUNTER, TEXT("lamps"), 1, TEXT(""), TEXT(""), f.now));
    f = fresh();
    must(dochirwa_start_transaction(&engine, hub, TEXT("sell"), TEXT("till"), &f, &transaction));
    f = fresh();
    must(dochirwa_start_child(&engine, false, transaction, TEXT("db.query"), TEXT("take a lamp"), &f, &span));
    must(dochirwa_set_span_data(&engine, true, span, TEXT("rows"), TEXT("1")));
    must(dochirwa_finish_span(&engine, span, f.now + 1));
    must(dochirwa_set_span_status(&engine, false, transaction, TEXT("ok")));
    must(dochirwa_finish_transaction(&engine, transaction, hub, f.now + 2));
    must(dochirwa_discard(&engine, true, span));
    must(dochirwa_discard(&engine, false, transaction));
    must(dochirwa_end_session(&engine, hub, DOCHIRWA_SESSION_EXITED, f.now));
    must(dochirwa_flush(&engine, client));
    print_envelopes(&engine);
    printf("a hub that isn't there: %" PRIu32 "\n", dochirwa_set_tag(&engine, 99, TEXT("os"), TEXT("linux"), f.now));
    printf("no UTF-8: %" PRIu32 "\n", dochirwa_set_tag(&engine, hub, TEXT("\xff"), TEXT("linux"), f.now));
    printf("no JSON: %" PRIu32 "\n", dochirwa_edit_scope(&engine, hub, TEXT("{"), f.now));
    printf("an invalid DSN: %" PRIu32 "\n", dochirwa_add_client(&engine, TEXT("dsn=x"), 1, 0, &client));
    printf("open once more: %" PRIu32 "\n", dochirwa_open(&engine));
    dochirwa_free(&engine);
    printf("after it is freed: %" PRIu32 "\n", dochirwa_flush(&engine, client));
    dochirwa_free(&engine);
}
