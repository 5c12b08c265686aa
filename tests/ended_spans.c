// Starts spans with data in a transaction, and ends each of them, or discards it unfinished.
// usage: ended_spans COUNT end|discard
#include "dochirwa.h"
#include <stdlib.h>

static void must(uint32_t fault) {
    if (fault) exit(1);
}

int main(int count, char **words) {
    const char *options = "dsn=https://public@sentry.invalid/1\ntraces=1\nmaxspans=100000\n";
    dochirwa engine = DOCHIRWA_CLOSED;
    dochirwa_fresh fresh = {1, {0, 1}, {0, 1}, 1, 0};
    uint64_t client = 0, hub = 0, transaction = 0, span = 0;
    uint32_t held = 0;
    if (count != 3) return 2;
    must(dochirwa_open(&engine));
    must(dochirwa_add_client(&engine, DOCHIRWA_TEXT(options), 0, fresh.now, &client));
    must(dochirwa_new_hub(&engine, client, &fresh, &hub));
    must(dochirwa_start_transaction(&engine, hub, DOCHIRWA_TEXT("job"), DOCHIRWA_TEXT("queue"), &fresh, &transaction));
    for (long left = atol(words[1]); left > 0; left--) {
        fresh.span++;
        must(dochirwa_start_child(&engine, false, transaction, DOCHIRWA_TEXT("db"), DOCHIRWA_TEXT("select"), &fresh, &span));
        must(dochirwa_set_span_data(&engine, true, span, DOCHIRWA_TEXT("rows"), DOCHIRWA_TEXT("7")));
        if (strcmp(words[2], "end") == 0)
            must(dochirwa_end_span(&engine, span, 2, &held));
        else
            must(dochirwa_discard(&engine, true, span));
    }
    dochirwa_free(&engine);
    return 0;
}
