/* Reports an error with its stack trace: backtrace DSN. Compile it with dochirwa_curl.c and `-rdynamic`, which keeps the
 * names of functions, and link libdochirwa, libcurl and pthread. */
#ifndef _GNU_SOURCE
#define _GNU_SOURCE
#endif
#include "dochirwa_curl.h"
#include <dlfcn.h>
#include <execinfo.h>
#include <stdio.h>

enum { MOST_FRAMES = 50, ROOM = 200 * MOST_FRAMES };

/* Writes the functions that are running as JSON, the one that was called last at the end, without this one. */
static void write_frames(char *text, size_t room) {
    void *addresses[MOST_FRAMES];
    int count = backtrace(addresses, MOST_FRAMES);
    size_t length = (size_t)snprintf(text, room, "[");
    while (count-- > 1 && room - length > 200) {
        Dl_info found;
        const char *name = dladdr(addresses[count], &found) && found.dli_sname ? found.dli_sname : "?";
        length += (size_t)snprintf(text + length, room - length, "%s{\"function\":\"%.120s\",\"instruction_addr\":\"%p\"}", length > 1 ? "," : "", name, addresses[count]);
    }
    snprintf(text + length, room - length, "]");
}

uint32_t out_of_paper(dochirwa_curl *sentry);
uint32_t print_receipt(dochirwa_curl *sentry);

uint32_t out_of_paper(dochirwa_curl *sentry) {
    static char frames[ROOM], event[ROOM + 200];
    dochirwa_id id;
    dochirwa_fresh fresh = dochirwa_curl_fresh();
    write_frames(frames, sizeof frames);
    snprintf(event, sizeof event, "{\"level\":\"error\",\"platform\":\"c\",\"exception\":[{\"type\":\"NoPaper\",\"value\":\"the roll is empty\",\"stacktrace\":{\"frames\":%s}}]}", frames);
    dochirwa *engine = dochirwa_curl_lock(sentry);
    uint32_t fault = dochirwa_capture_event(engine, dochirwa_curl_hub(sentry), DOCHIRWA_TEXT(event), &fresh, &id);
    dochirwa_curl_unlock(sentry);
    return fault;
}

uint32_t print_receipt(dochirwa_curl *sentry) {
    uint32_t fault = out_of_paper(sentry);
    return fault; /* so that this function is still running */
}

int main(int count, char **words) {
    char options[512];
    dochirwa_curl *sentry;
    snprintf(options, sizeof options, "dsn=%s\nrelease=shop@1.0.0\n", count > 1 ? words[1] : "");
    uint32_t fault = dochirwa_curl_open(&sentry, options, "shop/1.0.0");
    if (!fault) fault = print_receipt(sentry);
    if (fault) fprintf(stderr, "%s\n", dochirwa_fault_text(fault));
    return dochirwa_curl_close(sentry, 2000) && !fault ? 0 : 1;
}
