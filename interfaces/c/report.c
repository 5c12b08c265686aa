/* Reports one error: report DSN. Compile it with dochirwa_curl.c, and link libdochirwa, libcurl and pthread. */
#include "dochirwa_curl.h"
#include <stdio.h>

int main(int count, char **words) {
    char options[512];
    dochirwa_curl *sentry;
    dochirwa_id id;
    snprintf(options, sizeof options, "dsn=%s\nrelease=shop@1.0.0\n", count > 1 ? words[1] : "");
    uint32_t fault = dochirwa_curl_open(&sentry, options, "shop/1.0.0");
    if (!fault) fault = dochirwa_curl_error(sentry, "NoPaper", "the roll is empty", &id);
    if (!fault) printf("%016llx%016llx\n", (unsigned long long)id.high, (unsigned long long)id.low);
    if (fault) fprintf(stderr, "%s\n", dochirwa_fault_text(fault));
    return dochirwa_curl_close(sentry, 2000) && !fault ? 0 : 1;
}
