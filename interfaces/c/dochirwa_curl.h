/* dochirwa_curl.h: posts the envelopes of an engine by libcurl, from a thread of its own. It is no part of the library:
 * compile dochirwa_curl.c with your program, and link libcurl and pthread.
 *
 * A reporter has an engine with one client and one hub, behind a lock. Envelopes that calls hand out go into a queue when
 * the lock is given back; the thread posts them in order, keeps to the server's limits (429 with Retry-After, and
 * X-Sentry-Rate-Limits), and tells the client the time once a second. What is lost on the way is counted by category and
 * reason, and reported in a later envelope: where the queue is full, within a limit, without an answer of the server, or
 * where it answers neither 2xx nor 429. What it refuses by 429 it counts itself, but for reports, which are reported again.
 *
 * Any thread may call these functions, but no signal handler. A process that is forked off makes no call. The first reporter
 * is opened before another thread uses libcurl (curl_global_init). They answer 0 or the number of a fault as dochirwa.h
 * has them. The reporter's thread takes no signals of the process.
 */
#ifndef DOCHIRWA_CURL_H
#define DOCHIRWA_CURL_H
#include "dochirwa.h"
#ifdef __cplusplus
extern "C" {
#endif

typedef struct dochirwa_curl dochirwa_curl;

/* How many envelopes wait for the server at most. */
enum { DOCHIRWA_CURL_MOST_WAITING = 100 };

/* Makes a reporter of the options of dochirwa_add_client, each on a line; a client without a DSN sends nothing. The agent is
 * how your program calls itself to the server, such as shop/1.0, or null. Faults: 1, 11 (the agent has a line feed), and
 * those of dochirwa_add_client. */
uint32_t dochirwa_curl_open(dochirwa_curl **curl, const char *options, const char *client_agent);
/* Takes the lock, so that calls can be made on the engine. */
dochirwa *dochirwa_curl_lock(dochirwa_curl *curl);
/* Gives the lock back, and puts what the calls handed out into the queue. */
void dochirwa_curl_unlock(dochirwa_curl *curl);
/* The client and the hub. */
uint64_t dochirwa_curl_client(const dochirwa_curl *curl);
uint64_t dochirwa_curl_hub(const dochirwa_curl *curl);
/* The moment, random ids and a draw. */
dochirwa_fresh dochirwa_curl_fresh(void);
/* Captures an error of a type and a message, and sets the id of its event, if that isn't null. */
uint32_t dochirwa_curl_error(dochirwa_curl *curl, const char *type, const char *value, dochirwa_id *id);
/* Calls a function of yours with each envelope before it is posted, on the thread. Where it answers false, the envelope is
 * not posted, and is counted as lost for DOCHIRWA_BY_BEFORE_SEND. Set it before the first call. */
void dochirwa_curl_before_send(dochirwa_curl *curl, bool (*keeps)(void *given, const uint8_t *envelope, size_t length), void *given);
/* Sends what waits, and waits until it is posted or lost, so long at most; answers whether it was in time, and false where
 * something stays for want of memory. */
bool dochirwa_curl_flush(dochirwa_curl *curl, uint32_t milliseconds);
/* A flush, after which the thread ends and the reporter is freed; what still waits is lost. Null is closed already. With
 * libcurl before 7.87 it waits for the address of a host that is being looked up. */
bool dochirwa_curl_close(dochirwa_curl *curl, uint32_t milliseconds);

#ifdef __cplusplus
}
#endif
#endif
