/* dochirwa.h: the engine of Dochirwa for C. Link what interfaces/c/install installs, or libdochirwa.a, and liblibc_c.a
 * and libos_c.a of the toolchain (docs/INTERFACES.md). dochirwa_curl.h posts the envelopes.
 *
 * Every function but dochirwa_free and dochirwa_version answers 0, or the number of a fault (DOCHIRWA_FAULT_STALE and the
 * like), whose text dochirwa_fault_text has:
 *
 *    1 out of memory      5 scopes open     9 full                        13 the engine is open already
 *    2 stale              6 invalid DSN    10 a text isn't UTF-8
 *    3 out of order       7 invalid rate   11 a number or a word stands for nothing
 *    4 still named        8 foreign losses 12 the engine is closed
 *
 * A call that fails has changed nothing in the engine, and no envelope; what its results point to is not to be read. Any
 * call on an engine can answer 12, any that takes a text 10, and any but dochirwa_drop_envelopes 1: they are left out
 * below. Clients, hubs, transactions and spans are numbers, each kind counted on its own; one that is not there, or not
 * there any more, is stale (2), and harmless.
 *
 * Texts and rooms are a pointer and a length in bytes, with no zero byte at the end; where the length is 0, the pointer may
 * be null. What is copied into room is copied where the room holds it; else the room is as it was, and the length that is
 * set says how much room it needs. JSON has whole numbers of 64 bits and no others (otherwise 11); an empty text stands
 * for the empty object. `now` is nanoseconds since the epoch.
 *
 * What the caller owes, which nothing checks:
 * - an engine's first bytes are zero, as in `dochirwa engine = DOCHIRWA_CLOSED;`, and only these functions write it; it
 *   isn't copied; one call at a time is made on it (under a lock of yours, where several threads use it);
 * - a pointer is not null, except with a length of 0, and what it names is initialized, aligned and not written meanwhile;
 *   what is written through (the engine, room, and the results) overlaps nothing else;
 * - malloc, realloc and free are those of one allocator, with blocks aligned to 16;
 * - no call from a signal handler, and no fork while another thread is in a call, unless the child makes none. A child
 *   has a copy of all that waits, and of sessions: dochirwa_end_session on each hub, dochirwa_flush on each client, and then
 *   dochirwa_drop_envelopes, leave them to the parent. What was lost, and no envelope has reported yet, both may report.
 */
#ifndef DOCHIRWA_H
#define DOCHIRWA_H
#include <stdbool.h>
#include <stddef.h>
#include <stdint.h>
#include <string.h>
#ifdef __cplusplus
extern "C" {
#endif

/* The version that this header is of: 10000 times the first number, 100 times the second, and the third. */
#define DOCHIRWA_VERSION 200
#define DOCHIRWA_VERSION_TEXT "0.2.0"
/* The DOCHIRWA_VERSION of the library, which may be another one than the header's. */
uint32_t dochirwa_version(void);

/* A text that ends in a zero byte, as two arguments: DOCHIRWA_TEXT("till"). */
#define DOCHIRWA_TEXT(text) (const uint8_t *)(text), strlen(text)
/* An engine, with the envelopes that wait in it; closed while it is null. */
typedef struct { void *at; } dochirwa;
#define DOCHIRWA_CLOSED {0}
/* 128 bits, the high ones first: of an event, of a trace. */
typedef struct { uint64_t high, low; } dochirwa_id;
/* What a call is to use: the moment (nanoseconds since the epoch), random ids of an event (or a session), of a trace and
 * of a span, and a random number below a million, which decides what is sampled (otherwise 11). */
typedef struct { uint64_t now; dochirwa_id id, trace; uint64_t span; uint32_t draw; } dochirwa_fresh;

enum { DOCHIRWA_FAULT_OUT_OF_MEMORY = 1, DOCHIRWA_FAULT_STALE, DOCHIRWA_FAULT_OUT_OF_ORDER, DOCHIRWA_FAULT_STILL_NAMED, DOCHIRWA_FAULT_SCOPES_OPEN, DOCHIRWA_FAULT_INVALID_DSN, DOCHIRWA_FAULT_INVALID_RATE, DOCHIRWA_FAULT_FOREIGN_LOSSES, DOCHIRWA_FAULT_FULL, DOCHIRWA_FAULT_NOT_UTF8, DOCHIRWA_FAULT_UNKNOWN, DOCHIRWA_FAULT_CLOSED, DOCHIRWA_FAULT_OPEN };
enum { DOCHIRWA_DEBUG, DOCHIRWA_INFO, DOCHIRWA_WARNING, DOCHIRWA_ERROR, DOCHIRWA_FATAL };
enum { DOCHIRWA_LOG_TRACE, DOCHIRWA_LOG_DEBUG, DOCHIRWA_LOG_INFO, DOCHIRWA_LOG_WARN, DOCHIRWA_LOG_ERROR, DOCHIRWA_LOG_FATAL };
enum { DOCHIRWA_COUNTER, DOCHIRWA_GAUGE, DOCHIRWA_DISTRIBUTION };
enum { DOCHIRWA_SESSION_OK, DOCHIRWA_SESSION_EXITED, DOCHIRWA_SESSION_CRASHED, DOCHIRWA_SESSION_ABNORMAL };
enum { DOCHIRWA_LOST_ERROR, DOCHIRWA_LOST_TRANSACTION, DOCHIRWA_LOST_SPAN, DOCHIRWA_LOST_SESSION, DOCHIRWA_LOST_ATTACHMENT, DOCHIRWA_LOST_LOG_ITEM, DOCHIRWA_LOST_METRIC };
enum { DOCHIRWA_BY_EVENT_PROCESSOR, DOCHIRWA_BY_BEFORE_SEND, DOCHIRWA_BY_SAMPLE_RATE, DOCHIRWA_BY_BUFFER_OVERFLOW, DOCHIRWA_BY_SEND_ERROR, DOCHIRWA_BY_INTERNAL_SDK_ERROR, DOCHIRWA_BY_NETWORK_ERROR, DOCHIRWA_BY_RATELIMIT_BACKOFF, DOCHIRWA_BY_QUEUE_OVERFLOW };

/* What a fault says, and "another number" of what is no fault; 0 is "no fault". */
static inline const char *dochirwa_fault_text(uint32_t fault) {
    static const char *const texts[] = {"no fault", "out of memory", "stale", "out of order", "still named", "scopes open", "invalid DSN", "invalid rate", "foreign losses", "full", "not UTF-8", "a number or a word stands for nothing", "the engine is closed", "the engine is open already"};
    return fault < sizeof texts / sizeof *texts ? texts[fault] : "another number";
}

/* Makes an engine that holds nothing where there is none. Faults: 1, 13 (the engine stays as it is). */
uint32_t dochirwa_open(dochirwa *engine);
/* Frees an engine, and forgets what it holds and the envelopes that wait. It is closed then; if it was, nothing happens. */
void dochirwa_free(dochirwa *engine);

/* Clients */

/* Adds a client of the options in a text, a line NAME=VALUE each: dsn, release, environment and server are texts, and so is
 * platform, which events have that name none (else native); rate (of events, by default all) and traces (of transactions,
 * by default none) are fractions such as 0.25 or 1, with at most six digits after the point; strict, pii, logs and
 * metrics are 0 or 1 (the last two change nothing here: what is captured is sent); mode is application or request; org,
 * crumbs, maxspans and maxbatch are numbers. In place of callbacks, drop_events and drop_breadcrumbs (by their message),
 * drop_logs (by their body) and drop_metrics (by their name) drop what begins with their text, and nothing where it is
 * empty; what is dropped, but for breadcrumbs, is reported as lost. Clients of one label count their losses together.
 * Faults: 6, 7 (no such rate), 9, 11. */
uint32_t dochirwa_add_client(dochirwa *engine, const uint8_t *options, size_t options_length, uint64_t label, uint64_t now, uint64_t *client);
/* Adds a client with the options and the label of another, and queues of its own. Faults: 2, 9. */
uint32_t dochirwa_clone_client(dochirwa *engine, uint64_t client, uint64_t now, uint64_t *clone);
/* Gives a client back; what waits in its queues is sent. Faults: 2, 4 (a hub, a session or a transaction needs it). */
uint32_t dochirwa_drop_client(dochirwa *engine, uint64_t client);
/* Sets 1 where a client sends, and 0 where it has no DSN or was closed. Faults: 2. */
uint32_t dochirwa_is_enabled(dochirwa *engine, uint64_t client, uint32_t *enabled);
/* Sends what waits in the client's queues: ended sessions, logs, metrics. Faults: 2. */
uint32_t dochirwa_flush(dochirwa *engine, uint64_t client);
/* Tells a client the time: logs and metrics are sent after 5 seconds, ended sessions after a minute. Call it every
 * second or so. Faults: 2. */
uint32_t dochirwa_tick(dochirwa *engine, uint64_t client, uint64_t now);
/* Sends what waits in the client's queues; nothing is sent by it after that. Faults: 2. */
uint32_t dochirwa_close(dochirwa *engine, uint64_t client);
/* Counts what your transport lost of a category (DOCHIRWA_LOST_ERROR and the like) for a reason (DOCHIRWA_BY_SEND_ERROR
 * and the like), under the label of its client; a later envelope reports it. Faults: 8 (no client has the label), 11. */
uint32_t dochirwa_record_loss(dochirwa *engine, uint64_t label, uint32_t category, uint32_t reason, uint64_t quantity);

/* Hubs */

/* Adds a hub on a client, whose scope has the trace and the span of `fresh`. Faults: 2, 9, 11. */
uint32_t dochirwa_new_hub(dochirwa *engine, uint64_t client, const dochirwa_fresh *fresh, uint64_t *hub);
/* Adds a hub with the client and a copy of the top scope of another, as for a new thread. Faults: 2, 9. */
uint32_t dochirwa_new_hub_from_top(dochirwa *engine, uint64_t hub, uint64_t *copy);
/* Gives the top scope of a hub another client. Faults: 2. */
uint32_t dochirwa_bind_client(dochirwa *engine, uint64_t hub, uint64_t client);
/* Gives a hub back. Its session ends if no other scope has it. Faults: 2, 5 (scopes are still pushed). */
uint32_t dochirwa_release_hub(dochirwa *engine, uint64_t hub, uint64_t now);
/* Pushes a copy of the top scope, and sets the depth, by which dochirwa_pop_scope pops it. Faults: 2. */
uint32_t dochirwa_push_scope(dochirwa *engine, uint64_t hub, size_t *depth);
/* Pops the scope of this depth, which must be the top one. Faults: 2, 3. */
uint32_t dochirwa_pop_scope(dochirwa *engine, uint64_t hub, size_t depth, uint64_t now);

/* The top scope of a hub: what it has is sent along with each event of the hub. */

/* Sets a tag. Faults: 2. */
uint32_t dochirwa_set_tag(dochirwa *engine, uint64_t hub, const uint8_t *key, size_t key_length, const uint8_t *value, size_t value_length, uint64_t now);
/* Gives the scope a transaction, or a span where `is_span`: the events of the hub belong to its trace. Faults: 2. */
uint32_t dochirwa_set_span(dochirwa *engine, uint64_t hub, bool is_span, uint64_t number, uint64_t now);
/* Takes the transaction or span of the scope away. Faults: 2. */
uint32_t dochirwa_clear_span(dochirwa *engine, uint64_t hub, uint64_t now);
/* Does the edits of a JSON object, all or none: `tags` (texts), `extra` (any values) and `contexts` (objects) are objects
 * whose entries are set, or removed where they are null; `user` is an object with id, email, username, ip_address and
 * data, `level` a name such as warning, `fingerprint` a list of texts, `transaction` a text; null takes them away.
 * Faults: 2, 11 (also a member of another name). */
uint32_t dochirwa_edit_scope(dochirwa *engine, uint64_t hub, const uint8_t *edits, size_t edits_length, uint64_t now);
/* Clears the scope to the trace and the span of `fresh`. Faults: 2, 11. */
uint32_t dochirwa_clear_scope(dochirwa *engine, uint64_t hub, const dochirwa_fresh *fresh);
/* Adds the breadcrumb of a JSON object with type, category, level (a name), message and data. Faults: 2, 11. */
uint32_t dochirwa_add_breadcrumb(dochirwa *engine, uint64_t hub, const uint8_t *breadcrumb, size_t breadcrumb_length, uint64_t now);
/* Takes the breadcrumbs away. Faults: 2. */
uint32_t dochirwa_clear_breadcrumbs(dochirwa *engine, uint64_t hub, uint64_t now);
/* Adds an attachment of a file name, a media type (empty: none) and any bytes. Faults: 2. */
uint32_t dochirwa_add_attachment(dochirwa *engine, uint64_t hub, const uint8_t *filename, size_t filename_length, const uint8_t *content_type, size_t content_type_length, const uint8_t *content, size_t content_length, uint64_t now);
/* Takes the attachments away. Faults: 2. */
uint32_t dochirwa_clear_attachments(dochirwa *engine, uint64_t hub, uint64_t now);

/* Events, logs, metrics and sessions */

/* Captures a message of a level (DOCHIRWA_DEBUG and the like), and sets the id of its event: 0 where none was sent.
 * Faults: 2, 11. */
uint32_t dochirwa_capture_message(dochirwa *engine, uint64_t hub, uint32_t level, const uint8_t *message, size_t message_length, const dochirwa_fresh *fresh, dochirwa_id *id);
/* Captures the event of a JSON object, as Sentry writes events: level (a name), message, transaction, platform,
 * fingerprint, server_name, release, environment, user (as in dochirwa_edit_scope), request (method, url, data,
 * query_string, cookies, headers and env), contexts, breadcrumbs, exception, tags, extra and sdk (name and version, of what
 * calls the library). `exception` and `breadcrumbs` are lists, or objects with a list `values`; an exception has type,
 * value, mechanism (type and handled) and stacktrace (an object such as {"frames": [..]}, which is sent as it is), the
 * innermost error first. Other members are passed over. Sets the id: 0 where none was sent. Faults: 2, 11. */
uint32_t dochirwa_capture_event(dochirwa *engine, uint64_t hub, const uint8_t *event, size_t event_length, const dochirwa_fresh *fresh, dochirwa_id *id);
/* Sets the id that the last capture on a hub answered: 0 where there was none. Faults: 2. */
uint32_t dochirwa_last_event_id(dochirwa *engine, uint64_t hub, dochirwa_id *id);
/* Captures a log of a level (DOCHIRWA_LOG_TRACE and the like), with the attributes of a JSON object. Faults: 2, 11. */
uint32_t dochirwa_capture_log(dochirwa *engine, uint64_t hub, uint32_t level, const uint8_t *body, size_t body_length, const uint8_t *attributes, size_t attributes_length, uint64_t now);
/* Captures a metric of a kind (DOCHIRWA_COUNTER and the like), with a unit (empty: none) and the attributes of a JSON
 * object. Faults: 2, 11. */
uint32_t dochirwa_capture_metric(dochirwa *engine, uint64_t hub, uint32_t kind, const uint8_t *name, size_t name_length, int64_t value, const uint8_t *unit, size_t unit_length, const uint8_t *attributes, size_t attributes_length, uint64_t now);
/* Starts a session, in place of the one that the top scope has; nothing where the client has no release.
 * Faults: 2, 9, 11. */
uint32_t dochirwa_start_session(dochirwa *engine, uint64_t hub, const dochirwa_fresh *fresh);
/* Ends the session of the top scope with a status (DOCHIRWA_SESSION_EXITED and the like). Faults: 2, 11. */
uint32_t dochirwa_end_session(dochirwa *engine, uint64_t hub, uint32_t status, uint64_t now);

/* Transactions and spans. A parent, or what is edited or discarded, is a span where `is_span`, and otherwise a
 * transaction. What is set on a finished one is not sent. */

/* Starts a transaction of a name and an operation, in the trace of `fresh`. Faults: 2, 9, 11. */
uint32_t dochirwa_start_transaction(dochirwa *engine, uint64_t hub, const uint8_t *name, size_t name_length, const uint8_t *op, size_t op_length, const dochirwa_fresh *fresh, uint64_t *transaction);
/* The same in the trace that the headers `sentry-trace` and `baggage` of a request say (empty: none), if it may be
 * continued. Faults: 2, 9, 11. */
uint32_t dochirwa_continue_transaction(dochirwa *engine, uint64_t hub, const uint8_t *name, size_t name_length, const uint8_t *op, size_t op_length, const uint8_t *sentry_trace, size_t sentry_trace_length, const uint8_t *baggage, size_t baggage_length, const dochirwa_fresh *fresh, uint64_t *transaction);
/* The same at a rate, a fraction such as 0.25, which your sampler gave in place of the client's: 0 is not sampled, 1 is. The
 * client's option traces must be set, if only to 0. Faults: 2, 7 (no such rate), 9, 11. */
uint32_t dochirwa_sample_transaction(dochirwa *engine, uint64_t hub, const uint8_t *name, size_t name_length, const uint8_t *op, size_t op_length, const uint8_t *sentry_trace, size_t sentry_trace_length, const uint8_t *baggage, size_t baggage_length, const uint8_t *rate, size_t rate_length, const dochirwa_fresh *fresh, uint64_t *transaction);
/* Starts a span with an operation and a description (empty: none). Of `fresh` it uses the moment and the id of the span
 * alone, so the others may be 0. Faults: 2, 9, 11. */
uint32_t dochirwa_start_child(dochirwa *engine, bool is_span, uint64_t parent, const uint8_t *op, size_t op_length, const uint8_t *description, size_t description_length, const dochirwa_fresh *fresh, uint64_t *span);
/* Sets a piece of data to the value of a JSON text. Faults: 2, 11. */
uint32_t dochirwa_set_span_data(dochirwa *engine, bool is_span, uint64_t number, const uint8_t *key, size_t key_length, const uint8_t *json, size_t json_length);
/* Sets a tag. Faults: 2. */
uint32_t dochirwa_set_span_tag(dochirwa *engine, bool is_span, uint64_t number, const uint8_t *key, size_t key_length, const uint8_t *value, size_t value_length);
/* Sets the name of a transaction, or the description of a span. Faults: 2. */
uint32_t dochirwa_set_span_name(dochirwa *engine, bool is_span, uint64_t number, const uint8_t *name, size_t name_length);
/* Sets the operation. Faults: 2. */
uint32_t dochirwa_set_span_op(dochirwa *engine, bool is_span, uint64_t number, const uint8_t *op, size_t op_length);
/* Sets the status of this name, such as ok, internal_error or deadline_exceeded. Faults: 2, 11. */
uint32_t dochirwa_set_span_status(dochirwa *engine, bool is_span, uint64_t number, const uint8_t *name, size_t name_length);
/* Sets the request of a JSON object (dochirwa_capture_event). Faults: 2, 11. */
uint32_t dochirwa_set_span_request(dochirwa *engine, bool is_span, uint64_t number, const uint8_t *request, size_t request_length);
/* Sets how long the value of the header `sentry-trace` is, for a request of yours that goes on with the trace, and copies
 * it where the room holds it. Faults: 2. */
uint32_t dochirwa_trace_header(dochirwa *engine, bool is_span, uint64_t number, uint8_t *room, size_t room_length, size_t *length);
/* Sets how long the value of the header `baggage` is that goes with it, and copies it where the room holds it: the trace's
 * id, the public key of the client, the rate at which it was sampled, and whether it was. Faults: 2. */
uint32_t dochirwa_baggage(dochirwa *engine, bool is_span, uint64_t number, uint8_t *room, size_t room_length, size_t *length);
/* Finishes a span, for the first time. Faults: 2. */
uint32_t dochirwa_finish_span(dochirwa *engine, uint64_t span, uint64_t now);
/* Finishes a transaction, under the top scope of a hub, and sends it if it was sampled. Faults: 2. */
uint32_t dochirwa_finish_transaction(dochirwa *engine, uint64_t transaction, uint64_t hub, uint64_t now);
/* Forgets a transaction or a span. Give all back, also what is finished. Faults: 2, 4 (a span of the transaction is held,
 * or a scope has it). */
uint32_t dochirwa_discard(dochirwa *engine, bool is_span, uint64_t number);
/* Finishes a span, and then forgets it. Sets `held` to 1 where it is still held, finished, since a scope has it, and else to
 * 0. Faults: 2. */
uint32_t dochirwa_end_span(dochirwa *engine, uint64_t span, uint64_t now, uint32_t *held);
/* Finishes a transaction, under the top scope of a hub, sends it if it was sampled, and then forgets it. Sets `held` to 1
 * where it is still held, finished, since a scope has it or a span of it is held, and else to 0. Faults: 2. */
uint32_t dochirwa_end_transaction(dochirwa *engine, uint64_t transaction, uint64_t hub, uint64_t now, uint32_t *held);

/* What calls handed out. Any call may hand out envelopes; they wait in order. */

/* Sets how long the text of the next envelope is in Sentry's format (0: no envelope waits), and the number of the client
 * to whose DSN it is to be posted. If the room holds the text, it is copied there, and the envelope is taken; otherwise
 * the room is as it was, and the envelope goes on waiting: call again with more room. */
uint32_t dochirwa_next_envelope(dochirwa *engine, uint64_t *client, uint8_t *room, size_t room_length, size_t *length);
/* Forgets the envelopes that wait. */
uint32_t dochirwa_drop_envelopes(dochirwa *engine);

/* Where and how envelopes are posted, by the DSN alone. */

/* Sets how long the URL is to which the envelopes of a DSN are posted, and copies it where the room holds it. Faults: 6. */
uint32_t dochirwa_envelope_api_url(const uint8_t *dsn, size_t dsn_length, uint8_t *room, size_t room_length, size_t *length);
/* The same of the value of the header `X-Sentry-Auth`, in which your program calls itself by a name and version such as
 * shop/1.0 (empty: not at all). Faults: 6. */
uint32_t dochirwa_to_auth(const uint8_t *dsn, size_t dsn_length, const uint8_t *client_agent, size_t client_agent_length, uint8_t *room, size_t room_length, size_t *length);

#ifdef __cplusplus
}
#endif
#endif
