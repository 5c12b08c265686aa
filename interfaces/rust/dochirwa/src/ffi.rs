//! The functions of dochirwa.h. tests/rust_interface compares these declarations with the header's.

use crate::types::{EventId, Fresh};

#[repr(C)]
pub(crate) struct Raw {
    pub(crate) at: *mut u8,
}

#[rustfmt::skip]
unsafe extern "C" {
    pub(crate) fn dochirwa_version() -> u32;
    pub(crate) fn dochirwa_open(engine: *mut Raw) -> u32;
    pub(crate) fn dochirwa_free(engine: *mut Raw);
    pub(crate) fn dochirwa_add_client(engine: *mut Raw, options: *const u8, options_length: usize, label: u64, now: u64, client: *mut u64) -> u32;
    pub(crate) fn dochirwa_clone_client(engine: *mut Raw, client: u64, now: u64, clone: *mut u64) -> u32;
    pub(crate) fn dochirwa_drop_client(engine: *mut Raw, client: u64) -> u32;
    pub(crate) fn dochirwa_is_enabled(engine: *mut Raw, client: u64, enabled: *mut u32) -> u32;
    pub(crate) fn dochirwa_flush(engine: *mut Raw, client: u64) -> u32;
    pub(crate) fn dochirwa_tick(engine: *mut Raw, client: u64, now: u64) -> u32;
    pub(crate) fn dochirwa_close(engine: *mut Raw, client: u64) -> u32;
    pub(crate) fn dochirwa_record_loss(engine: *mut Raw, label: u64, category: u32, reason: u32, quantity: u64) -> u32;
    pub(crate) fn dochirwa_new_hub(engine: *mut Raw, client: u64, fresh: *const Fresh, hub: *mut u64) -> u32;
    pub(crate) fn dochirwa_new_hub_from_top(engine: *mut Raw, hub: u64, copy: *mut u64) -> u32;
    pub(crate) fn dochirwa_bind_client(engine: *mut Raw, hub: u64, client: u64) -> u32;
    pub(crate) fn dochirwa_release_hub(engine: *mut Raw, hub: u64, now: u64) -> u32;
    pub(crate) fn dochirwa_push_scope(engine: *mut Raw, hub: u64, depth: *mut usize) -> u32;
    pub(crate) fn dochirwa_pop_scope(engine: *mut Raw, hub: u64, depth: usize, now: u64) -> u32;
    pub(crate) fn dochirwa_set_tag(engine: *mut Raw, hub: u64, key: *const u8, key_length: usize, value: *const u8, value_length: usize, now: u64) -> u32;
    pub(crate) fn dochirwa_set_span(engine: *mut Raw, hub: u64, is_span: bool, number: u64, now: u64) -> u32;
    pub(crate) fn dochirwa_clear_span(engine: *mut Raw, hub: u64, now: u64) -> u32;
    pub(crate) fn dochirwa_edit_scope(engine: *mut Raw, hub: u64, edits: *const u8, edits_length: usize, now: u64) -> u32;
    pub(crate) fn dochirwa_clear_scope(engine: *mut Raw, hub: u64, fresh: *const Fresh) -> u32;
    pub(crate) fn dochirwa_add_breadcrumb(engine: *mut Raw, hub: u64, breadcrumb: *const u8, breadcrumb_length: usize, now: u64) -> u32;
    pub(crate) fn dochirwa_clear_breadcrumbs(engine: *mut Raw, hub: u64, now: u64) -> u32;
    pub(crate) fn dochirwa_add_attachment(engine: *mut Raw, hub: u64, filename: *const u8, filename_length: usize, content_type: *const u8, content_type_length: usize, content: *const u8, content_length: usize, now: u64) -> u32;
    pub(crate) fn dochirwa_clear_attachments(engine: *mut Raw, hub: u64, now: u64) -> u32;
    pub(crate) fn dochirwa_capture_message(engine: *mut Raw, hub: u64, level: u32, message: *const u8, message_length: usize, fresh: *const Fresh, id: *mut EventId) -> u32;
    pub(crate) fn dochirwa_capture_event(engine: *mut Raw, hub: u64, event: *const u8, event_length: usize, fresh: *const Fresh, id: *mut EventId) -> u32;
    pub(crate) fn dochirwa_last_event_id(engine: *mut Raw, hub: u64, id: *mut EventId) -> u32;
    pub(crate) fn dochirwa_capture_log(engine: *mut Raw, hub: u64, level: u32, body: *const u8, body_length: usize, attributes: *const u8, attributes_length: usize, now: u64) -> u32;
    pub(crate) fn dochirwa_capture_metric(engine: *mut Raw, hub: u64, kind: u32, name: *const u8, name_length: usize, value: i64, unit: *const u8, unit_length: usize, attributes: *const u8, attributes_length: usize, now: u64) -> u32;
    pub(crate) fn dochirwa_start_session(engine: *mut Raw, hub: u64, fresh: *const Fresh) -> u32;
    pub(crate) fn dochirwa_end_session(engine: *mut Raw, hub: u64, status: u32, now: u64) -> u32;
    pub(crate) fn dochirwa_start_transaction(engine: *mut Raw, hub: u64, name: *const u8, name_length: usize, op: *const u8, op_length: usize, fresh: *const Fresh, transaction: *mut u64) -> u32;
    pub(crate) fn dochirwa_continue_transaction(engine: *mut Raw, hub: u64, name: *const u8, name_length: usize, op: *const u8, op_length: usize, sentry_trace: *const u8, sentry_trace_length: usize, baggage: *const u8, baggage_length: usize, fresh: *const Fresh, transaction: *mut u64) -> u32;
    pub(crate) fn dochirwa_sample_transaction(engine: *mut Raw, hub: u64, name: *const u8, name_length: usize, op: *const u8, op_length: usize, sentry_trace: *const u8, sentry_trace_length: usize, baggage: *const u8, baggage_length: usize, rate: *const u8, rate_length: usize, fresh: *const Fresh, transaction: *mut u64) -> u32;
    pub(crate) fn dochirwa_start_child(engine: *mut Raw, is_span: bool, parent: u64, op: *const u8, op_length: usize, description: *const u8, description_length: usize, fresh: *const Fresh, span: *mut u64) -> u32;
    pub(crate) fn dochirwa_set_span_data(engine: *mut Raw, is_span: bool, number: u64, key: *const u8, key_length: usize, json: *const u8, json_length: usize) -> u32;
    pub(crate) fn dochirwa_set_span_tag(engine: *mut Raw, is_span: bool, number: u64, key: *const u8, key_length: usize, value: *const u8, value_length: usize) -> u32;
    pub(crate) fn dochirwa_set_span_name(engine: *mut Raw, is_span: bool, number: u64, name: *const u8, name_length: usize) -> u32;
    pub(crate) fn dochirwa_set_span_op(engine: *mut Raw, is_span: bool, number: u64, op: *const u8, op_length: usize) -> u32;
    pub(crate) fn dochirwa_set_span_status(engine: *mut Raw, is_span: bool, number: u64, name: *const u8, name_length: usize) -> u32;
    pub(crate) fn dochirwa_set_span_request(engine: *mut Raw, is_span: bool, number: u64, request: *const u8, request_length: usize) -> u32;
    pub(crate) fn dochirwa_trace_header(engine: *mut Raw, is_span: bool, number: u64, room: *mut u8, room_length: usize, length: *mut usize) -> u32;
    pub(crate) fn dochirwa_baggage(engine: *mut Raw, is_span: bool, number: u64, room: *mut u8, room_length: usize, length: *mut usize) -> u32;
    pub(crate) fn dochirwa_finish_span(engine: *mut Raw, span: u64, now: u64) -> u32;
    pub(crate) fn dochirwa_finish_transaction(engine: *mut Raw, transaction: u64, hub: u64, now: u64) -> u32;
    pub(crate) fn dochirwa_discard(engine: *mut Raw, is_span: bool, number: u64) -> u32;
    pub(crate) fn dochirwa_end_span(engine: *mut Raw, span: u64, now: u64, held: *mut u32) -> u32;
    pub(crate) fn dochirwa_end_transaction(engine: *mut Raw, transaction: u64, hub: u64, now: u64, held: *mut u32) -> u32;
    pub(crate) fn dochirwa_next_envelope(engine: *mut Raw, client: *mut u64, room: *mut u8, room_length: usize, length: *mut usize) -> u32;
    pub(crate) fn dochirwa_drop_envelopes(engine: *mut Raw) -> u32;
    pub(crate) fn dochirwa_envelope_api_url(dsn: *const u8, dsn_length: usize, room: *mut u8, room_length: usize, length: *mut usize) -> u32;
    pub(crate) fn dochirwa_to_auth(dsn: *const u8, dsn_length: usize, client_agent: *const u8, client_agent_length: usize, room: *mut u8, room_length: usize, length: *mut usize) -> u32;
}
