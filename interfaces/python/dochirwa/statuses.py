"""What answers of HTTP say of a transaction, as in the crate `sentry_http`; the others by their first digit."""
from __future__ import annotations

SPAN_STATUSES = {
    "401": "unauthenticated",
    "403": "permission_denied",
    "404": "not_found",
    "409": "already_exists",
    "413": "failed_precondition",
    "429": "resource_exhausted",
    "499": "cancelled",
    "501": "unimplemented",
    "503": "unavailable",
    "504": "deadline_exceeded",
    "1": "ok",
    "2": "ok",
    "3": "ok",
    "4": "invalid_argument",
    "5": "internal_error",
}


def span_status(code: str) -> str:
    return SPAN_STATUSES.get(code, SPAN_STATUSES.get(code[:1], "unknown_error"))
