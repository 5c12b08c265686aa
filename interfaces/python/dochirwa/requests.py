"""What is sent of a request that a server answers: method, URL, query and headers, without what is secret."""
from __future__ import annotations

import urllib.parse
from typing import Any, Dict, Iterable, Mapping, Tuple

from .stacks import FILTERED, is_secret

# Headers that say who somebody is, or let one act as them.
PERSONAL = {*"authorization proxy-authorization cookie set-cookie x-forwarded-for x-real-ip forwarded x-api-key".split()}


def filtered_headers(pairs: Iterable[Tuple[str, str]], with_personal: bool) -> Dict[str, str]:
    """The headers, those that are personal only where that is allowed."""
    found = {}
    for name, it in pairs:
        hidden = not with_personal and (name.lower() in PERSONAL or is_secret(name))
        found[name] = FILTERED if hidden else it
    return found


def filtered_query(query: str) -> str:
    """A query, without the values of what is named as a secret."""
    if not query:
        return ""
    parts = []
    for part in query.split("&"):
        name, sign, _ = part.partition("=")
        parts.append(f"{name}={FILTERED}" if sign and is_secret(urllib.parse.unquote_plus(name)) else part)
    return "&".join(parts)


def filtered_url(url: str) -> str:
    """A URL, without a password, and with its query filtered."""
    try:
        parts = urllib.parse.urlsplit(url)
        host = parts.netloc.rpartition("@")[2]
    except ValueError:
        return url.partition("?")[0]
    return urllib.parse.urlunsplit((parts.scheme, host, parts.path, filtered_query(parts.query), ""))


def request_data(
    method: str, url: str, query: str, headers: Iterable[Tuple[str, str]], env: Mapping[str, Any], with_personal: bool
) -> Dict[str, Any]:
    """The request of an event. `env` has REMOTE_ADDR, which is personal."""
    found = {
        "method": method,
        "url": url,
        "query_string": filtered_query(query),
        "headers": filtered_headers(headers, with_personal),
        "env": {key: str(it) for key, it in env.items() if it and (with_personal or key != "REMOTE_ADDR")},
    }
    return {key: it for key, it in found.items() if it}
