"""A receiver of Sentry's envelopes, written from the rules of the format: a line of JSON, then items up to the end. No
object of JSON may have a name twice."""
import json


class NotAnEnvelope(ValueError):
    """Bytes that break a rule of the format."""


def of_distinct_names(members):
    """An object of JSON, whose members have a name each."""
    names = [name for name, _ in members]
    if len(set(names)) < len(names):
        raise NotAnEnvelope(f"names come twice among {names}")
    return dict(members)


def read_json(data):
    """A value of JSON in which no object has a name twice. ValueError where there is none."""
    return json.loads(data, object_pairs_hook=of_distinct_names)


def line_at(data, start):
    """The bytes up to the next newline, and where it goes on behind that."""
    end = data.find(b"\n", start)
    if end < 0:
        raise NotAnEnvelope(f"no newline from byte {start} on")
    return data[start:end], end + 1


def object_at(data, start):
    """The JSON object on a line, and where it goes on."""
    line, start = line_at(data, start)
    found = read_json(line)
    if not isinstance(found, dict):
        raise NotAnEnvelope(f"{line!r} is no object")
    return found, start


def payload_at(data, start, length):
    """A payload of a stated length, and where it goes on: behind a newline, or at the end."""
    if type(length) is not int or length < 0:
        raise NotAnEnvelope(f"{length!r} is no length")
    end = start + length
    if len(data) < end or data[end : end + 1] not in (b"", b"\n"):
        raise NotAnEnvelope(f"from byte {start} on a payload isn't {length} bytes long")
    return data[start:end], min(end + 1, len(data))


def received(data):
    """An envelope's header, and the header and payload of each item. One pass; ValueError where a rule is broken."""
    header, at = object_at(data, 0)
    items = []
    while at < len(data):
        head, at = object_at(data, at)
        payload, at = payload_at(data, at, head["length"]) if "length" in head else line_at(data, at)
        items.append((head, payload))
    return header, items


def read_item(head, payload):
    """The type of an item that states its length, and whose payload is an object of JSON if it is no attachment. ValueError
    where it isn't."""
    if head.get("length") != len(payload):
        raise NotAnEnvelope(f"{head} has {len(payload)} bytes")
    if not isinstance(head.get("type"), str):
        raise NotAnEnvelope(f"{head} has no type")
    if head["type"] != "attachment" and not isinstance(read_json(payload), dict):
        raise NotAnEnvelope(f"the payload of {head} is no object")
    return head["type"]
