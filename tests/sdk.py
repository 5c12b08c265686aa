"""What Sentry's Python SDK reads of envelopes, where Debian's python3-sentry-sdk is installed."""
import json
import os
import subprocess
import sys
import tempfile

# Where the SDK is: where the environment says, or where Debian puts it.
FOLDER = os.environ.get("SENTRY_SDK", "/usr/lib/python3/dist-packages")
READ = """
import json, sys
sys.path.insert(0, sys.argv[1])
try:
    from sentry_sdk.envelope import Envelope
except Exception as error:
    sys.exit(f"none: {error}")
for path in sys.argv[2:]:
    envelope = Envelope.deserialize(open(path, "rb").read())
    items = []
    for item in envelope.items:
        payload = item.payload.json
        items.append([item.headers, payload, None if payload is not None else item.get_bytes().hex()])
    print(json.dumps([envelope.headers, items]))
"""


class NoSdk(Exception):
    """It isn't installed."""


def read_by_sdk(envelopes):
    """Of each envelope, by its bytes, the header and the items: each with its header, and its JSON or, in hexadecimal
    digits, its bytes. Raises NoSdk, or ValueError where the SDK fails."""
    interpreter = "/usr/bin/python3" if os.path.exists("/usr/bin/python3") else sys.executable
    with tempfile.TemporaryDirectory(prefix="sdk-") as folder:
        paths = [os.path.join(folder, str(number)) for number in range(len(envelopes))]
        for path, envelope in zip(paths, envelopes):
            with open(path, "wb") as file:
                file.write(envelope)
        ran = subprocess.run([interpreter, "-c", READ, FOLDER, *paths], capture_output=True, text=True, timeout=60)
    if ran.stderr.startswith("none: "):
        raise NoSdk(ran.stderr.strip()[6:])
    if ran.returncode:
        raise ValueError(ran.stderr)
    return [json.loads(line) for line in ran.stdout.splitlines()]


def unlike(header, items, theirs, their_items):
    """What the SDK reads of an envelope otherwise than `received` did, each in words."""
    if theirs != header:
        yield f"the header, {theirs}"
    if len(their_items) != len(items):
        yield f"{len(their_items)} items"
        return
    for (head, payload), (their_head, found, raw) in zip(items, their_items):
        # where an item has no `content_type`, the SDK makes one up
        if their_head != {"content_type": their_head["content_type"], **head}:
            yield f"the header of {head['type']}, {their_head}"
        is_like = payload.hex() == raw if found is None else json.loads(payload) == found
        if not is_like:
            yield f"the payload of {head['type']}, {found} {raw}"
