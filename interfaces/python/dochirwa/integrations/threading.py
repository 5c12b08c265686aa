"""Reports what ends a thread."""
from __future__ import annotations

import threading
from typing import Any

from .. import client as clients
from ..capture import capture_exception
from . import Integration


class ThreadingIntegration(Integration):
    identifier = "threading"

    @staticmethod
    def setup_once() -> None:
        before = threading.excepthook

        def hook(found: Any) -> None:
            try:
                client = clients.current
                # `sys.exit` ends a thread by an exception that is no error.
                if client is not None and client.integration("threading") and found.exc_type is not SystemExit:
                    capture_exception(found.exc_value, "error", False, "threading")
            finally:
                before(found)

        threading.excepthook = hook


integration = ThreadingIntegration
