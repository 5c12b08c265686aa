"""Reports what ends the program."""
from __future__ import annotations

import sys
from types import TracebackType
from typing import Optional, Type

from .. import client as clients
from ..capture import capture_exception
from . import Integration


class ExcepthookIntegration(Integration):
    identifier = "excepthook"

    @staticmethod
    def setup_once() -> None:
        before = sys.excepthook

        def hook(kind: Type[BaseException], error: BaseException, trace: Optional[TracebackType]) -> None:
            try:
                client = clients.current
                # What the user ends is no error.
                if client is not None and client.integration("excepthook") and not issubclass(kind, KeyboardInterrupt):
                    capture_exception(error, "fatal", False, "excepthook")
            finally:
                before(kind, error, trace)

        sys.excepthook = hook


integration = ExcepthookIntegration
