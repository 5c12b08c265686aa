"""Programs that are started: each a span and a breadcrumb, and each wait for one a span."""
from __future__ import annotations

import os
import subprocess
from typing import Any

from .. import client as clients
from ..records import as_text
from ..scopes import add_breadcrumb
from ..tracing import start_span
from . import Integration

# How much of a command is sent.
LONGEST = 200


def is_on() -> bool:
    client = clients.current
    return client is not None and client.integration("subprocess") is not None


def shown(command: Any) -> str:
    """The command: of a list the program's name alone, since arguments may be secret."""
    if isinstance(command, (str, bytes, os.PathLike)):
        return (as_text(command).split() or [""])[0][:LONGEST]
    words = list(command) if isinstance(command, (list, tuple)) else []
    return as_text(words[0])[:LONGEST] if words else "subprocess"


class SubprocessIntegration(Integration):
    identifier = "subprocess"

    @staticmethod
    def setup_once() -> None:
        kind: Any = subprocess.Popen
        start, wait, communicate = kind.__init__, kind.wait, kind.communicate

        def started(self: Any, *words: Any, **more: Any) -> None:
            if not is_on():
                start(self, *words, **more)
                return
            name = shown(words[0] if words else more.get("args"))
            with start_span("subprocess", name) as span:
                start(self, *words, **more)
                span.set_data("subprocess.pid", self.pid)
            add_breadcrumb(name, "subprocess", "info", "subprocess")

        def waited(self: Any, *words: Any, **more: Any) -> Any:
            if not is_on():
                return wait(self, *words, **more)
            with start_span("subprocess.wait", shown(self.args)) as span:
                span.set_data("subprocess.pid", self.pid)
                return wait(self, *words, **more)

        def communicated(self: Any, *words: Any, **more: Any) -> Any:
            if not is_on():
                return communicate(self, *words, **more)
            with start_span("subprocess.communicate", shown(self.args)) as span:
                span.set_data("subprocess.pid", self.pid)
                return communicate(self, *words, **more)

        kind.__init__, kind.wait, kind.communicate = started, waited, communicated


integration = SubprocessIntegration
