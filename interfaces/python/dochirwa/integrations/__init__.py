"""Integrations: what `init` sets up so that other code reports without being told to."""
from __future__ import annotations

import importlib
import importlib.abc
import importlib.util
import sys
from types import ModuleType
from typing import TYPE_CHECKING, Any, Dict, List, Optional, Type

from ..notes import LOGGER, tell

if TYPE_CHECKING:
    from ..options import Options

# The modules of the default ones, which need the standard library alone.
DEFAULT = ("excepthook", "threading", "logging", "stdlib", "subprocess")
# Those of packages that the program imports, by these packages' names.
OF_PACKAGES = ("flask",)
# What a client needs not report where it isn't to report uncaught errors.
UNCAUGHT = ("excepthook", "threading")


class Integration:
    """A part of the package that is set up once in the program, and works for clients that have it: by its `identifier`."""

    identifier = ""

    def __init__(self, **options: Any) -> None:
        for name in options:
            tell(f"the option {name} of an integration changes nothing here")

    @staticmethod
    def setup_once() -> None:
        """Puts functions of the package before those of other modules. They ask the client whether it has the
        integration."""

    def after(self) -> None:
        """Is called whenever a client begins that has the integration."""


INSTALLED: Dict[str, Type[Integration]] = {}


def named(name: str) -> Integration:
    module = importlib.import_module(f"{__name__}.{name}")
    found: Integration = module.integration()
    return found


def name_of(integration: Any) -> str:
    return integration if isinstance(integration, str) else getattr(integration, "identifier", "")


def chosen(options: Options) -> Dict[str, Integration]:
    """The integrations of a client, by their names."""
    left_out = {*map(name_of, options.disabled_integrations), *(() if options.report_uncaught else UNCAUGHT)}
    names: List[str] = [*DEFAULT] if options.default_integrations else []
    names += OF_PACKAGES if options.auto_enabling_integrations else ()
    found: Dict[str, Integration] = {it: Later(it) if it in OF_PACKAGES else named(it) for it in names if it not in left_out}
    for it in options.integrations:
        made = named(it) if isinstance(it, str) else it
        found[name_of(made)] = made
    return found


def install(integrations: Dict[str, Integration]) -> None:
    for name, it in integrations.items():
        if isinstance(it, Later):
            it.watch()
        else:
            install_one(name, it)


def install_one(name: str, integration: Integration) -> None:
    if name not in INSTALLED:
        INSTALLED[name] = type(integration)
        try:
            integration.setup_once()
        except Exception:
            LOGGER.warning("the integration %s can't be set up", name, exc_info=True)
    integration.after()


class Later(Integration):
    """An integration of a package that may not be imported yet: it is set up once that is."""

    def __init__(self, name: str) -> None:
        self.identifier = name

    def watch(self) -> None:
        if self.identifier in sys.modules:
            install_one(self.identifier, named(self.identifier))
        elif not any(isinstance(it, Finder) and it.package == self.identifier for it in sys.meta_path):
            sys.meta_path.insert(0, Finder(self.identifier))


class Finder(importlib.abc.MetaPathFinder):
    """Sets up an integration when its package is imported."""

    def __init__(self, package: str) -> None:
        self.package = package

    def find_spec(self, fullname: str, path: Any, target: Optional[ModuleType] = None) -> Any:
        if fullname != self.package:
            return None
        # Another list, since imports that are under way, of other threads too, go through this one.
        sys.meta_path = [it for it in sys.meta_path if it is not self]
        spec = importlib.util.find_spec(fullname)
        loader: Any = spec.loader if spec is not None else None
        if spec is None or not hasattr(loader, "exec_module"):
            return None
        run = loader.exec_module

        def exec_module(module: ModuleType) -> None:
            run(module)
            install_one(self.package, named(self.package))

        loader.exec_module = exec_module
        return spec
