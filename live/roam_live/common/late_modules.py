"""Modules that a long process imports on first use, even after roam was replaced or removed.

They come from a bundle that is open since the process began, so that they are of its own build. Without a bundle, an import of another
build is refused, since modules of two builds may not fit together.
"""
from __future__ import annotations

import os
import sys

import roam_bundle

from roam_live.common.build_info import identity

TYPE_CHECKING = False
if TYPE_CHECKING:
    from importlib.abc import Loader, MetaPathFinder
    from importlib.machinery import ModuleSpec
    from types import CodeType, ModuleType

    class ModuleImporter(MetaPathFinder, Loader):
        """The two roles of a module's importer, which need no code."""
else:
    ModuleImporter, ModuleSpec = object, type(sys.__spec__)

PACKAGE = "roam_live."
BUNDLE = "late"


class LateModules(ModuleImporter):
    """Imports them, from `begin` to `end`."""

    def __init__(self) -> None:
        self.build = identity()
        self.bundle: tuple[int, roam_bundle.Head] | None = None
        # The sources by module, and their code during an import; and the depth of nested imports.
        self.sources: dict[str, str] = {}
        self.codes: dict[str, CodeType] = {}
        self.depth = 0

    def begin(self) -> None:
        """Open the bundle, and handle each import from now on."""
        self.bundle = roam_bundle.opened(BUNDLE)
        self.sources = {name: source for name, source, _ in self.bundle[1][0]} if self.bundle else {}
        sys.meta_path.insert(0, self)

    def end(self) -> None:
        """Handle no more imports."""
        if self in sys.meta_path:
            sys.meta_path.remove(self)
        if self.bundle:
            os.close(self.bundle[0])
            self.bundle = None

    def find_spec(self, name: str, path: object = None, target: object = None) -> ModuleSpec | None:
        """Return the location of a module, None if it is not one of these; ImportError if it belongs to another build."""
        source = self.sources.get(name) if self.bundle else None
        if source:
            return ModuleSpec(name, self, origin=source, is_package=source.endswith("/__init__.py"))
        if name.startswith(PACKAGE) and identity() != self.build:
            raise ImportError(f"{name} is of another build of roam than this process")
        return None

    def create_module(self, spec: object) -> None:
        """Let the import system create the module."""

    def exec_module(self, module: ModuleType) -> None:
        """Run the code of a module."""
        if self.bundle and not self.codes:
            self.codes = {name: code for name, _, code in roam_bundle.with_codes(*self.bundle)}
        module.__file__ = self.sources[module.__name__]
        self.depth += 1
        try:
            exec(self.codes[module.__name__], module.__dict__)
        finally:
            self.depth -= 1
            if not self.depth:
                self.codes = {}
