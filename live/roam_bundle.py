"""roam_bundle.py: loads many modules at once, from one file of compiled code. Run as a script it writes these files, as installers do.

Python's import takes some 2,500 bytecodes and five system calls for each module, most of the cost of starting a front end. A bundle has the
code of modules in the order of their imports, in `__pycache__` beside this file. It is valid while each source is unchanged; otherwise the
modules are imported as usual, and the bundle is written anew. If Python is configured to write no bytecode there are no bundles.

A tool imports this first: an interrupt while it loads ends it silently, and `run_tool` handles later ones.
"""
import gc
import marshal
import os
import sys

TYPE_CHECKING = False
if TYPE_CHECKING:
    import ast
    from collections.abc import Iterable
    from importlib.machinery import ModuleSpec
    from importlib.util import MAGIC_NUMBER
    from signal import SIG_DFL, SIGINT, signal
    from types import CodeType, ModuleType

    # The time and the size of a source.
    Stamp = tuple[int, int]
    # The modules of a bundle: the name, the source and its stamp; and the offset of the code.
    Head = tuple[list[tuple[str, str, Stamp]], int]
    # Modules by name: the source of each, its stamp, and its code.
    Compiled = dict[str, tuple[str, Stamp, CodeType]]
else:
    from _frozen_importlib_external import MAGIC_NUMBER
    from _signal import SIG_DFL, SIGINT, signal

    ModuleType, ModuleSpec = type(sys), type(sys.__spec__)

signal(SIGINT, SIG_DFL)

FOLDER = os.path.dirname(os.path.realpath(__file__))
PACKAGE = "roam_live"

# For each bundle, the bundles that are loaded before it, and its root modules. It has the roots and all modules that they import at once,
# except those of the bundles before. `mux` is for all commands on a session, `all_sessions` for `ls`, and `asking` for commands that query
# a session. `tmux` is for tmux's command line, `first_painting` and `front_end` are for a front end, `late` for its imports on first use,
# and `host` for a pty host.
ROOTS = {
    "mux": ((), (f"{PACKAGE}.cli.mux", f"{PACKAGE}.cli.attaching")),
    "all_sessions": (("mux",), (f"{PACKAGE}.cli.all_sessions", f"{PACKAGE}.session.survey")),
    "asking": (("mux",), (f"{PACKAGE}.cli.asking", f"{PACKAGE}.cli.send", f"{PACKAGE}.cli.capture")),
    "tmux": (("mux",), tuple(f"{PACKAGE}.cli.tmux.{name}" for name in (
        "tool", "sessions", "windows", "panes", "shows", "options", "buffers", "shell_commands"))),
    "first_painting": (("mux",), (f"{PACKAGE}.frontend.follow",)),
    "front_end": (("mux", "first_painting"), (f"{PACKAGE}.frontend.app",)),
    "late": (("mux", "first_painting", "front_end"), tuple(f"{PACKAGE}.{name}" for name in (
        "commands.table", "config.formats", "config.loader", "config.parser", "frontend.borders", "frontend.command_line",
        "frontend.copymode.actions", "frontend.copymode.controller", "frontend.copymode.keys", "frontend.copymode.motions",
        "frontend.copymode.search", "frontend.resize_keys", "frontend.spawn_commands", "input.key_names", "protocol.screen_cells"))),
    "host": ((), (f"{PACKAGE}.host.window", f"{PACKAGE}.host.windows", f"{PACKAGE}.host.kept_state")),
}

# A bundle begins with the length of its head, in so many bytes; and the most bytes of a head.
WORD, MOST_HEAD = 8, 1 << 20


def path_of(name: str) -> str:
    """Return the path of a bundle. Each version of Python has its own."""
    return f"{FOLDER}/__pycache__/{name}.{sys.implementation.cache_tag}.bundle"


def stamp_of(source: str) -> "Stamp":
    """Return the time and size of a source, which identify its state."""
    found = os.stat(source)
    return found.st_mtime_ns, found.st_size


def load(name: str) -> None:
    """Load the missing modules of a bundle. Without a bundle of that name do nothing; the modules are then imported.

    A missing or stale bundle is written at the end of the process, so that no user waits for it.
    """
    if name not in ROOTS or sys.dont_write_bytecode:
        return
    # The garbage collector can skip these modules, now and later: they stay.
    gc.disable()
    try:
        modules = modules_in(name)
        for module, source, code in modules or ():
            if module not in sys.modules:
                begin(module, source, code)
    finally:
        gc.freeze()
        gc.enable()
    if modules is None:
        import atexit

        atexit.register(write_at_end, name)


def modules_in(name: str) -> "list[tuple[str, str, CodeType]] | None":
    """Return the modules of a bundle: the name, source and code of each; None if it is not there, or a source has changed."""
    try:
        end = os.open(path_of(name), os.O_RDONLY | os.O_CLOEXEC)
        try:
            return with_codes(end, head_of(end))
        finally:
            os.close(end)
    except (OSError, ValueError, EOFError, TypeError):
        return None


def head_of(end: int) -> "Head":
    """Return the names, sources and stamps of an open bundle, and the offset of the code; ValueError if a source has changed."""
    length = int.from_bytes(os.pread(end, WORD, 0), "big")
    magic, folder, modules = marshal.loads(os.pread(end, min(length, MOST_HEAD), WORD))
    if (magic, folder) != (MAGIC_NUMBER, FOLDER) or any(stamp_of(source) != stamp for _, source, stamp in modules):
        raise ValueError("a bundle of other sources")
    return modules, WORD + length


def with_codes(end: int, head: "Head") -> "list[tuple[str, str, CodeType]]":
    """Return the modules of an open bundle with their code."""
    modules, begin = head
    codes = marshal.loads(os.pread(end, os.fstat(end).st_size - begin, begin))
    return [(name, source, code) for (name, source, _), code in zip(modules, codes)]


def opened(name: str) -> "tuple[int, Head] | None":
    """Return an open bundle and the result of `head_of`; None if there is none. It stays the same if its file is replaced."""
    if sys.dont_write_bytecode:
        return None
    for _ in range(2):
        try:
            end = os.open(path_of(name), os.O_RDONLY | os.O_CLOEXEC)
            try:
                return end, head_of(end)
            except BaseException:
                os.close(end)
                raise
        except (OSError, ValueError, EOFError, TypeError):
            write(name)
    return None


def begin(name: str, source: str, code: "CodeType") -> None:
    """Make a module, and run its code."""
    module = ModuleType(name)
    is_package = source.endswith("/__init__.py")
    module.__file__, module.__spec__ = source, ModuleSpec(name, None, origin=source, is_package=is_package)
    parent, _, last = name.rpartition(".")
    module.__package__ = parent
    if is_package:
        module.__package__, module.__path__ = name, [os.path.dirname(source)]
    sys.modules[name] = module
    try:
        exec(code, module.__dict__)
    except BaseException:
        del sys.modules[name]
        raise
    if parent:
        setattr(sys.modules[parent], last, module)


# ---- writing bundles

def write_at_end(name: str) -> None:
    """Write a bundle when the process ends. An interrupt meanwhile ends it silently."""
    signal(SIGINT, SIG_DFL)
    write(name)


def write(name: str) -> None:
    """Write a bundle for the next process, if this user may."""
    if not os.access(os.path.dirname(path_of(name)), os.W_OK):
        return
    made = f"{path_of(name)}.{os.getpid()}"
    try:
        found = made_of(name)
        head = marshal.dumps((MAGIC_NUMBER, FOLDER, [one[:3] for one in found]))
        with open(made, "wb") as file:
            file.write(len(head).to_bytes(WORD, "big") + head + marshal.dumps([code for _, _, _, code in found]))
        os.replace(made, path_of(name))
    except (OSError, SyntaxError):
        if os.path.exists(made):
            os.unlink(made)


def made_of(name: str) -> "list[tuple[str, str, Stamp, CodeType]]":
    """Return the modules of a bundle, compiled: each after those that it imports."""
    before: Compiled = {}
    for one in ROOTS[name][0]:
        add_all(ROOTS[one][1], before)
    found = dict(before)
    add_all(ROOTS[name][1], found)
    return [(module, source, stamp, code) for module, (source, stamp, code) in found.items() if module not in before]


def add_all(names: "Iterable[str]", found: "Compiled") -> None:
    """Add missing modules, each after its packages and its imports."""
    import ast

    for name in names:
        source = source_of(name)
        if name in found or source is None:
            continue
        add_all([name.rpartition(".")[0]], found)
        stamp = stamp_of(source)
        with open(source, encoding="utf-8") as file:
            tree = ast.parse(file.read(), source)
        add_all(imports_of(tree), found)
        found[name] = source, stamp, compiled(tree, source)


def compiled(tree: "ast.Module", source: str) -> "CodeType":
    """Return the code of a module, without docstrings. An import from `__future__` becomes a flag of the compiler, and loads no module at
    run time."""
    import ast
    import __future__

    tree.body = [node for node in tree.body if not (isinstance(node, ast.ImportFrom) and node.module == "__future__")]
    code: CodeType = compile(tree, source, "exec", __future__.annotations.compiler_flag, dont_inherit=True, optimize=2)
    return code


def source_of(name: str) -> "str | None":
    """Return the source of a module of this package; None if the name is none."""
    if name.partition(".")[0] != PACKAGE:
        return None
    base = os.path.join(FOLDER, *name.split("."))
    return next((path for path in (f"{base}/__init__.py", f"{base}.py") if os.path.isfile(path)), None)


def imports_of(tree: "ast.Module") -> list[str]:
    """Return the names that a module imports at once: modules, or names in them."""
    import ast

    names: list[str] = []
    for node in tree.body:
        if isinstance(node, ast.Import):
            names += [alias.name for alias in node.names]
        elif isinstance(node, ast.ImportFrom) and node.module:
            names += [node.module, *(f"{node.module}.{alias.name}" for alias in node.names)]
    return names


if __name__ == "__main__":
    os.makedirs(os.path.dirname(path_of("")), exist_ok=True)
    for bundle in ROOTS:
        write(bundle)
