"""The layers of the packages in live/roam_live: each package imports only itself and the packages below it.

Every import counts: those at the top of a module, those below TYPE_CHECKING, and those inside functions.
"""
import ast
import functools
import graphlib
import pathlib
import re

from aids import Case
from roam_live.common.process import TOOLS

PACKAGE = pathlib.Path(TOOLS, "roam_live")

# From the lowest layer to the highest. Packages on the same line do not import each other.
LAYERS = (("common",), ("protocol",), ("input", "session"), ("commands",), ("config",), ("frontend", "host", "relay"), ("cli",))

# The packages in which no two modules import each other, and no part knows its owner.
ACYCLIC = ("input", "commands", "config", "frontend")

# The sizes of modules and classes there.
MOST_LINES, MOST_METHODS = 450, 25

LAYER = {package: number for number, packages in enumerate(LAYERS) for package in packages}


@functools.lru_cache(maxsize=None)
def nodes_of(text: str) -> "list[ast.AST]":
    """Return all nodes of a module."""
    return list(ast.walk(ast.parse(text)))


def package_of(module: str) -> str:
    """Return the package of a dotted module name below roam_live, "" if it has none."""
    return module.split(".")[1] if module.count(".") else ""


def imports_in(text: str) -> "list[tuple[int, str]]":
    """Return the line and the dotted name of each import of roam_live in a module, and of each name that may be a module."""
    found = []
    for node in nodes_of(text):
        if isinstance(node, ast.Import):
            found += [(node.lineno, alias.name) for alias in node.names]
        elif isinstance(node, ast.ImportFrom):
            # A relative import would hide its package.
            module = "." * node.level + (node.module or "")
            found += [(node.lineno, f"{module}.{alias.name}") for alias in node.names]
    return [(line, name) for line, name in found if name.startswith((".", "roam_live"))]


def modules_named_in(text: str) -> "list[tuple[int, str]]":
    """Return the line and the name of each module that a text names as a string, as for a later import."""
    strings = [node for node in nodes_of(text) if isinstance(node, ast.Constant) and isinstance(node.value, str)]
    return [(node.lineno, node.value) for node in strings if re.fullmatch(r"roam_live(\.[a-z_]+)+", node.value)]


def modules_imported_by(text: str) -> "list[tuple[int, str]]":
    """Return the line and the dotted name of each module that a module imports, or imports a name from."""
    found = []
    for line, name in imports_in(text):
        found += [(line, name), (line, name.rpartition(".")[0])]
    return found


def owners_in(name: str, text: str) -> "list[str]":
    """Return the lines at which an object passes itself to another: `self` among a class call's arguments, or an assignment to another's
    field.
    """
    faults = []
    for node in nodes_of(text):
        if isinstance(node, ast.Assign) and any(isinstance(one, ast.Attribute) for one in node.targets):
            values = node.value.elts if isinstance(node.value, ast.Tuple) else [node.value]
            faults += [f"{name}:{node.lineno}: gives itself away"] * any(isinstance(one, ast.Name) and one.id == "self" for one in values)
        if not isinstance(node, ast.Call):
            continue
        called = node.func.attr if isinstance(node.func, ast.Attribute) else node.func.id if isinstance(node.func, ast.Name) else ""
        given = [*node.args, *(keyword.value for keyword in node.keywords)]
        if called[:1].isupper() and any(isinstance(one, ast.Name) and one.id == "self" for one in given):
            faults.append(f"{name}:{node.lineno}: gives itself to what it makes")
    return faults


def made_and_known(text: str) -> "tuple[dict[str, set[str]], dict[str, set[str]]]":
    """Return what each class of a module makes, and the types that its constructor and its fields name."""
    made: "dict[str, set[str]]" = {}
    known: "dict[str, set[str]]" = {}
    for one in nodes_of(text):
        if not isinstance(one, ast.ClassDef):
            continue
        nodes = list(ast.walk(one))
        made[one.name] = {node.func.id for node in nodes if isinstance(node, ast.Call) and isinstance(node.func, ast.Name)}
        fields = [node.annotation for node in nodes if isinstance(node, ast.AnnAssign)]
        for method in one.body:
            if isinstance(method, ast.FunctionDef) and method.name == "__init__":
                fields += [part.annotation for part in method.args.args + method.args.kwonlyargs if part.annotation]
        known[one.name] = {word for field in fields for word in re.findall(r"\w+", ast.unparse(field))}
    return made, known


def owners_among(given: "list[str]") -> "list[str]":
    """Return each class of some modules that is named in the constructor or a field of one that it makes."""
    made: "dict[str, set[str]]" = {}
    known: "dict[str, set[str]]" = {}
    for text in given:
        for table, found in zip((made, known), made_and_known(text)):
            for name, names in found.items():
                table.setdefault(name, set()).update(names)
    return sorted(f"{part} knows {maker}, which makes it" for maker, parts in made.items() for part in parts & set(known)
                  if part != maker and maker in known[part])


def faults_in(name: str, text: str) -> "list[str]":
    """Return the errors in the imports of a module, given by its path below live/."""
    package, faults = package_of(name.removesuffix(".py").replace("/", ".")), []
    for line, module in imports_in(text) + modules_named_in(text):
        other = package_of(module)
        if other not in LAYER:
            faults.append(f"{name}:{line}: {module} is in no package")
        elif other != package and LAYER[other] >= LAYER[package]:
            faults.append(f"{name}:{line}: {package} imports {module}, which is not below it")
    return faults


def texts() -> "dict[str, str]":
    """Return the text of each module, by its path below live/."""
    paths = sorted(path for path in PACKAGE.rglob("*.py") if path != PACKAGE / "__init__.py")
    return {str(path.relative_to(TOOLS)): path.read_text(encoding="utf-8") for path in paths}


class Layers(Case):
    """Which package imports which."""

    def test_packages(self):
        """Each package has a layer, each module is in a package, and the `__init__.py` of each package is empty."""
        folders = {path.parent for path in PACKAGE.rglob("*.py")} - {PACKAGE}
        self.assertEqual({folder.relative_to(PACKAGE).parts[0] for folder in folders}, set(LAYER))
        self.assertEqual([path.name for path in PACKAGE.glob("*.py")], ["__init__.py"])
        self.assertEqual({(folder / "__init__.py").read_bytes() for folder in folders}, {b""})

    def test_layers(self):
        """No module imports from a package that is not below its own."""
        self.assertEqual([fault for name, text in texts().items() for fault in faults_in(name, text)], [])

    def test_no_cycle(self):
        """The packages have an order in which each comes after all that it imports."""
        graph = {package: set() for package in LAYER}
        for name, text in texts().items():
            package = package_of(name.replace("/", "."))
            graph[package] |= {package_of(module) for _, module in imports_in(text)} - {package}
        order = list(graphlib.TopologicalSorter(graph).static_order())
        self.assertEqual((order[0], order[-1], sorted(order)), ("common", "cli", sorted(LAYER)))

    def test_no_module_cycle(self):
        """The modules of the packages for a user's display and input have such an order too, with types and late imports."""
        known = {name.removesuffix(".py").replace("/", "."): text for name, text in texts().items()}
        known = {name: text for name, text in known.items() if package_of(name) in ACYCLIC}
        graph = {name: {module for _, module in modules_imported_by(text) if module in known} for name, text in known.items()}
        list(graphlib.TopologicalSorter(graph).static_order())

    def test_no_owner(self):
        """No object there passes itself to another, and no part has a field for the object that made it."""
        found = {name: text for name, text in texts().items() if name.split("/")[1] in ACYCLIC}
        self.assertEqual([fault for name, text in found.items() for fault in owners_in(name, text)], [])
        self.assertEqual(owners_among(list(found.values())), [])

    def test_no_mock(self):
        """The tests of modes and of copy mode's keys read values: they use no mock."""
        for name in ("test_modes", "modes_played", "test_copy_keys", "copied"):
            self.assertNotIn("mock", pathlib.Path(__file__).with_name(f"{name}.py").read_text(encoding="utf-8"), name)

    def test_sizes(self):
        """No module there has more than MOST_LINES lines, and no class more than MOST_METHODS methods of its own."""
        for name, text in texts().items():
            if name.split("/")[1] in ACYCLIC:
                self.assertLessEqual(text.count("\n"), MOST_LINES, name)
                for node in nodes_of(text):
                    if isinstance(node, ast.ClassDef):
                        methods = sum(isinstance(one, ast.FunctionDef) for one in node.body)
                        self.assertLessEqual(methods, MOST_METHODS, f"{name}: {node.name}")

    def test_owner_found(self):
        """An object that passes itself to a part is found, and so is a part that knows its maker; a call of its own isn't."""
        made = "class A:\n    def __init__(self):\n        self.b = B(1)\n"
        for part, faults in (("    def __init__(self, one: int, owner: A | None = None):\n        pass\n", ["B knows A, which makes it"]),
                             ("    def __init__(self, one: int):\n        self.owner: 'A | None' = None\n", ["B knows A, which makes it"]),
                             ("    def __init__(self, one: int):\n        self.one: int = one\n", [])):
            self.assertEqual(owners_among([made, f"class B:\n{part}"]), faults, part)
        self.assertEqual(owners_in("a.py", "class A:\n    def f(self):\n        self.b.owner = self\n"), ["a.py:3: gives itself away"])
        for text, lines in (("class A:\n    def f(self):\n        self.b = B(1, self)\n", [3]),
                            ("class A:\n    def f(self):\n        return b.Part(one=self)\n", [3]),
                            ("class A:\n    def f(self):\n        self.b = B(self.f, lambda: self.x)\n        print(self)\n", [])):
            self.assertEqual(owners_in("a.py", text), [f"a.py:{line}: gives itself to what it makes" for line in lines], text)

    def test_found(self):
        """An upward import is found wherever it is, and a sideways or relative one too."""
        cases = (
            ("roam_live/common/a.py", "from roam_live.protocol.panes import X\n", 1),
            ("roam_live/common/a.py", "import roam_live.cli.cmd\n", 1),
            ("roam_live/input/a.py", "TYPE_CHECKING = False\nif TYPE_CHECKING:\n    from roam_live.session.names import NAME\n", 3),
            ("roam_live/host/a.py", "def f():\n    from roam_live.relay import near\n", 2),
            ("roam_live/frontend/copymode/a.py", "from roam_live.host import pane\n", 1),
            ("roam_live/session/a.py", "from . import names\n", 1),
            ("roam_live/config/a.py", "from roam_live import cli\n", 1),
            ("roam_live/session/a.py", "MODULES = ('json', 'roam_live.config.loader')\n", 1),
        )
        for name, text, line in cases:
            found = faults_in(name, text)
            self.assertEqual([fault.partition(": ")[0] for fault in found], [f"{name}:{line}"], text)
        for name, text in (("roam_live/cli/a.py", "from roam_live.common import tty\nfrom roam_live.frontend.copymode.keys import X\n"),
                           ("roam_live/frontend/a.py", "from roam_live.frontend.copymode import mode\nimport re\n"),
                           ("roam_live/frontend/copymode/a.py", "from roam_live.frontend import display\n")):
            self.assertEqual(faults_in(name, text), [])
