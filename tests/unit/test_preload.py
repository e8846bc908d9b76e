"""The imports of a front end over time: first for the display, then the rest, and rare modules on first use."""
import ast
import pathlib
import subprocess
import sys
from unittest import mock

from aids import Case
from roam_live.common import late_modules
from roam_live.common.late_modules import LateModules
from roam_live.commands.table import DEFAULT_KEYS
from roam_live.frontend import bindings
from roam_live.frontend.commands import REPLACED
from roam_live.frontend.copymode import controller
from roam_live.frontend.interpreter import DETACHES
from test_app import Fronts

LIVE = pathlib.Path(late_modules.__file__).resolve().parents[2]

# The most modules of roam that the words of mux load, a front end before its display, and in all before a key is typed.
MOST = {"roam_live.cli.attaching": 45, "roam_live.frontend.follow": 65, "roam_live.frontend.app": 105}

# Modules that no tool loads while a user waits.
SLOW = {"argparse", "base64", "collections", "contextlib", "dataclasses", "enum", "functools", "json", "pathlib", "re", "shlex", "signal",
        "socket", "subprocess", "tempfile", "threading", "traceback", "typing", "urllib"}


def at_once(path):
    """Return the modules that a module imports when it is loaded."""
    found = []
    for node in ast.parse(path.read_text(encoding="utf-8")).body:
        if isinstance(node, ast.Import):
            found += [one.name for one in node.names]
        elif isinstance(node, ast.ImportFrom):
            found += [node.module, *(f"{node.module}.{one.name}" for one in node.names)]
    return found


class Modules(Case):
    """The loaded modules."""

    def loaded(self, name):
        """Return the modules of a process that imports one."""
        text = f"import sys; sys.path.insert(0, sys.argv[1])\nimport {name}\nprint(*sys.modules)"
        run = subprocess.run([sys.executable, "-ISc", text, str(LIVE)], stdout=subprocess.PIPE, check=True)
        return run.stdout.decode().split()

    def test_few(self):
        """They are few of roam, and no slow ones."""
        for name, most in MOST.items():
            names = self.loaded(name)
            own = [one for one in names if one.startswith("roam_live.")]
            self.assertLessEqual(len(own), most, (name, own))
            self.assertEqual(SLOW & set(names), set(), name)

    def test_types(self):
        """In each module loaded then, types are imported only for type checkers."""
        for name in self.loaded("roam_live.frontend.app"):
            path = LIVE / f"{name.replace('.', '/')}.py"
            if name.startswith("roam_live.") and path.exists():
                self.assertEqual({"collections.abc", "typing"} & set(at_once(path)), set(), name)


class Late(Case):
    """Imports of a process that is older than another build."""

    def test_refused(self):
        """Without a bundle a module of roam isn't imported once another build is in its place; modules of others are, and the rest too."""
        built = self.patch_of(late_modules, "identity", return_value="1 a")
        self.patch_of(late_modules.roam_bundle, "opened", return_value=None)
        late = LateModules()
        late.begin()
        self.assertIs(sys.meta_path[0], late)
        self.assertIsNone(late.find_spec("roam_live.any"))
        built.return_value = "1 b"
        self.assertRaises(ImportError, __import__, "roam_live.cli.none")
        self.assertIsNone(late.find_spec("shlex"))
        late.end()
        late.end()
        self.assertNotIn(late, sys.meta_path)


class Gone(Fronts):
    """A front end after another build was installed in its place."""

    def test_key(self):
        """A key that needs a module of another build is reported, and later ones are typed."""
        client = self.connect()
        self.paints()
        with mock.patch.object(controller.Copying, "open", side_effect=ImportError("another build")):
            self.type(b"\x02[x")
        self.assertEqual((self.front.display.row.told, self.front.left), (REPLACED, None))
        self.assertIn(b"char 78\n", client.recv(9999))

    def test_prefix(self):
        """If the table of commands is missing, a key after the prefix is reported, the next one is typed, and C-b d detaches."""
        self.assertEqual(DEFAULT_KEYS[DETACHES], "detach-client")
        client = self.connect()
        self.paints()
        with mock.patch.object(bindings, "DEFAULTS", {}), mock.patch.object(bindings, "default_wishes", side_effect=ImportError("gone")):
            self.type(b"\x02[x")
            self.assertEqual((self.front.display.row.told, self.front.left), (REPLACED, None))
            self.assertIn(b"char 78\n", client.recv(9999))
            self.type(b"\x02d")
        self.assertEqual(self.front.left, "[detached]")

    def test_keys(self):
        """Without a bundle the keys after the prefix are loaded before a replacement is possible."""
        self.front.late.begin = lambda: None
        with mock.patch.object(bindings, "DEFAULTS", {}) as known:
            self.front.begin_late()
            self.assertIn("d", known)

    def test_moment(self):
        """The same for timers and input callbacks; a half-open copy mode is closed."""
        self.connect()
        self.paints()
        commands = self.front.views.commands
        commands.copying.state.is_opening = True
        commands.copying.state.events.append(None)

        def fails():
            raise ImportError("another build")

        self.front.loop.later("anything", 0.0, fails)
        self.turn(1)
        self.assertEqual((self.front.display.row.told, commands.copying.state.is_on(), len(commands.copying.state.events)),
                         (REPLACED, False, 0))
        self.assertIn(REPLACED.encode(), self.shown())
