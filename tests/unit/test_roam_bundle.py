"""The bundles of roam_bundle.py: their contents, their use, and unusable ones."""
import os
import shutil
import subprocess
import sys

from aids import Case, plain_environment
from roam_live.common.process import TOOLS

# A small tree with the modules of the bundles.
TREE = {
    "__init__": "", "common/__init__": "", "cli/__init__": "", "frontend/__init__": "", "host/__init__": "",
    "common/text": '"""Words."""\nfrom __future__ import annotations\n\n\ndef shown(text: Unknown) -> str:\n    """Show it."""\n    return f"<{text}>"\n',
    "common/other": "from roam_live.common.text import shown\n",
    "cli/all_sessions": "", "cli/asking": "", "cli/send": "", "cli/capture": "", "session/__init__": "", "session/survey": "",
    "cli/mux": "import os\nfrom roam_live.common import text\n", "cli/attaching": "from roam_live.cli.mux import text\n",
    "frontend/follow": "from roam_live.common.text import shown\n\n\ndef later():\n    from roam_live.frontend import late\n",
    "frontend/app": "import roam_live.frontend.follow\n", "frontend/late": "from roam_live.common.text import shown\n",
    "host/window": "from roam_live.common.text import shown\n", "host/windows": "from roam_live.host.window import shown\n",
}

# The modules that each bundle adds to those before it.
ADDED = {"mux": 6, "first_painting": 2, "front_end": 1}

# Prints the number of roam's modules from bundles, and checks that they equal imported ones.
LOADS = """
import sys
sys.path.insert(0, sys.argv[1])
import roam_bundle
for name in sys.argv[2:]:
    roam_bundle.load(name)
print(len([name for name in sys.modules if name.startswith("roam_live")]))
import roam_live.common.text
import roam_live.common as common
text = sys.modules["roam_live.common.text"]
assert common.text is text and text.shown("a") == "<a>", vars(text)
assert text.__file__.endswith("roam_live/common/text.py") and text.__package__ == "roam_live.common" and text.__spec__.name == text.__name__
assert common.__path__ and common.__package__ == "roam_live.common"
# A module that no bundle has is imported as ever, and finds those that are there.
import roam_live.common.other
assert roam_live.common.other.shown is text.shown
"""

# Removes the tools below a front end, and imports its late modules.
LATE = """
import os, shutil, sys
sys.path.insert(0, sys.argv[1])
import roam_bundle
for name in ("mux", "first_painting", "front_end"):
    roam_bundle.load(name)
from roam_live.frontend import app
from roam_live.common.late_modules import LateModules
late = LateModules()
late.begin()
shutil.rmtree(sys.argv[1])
from roam_live.frontend.copymode.controller import Copying
from roam_live.frontend.bindings import defaults
print("late", "d" in defaults())
assert not late.codes and not late.depth and Copying.__module__ in late.sources
assert sys.modules[Copying.__module__].__file__.endswith("copymode/controller.py")
try:
    import roam_live.relay.near
except ImportError:
    print("refused")
late.end()
"""


class ModuleBundles(Case):
    """The bundles of a small tree."""

    def setUp(self):
        self.tools = self.made_folder() / "live"
        for name, text in TREE.items():
            path = self.tools / f"roam_live/{name}.py"
            path.parent.mkdir(parents=True, exist_ok=True)
            path.write_text(text, encoding="utf-8")
        shutil.copy(TOOLS / "roam_bundle.py", self.tools)

    def run_python(self, *words, **more):
        """Return the output of Python with these words."""
        run = subprocess.run([sys.executable, "-S", *words], env=plain_environment(**more), stdout=subprocess.PIPE, check=True)
        return run.stdout.decode()

    def write(self):
        """Write all bundles."""
        self.run_python(str(self.tools / "roam_bundle.py"))
        return {path.name.partition(".")[0]: path for path in self.tools.rglob("*.bundle")}

    def brought(self, *names, **more):
        """Return the number of modules from bundles."""
        return int(self.run_python("-c", LOADS, str(self.tools), *names, **more))

    def test_loaded(self):
        """A bundle has everything that its roots import at once; the first call writes it, and the next ones use it."""
        self.assertEqual((self.brought("mux"), self.brought("mux")), (0, ADDED["mux"]))
        self.write()
        self.assertEqual(self.brought("mux", "first_painting"), ADDED["mux"] + ADDED["first_painting"])
        self.assertEqual(self.brought(*ADDED), sum(ADDED.values()))
        # The host's bundle needs no other; modules without one are imported.
        self.assertEqual(self.brought("mux", "none"), ADDED["mux"])
        self.assertEqual(self.brought("host"), 6)

    def test_after_use(self):
        """A missing or stale bundle is written when its process ends, and not while a user waits for the modules."""
        text = "\n".join(("import os, sys", "sys.path.insert(0, sys.argv[1])", "import roam_bundle", "roam_bundle.load('mux')",
                          "import roam_live.cli.mux", "print(os.path.exists(roam_bundle.path_of('mux')))"))
        self.assertEqual(self.run_python("-c", text, str(self.tools)), "False\n")
        self.assertEqual(self.run_python("-c", text, str(self.tools)), "True\n")
        path = next(self.tools.rglob("mux.*.bundle"))
        before, source = path.read_bytes(), self.tools / "roam_live/common/text.py"
        source.write_text(source.read_text(encoding="utf-8") + "\nMORE = 1\n", encoding="utf-8")
        text += f"\nassert open({str(path)!r}, 'rb').read() == {before!r}"
        self.run_python("-c", text, str(self.tools))
        self.assertNotEqual(path.read_bytes(), before)

    def test_removed(self):
        """A process whose tools are removed before it ends writes nothing, and ends quietly."""
        text = "\n".join(("import shutil, sys", "sys.path.insert(0, sys.argv[1])", "import roam_bundle", "roam_bundle.load('mux')",
                          "import roam_live.cli.mux", "shutil.rmtree(sys.argv[1])"))
        done = subprocess.run([sys.executable, "-S", "-c", text, str(self.tools)], env=plain_environment(), capture_output=True, check=False)
        self.assertEqual((done.returncode, done.stderr, self.tools.exists()), (0, b"", False))

    def test_changed(self):
        """One with a changed or missing source isn't used, and is written anew."""
        self.write()
        source = self.tools / "roam_live/common/text.py"
        source.write_text(source.read_text(encoding="utf-8") + "\nMORE = 1\n", encoding="utf-8")
        self.assertEqual((self.brought("mux"), self.brought("mux")), (0, ADDED["mux"]))
        os.utime(source, (1, 1))
        self.assertEqual((self.brought("mux"), self.brought("mux")), (0, ADDED["mux"]))
        (self.tools / "roam_live/cli/mux.py").write_text("import roam_live.common.text\n", encoding="ascii")
        (self.tools / "roam_live/cli/attaching.py").unlink()
        self.assertEqual((self.brought("mux"), self.brought("mux")), (0, ADDED["mux"] - 1))
        source.write_text("def shown(:\n", encoding="ascii")
        self.run_python("-c", "import sys; sys.path.insert(0, sys.argv[1]); import roam_bundle; roam_bundle.load('mux')", str(self.tools))
        self.assertEqual([path for path in self.tools.rglob("*.bundle.*")], [])

    def test_odd(self):
        """An invalid bundle, or one of another folder, isn't used; neither is any if Python writes no bytecode."""
        path = self.write()["mux"]
        whole = path.read_bytes()
        for data in (b"", b"x", whole[:100], whole[:-1], b"N", b"i\0\0\0\0"):
            path.write_bytes(data)
            self.assertEqual(self.brought("mux"), 0, data[:9])
            self.assertEqual(self.brought("mux"), ADDED["mux"])
        self.assertEqual(self.brought("mux", PYTHONDONTWRITEBYTECODE="1"), 0)
        moved = self.tools.with_name("moved")
        self.tools.rename(moved)
        self.tools = moved
        self.assertEqual((self.brought("mux"), self.brought("mux")), (0, ADDED["mux"]))

    def test_unwritable(self):
        """If no bundle can be written the modules are imported."""
        (self.tools / "__pycache__").write_text("", encoding="ascii")
        self.assertEqual((self.brought("mux"), self.brought("mux")), (0, 0))

    def test_late(self):
        """The late imports of a front end belong to its own build, though roam was removed; modules without a bundle are refused then."""
        self.tools = self.made_folder() / "live"
        shutil.copytree(TOOLS, self.tools, ignore=shutil.ignore_patterns("__pycache__"))
        self.assertEqual(self.run_python("-c", LATE, str(self.tools)).split(), ["late", "True", "refused"])

    def test_same_output(self):
        """mux prints the same with bundles and without."""
        self.tools = self.made_folder() / "live"
        shutil.copytree(TOOLS, self.tools, ignore=shutil.ignore_patterns("__pycache__"))
        self.write()
        for words in (["help"], ["help", "send"]):
            told = [self.run_python(str(self.tools / "mux"), *words, **more) for more in ({}, {"PYTHONDONTWRITEBYTECODE": "1"})]
            self.assertEqual(*told)
            self.assertTrue(told[0])
