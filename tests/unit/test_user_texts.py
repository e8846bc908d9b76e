"""Texts for users: the same sentences in `mux help`, --help, C-b ? and the man pages, and the plainness of README, guide and pages."""
import importlib.machinery
import importlib.util
import pathlib
import re
import subprocess
import unittest

from roam_live.cli import help_text, mux, words
from roam_live.commands.table import BY_NAME, DEFAULT_KEYS
from roam_live.frontend.bindings import HELP

TOP = pathlib.Path(__file__).resolve().parents[2]
MAN = TOP / "docs/man"
GUIDE = TOP / "docs/guide"
PAGES = sorted(MAN.glob("*.[15]"))
TEXTS = [TOP / "README.md", *sorted(GUIDE.glob("*.md")), *PAGES]
MOST_BYTES = 6000


def tool_module(name):
    """Return a script of tools/ as a module."""
    loader = importlib.machinery.SourceFileLoader(name, str(TOP / "tools" / name))
    module = importlib.util.module_from_spec(importlib.util.spec_from_loader(name, loader))
    loader.exec_module(module)
    return module


def flat(text):
    """Return a text with one space between words."""
    return " ".join(text.split())


def plain_roff(text):
    """Return the words of a man page without its requests and escapes."""
    text = re.sub(r"\\f[A-Z]|\\&", "", re.sub(r"^\.[A-Z]{1,2} ", "", text, flags=re.M))
    return flat(re.sub(r"^\.TP.*$", "", text, flags=re.M).replace("\\-", "-").replace("\\(aq", "'").replace("\\(dq", '"'))


class Same(unittest.TestCase):
    """One sentence describes a command, in every place."""

    def test_mux(self):
        """`mux help` and roam-mux(1) have the sentence of each word's --help."""
        told, page = flat(help_text.HELP), plain_roff((MAN / "roam-mux.1").read_text(encoding="utf-8"))
        for name, word in words.WORDS.items():
            sentence = mux.sentence(word.tells)
            self.assertEqual(flat(mux.parser_of(name).description), sentence)
            if name not in ("detach", "list"):
                self.assertEqual((name, sentence[:-1] in told, sentence[:-1] in page), (name, True, True))

    def test_keys(self):
        """C-b ? and roam-mux(1) describe each key like the table of commands."""
        page = (MAN / "roam-mux.1").read_text(encoding="utf-8")
        keys = plain_roff(page[page.index(".SH KEYS") : page.index(".SS The last row")])
        for words in DEFAULT_KEYS.values():
            name = words.partition(" ")[0]
            # A list of several says "go to" once; each of the keys of select-pane goes to another one.
            does = "pane" if name == "select-pane" else re.split(r",| \(| or ", BY_NAME[name].help)[0].removeprefix("go to ")
            self.assertEqual((name, does, does in flat(HELP), does in keys), (name, does, True, True))


# ---- plainness

# Words that stop a reader when they are used of software, or that have no antecedent; each has a standard term (docs/GLOSSARY.md).
FLAGS = re.compile(r"\b(?:tell|tells|told|telling|where|who|whoever|stand|stands|stood|standing|held|holds|hold|lies|lie|lain|to be had)\b"
                   r"|(?:^|[.:;] )[Ww]hat\b|\bwhat (?:is|was|stands|waits|comes|goes|came|has|they|it|a|the|panes)\b", re.M)
LONGEST_SENTENCE, LONGEST_MEAN, MOST_FLAGS = 35, 17, 3


def markdown(text):
    """Return a page of Markdown without its code and the rules of its tables."""
    text = re.sub(r"```.*?```", "", text, flags=re.S)
    lines, is_code = [], False
    for line in text.split("\n"):
        is_code = line.startswith("    ") and (is_code or not lines or not lines[-1].strip())
        if not is_code and not re.match(r"^\|[-: |]+\|$", line):
            lines.append(re.sub(r"^#+ ", "", line) + ("\n" if line.startswith(("#", "|")) else ""))
    return "\n".join(lines)


def roff(text):
    """Return a man page with an empty line for each request that begins a paragraph."""
    lines = []
    for line in text.split("\n"):
        if line.startswith((".SH", ".TP", ".PP", ".IP", ".SS", ".nf", ".fi")):
            lines.append("")
        elif not line.startswith(('.\\"', "'")):
            lines.append(re.sub(r"\\f[A-Z]|\\-|\\&", "", re.sub(r"^\.[A-Z]{1,2} ", "", line)))
    return "\n".join(lines)


def sentences(text):
    """Return the sentences of a text that have three words or more."""
    text = re.sub(r"\[([^\]]*)\]\([^)]*\)", r"\1", re.sub(r"`[^`\n]*`", "X", text))
    parts = re.split(r"(?<=[.!?])\s+(?=[A-Z`*\"(])|\n\s*\n|\s\|\s|^\s*[-*] |\n\s*\d+\. ", text)
    return [part.split() for part in parts if len(part.split()) > 2]


class Pictures(unittest.TestCase):
    """The diagrams are those of their texts."""

    def test_drawn(self):
        run = subprocess.run([str(TOP / "tools/diagram"), "--check"], stdout=subprocess.PIPE, check=False)
        self.assertEqual((run.returncode, run.stdout), (0, b""))


class Plain(unittest.TestCase):
    """README, guide and man pages are plain: short sentences, and standard words."""

    def test_plain(self):
        """All pages together have few flagged words; no sentence of one is long."""
        words = flagged = count = 0
        for path in TEXTS:
            text = path.read_text(encoding="utf-8")
            text = markdown(text) if path.suffix == ".md" else roff(text)
            found = sentences(text)
            self.assertEqual([" ".join(one) for one in found if len(one) > LONGEST_SENTENCE], [], path.name)
            words, count, flagged = words + sum(map(len, found)), count + len(found), flagged + len(FLAGS.findall(text))
        self.assertLessEqual(1000 * flagged / words, MOST_FLAGS)
        self.assertLessEqual(words / count, LONGEST_MEAN)

    def test_messages(self):
        """The same holds for the messages of live/, as tools/user_messages lists them; lists of keys are no sentences."""
        lister = tool_module("user_messages")
        texts = [text for path in lister.files() for _, kind, text in lister.texts_in(path) if kind != "HELP"]
        found = [one for text in texts for one in sentences(text)]
        words = sum(map(len, found))
        self.assertEqual([" ".join(one) for one in found if len(one) > LONGEST_SENTENCE], [])
        self.assertLessEqual(1000 * sum(len(FLAGS.findall(text)) for text in texts) / words, MOST_FLAGS)
        self.assertLessEqual(words / len(found), LONGEST_MEAN)

    def test_guide(self):
        """The guide has eleven pages, each of 6 kB at most, and its first page names each."""
        index = (GUIDE / "README.md").read_text(encoding="utf-8")
        pages = [path for path in GUIDE.glob("*.md") if path.name != "README.md"]
        self.assertEqual([path.name for path in pages if f"({path.name})" not in index], [])
        self.assertEqual((len(pages), [path.name for path in pages if path.stat().st_size > MOST_BYTES]), (11, []))

    def test_links(self):
        """Each link of these pages leads to a file, and to a heading there."""
        for path in TEXTS:
            if path.suffix == ".md":
                for target, anchor in re.findall(r"\]\((?!https?:)([^)#]*)(?:#([^)]*))?\)", path.read_text(encoding="utf-8")):
                    file = path.parent / target if target else path
                    self.assertTrue(file.exists(), (path.name, target))
                    self.assertIn(anchor, ["", *anchors(file)] if file.suffix == ".md" else [""], (path.name, target))


def anchors(path):
    """Return the anchors of a page's headings, as GitHub makes them."""
    heads = re.findall(r"^#+ (.*)$", path.read_text(encoding="utf-8"), re.M)
    return [re.sub(r"[^a-z0-9 _-]", "", head.lower()).replace(" ", "-") for head in heads]


if __name__ == "__main__":
    unittest.main()
