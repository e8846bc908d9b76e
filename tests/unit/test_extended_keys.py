"""Extended keys of a terminal: their sequences cut anywhere, their names, and the forms for programs."""
import random
import unittest

from lived import Attached, Lived
from modes_played import PlayedModes
from roam_live.config.environment import choose_by_file
from roam_live.config.loader import Binding
from roam_live.frontend.outer_terminal import OuterModes
from roam_live.input.extended_keys import ANSWERED, BACK_TAB, QUERY, WANTED, answered, extended_key, form_for
from roam_live.input.key_names import named, named_key, names_of_key
from roam_live.input.keys import Key, Keys, acts_of, key_of

# A terminal's report of a key, its names for bindings, its plain form, and a flag for a program that requested some keys: it gets the
# extended form.
KEYS = (
    ("27;5;9", ["C-tab", "tab"], "\t", True), ("27;6;9", ["C-S-tab", "S-tab"], "\x1b[Z", True), ("27;2;9", ["S-tab"], "\x1b[Z", False),
    ("27;2;13", ["S-enter", "enter"], "\r", True), ("27;5;13", ["C-enter", "enter"], "\r", True), ("27;3;13", ["M-enter"], "\x1b\r", False),
    ("27;7;13", ["C-M-enter", "M-enter"], "\x1b\r", True), ("27;5;97", ["C-a"], "\x01", False), ("27;5;105", ["C-i", "tab"], "\t", False),
    ("27;5;109", ["C-m", "enter"], "\r", False), ("27;5;91", ["C-[", "escape"], "\x1b", False), ("27;3;120", ["M-x"], "\x1bx", False),
    ("27;4;88", ["M-X"], "\x1bX", False), ("27;7;120", ["C-M-x"], "\x1b\x18", False), ("27;6;65", ["C-S-a", "C-a"], "\x01", True),
    ("27;5;44", ["C-,", ","], ",", True), ("27;5;49", ["C-1", "1"], "1", True), ("27;5;50", ["C-2", "C-space"], "\0", False),
    ("27;5;47", ["C-/", "C-_"], "\x1f", False), ("27;6;95", ["C-_"], "\x1f", False), ("27;5;32", ["C-space"], "\0", False),
    ("27;2;32", ["S-space", "space"], " ", False), ("27;2;65", ["A"], "A", False), ("27;5;127", ["C-bspace", "C-h"], "\x08", False),
    ("27;2;127", ["S-bspace", "bspace"], "\x7f", False), ("27;5;8", ["C-bspace", "C-h"], "\x08", False),
    ("27;2;27", ["S-escape", "escape"], "\x1b", True), ("27;9;120", ["M-x"], "\x1bx", False), ("27;5;228", ["C-ä", "ä"], "ä", True),
)
# The same in the other form, which contains the character without Shift.
OTHERS = (("9;5", "27;5;9"), ("13;2", "27;2;13"), ("97;6", "27;6;65"), ("97;5", "27;5;97"), ("97;133", "27;5;97"), ("13;66", "27;2;13"))
# Texts that are no such key, and stay unchanged.
NONE = ("\x1b[27;0;9~", "\x1b[27;17;9~", "\x1b[27;5;1114112~", "\x1b[27;5;1~", "\x1b[27;5~", "\x1b[27;5;55296~", "\x1b[97u", "\x1b[u",
        "\x1b[97;9u", "\x1b[27;5;133~", "\x1b[27;300;9~")
ANSWERS = (("\x1b[>4;2m", 2), ("\x1b[>4;0m", 0), ("\x1b[>4m", 0), ("\x1b[>4;m", 0), ("\x1b[>4;1m", 1), ("\x1b[>4;3m", 3))


def told(form):
    """Return the sequence of a form."""
    return f"\x1b[{form}{'~' if form.startswith('27;') else 'u'}"


class Forms(unittest.TestCase):
    """Sequences as keys."""

    def test_keys(self):
        """Each key has its names and its plain form. A program that requested all gets the extended form, and one that requested some only
        if no other form is distinct.
        """
        for form, names, text, is_some in KEYS:
            key = key_of(told(form))
            self.assertEqual((names_of_key(key), key.text), (names, text), form)
            self.assertEqual(named(named_key(names[0])), names[0])
            sent = {mode: form_for(key.extended, [mode]) for mode in ("paste", "keys1", "keys2")}
            self.assertEqual((sent["paste"], sent["keys1"] != ""), ("", is_some), form)
            if text not in ("A", " "):
                self.assertEqual(key_of(sent["keys2"]), key)

    def test_as_ever(self):
        """Bindings, prompts and programs without a request get the key that other terminals send, with Meta if that is pressed."""
        for form, _, text, _ in KEYS:
            key, keys = key_of(told(form)), Keys()
            plain = keys.fed(text.encode()) + keys.ended()
            self.assertEqual(acts_of(key), [act for one in plain for act in acts_of(one)], form)
            if not text.startswith("\x1b") or len(plain) == 1:
                self.assertEqual(key.name, plain[0].name, form)

    def test_others(self):
        """The other form reports the same keys; an invalid one stays unchanged."""
        for other, form in OTHERS:
            self.assertEqual(key_of(told(other)), key_of(told(form)), other)
        for text in NONE:
            self.assertEqual((key_of(text), extended_key(text)), (Key("unknown", text), None), text)

    def test_cut(self):
        """Keys and answers in the input are the same wherever they are cut, and no part of an answer is ever typed."""
        chance = random.Random(9)
        parts = [*(told(form) for form, *_ in KEYS), *(text for text, _ in ANSWERS), "a", "é", "\x1b[A", "\x1b[<0;1;1M"]
        for _ in range(60):
            text = "".join(chance.choice(parts) for _ in range(8)).encode()
            cuts, keys, bytewise = sorted(chance.sample(range(len(text)), 5)), Keys(), Keys()
            chunks = [text[begin:end] for begin, end in zip([0, *cuts], [*cuts, len(text)])]
            whole = [key for chunk in chunks for key in keys.fed(chunk)]
            self.assertEqual(whole, Keys().fed(text))
            self.assertEqual([key for place in range(len(text)) for key in bytewise.fed(text[place : place + 1])], whole)
            self.assertEqual({key.text for key in whole if key.name == "unknown"} - {BACK_TAB}, set())

    def test_answer_waits(self):
        """The start of an answer waits for its end however long that takes; one with another end is no answer."""
        for text, before in ANSWERS:
            self.assertEqual((answered(text), key_of(text).name), (before, ANSWERED), text)
            for end in range(3, len(text)):
                keys = Keys()
                self.assertEqual((keys.fed(text[:end].encode()), keys.waits()), ([], False))
                self.assertEqual(keys.fed(text[end:].encode() + b"x")[-1], Key("x", "x"))
        for text in ("\x1b[>4;2n", "\x1b[>1;2m", "\x1b[>4;22m", "\x1b[>4;2;2m"):
            self.assertEqual((answered(text), key_of(text).name), (None, "unknown"), text)
        endless = Keys()
        endless.fed(b"\x1b[>" + b"4" * 100000)
        self.assertLess(len(endless.rest), 64)


class Bound(unittest.TestCase):
    """The user's own key bindings."""

    def test_bound(self):
        """A key is bound by its own name, else by that of its plain form; with Meta also after an escape."""
        own = {("root", name): Binding([["next-window"]], False) for name in ("C-tab", "enter", "M-h", "C-M-a")}
        for text, name in ((told("27;5;9"), "C-tab"), ("\t", ""), (told("27;2;13"), "enter"), ("\x1bh", "M-h"), (told("27;3;104"), "M-h"),
                           ("\x1b\x01", "C-M-a"), (told("27;7;97"), "C-M-a"), ("\x1bj", ""), ("\x1b", "")):
            asked = PlayedModes(own=own).told(text.encode())
            self.assertEqual(asked if name else [wish for _, wish in asked if wish], [([], f"own root {name}")] if name else [], text)


class Given(unittest.TestCase):
    """The terminal's setting, and its restoration."""

    def test_given_back(self):
        """The terminal is queried for its setting, which is restored from its answer, or to the default; a Linux console gets no query."""
        for answer, back in ((None, b"\x1b[>4m"), ("\x1b[>4;0m", b"\x1b[>4m"), ("\x1b[>4;1m", b"\x1b[>4;1m")):
            modes = OuterModes()
            modes.is_able = True
            self.assertEqual(modes.keys_asked(is_first=True), QUERY + WANTED)
            if answer:
                modes.take_answer(answer)
            modes.take_answer("\x1b[>4;3m") if answer else None
            self.assertEqual((modes.taken_back(), modes.taken_back()), (back, b""))
            self.assertEqual((modes.keys_asked(), modes.taken_back()), (WANTED, back))
        choose_by_file({"extended-keys": "off"})
        self.addCleanup(choose_by_file, {})
        self.assertEqual((modes.keys_asked(is_first=True), modes.taken_back()), (b"", b""))
        choose_by_file({})
        modes.is_able = False
        self.assertEqual((modes.keys_asked(is_first=True), modes.taken_back()), (b"", b""))


class Typed(Attached):
    """Input in panes."""

    def test_typed(self):
        """A pane's program that requested such keys gets them, and others the plain form, also if keys go to all panes."""
        session = Lived()
        session.do("split right")
        self.attach(session)
        self.heard.clear()
        commands = self.person.commands
        commands.acts.panes.modes_of[1] = "keys2"
        form = " ; ".join(acts_of(Key("text", told("27;5;9"))))
        self.types(told("27;5;9").encode())
        self.types(b"\x02o")
        self.types(told("27;5;9").encode() + b"\t")
        self.assertEqual(self.heard, ["char 9", "next", *form.split(" ; "), "char 9"])
        self.heard.clear()
        commands.link.predict = lambda word: None
        self.person.keyboard.grant("synchronize")
        self.types(told("27;5;9").encode())
        self.assertEqual(self.heard, [f"{form} ; focus 2 ; char 9 ; focus 1"])
        self.types(told("27;5;98").encode() + b"o")
        self.assertEqual(self.heard[1:], ["next"])


if __name__ == "__main__":
    unittest.main()
