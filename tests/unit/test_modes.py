"""The meanings of keys, as tables: mode, key, effects, without a front end, terminal or session."""
import pathlib
import re
import unittest

from modes_played import PlayedModes
from roam_live.config.environment import PREFIXES
from roam_live.config.loader import Binding
from roam_live.frontend import effects, modes
from roam_live.frontend.bindings import NEWEST, Keymap, help_with
from roam_live.frontend.effects import (AddPaste, BeginPaste, ClearStatus, CloseHelp, CloseList, ClosePane, CopyKey, CopyText, DrawList,
                                        EndPaste, EnterLine, HidePrompt, HoldKey, OfferPaste, PassKey, Perform, PopMode, ScrollHelp,
                                        SendLiteral, SendRequest, ShowPrompt, ShowStatus, TellUnbound, TypeActs, TypeKey)
from roam_live.frontend.line_editor import AskedLine
from roam_live.frontend.modes import (ConfirmMode, CopyKeysMode, CopyPasteMode, HelpMode, HoldMode, LineMode, ListLine, ListMode,
                                      ModeStack, PastingMode, PickingMode, PlainMode, PrefixMode, PushMode, ScrollMode)
from roam_live.input.keys import Key, Keys

MAN = pathlib.Path(__file__).resolve().parents[2] / "docs/man/roam-mux.1"
UP, DOWN, RIGHT, LEFT, PAGE_UP, PAGE_DOWN = "\x1b[A", "\x1b[B", "\x1b[C", "\x1b[D", "\x1b[5~", "\x1b[6~"

# The keys of the man page under KEYS, literally, their input, and their effects after the prefix.
PREFIXED = (
    ("c", "c", Perform("window new")), ("n, p, l", "n", Perform("go next")), ("n, p, l", "p", Perform("go previous")),
    ("n, p, l", "l", Perform("go last")), *((("1 to 9, 0"), str(number % 10), Perform(f"go {number}")) for number in range(1, 11)),
    ("'", "'", Perform("go asked")), ("w", "w", Perform("window list")), (",", ",", Perform("window name")),
    ("&", "&", Perform("window shut")),
    ("%", "%", Perform("split right")), ('"', '"', Perform("split down")), ("x", "x", Perform("close")), ("o", "o", TypeActs("next")),
    ("q and a digit", "q", Perform("panes")), ("arrows", UP, Perform("up")), ("arrows", DOWN, Perform("down")),
    ("arrows", LEFT, Perform("left")), ("arrows", RIGHT, Perform("right")), (";", ";", Perform("last")), ("z", "z", Perform("zoom")),
    ("C-arrows", "\x1b[1;5A", Perform("border up")), ("C-arrows", "\x1b[1;5B", Perform("border down")),
    ("C-arrows", "\x1b[1;5C", Perform("border right")), ("C-arrows", "\x1b[1;5D", Perform("border left")), ("Space", " ", Perform("even")),
    ("[, PgUp, /", "[", Perform("copy")), ("[, PgUp, /", PAGE_UP, Perform("copy page")), ("[, PgUp, /", "/", Perform("copy search")),
    ("], =", "]", Perform("paste")), ("], =", "=", Perform("choose")), ("m", "m", Perform("mouse")), ("d", "d", Perform("detach")),
    ("D", "D", Perform("leave others")), ("C-z", "\x1a", Perform("suspend")), ("r", "r", Perform("repaint")), ("t", "t", Perform("row")),
    ("R", "R", Perform("settings")), (":", ":", Perform("command line")),
    ("?", "?", Perform("help")), ("C-b", "\x02", SendLiteral(Key("\x02", "\x02"))),
)

# Input from the plain mode on, and the effects of its last key.
LAST = (
    ("a", [TypeKey(["char 61"], Key("a", "a"))]), ("\r", [TypeKey(["key return"], Key("\r", "\r"))]), ("\x02", []),
    ("\x02\x02", [TypeKey(["char 2"], Key("\x02", "\x02"))]), ("\x02o", [TypeActs("next")]), ("\x02Z", [TellUnbound(Key("Z", "Z"))]),
    ("\x02\x1b[201~", [TellUnbound(Key("pasted", "\x1b[201~"))]), ("\x1b[201~", []), ("\x02q7", [TypeActs("focus 7"), ClearStatus()]),
    ("\x02qx", [ClearStatus(), TypeKey(["char 78"], Key("x", "x"))]), ("\x02q\x02", [ClearStatus()]), ("\x02q\x02d", [Perform("detach")]),
    ("\x02\x1b[1;5C\x1b[1;5D", [Perform("border left")]), ("\x1b[200~", [BeginPaste()]), ("\x02\x1b[200~", [BeginPaste()]),
    ("\x02q\x1b[200~", [ClearStatus(), BeginPaste()]), ("\x1b[200~\x02x", [AddPaste("\x02x")]), ("\x1b[200~a\x1b[201~", [EndPaste()]),
    ("\x1b[200~a\x1b[201~\x02x", [Perform("close")]),
    ("\x02[", [ShowStatus("0 rows back: PgUp PgDn up down g G scroll, q ends it", None)]),
    ("\x02[\x02", [TypeActs(NEWEST), ClearStatus()]), ("\x02[\x02o", [TypeActs("next")]), ("\x02[x", []), ("\x02[/", []),
    ("\x02[\x1b[200~", [TypeActs(NEWEST), ClearStatus(), BeginPaste()]),
    ("\x02[\x1b[200~x\x1b[201~y", [TypeKey(["char 79"], Key("y", "y"))]),
    *((f"\x02[{end}", [TypeActs(NEWEST), ClearStatus()]) for end in ("q", "\x1b", "\x03", "\r")),
    ("\x02[xq", [TypeActs(NEWEST), ClearStatus()]),
    ("\x02[qx", [TypeKey(["char 78"], Key("x", "x"))]),
)


def key_in(text):
    """Return the key of a text."""
    keys = Keys()
    return (keys.fed(text.encode()) + keys.ended())[0]


def kinds(found):
    """Return effects, with a pushed mode in place of the one that pushes it."""
    return [type(effect.mode) if isinstance(effect, PushMode) else effect for effect in found]


class Pages(unittest.TestCase):
    """The keys of the man page."""

    def test_man(self):
        """Each key of the page has a row, and each row a key of the page."""
        text = re.search(r"^\.SH KEYS\n(.*?)^\.PP", MAN.read_text(encoding="utf-8"), re.MULTILINE | re.DOTALL)[1]
        found = re.findall(r"^\.TP(?: 12)?\n(?:\.BR? )?(.*)$", text, re.MULTILINE)
        plain = [line.replace('" and a digit"', "and a digit").replace(' ", " ', ", ").replace(' " to " ', " to ").replace("\\(aq", "'")
                 .replace("\\(dq", '"').replace("[ ,", "[,") for line in found]
        self.assertEqual(sorted({re.sub(r"\s+", " ", line).strip() for line in plain}), sorted({name for name, _, _ in PREFIXED}))

    def test_prefixed(self):
        """Each key has this effect after the prefix, whose mode ends."""
        for name, text, effect in PREFIXED:
            self.assertEqual(PrefixMode(Keymap()).takes(key_in(text), 1.0), [PopMode(), effect], name)

    def test_last(self):
        """Check the effects of the last of several keys."""
        for text, found in LAST:
            self.assertEqual(PlayedModes().asked(text.encode())[-1], found, text)

    def test_prefixes(self):
        """Thirty keys may be the prefix, which typed twice is itself, and the help names only that one."""
        self.assertEqual(len(PREFIXES), 30)
        for name, letter in PREFIXES.items():
            own = TypeKey(["key return"] if letter == "\r" else [f"char {ord(letter):x}"], Key(letter, letter))
            for text, found in ((letter + "d", [Perform("detach")]), (letter * 3 + "x", [Perform("close")]), (letter * 2, [own])):
                self.assertEqual(PlayedModes(name).asked(text.encode())[-1], found, name)
            self.assertTrue(f"{name} itself" in help_with(name) and (name == "C-b" or "C-b" not in help_with(name)))
        self.assertNotIn("C-z", [line.split()[0] for line in help_with("C-z").split("\n") if "suspend" in line])

    def test_chosen(self):
        """Another prefix is chosen, and pending repeats are forgotten."""
        played = PlayedModes()
        played.asked(b"\x02\x1b[1;5C")
        played.stack.keymap.choose("C-a")
        self.assertEqual([played.asked(text)[-1] for text in (b"\x01x", b"\x02", b"\x1b[1;5C")],
                         [[Perform("close")], [TypeKey(["char 2"], Key("\x02", "\x02"))],
                          [TypeKey([f"char {ord(letter):x}" for letter in "\x1b[1;5C"], key_in("\x1b[1;5C"))]])


class Each(unittest.TestCase):
    """Each mode alone: a key, and its effects."""

    def check(self, mode, rows, now=1.0):
        """Check a mode, made by a call, against rows of a key and effects."""
        for text, found in rows:
            key = text if isinstance(text, Key) else key_in(text)
            self.assertEqual(kinds(mode().takes(key, now)), found, (mode(), key))

    def test_plain(self):
        """A key is typed, the prefix and a paste begin modes of their own."""
        keymap = Keymap()
        self.check(lambda: PlainMode(keymap), (("x", [TypeKey(["char 78"], Key("x", "x"))]), ("\x02", [PrefixMode]),
                                               (UP, [TypeKey(["key up"], key_in(UP))]),
                                               ("\x1b[200~", [PastingMode, BeginPaste()]), ("\x1b[201~", [])))
        self.assertEqual(ModeStack(keymap).literal(Key("\x02", "\x02"), False), [TypeKey(["char 2"], Key("\x02", "\x02"))])

    def test_repeats(self):
        """For half a second the next move of a border needs no prefix; each move restarts that time."""
        played, key = PlayedModes(), key_in("\x1b[1;5B")
        typed = TypeKey([f"char {ord(letter):x}" for letter in "\x1b[1;5B"], key)
        for text, now, found in (("\x02\x1b[1;5C", 10.0, Perform("border right")), ("\x1b[1;5D", 10.4, Perform("border left")),
                                 ("\x1b[1;5B", 10.8, Perform("border down")), ("x", 10.9, TypeKey(["char 78"], Key("x", "x"))),
                                 ("\x1b[1;5B", 11.31, typed)):
            self.assertEqual(played.asked(text.encode(), now)[-1], [found], text)

    def test_picking(self):
        """A digit selects a pane for three seconds; another key has its usual meaning."""
        for text, now, found in (("1", 1.0, [PopMode(), TypeActs("focus 1"), ClearStatus()]),
                                 ("9", 3.9, [PopMode(), TypeActs("focus 9"), ClearStatus()]),
                                 ("9", 4.0, [PopMode(), ClearStatus(), PassKey(Key("9", "9"))]),
                                 ("0", 1.0, [PopMode(), ClearStatus(), PassKey(Key("0", "0"))]),
                                 ("x", 1.0, [PopMode(), ClearStatus(), PassKey(Key("x", "x"))])):
            self.check(lambda: PickingMode(1.0), ((text, found),), now)

    def test_pasting(self):
        """Everything is pasted up to the end."""
        self.check(PastingMode, ((Key("text", "\x02d"), [AddPaste("\x02d")]), (Key("paste", "\x1b[200~"), [AddPaste("\x1b[200~")]),
                                 (Key("pasted", "\x1b[201~"), [PopMode(), EndPaste()])))

    def test_confirm(self):
        """y confirms, any other key declines, and a paste declines too."""
        yes = ClosePane(3), SendRequest("shut 3")
        self.check(lambda: ConfirmMode(*yes), (
            *((text, [PopMode(), HidePrompt(), *yes]) for text in "yY"),
            *((text, [PopMode(), HidePrompt()]) for text in ("n", "\r", "\x02", "\x1b", UP)),
            (Key("paste", ""), [PopMode(), HidePrompt(), PastingMode, BeginPaste(modes.NO_ANSWER)])))

    def test_line(self):
        """A line is edited, entered for its purpose, or cancelled; the first line of a paste is typed."""
        def mode():
            return LineMode(AskedLine("name", "ab cd"), "name 3")
        self.check(mode, (
            ("x", [ShowPrompt("(name) ab cdx")]), ("\x7f", [ShowPrompt("(name) ab c")]), ("\x08", [ShowPrompt("(name) ab c")]),
            ("\x15", [ShowPrompt("(name) ")]), ("\x17", [ShowPrompt("(name) ab ")]), (UP, [ShowPrompt("(name) ab cd")]),
            ("\x02", [ShowPrompt("(name) ab cd")]), (Key("paste", ""), [ShowPrompt("(name) ab cd")]),
            (Key("text", "\u00e9\nx"), [ShowPrompt("(name) ab cd\u00e9")]),
            *((text, [PopMode(), HidePrompt(), EnterLine("name 3", "ab cd")]) for text in ("\r", "\n", "\x1bOM")),
            *((text, [PopMode(), HidePrompt()]) for text in ("\x1b", "\x03", "\x07"))))

    def test_scroll(self):
        """A view scrolls back 500 rows at most, and by half a terminal's rows a page."""
        keymap = Keymap()
        mode = ScrollMode(keymap)
        for text, rows, act, view in (("k", 24, "view 1", 1), (UP, 24, "view 1", 2), ("j", 24, "view -1", 1), ("j", 24, "view -1", 0),
                                      (DOWN, 24, "view -1", 0), (PAGE_UP, 50, "view 25", 25), (PAGE_DOWN, 30, "view -15", 10),
                                      (PAGE_UP, 1, "view 1", 11),
                                      ("g", 24, "view 500", 500), ("k", 24, "view 1", 500), ("G", 24, "view -500", 0)):
            keymap.rows = rows
            self.assertEqual(mode.takes(key_in(text), 1.0), [TypeActs(act), ShowStatus(modes.SCROLLED.format(view), None)], text)
            self.assertEqual(mode.view, view)
        ends = [PopMode(), TypeActs(NEWEST), ClearStatus()]
        self.check(lambda: mode, (("q", ends), ("\x1b", ends), ("\x03", ends), ("\r", ends), ("x", []), ("\x15", []),
                                  ("\x02", [*ends, PassKey(Key("\x02", "\x02"))]), ("\x1b[200~", [*ends, PassKey(key_in("\x1b[200~"))])))

    def test_help(self):
        """The list of keys scrolls, and another key ends it, with another effect only if it begins something."""
        over = [PopMode(), CloseHelp()]
        self.check(lambda: HelpMode(Keymap()), (
            *((text, [ScrollHelp(*by)]) for text, by in ((UP, (-1, 0)), ("k", (-1, 0)), ("\x10", (-1, 0)), (DOWN, (1, 0)), ("j", (1, 0)),
                                                         ("\x0e", (1, 0)),
                                                         ("g", (-9999, 0)), ("G", (9999, 0)), (PAGE_UP, (0, -1)), (PAGE_DOWN, (0, 1)),
                                                         (" ", (0, 1)))),
            ("x", over), ("\x1b", over), ("\x03", over), ("\x02", [PopMode(), CloseHelp(Key("\x02", "\x02"))]),
            ("\x1b[200~", [PopMode(), CloseHelp(key_in("\x1b[200~"))])))

    def test_list(self):
        """A line is chosen, left or visited; the prefix and a paste end the list, and keep their meanings."""
        def mode():
            lines = [ListLine(f"line {number}", f"status {number}", Perform(f"go {number}")) for number in range(1, 31)]
            return ListMode(Keymap(), lines, 14, {"3": Perform("go 3")})
        self.check(mode, (*((text, [CloseList(), Perform("go 15")]) for text in ("\r", "\n", "\x1bOM")),
                          *((text, [CloseList()]) for text in ("q", "\x1b", "\x03", "\x07")), ("3", [CloseList(), Perform("go 3")]),
                          ("4", []), ("x", []),
                          ("\x02", [CloseList(), PassKey(Key("\x02", "\x02"))]),
                          ("\x1b[200~", [CloseList(), PassKey(key_in("\x1b[200~"))])))
        for text, chosen in ((UP, 13), ("k", 13), ("\x10", 13), (DOWN, 15), ("j", 15), ("\x0e", 15), (PAGE_UP, 4), (PAGE_DOWN, 24),
                             ("g", 0), ("G", 29)):
            one = mode()
            self.assertEqual((one.takes(key_in(text), 1.0), one.chosen), ([DrawList()], chosen), text)

    def test_copy(self):
        """Keys are copy mode's, an escape and the next key one with Meta; the prefix twice is the key itself, and once it is the prefix."""
        keymap = Keymap()
        mode = CopyKeysMode(keymap)
        paste = key_in("\x1b[200~")
        for text, found in (("x", [CopyKey(Key("x", "x"))]), ("\x1b", []), ("\x02", [CopyKey(Key("M-\x02", "\x1b\x02"))]),
                            ("\x02", [PrefixMode]),
                            ("\x1b[200~", [OfferPaste(paste)]), ("\x1b[1;5A", [CopyKey(key_in("\x1b[1;5A"))])):
            self.assertEqual(kinds(mode.takes(key_in(text), 1.0)), found, text)
        self.assertEqual(mode.fed(Key("\x02", "\x02")), [CopyKey(Key("\x02", "\x02"))])
        mode.takes(Key("\x1b", "\x1b"), 1.0)
        self.assertEqual([mode.ended(), mode.ended()], [[CopyKey(Key("\x1b", "\x1b"))], []])
        keymap.repeats_until = 2.0
        self.assertEqual([mode.takes(key_in("\x1b[1;5A"), now) for now in (1.9, 2.0)],
                         [[PassKey(key_in("\x1b[1;5A"))], [CopyKey(key_in("\x1b[1;5A"))]])

    def test_hold(self):
        """Each key waits, whatever its usual meaning is."""
        self.check(HoldMode, [(key, [HoldKey(key)]) for key in map(key_in, ("x", "\x02", "\x1b", "\x03", "\x1b[200~", UP))])

    def test_copy_paste(self):
        """A paste goes into copy mode's line, up to its end."""
        self.check(CopyPasteMode, ((Key("text", "ab"), [CopyText("ab")]), (Key("pasted", ""), [PopMode()])))


class Stack(unittest.TestCase):
    """Stacked modes."""

    def test_drawn(self):
        """A popup over panes takes keys below prompts, and none while a notice covers the panes."""
        stack = ModeStack(Keymap())
        stack.drawn = CopyKeysMode(stack.keymap)
        x = Key("x", "x")
        self.assertEqual([stack.takes(x, 1.0, is_covered) for is_covered in (False, True)], [[CopyKey(x)], [TypeKey(["char 78"], x)]])
        stack.push(LineMode(AskedLine("name"), "name 3"))
        self.assertEqual(stack.takes(x, 1.0), [ShowPrompt("(name) x")])
        stack.drop(LineMode)
        prefix = Key("\x02", "\x02")
        for is_covered, found in ((False, CopyKey(prefix)), (True, TypeKey(["char 2"], prefix))):
            self.assertEqual([stack.takes(prefix, 1.0, is_covered), stack.takes(prefix, 1.0, is_covered)], [[], [found]])
        stack.remove(stack.drawn)
        self.assertIsNone(stack.drawn)

    def test_over_copy(self):
        """Over copy mode the prefix twice is the key itself, whatever it is bound to."""
        stack = ModeStack(Keymap())
        stack.keymap.own = {("prefix", "C-b"): Binding([["list-keys"]], False)}
        prefix = Key("\x02", "\x02")
        self.assertEqual([stack.takes(prefix, 1.0) for _ in range(2)], [[], [Perform("own prefix C-b")]])
        stack.drawn = CopyKeysMode(stack.keymap)
        self.assertEqual([stack.takes(prefix, 1.0) for _ in range(2)], [[], [CopyKey(prefix)]])

    def test_passed(self):
        """A list that the prefix ends passes it to the plain mode below."""
        stack = ModeStack(Keymap())
        stack.drawn = ListMode(stack.keymap, [ListLine("one", "")])
        self.assertEqual((stack.takes(Key("\x02", "\x02"), 1.0), stack.has(PrefixMode)), ([CloseList()], True))

    def test_prompts(self):
        """A prompt replaces another, and a mode below continues once it has ended."""
        stack = ModeStack(Keymap())
        scroll = stack.scroll_mode()
        self.assertIs(stack.scroll_mode(), scroll)
        stack.push(LineMode(AskedLine("name"), "name 3"))
        stack.push(ConfirmMode(ClosePane(0)))
        self.assertEqual(list(map(type, stack.pushed)), [ScrollMode, ConfirmMode])
        self.assertEqual((stack.takes(Key("n", "n"), 1.0), stack.pushed), ([HidePrompt()], [scroll]))

    def test_typing(self):
        """In these modes keys go to the focused pane, or will."""
        for mode, is_typing in ((None, True), (PrefixMode(Keymap()), True), (PickingMode(1.0), True), (PastingMode(), False),
                                (ConfirmMode(), False),
                                (LineMode(AskedLine(""), ""), False), (ScrollMode(Keymap()), False), (HelpMode(Keymap()), False)):
            stack = ModeStack(Keymap())
            stack.pushed += [mode] if mode else []
            self.assertIs(stack.is_typing(), is_typing, mode)

    def test_scrolled(self):
        """A mouse scrolls from the newest rows on, and ends there."""
        stack = ModeStack(Keymap())
        for rows, act, view in ((3, "view 3", 3), (3, "view 3", 6), (-3, "view -3", 3), (600, "view 600", 500)):
            self.assertEqual((stack.scroll_by(rows), stack.scroll_mode().view), ((act, modes.SCROLLED.format(view)), view))
        self.assertEqual((stack.scroll_by(-600), stack.pushed), ((NEWEST, ""), []))

    def test_below(self):
        """The scroll mode begins below a prompt, and passes the prefix to the plain mode; late keys are for it."""
        stack = ModeStack(Keymap())
        stack.push(LineMode(AskedLine("name"), "name 3"))
        self.assertIs(stack.lowest(), stack.plain)
        scroll = stack.scroll_mode()
        self.assertEqual((stack.pushed[0], stack.lowest()), (scroll, scroll))
        prefix = Key("\x02", "\x02")
        self.assertEqual(stack.taken_by(scroll, prefix, 1.0, False), [TypeActs(NEWEST), ClearStatus()])
        self.assertEqual(list(map(type, stack.pushed)), [LineMode, PrefixMode])

    def test_whole(self):
        """After the prefix an escape and the next key are one."""
        stack = ModeStack(Keymap())
        keys = [Key("\x1b", "\x1b"), Key("x", "x")]
        self.assertEqual(stack.whole(keys, 0), (keys[0], 1))
        stack.push(PrefixMode(stack.keymap))
        self.assertEqual([stack.whole(keys, place) for place in (0, 1)], [(Key("M-x", "\x1bx"), 2), (keys[1], 1)])
        stack.push(PastingMode())
        self.assertEqual(stack.whole(keys, 0), (keys[0], 1))


class Covered(unittest.TestCase):
    """The requests that work while a notice covers the session."""

    ALL = [TypeKey(["char 78"], Key("x", "x")), TypeActs("next"), TypeActs(NEWEST), ClosePane(1), SendRequest("shut 1"), BeginPaste(),
           AddPaste("x"), EndPaste(),
           effects.PasteBuffer(1), *(Perform(wish) for wish in ("detach", "suspend", "repaint", "help", "zoom", "go 3", "window new",
                                                                "copy")),
           TellUnbound(Key("x", "x")), ShowStatus("x", None), ClearStatus(), ShowPrompt("x"), HidePrompt(), EnterLine("window", "3"),
           ScrollHelp(1, 0), CloseHelp(), DrawList(), CloseList(), CopyKey(Key("x", "x")), CopyText("x"), OfferPaste(Key("paste", "")),
           HoldKey(Key("x", "x"))]

    def test_notice(self):
        """Nothing is typed or changed."""
        self.assertEqual(modes.under_notice(self.ALL),
                         [TypeActs(NEWEST), BeginPaste(), AddPaste("x"), EndPaste(),
                          *(Perform(wish) for wish in ("detach", "suspend", "repaint", "help", "go 3")),
                          ClearStatus(), ShowPrompt("x"), HidePrompt(), EnterLine("window", "3"), ScrollHelp(1, 0), CloseHelp(),
                          CopyText("x"), HoldKey(Key("x", "x"))])

    def test_paused(self):
        """Without a connection a paste continues, a question ends, and another window may be visited."""
        self.assertEqual(modes.while_paused(self.ALL), [BeginPaste(), AddPaste("x"), EndPaste(), Perform("go 3"), ClearStatus(),
                                                        HidePrompt(), HoldKey(Key("x", "x"))])

    def test_leaves(self):
        """C-c, q and the command detach; a paste or waiting input doesn't."""
        for name, asked, leaves in (("q", [], True), ("\x03", [], True), ("x", [], False), ("x", [Perform("detach")], True),
                                    ("q", [AddPaste("q")], False),
                                    ("q", [EndPaste()], False), ("q", [HoldKey(Key("q", "q"))], False), ("x", [Perform("zoom")], False)):
            self.assertIs(modes.leaves_paused(Key(name, name), asked), leaves, (name, asked))


class Values(unittest.TestCase):
    """Effects as values."""

    def test_equal(self):
        """An effect is equal to one of its own class with the same fields."""
        for one, other, is_equal in ((PopMode(), PopMode(), True), (PopMode(), CloseList(), False), (Perform("x"), Perform("x"), True),
                                     (Perform("x"), Perform("y"), False), (AddPaste("x"), CopyText("x"), False), (PopMode(), None, False)):
            self.assertIs(one == other, is_equal, (one, other))
        self.assertEqual(repr(EnterLine("window", "3")), "EnterLine(purpose='window', text='3')")

    def test_all_done(self):
        """The interpreter carries out each effect that a stack returns."""
        from roam_live.frontend.interpreter import Interpreter
        known = {effect for effect in vars(effects).values() if isinstance(effect, type) and issubclass(effect, effects.Effect)
                 and not effect.__subclasses__()}
        inside = {PopMode, PassKey, SendLiteral}
        self.assertEqual(set(Interpreter(ModeStack(Keymap()), None, None, None, None).does), known - inside)
