"""The state of a session as values: written as JSON and read back, and refused if malformed."""
import copy
import json
import os
import random
import unittest
from unittest import mock

from aids import Asker
from roam_live.common import record
from roam_live.common.record import Malformed, StateRecord, field, flag, number_from, plain, read_back, text_of, written
from roam_live.host import state
from roam_live.host.state import NotedZoom, PaneState, PasteBuffers, PendingPaste, SessionState, WindowState, state_in
from roam_live.protocol.paste_text import BUFFER_EMPTY, BUFFER_TOO_LONG, BUFFERS_TOO_MANY, CLOSES, MOST_BUFFER, MOST_COMING, OPENS
from roam_live.protocol.zoom_record import ZoomNote
from test_pty_host import Host

NAME, OTHER = "0123456789abcdef", "fedcba9876543210"


def full_state():
    """Return a state in which each field differs from its initial value."""
    buffers, paste = PasteBuffers(), PendingPaste.of(NAME, b"a\r\xff\x00b", False)
    buffers.add(b"one")
    buffers.add(bytes(range(256)))
    paste.is_placed = True
    paste.begin(True)
    panes = {1: PaneState(id=7, number=1, generation=4, size=(23, 80), folder="/tmp/\udcff", command=["sh", "-c", "a\nb"], process=71),
             3: PaneState(id=7, number=3, generation=2**63, size=(1, 2), process=72, has_ended=True, program="vi",
                          pipe="cat >> log")}
    zoom = NotedZoom(note=ZoomNote((24, 80), ((48, 160), (50, 170))))
    window = WindowState(number=7, name="l\u00f6gs \u4e2d", panes=panes, focus=3, history=[3, 1], program="vi", zoom=zoom,
                         processes={"server": (70, 5000), "client": (71, None)}, request=NAME, begins=b"a\0b")
    return SessionState(windows={7: window, 2: WindowState(number=2)}, last_window=7, colours={"foreground": "ffff/0000/1234"},
                        environment={"DISPLAY": ":0", "SSH_CONNECTION": ""}, buffers=buffers,
                        pastes={NAME: paste, OTHER: PendingPaste.of(OTHER, b"x", True)},
                        spent_pastes={"1" * 16: "lost", "2" * 16: "inserted"}, replaced=3, upgrades=2,
                        has_run_settings=True)


def places_in(value, path=()):
    """Return the paths of all values in JSON, except the whole."""
    items = value.items() if isinstance(value, dict) else enumerate(value) if isinstance(value, list) else ()
    for key, item in items:
        yield (*path, key)
        yield from places_in(item, (*path, key))


def put(value, path, new):
    """Return a copy with another value at a path."""
    made = copy.deepcopy(value)
    parent = made
    for key in path[:-1]:
        parent = parent[key]
    parent[path[-1]] = new
    return made


class Written(unittest.TestCase):
    """States that are written and read back."""

    def test_round(self):
        """All of it is restored, in order, and with the same types."""
        for made in (SessionState(), full_state()):
            text = written(made)
            found = state_in(text)
            self.assertEqual((found, written(found)), (made, text))
            self.assertTrue(text.isascii())
        self.assertEqual(list(found.windows), [7, 2])
        pane, window = found.windows[7].panes[1], found.windows[7]
        self.assertEqual((pane.size, pane.folder, pane.command, pane.process), ((23, 80), "/tmp/\udcff", ["sh", "-c", "a\nb"], 71))
        self.assertEqual((window.zoom.note, window.processes["client"]), (ZoomNote((24, 80), ((48, 160), (50, 170))), (71, None)))
        self.assertEqual(window.zoom.line(), "zoomed 0 24 80 48 160 50 170")
        self.assertEqual((found.buffers.add(b"c"), list(found.buffers.texts)), (3, [1, 2, 3]))
        self.assertEqual(found.pastes[NAME].data, OPENS + b"a\r\xff\x00b" + CLOSES)

    def test_paste_goes_on(self):
        """A restored paste stops like the original one: begun brackets are closed."""
        for typed in (0, 3, len(OPENS), len(OPENS) + 1):
            for made in (full_state(), state_in(written(full_state()))):
                paste = made.pastes[NAME]
                del paste.data[:typed]
                paste.typed = typed
                paste = state_in(written(made)).pastes[NAME]
                paste.stop()
                self.assertEqual(paste.data, OPENS[typed:] + CLOSES, typed)
                self.assertTrue(state_in(written(SessionState(pastes={NAME: paste}))).pastes[NAME].is_over)

    def test_bounds(self):
        """Values at their limits are read back: each row puts one value at its bound."""
        value = plain(full_state())
        pane, paste, window = ("windows", "7", "panes", "1"), ("pastes", OTHER), ("windows", "7")
        lost = {f"{number:016x}": "lost" for number in range(1024)}
        pastes = {f"{number:016x}": {**value["pastes"][OTHER], "name": f"{number:016x}"} for number in range(64)}
        for path, new in ((("last_window",), 0), (("last_window",), 99), ((*window, "name"), "x" * 64), ((*window, "focus"), 9),
                          ((*window, "history"), [9, 8, 7, 6, 5, 4, 3, 2, 1]), ((*window, "processes"), {"server": [1 << 31, 1 << 63]}),
                          ((*window, "processes"), {"client": [1, 0]}), ((*window, "zoom", "note"), [[200, 500], [[1, 1]] * 8]),
                          ((*pane, "generation"), 10**19), ((*pane, "size"), [0, 9999]), ((*pane, "folder"), "x" * 4096),
                          ((*pane, "command"), ["", "x" * (1 << 17)]), ((*pane, "command"), [""] * 65536),
                          ((*pane, "process"), 1 << 31), ((*pane, "program"), "x" * 64), (("environment", "DISPLAY"), "~" * 112),
                          (("environment",), {}), (("colours", "background"), "0000/0000/0000"), (("buffers", "last"), 1 << 53),
                          (("buffers", "texts"), {"1": "A" * 1398100 + "AA=="}), (("spent_pastes",), lost), (("pastes",), pastes),
                          (("buffers", "texts"), {str(number): "" for number in range(1, 3)}), ((*paste, "length"), (1 << 24) - 5),
                          ((*paste, "typed"), (1 << 24) + 12), (("windows",), {str(one): {**value["windows"]["2"], "number": one}
                                                                               for one in range(1, 100)})):
            text = json.dumps(put(value, path, new))
            self.assertEqual(written(state_in(text)), text, path)

    def test_fields(self):
        """Each field differs from its initial value in the tested state, so that none is omitted."""
        first = {SessionState: SessionState(), WindowState: WindowState(), PasteBuffers: PasteBuffers(), NotedZoom: NotedZoom(),
                 PaneState: PaneState(id=0, number=9, generation=9, size=(9, 9)), PendingPaste: PendingPaste(name="a" * 16, data=b"-", length=1)}
        whole = full_state()
        found = [whole, whole.windows[7], whole.buffers, whole.windows[7].zoom, *whole.windows[7].panes.values(), *whole.pastes.values()]
        for cls, one in first.items():
            same = [name for name in cls.fields if all(getattr(each, name) == getattr(one, name) for each in found if type(each) is cls)]
            self.assertEqual(same, {SessionState: ["version"], PendingPaste: ["typed", "is_over"]}.get(cls, []), cls)


class MalformedStates(unittest.TestCase):
    """Refusals, and their words."""

    def refused(self, text):
        """Return the reason that a text is no state."""
        with self.assertRaises(Malformed) as raised:
            state_in(text)
        return str(raised.exception)

    def test_texts(self):
        """Text that is no JSON, or another value, is refused by name."""
        for text in ("", "{", "nul", "[" * 100000, '"a', "{} {}", "\0", '{"version": ' + "9" * 5000 + "}"):
            self.assertEqual(self.refused(text), "SessionState: not JSON", text[:20])
        for text in ("null", "[]", "1", '"a"', "{}", "true", "NaN"):
            self.assertTrue(self.refused(text).startswith("SessionState: not the fields version, name, windows, last_window"), text)
        with mock.patch.object(state, "MOST_STATE", 100):
            self.assertEqual((self.refused(" " * 101), self.refused(" " * 100)),
                             ("SessionState: longer than 100 characters", "SessionState: not JSON"))

    def test_table(self):
        """Each row names a value, its replacement, and the reason of the refusal."""
        value = plain(full_state())
        pane, paste, window = ("windows", "7", "panes", "1"), ("pastes", NAME), ("windows", "7")
        for path, new, why in (
                (("version",), 2, "not one of 1"), (("version",), True, "not one of 1"), (("version",), 1.0, "not one of 1"),
                (("last_window",), 100, "not a number from 0 to 99"), (("last_window",), -1, "not a number from 0 to 99"),
                (("last_window",), True, "not a number from 0 to 99"), (("last_window",), "7", "not a number from 0 to 99"),
                (("last_window",), 7.0, "not a number from 0 to 99"), (("windows",), [], "not a mapping of at most 99"),
                (("windows", "07"), {}, "not a number from 0 to 99"), (("windows", "100"), {}, "not a number from 0 to 99"),
                (("windows", "x\x1b"), {}, "not a number from 0 to 99"), (("windows", "\u0667"), {}, "not a number from 0 to 99"),
                ((*window, "number"), 8, "a window has another number than its key"),
                ((*window, "name"), "a\nb", "not a valid text of at most 64 characters"),
                ((*window, "name"), "x" * 65, "not a valid text of at most 64 characters"),
                ((*window, "name"), 5, "not a valid text of at most 64 characters"), ((*window, "focus"), 10, "not a number from 0 to 9"),
                ((*window, "history"), [1, 1], "a pane is twice in the history"), ((*window, "history"), [0], "not a number from 1 to 9"),
                ((*window, "history"), [1] * 10, "not a list of 0 to 9"), ((*window, "history"), {}, "not a list of 0 to 9"),
                ((*window, "processes"), {"host": [1, 2]}, "not one of server, client"),
                ((*window, "processes", "server"), [0, 2], "not a number from 1 to 2147483648"),
                ((*window, "processes", "server"), [1, (1 << 63) + 1], "not a number from 0 to 9223372036854775808"),
                ((*window, "processes", "server"), [1], "not a list of 2"), ((*window, "processes", "server"), None, "not a list of 2"),
                ((*window, "zoom", "note"), [[24, 80], []], "not a list of 1 to 8"),
                ((*window, "zoom", "note"), [[24, 80], [[24, 80]] * 9], "not a list of 1 to 8"),
                ((*window, "zoom", "note"), [[0, 80], [[24, 80]]], "not a number from 1 to 200"),
                ((*pane, "number"), 2, "a pane has another number than its key"), ((*pane, "number"), 0, "not a number from 1 to 9"),
                ((*pane, "generation"), -1, "not a number from 0 to 10000000000000000000"),
                ((*pane, "size"), [24], "not a list of 2"), ((*pane, "size"), [24, 10000], "not a number from 0 to 9999"),
                ((*pane, "folder"), "a\0b", "not a valid text of at most 4096 characters"),
                ((*pane, "folder"), "x" * 4097, "not a valid text of at most 4096 characters"),
                ((*pane, "command"), ["a\0"], "not a valid text of at most 131072 characters"),
                ((*pane, "command"), "sh", "not a list of 0 to 65536"), ((*pane, "command"), ["a"] * 65537, "not a list of 0 to 65536"),
                ((*pane, "process"), 0, "not a number from 1 to 2147483648"), ((*pane, "has_ended"), 1, "not true or false"),
                ((*pane, "has_ended"), None, "not true or false"),
                ((*pane, "program"), "\x1b[m", "not a valid text of at most 64 characters"),
                (("environment", "PATH"), "a", "not one of DISPLAY"),
                (("environment", "DISPLAY"), "a\nb", "not a valid text of at most 112 characters"),
                (("environment", "DISPLAY"), "x" * 113, "not a valid text of at most 112 characters"),
                (("colours", "foreground"), "ffff/0000", "not a valid text of at most 14 characters"),
                (("colours", "cursor"), "ffff/0000/1234", "not one of foreground, background"),
                (("buffers", "last"), 1, "buffers are out of order"),
                (("buffers", "texts"), {"2": "", "1": ""}, "buffers are out of order"),
                (("buffers", "texts", "1"), "====", "not base64 of at most 1048576 bytes"),
                (("buffers", "texts", "1"), "YQ", "not base64 of at most 1048576 bytes"),
                (("buffers", "texts", "1"), "Y\u00e9==", "not base64 of at most 1048576 bytes"),
                (("buffers", "texts", "1"), "A" * 1398108, "not base64 of at most 1048576 bytes"),
                (("buffers", "texts", "1"), "A" * 1398104, "not base64 of at most 1048576 bytes"),
                (("buffers", "texts"), {str(number): "" for number in range(1, 22)}, "not a mapping of at most 20"),
                ((*paste, "name"), OTHER, "a paste has another name than its key"),
                ((*paste, "length"), 0, "not a number from 1 to 16777216"), ((*paste, "data"), 5, "not base64 of at most 16777228 bytes"),
                ((*paste, "length"), 1 << 24, "pastes are too long together"),
                (("pastes", "x"), {}, "not a valid text of at most 16 characters"),
                (("pastes",), {f"{number:016x}": {} for number in range(65)}, "not a mapping of at most 64"),
                (("spent_pastes", NAME), "stored", "not one of inserted, lost"),
                (("spent_pastes",), {f"{number:016x}": "lost" for number in range(1025)}, "not a mapping of at most 1024")):
            told = self.refused(json.dumps(put(value, path, new)))
            place, _, said = told.partition(": ")
            self.assertTrue(said.startswith(why), (path, new, told))
            self.assertTrue(f"{'.'.join(('SessionState', *path))}.".startswith(f"{place}.") or
                            f"{place}.".startswith(f"{'.'.join(('SessionState', *path))}."), (path, told))

    def test_missing(self):
        """Without a field that has an initial value, a record has that value. Without another one it is refused; a key of a path is cut."""
        value, needed = plain(full_state()), {"version", "id", "number", "generation", "size", "name", "data", "length"}
        for path in places_in(value):
            made = copy.deepcopy(value)
            parent = made
            for key in path[:-1]:
                parent = parent[key]
            if not isinstance(parent, dict) or path[-1] not in {name for cls in (SessionState, WindowState, PaneState, PasteBuffers,
                                                                                PendingPaste, NotedZoom) for name in cls.fields}:
                continue
            del parent[path[-1]]
            is_given = path == ("name",) or len(path) == 3 and path[0] == "windows" and path[-1] in ("number", "name")
            if path[-1] in needed and not is_given:
                self.assertIn(": not the fields ", self.refused(json.dumps(made)), path)
            elif path[-1] not in ("number", "last"):
                # Without these two the rest would be wrong.
                self.assertIsInstance(state_in(json.dumps(made)), SessionState, path)
        self.assertLess(len(self.refused(json.dumps(put(value, ("windows", "x" * 5000), {})))), 100)

    def test_unknown(self):
        """A field that another build added is left out."""
        value = plain(full_state())
        for path in (("other",), ("windows", "7", "other"), ("windows", "7", "panes", "1", "other"), ("buffers", "other")):
            self.assertEqual(written(state_in(json.dumps(put(value, path, {"a": 1})))), json.dumps(value), path)

    def test_chance(self):
        """Any replacement of a value is read as one that is written and read the same, or refused by name."""
        value, chance = plain(full_state()), random.Random(7)
        values = (None, True, -1, 0, 1, 9, 10**30, 1.5, "", "a", "\x1b[2J", "YQ==", [], [1], [1, 2], {}, {"1": 1}, "x" * 200000, NAME)
        places, refused = list(places_in(value)), 0
        for _ in range(800):
            made = value
            for path in chance.sample(places, chance.randint(1, 2)):
                try:
                    made = put(made, path, chance.choice(values))
                except (TypeError, KeyError, IndexError):
                    # The position before the replacement.
                    pass
            text = json.dumps(made)
            try:
                found = state_in(text)
                self.assertEqual(state_in(written(found)), found)
            except Malformed as fault:
                refused += 1
                self.assertTrue(str(fault).startswith("SessionState"), fault)
        self.assertGreater(refused, 400)


class Records(unittest.TestCase):
    """Records of any fields."""

    class Point(StateRecord):
        """A point with a name."""

        row: int = field(number_from(0, 9))
        is_set: bool = field(flag, bool)
        name: str = field(text_of(3), str)
        note = 5

    def test_made(self):
        """It has its fields, the named ones and the initial values of others; and no other fields."""
        point = self.Point(row=3)
        self.assertEqual((point.row, point.is_set, point.name, point.note), (3, False, "", 5))
        self.assertEqual(repr(point), "Point(row=3, is_set=False, name='')")
        self.assertEqual((point == self.Point(row=3), point == self.Point(row=4), point == 3), (True, False, False))
        for wrong, names in (({}, "row"), ({"row": 1, "col": 2}, "col"), ({"note": 1}, "note, row")):
            with self.assertRaisesRegex(TypeError, f"Point: missing or unknown fields: {names}"):
                self.Point(**wrong)

    def test_bounds(self):
        """Both ends of a range are included."""
        for row in (0, 9):
            self.assertEqual(read_back(self.Point, written(self.Point(row=row, name="abc")), 50), self.Point(row=row, name="abc"))
        for row in (-1, 10):
            with self.assertRaisesRegex(Malformed, "Point.row: not a number from 0 to 9"):
                read_back(self.Point, written(self.Point(row=row)), 50)
        with self.assertRaisesRegex(Malformed, "longer than 10 characters"):
            read_back(self.Point, " " * 11, 10)

    def test_keys(self):
        """A key is a number only in its canonical form."""
        for key, found in (("0", 0), ("12", 12), ("01", None), ("-1", None), ("", None), ("\u0661", None), ("9" * 19, int("9" * 19)),
                           ("1" + "0" * 19, None), ("a", None), ("1.0", None), ("+1", None)):
            self.assertEqual(record.decimal(lambda value, path: value)(key, ""), found, key)


class Buffers(unittest.TestCase):
    """The texts that can be buffers."""

    def test_refusal(self):
        """One has 1 byte to a megabyte, and at most four megabytes arrive at once."""
        for length, coming, why in ((0, 0, BUFFER_EMPTY), (1, 0, ""), (MOST_BUFFER, 0, ""), (MOST_BUFFER + 1, 0, BUFFER_TOO_LONG),
                                    (2, MOST_COMING - 2, ""), (2, MOST_COMING - 1, BUFFERS_TOO_MANY)):
            self.assertEqual(PasteBuffers.refusal(length, coming), why, (length, coming))


class Live(Host):
    """The state of a running host is such a value, and its only copy."""

    def test_live(self):
        """Events of panes, and input at the socket, are in the state; read back it is the same."""
        panes = self.begin()
        one = Asker(self, self.folder)
        one.send(b"here a:/dev/pts/1 24 80 read-write\nzoom 24 80 48 160\n")
        one.end.send(f"0 environment DISPLAY {b':7'.hex()}\n0 colour background 1111/2222/3333\n0 buffer add 3\nabc".encode()
                     + f"0 paste {NAME} 4\ntext0 paste {OTHER} 2\nxy".encode())
        self.turn(6)
        panes[1].send(f"\u009f{NAME}\u009c".encode())
        self.tell("focus 2")
        self.host.tell_front(2, 5, "vi")
        kept = self.host.common.state
        found = state_in(written(kept))
        self.assertEqual(found, kept)
        window = found.windows[0]
        self.assertEqual([(pane.generation, pane.size, pane.process, pane.program)
                          for pane in window.panes.values()], [(4, (23, 39), 71, ""), (5, (23, 40), 72, "vi")])
        self.assertEqual((window.focus, window.history, window.zoom.note), (2, [2, 1], ZoomNote((24, 80), ((48, 160),))))
        self.assertEqual(window.processes, {"server": (os.getpid(), window.processes["server"][1])})
        self.assertEqual((found.environment["DISPLAY"], found.colours, found.buffers.texts),
                         (":7", {"background": "1111/2222/3333"}, {1: b"abc"}))
        self.assertEqual((list(found.pastes), found.spent_pastes), ([OTHER], {NAME: "inserted"}))
        self.tell("1 gone", "focus 2")
        self.assertEqual((list(kept.windows[0].panes), kept.windows[0].history), ([2], [2]))


if __name__ == "__main__":
    unittest.main()
