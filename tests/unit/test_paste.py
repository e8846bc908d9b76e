"""Pastes: as acts if short, else stored at the pty host, with a placeholder typed in their place."""
import unittest
from unittest import mock

from aids import Case, LinkedClient, StillLoop
from roam_live.common.retry import PAUSES
from roam_live.frontend import paste
from roam_live.frontend.effects import ClosePane
from roam_live.frontend.paste import (BEHIND_IT, COUNTS, DROPPED, DROPS, ENDS, FULL_BEHIND, HANDING, LOST_WORDS, MOST_BEHIND, NOT_TAKEN,
                                      NO_ROOM, SHORT, TOO_LONG, PasteIntake, Pastes, weight)
from roam_live.input.keys import BRACKETS
from roam_live.protocol.host_link import LATER, LAUNCHES, MOST_UNSENT, NO_HOST, STORES_AGAIN
from roam_live.protocol.paste_text import FULL, placeholder_acts
from test_display import ClientLink, Person, PlayedPanes, places
from test_socket_server import Sockets

LONG = "x" * (SHORT + 1)


class Line(ClientLink):
    """Records the typed lines."""

    def type(self, *acts, is_pasted=False):
        """Record acts, with the flag for pasted ones."""
        self.lines.append(("paste ; " if is_pasted else "") + " ; ".join(acts))


class PlayedHost:
    """Records requests to the host, whose answers are sent by hand."""

    def __init__(self):
        self.takes, self.stored, self.cancelled, self.answers, self.room = True, {}, [], None, None

    def takes_texts(self):
        """Return True if it accepts texts."""
        return self.takes

    def store(self, name, data):
        """Record a stored text."""
        self.stored[name] = data

    def has_room(self, length):
        """Return True if so many more bytes may wait."""
        return self.room is None or length <= self.room

    def cancel(self, name):
        """Record a cancelled text."""
        self.cancelled.append(name)


class Handed(Case):
    """Pastes with a simulated host."""

    def setUp(self):
        self.loop, self.link, self.host, self.said = StillLoop(lambda: self.now), Line(), PlayedHost(), []
        self.panes = PlayedPanes(mock.Mock(told=None))
        self.why = ""
        self.pastes = Pastes(self.link, self.host, self.loop, self.said.append, lambda: False)
        self.intake = PasteIntake(self.pastes, self.panes, lambda: self.why)
        self.names = iter(f"{number:016x}" for number in range(1, 1000))
        self.patch_of(paste, "random_name", side_effect=lambda: next(self.names))

    def paste(self, text, why=""):
        """Paste a text."""
        self.intake.begin(why)
        self.intake.add(text[:3])
        self.intake.add(text[3:])
        self.intake.end()

    def tell(self, number, word, more=""):
        """Report about a text."""
        self.host.answers(f"{number:016x}", word, more)

    def placeholder(self, number):
        """Return the line that types a placeholder."""
        return " ; ".join(["paste", *placeholder_acts(f"{number:016x}")])

    def spread_line(self, number, pane):
        """Return the line that types a placeholder in another pane than the third."""
        return " ; ".join(["paste", f"focus {pane}", *placeholder_acts(f"{number:016x}"), "focus 3"])

    def test_spread(self):
        """A paste in several panes is stored for each, with a placeholder of its own; C-c drops the waiting ones."""
        self.intake.spreads = lambda: [3, 1, 2]
        self.paste("ab")
        self.assertEqual(self.host.stored, {f"{number:016x}": b"ab" for number in (1, 2, 3)})
        self.tell(2, "stored")
        self.assertEqual(self.link.lines, [])
        self.tell(1, "stored")
        self.tell(3, "stored")
        self.assertEqual(self.link.lines, [self.placeholder(1), self.spread_line(2, 1), self.spread_line(3, 2)])
        self.paste("ab")
        self.pastes.type_lines([["char 61", "focus 3"], ["char 3", "focus 3"]])
        self.assertEqual(self.link.lines[3:], ["focus 3", "char 3 ; focus 3"])
        self.assertEqual(self.said, [DROPPED])

    def test_unspread(self):
        """If the pty host accepts no texts, or not so many, only the focused pane gets it, with a message."""
        self.intake.spreads = lambda: [3, 1]
        for takes, room, why in ((False, None, paste.NO_TEXTS), (True, 3, NO_ROOM)):
            self.host.takes, self.host.room = takes, room
            self.paste("ab")
            self.assertEqual((self.link.lines.pop(), self.said.pop()), ("paste ; char 61 ; char 62", paste.ALONE.format(why)))
        self.host.takes, self.host.room = True, None
        self.paste("ab")
        self.tell(2, NO_HOST)
        self.tell(1, NO_HOST)
        self.assertEqual((self.link.lines, self.said), (["paste ; char 61 ; char 62"], [paste.ALONE.format(paste.NO_TEXTS)]))

    def test_short(self):
        """Up to 40 characters are typed as acts, bracketed if the program wants that; a longer paste is stored."""
        self.paste("a\r\nb\x1b\tc")
        self.panes.brackets = True
        self.paste("ab")
        self.assertEqual(self.link.lines, ["paste ; char 61 ; key return ; char 62 ; char 9 ; char 63",
                                           "paste ; " + " ; ".join([*BRACKETS[0], "char 61", "char 62", *BRACKETS[1]])])
        self.paste("y" * SHORT)
        self.paste("\u00e9\r\n\x1b\x7f" + "z" * SHORT)
        self.assertEqual((len(self.link.lines), self.host.stored), (3, {f"{1:016x}": ("\u00e9\r" + "z" * SHORT).encode()}))
        self.assertEqual((SHORT, HANDING, ENDS), (40, 60.0, 5.0))

    def test_modes_unknown(self):
        """If bracketed paste is unknown here, as for a remote session, a short one is stored too."""
        self.panes.knows = False
        self.paste("ab")
        self.assertEqual((self.link.lines, list(self.host.stored.values())), ([], [b"ab"]))
        self.host.takes = False
        self.paste("cd")
        self.assertEqual(self.link.lines, [])
        self.tell(1, NO_HOST)
        self.assertEqual(self.link.lines, ["paste ; char 61 ; char 62", "paste ; char 63 ; char 64"])

    def test_held(self):
        """The placeholder is typed once the text is stored, and later input after that; other pastes in order."""
        self.paste(LONG)
        self.pastes.type("char 61")
        self.paste(LONG)
        self.pastes.type("char 62", "key up")
        self.assertTrue(self.pastes.hands_over())
        self.tell(2, "stored")
        self.assertEqual(self.link.lines, [])
        self.tell(1, "stored")
        self.assertEqual(self.link.lines, [self.placeholder(1), "char 61", self.placeholder(2), "char 62 ; key up"])
        self.pastes.type("char 63")
        self.assertEqual((self.link.lines[-1], self.pastes.hands_over(), self.loop.due), ("char 63", False, {}))
        self.tell(1, "inserted")
        self.assertEqual(self.said, [])
        self.tell(2, "lost")
        self.assertEqual(self.said, [LOST_WORDS])

    def test_together(self):
        """Acts typed together stay together, also after a waiting paste."""
        self.pastes.type_together("focus 2", "char 61")
        self.paste(LONG)
        self.pastes.type("char 62")
        self.pastes.type_together("focus 1", "char 63")
        self.assertEqual(self.link.lines, ["focus 2 ; char 61"])
        self.tell(1, "stored")
        self.assertEqual(self.link.lines[1:], [self.placeholder(1), "char 62", "focus 1 ; char 63"])

    def test_lost_before_stored(self):
        """A text lost before it is stored is reported, and nothing of it is typed."""
        self.paste(LONG)
        self.pastes.type("char 61")
        self.tell(1, "lost")
        self.assertEqual((self.link.lines, self.said, self.loop.due), ([], [BEHIND_IT.format(LOST_WORDS)], {}))
        self.tell(2, "lost")
        self.assertEqual(len(self.said), 1)

    def test_refused(self):
        """A refusal is reported with its reason, and later input is dropped, since it may mean something else alone: keys, and pastes, up
        to the act that moves the focus. Other acts stay.
        """
        self.paste(LONG)
        self.pastes.type("char 61")
        self.pastes.type_together("size 24 80")
        self.pastes.type_together("focus 1", "char 61", "focus 2", "char 61", "focus 1")
        self.paste("short")
        self.paste(LONG)
        self.pastes.type("view 3", "key return", "next", "char 62")
        self.pastes.type("char 63")
        self.paste(LONG)
        self.tell(1, "refused", "it is lost")
        self.assertEqual(self.link.lines, ["size 24 80", "focus 1 ; focus 2 ; focus 1", "view 3 ; next ; char 62", "char 63"])
        self.assertEqual((self.said, self.host.cancelled), ([BEHIND_IT.format("not pasted: it is lost")],
                                                            [f"{1:016x}", f"{2:016x}"]))
        self.tell(3, "stored")
        self.assertEqual(self.link.lines[4:], [self.placeholder(3)])
        # The focus has moved meanwhile.
        self.pastes.type("char 64")
        self.assertEqual((self.link.lines[5:], self.pastes.behind), (["char 64"], 0))

    def test_refused_just_now(self):
        """So are keys for a second after that report; not C-c and its successors, a paste, or an act that moves the focus."""
        why = "not pasted: it is lost"
        for acts, typed in ((["char 3"], ["char 3"]), (["next"], ["next"]), (["focus 1", "char 66"], ["focus 1 ; char 66"]),
                            (["view 3", "char 66"], ["view 3"])):
            self.paste(LONG)
            self.tell(len(self.host.stored), "refused", "it is lost")
            self.now += DROPS - 0.01
            self.pastes.type("char 61")
            self.pastes.type_lines([["char 61", "focus 2", "char 61", "focus 1"]])
            self.assertEqual((self.link.lines, self.said), ([], [why, BEHIND_IT.format(why)]))
            self.pastes.type(*acts)
            self.pastes.type("char 67")
            self.assertEqual(self.link.lines, typed + ["char 67"] * (acts[0] != "view 3"))
            self.now += 0.01
            self.pastes.type("char 68")
            self.assertEqual(self.link.lines.pop(), "char 68")
            self.link.lines.clear(), self.said.clear()

    def test_outage(self):
        """The time of an outage doesn't count, nor that of a stop of this process."""
        self.paste(LONG)
        self.pastes.type("char 61")
        for is_cut, seconds in ((False, 50), (True, 3600), (False, 9)):
            self.pastes.is_cut = lambda is_cut=is_cut: is_cut
            self.wait(seconds)
        self.now += 3600
        self.loop.do_due()
        self.assertEqual((self.link.lines, self.said), ([], [BEHIND_IT.format(NOT_TAKEN)]))

    def wait(self, seconds):
        """Let seconds pass, one by one."""
        for _ in range(seconds):
            self.now += 1
            self.loop.do_due()

    def test_later(self):
        """A paste without room yet waits, with later input: that is reported, and after 60 seconds the failure is too."""
        for is_stored in (True, False):
            self.link.lines.clear()
            self.said.clear()
            self.paste(LONG)
            number = len(self.host.stored)
            self.pastes.type("char 61")
            self.wait(30)
            self.tell(number, LATER, "64 texts wait to be pasted")
            self.assertEqual((self.link.lines, self.said), ([], ["the paste waits: 64 texts wait to be pasted"]))
            if is_stored:
                self.tell(number, "stored")
                self.assertEqual(self.link.lines, [self.placeholder(number), "char 61"])
                continue
            self.wait(30)
            self.assertEqual((self.link.lines, self.said[1:]), ([], [BEHIND_IT.format("not pasted: 64 texts wait to be pasted")]))

    def test_not_taken(self):
        """A host that accepts nothing for 60 seconds is reported, and later input is dropped."""
        self.paste(LONG)
        self.pastes.type("char 61")
        self.wait(59)
        self.assertEqual((self.link.lines, self.said), ([], []))
        self.wait(1)
        self.assertEqual((self.link.lines, self.said, self.host.cancelled), ([], [BEHIND_IT.format(NOT_TAKEN)], [f"{1:016x}"]))
        self.tell(1, "stored")
        self.assertEqual((self.link.lines, self.loop.due, HANDING), ([], {}, 60.0))

    def test_interrupted(self):
        """A C-c typed after waiting pastes drops them and all keys between and after them, and is typed itself; a pasted one drops nothing.
        Acts on the focus or the size are done.
        """
        self.paste(LONG)
        self.pastes.type("char 61")
        self.pastes.type("next", "char 61")
        self.paste("char 3")
        self.paste(LONG)
        self.pastes.type_together("char 62")
        self.pastes.type_together("size 24 80")
        self.pastes.type("char 63", "char 3")
        self.assertEqual((self.link.lines, self.said), (["next", "size 24 80", "char 63 ; char 3"], [DROPPED]))
        self.pastes.type("char 3")
        self.assertEqual(self.link.lines[3:], ["char 3"])
        self.assertEqual((self.loop.due, self.host.cancelled), ({}, [f"{1:016x}", f"{2:016x}"]))

    def test_interrupted_sent(self):
        """The same applies to the part of pastes that the client hasn't read, and a text with a dropped placeholder is no longer awaited.
        """
        self.link.drop_pasted = mock.Mock(return_value=["paste ; char 61", self.spread_line(7, 2), self.placeholder(8), "char 62"])
        self.pastes.type("char 61")
        self.assertEqual((self.link.drop_pasted.call_count, self.said), (0, []))
        self.pastes.type("char 3")
        self.assertEqual((self.host.cancelled, self.said, self.link.lines[1:]), ([f"{7:016x}", f"{8:016x}"], [DROPPED], ["char 3"]))

    def test_interrupted_stored(self):
        """The same holds if the host has stored a later paste that only waits for the first: nothing of it is typed."""
        self.paste(LONG)
        self.paste(LONG)
        self.pastes.type("char 61")
        self.paste(LONG)
        self.tell(1, LATER, "16 MB wait to be pasted")
        self.tell(2, "stored")
        self.pastes.type("char 3")
        self.assertEqual((self.link.lines, self.said[1:], self.loop.due), (["char 3"], [DROPPED], {}))
        self.assertEqual((self.host.cancelled, self.pastes.hands_over()), ([f"{number:016x}" for number in (1, 2, 3)], False))
        self.tell(3, "stored")
        self.paste(LONG)
        self.tell(4, "stored")
        self.assertEqual(self.link.lines[1:], [self.placeholder(4)])

    def test_no_host(self):
        """If no host accepts texts a long one is typed as acts too."""
        self.panes.brackets, self.host.takes = True, False
        self.paste(LONG)
        acts = [*BRACKETS[0], *["char 78"] * len(LONG), *BRACKETS[1]]
        self.assertEqual(self.link.lines, ["paste ; " + " ; ".join(acts)])

    def test_dropped(self):
        """A paste with a reason against it, at its beginning or end, isn't typed; it takes no memory meanwhile."""
        self.intake.begin("not here")
        self.intake.add(LONG)
        self.assertEqual(self.intake.chunks, [])
        self.intake.end()
        for before, behind in (("not now", ""), ("", "not then")):
            self.why = before
            self.intake.begin()
            self.intake.add(LONG)
            self.why = behind
            self.intake.end()
        self.assertEqual((self.said, self.link.lines, self.host.stored), (["not here", "not now", "not then"], [], {}))

    def test_unended(self):
        """A paste without further input for five seconds is typed; later input is a paste of its own."""
        self.intake.begin()
        self.intake.add("ab")
        self.now += ENDS
        self.loop.do_due()
        self.intake.add("c")
        self.intake.end()
        self.intake.end()
        self.assertEqual(self.link.lines, ["paste ; char 61 ; char 62", "paste ; char 63"])

    def test_too_long(self):
        """More than 16 MB is reported, and not stored; so is a text that long in UTF-8, or with the waiting ones."""
        self.assertEqual((paste.MOST_BYTES, MOST_UNSENT), (1 << 24, 1 << 25))
        self.patch_of(paste, "MOST_BYTES", 1000)
        for text, before in (("x" * 1001, 0), ("\u4e2d" * 500, 0), ("x" * 990, 1)):
            if before:
                self.paste(LONG)
            self.intake.begin()
            self.intake.add(text)
            self.intake.end()
        self.assertEqual((self.said, len(self.host.stored), self.intake.size), ([TOO_LONG] * 3, 1, 0))
        self.host.room = len(LONG)
        self.paste(LONG)
        self.paste(LONG + "x")
        self.assertEqual((self.said[3:], len(self.host.stored)), ([TOO_LONG], 2))

    def test_full(self):
        """So many keys wait after a paste before others are dropped, which is reported: not C-c, which drops all, nor other acts."""
        self.paste(LONG)
        self.pastes.type(*["char 61"] * (MOST_BEHIND - 1))
        self.assertFalse(self.pastes.is_full())
        self.pastes.type("char 61")
        self.assertTrue(self.pastes.is_full())
        self.pastes.type("next")
        self.pastes.type("view 3", "char 62")
        self.pastes.type("focus 1", "char 62")
        self.pastes.type_lines([["char 62", "focus 2", "char 62", "focus 1"]])
        self.assertEqual((set(self.said), weight(self.pastes.waiting)), ({FULL_BEHIND}, MOST_BEHIND + 4))
        self.tell(1, "stored")
        self.assertFalse(self.pastes.is_full())
        self.assertEqual((self.link.lines[3:], self.pastes.behind), (["next", "view 3", "focus 1"], 0))
        self.paste(LONG)
        self.pastes.type(*["char 61"] * MOST_BEHIND)
        self.pastes.type("char 3")
        self.assertEqual((self.link.lines[6:], self.pastes.behind), (["char 3"], 0))


class Given(Sockets):
    """Texts that a front end's connection stores at the host."""

    def setUp(self):
        super().setUp()
        self.told = []
        self.made_link = LinkedClient(self.folder, StillLoop(lambda: self.now), lambda: (24, 80), False, lambda: None)
        self.made_link.answers = lambda *words: self.told.append(words)
        self.addCleanup(self.made_link.leave)
        self.names = [f"{number:016x}" for number in range(5)]

    def turn(self, count=16):
        """Take turns of both."""
        for _ in range(count):
            self.made_link.loop.turn()
            self.loop.turn()

    def test_given(self):
        """A text is stored and inserted; reports of unknown texts do nothing."""
        link = self.made_link
        self.assertTrue(link.takes_texts())
        link.store(self.names[0], b"text" * 50000)
        self.turn()
        self.assertEqual((self.told, link.unstored), ([(self.names[0], "stored", "")], {}))
        self.socket.uploads.texts.placed(self.names[0])
        self.turn()
        self.assertEqual((self.told[1:], link.stored), ([(self.names[0], "inserted", "")], {}))
        for line in (f"stored {self.names[3]}", f"lost {self.names[0]}", f"inserted {self.names[0]}"):
            self.assertTrue(link.link.take(line))
        self.assertEqual(len(self.told), 2)

    def test_refused(self):
        """A refusal is reported with the words of the host."""
        self.turn()
        with mock.patch.object(self.socket.uploads.texts, "refusal", return_value="none is taken"):
            self.made_link.store(self.names[0], b"text")
            self.turn()
        self.assertEqual((self.told, self.made_link.unstored), ([(self.names[0], "refused", "none is taken")], {}))

    def test_no_room(self):
        """Texts without room at the host are sent again, one by one, until there is room."""
        link, names = self.made_link, self.names
        self.turn()
        for refusal in FULL:
            self.told.clear()
            with mock.patch.object(self.socket.uploads.texts, "refusal", side_effect=["", refusal, refusal]):
                for name in names[:3]:
                    link.store(name, b"text")
                self.turn()
                link.store(names[3], b"text")
                self.turn()
            self.assertEqual(self.told, [(names[0], "stored", ""), *((name, LATER, refusal) for name in names[1:3])])
            self.assertEqual(list(link.unstored), names[1:4])
            self.now += STORES_AGAIN
            with mock.patch.object(self.socket.uploads.texts, "refusal", side_effect=["", refusal]) as asked:
                self.turn()
            self.assertEqual((self.told[3:], asked.call_count), ([(names[1], "stored", ""), (names[2], LATER, refusal)], 2))
            self.now += STORES_AGAIN
            self.turn()
            self.assertEqual((self.told[5:], link.unstored), ([(name, "stored", "") for name in names[2:4]], {}))
            link.store(names[4], b"text")
            self.turn()
            self.assertEqual((self.told[7:], self.socket.uploads.coming(False)), ([(names[4], "stored", "")], 0))
            for name in names:
                self.socket.uploads.texts.drop(self.socket.uploads.texts.placed(name))
            names = self.names = [f"{number:016x}" for number in range(5, 10)]
            self.turn()

    def test_no_room_at_the_next(self):
        """A host that is back gets all waiting texts at once; cancelled texts delay none."""
        link, names = self.made_link, self.names
        self.turn()
        with mock.patch.object(self.socket.uploads.texts, "refusal", return_value=FULL[0]):
            for name in names[:3]:
                link.store(name, b"text")
            self.turn()
        self.assertEqual((list(link.unstored), link.is_full), (names[:3], True))
        link.cancel(names[0])
        self.socket.drop(self.socket.peers[0])
        self.turn(2)
        self.now += PAUSES[0]
        self.turn()
        self.assertEqual(([word for _, word, _ in self.told[3:]], link.is_full), (["stored", "stored"], False))
        with mock.patch.object(self.socket.uploads.texts, "refusal", return_value=FULL[0]):
            link.store(names[3], b"text")
            link.store(names[4], b"text")
            link.cancel(names[3])
            self.turn()
        self.assertEqual(self.told[5:], [(names[4], LATER, FULL[0])])
        self.now += STORES_AGAIN
        self.turn()
        self.assertEqual((self.told[6:], link.is_full), ([(names[4], "stored", "")], False))

    def test_lost(self):
        """After a lost connection a text is sent again until it is stored; for a stored one its status is requested."""
        link = self.made_link
        self.turn()
        link.store(self.names[0], b"one")
        self.turn()
        link.store(self.names[1], b"two" * 100000)
        link.loop.turn()
        self.socket.drop(self.socket.peers[0])
        self.turn(2)
        self.assertEqual((list(link.unstored), list(link.stored), self.socket.uploads.coming(False)), ([self.names[1]], [self.names[0]], 0))
        self.socket.uploads.texts.placed(self.names[0])
        self.now += PAUSES[0]
        self.turn()
        self.assertEqual(self.told, [(self.names[0], "stored", ""), (self.names[1], "stored", ""), (self.names[0], "inserted", "")])
        self.assertEqual(self.socket.uploads.texts.texts[self.names[1]].data, b"two" * 100000)

    def test_another_host(self):
        """Texts that an earlier host had are lost to another host, which doesn't get them."""
        self.turn()
        self.made_link.store(self.names[0], b"one")
        self.turn()
        self.made_link.store(self.names[1], b"two")
        self.socket.close()
        self.turn(2)
        self.serve(name="another")
        self.now += PAUSES[0]
        self.turn()
        self.assertEqual(self.told, [(self.names[0], "stored", ""), *((name, "lost", "") for name in self.names[:2])])
        self.assertEqual((self.socket.uploads.texts.texts, self.made_link.unstored, self.made_link.stored), ({}, {}, {}))
        self.made_link.store(self.names[2], b"three")
        self.turn()
        self.assertEqual(self.told[3:], [(self.names[2], "stored", "")])

    def test_none(self):
        """A socket that ends the connection before any report accepts no text, which is reported at once."""
        folder = self.made_folder()
        listener = self.listening(folder / "host")
        link = LinkedClient(folder, StillLoop(lambda: self.now), lambda: (24, 80), False, lambda: None)
        link.answers = lambda *words: self.told.append(words)
        self.now += LAUNCHES
        link.come()
        self.assertTrue(link.takes_texts())
        link.store(self.names[0], b"one")
        self.taken(listener).close()
        link.loop.turn()
        link.loop.turn()
        self.assertEqual((self.told, link.takes_texts(), link.unstored), ([(self.names[0], NO_HOST, "")], False, {}))

    def test_expected(self):
        """In the first seconds a text waits while a relay ends each connection, and is stored by the host that the relay reaches then.

        If it reaches none in that time, the text is reported.
        """
        for is_reached in (True, False):
            folder = self.made_folder()
            listener = self.listening(folder / "host")
            link = LinkedClient(folder, StillLoop(lambda: self.now), lambda: (24, 80), False, lambda: None)
            self.addCleanup(link.leave)
            link.answers = lambda *words, told=self.told: told.append(words)
            for _ in range(3):
                self.taken(listener).close()
                link.loop.turn()
                self.assertTrue(link.takes_texts())
                link.store(self.names[0], b"one")
                self.now += PAUSES[0]
                link.loop.turn()
            self.assertEqual((self.told, link.unstored), ([], {self.names[0]: b"one"}))
            if is_reached:
                link.link.take("host far")
                self.assertIn(f"paste {self.names[0]} 3\none".encode(), link.waiting)
                continue
            self.now += LAUNCHES
            self.taken(listener).close()
            link.loop.turn()
            self.assertEqual((self.told, link.takes_texts(), link.unstored), ([(self.names[0], NO_HOST, "")], False, {}))

    def test_cancelled(self):
        """A cancelled text isn't sent again, nor at all if nothing of it was sent; a half-sent one continues."""
        link, names = self.made_link, self.names
        self.turn()
        for name, data in zip(names, (b"one", b"two", 7)):
            link.store(name, data)
        for name in (names[0], names[0], names[2]):
            link.cancel(name)
        self.assertEqual((link.waiting, link.asked), (f"paste {names[1]} 3\ntwo".encode(), {names[1]}))
        room = MOST_UNSENT - len(link.waiting)
        self.assertEqual([link.has_room(length) for length in (room + 1, room)], [False, True])
        self.turn()
        link.store(names[3], b"x" * 900000)
        link.loop.turn()
        link.cancel(names[3])
        self.turn(60)
        self.assertEqual((self.told, list(self.socket.uploads.texts.texts)), ([(names[1], "stored", "")], [names[1], names[3]]))


class Persons(unittest.TestCase):
    """Pastes of a user at a terminal in other modes."""

    def person(self, **more):
        """Return a user who sees a session."""
        person = Person(24, 80, told=places(24, 80), **more)
        person.answers()
        return person

    def test_read_only(self):
        """At a read-only terminal nothing is pasted, with a message."""
        person = self.person(is_read_only=True)
        acts = person.types(b"\x1b[200~ab\x1b[201~")
        self.assertEqual((acts, person.display.row.told), ([], "not pasted: this terminal is read-only"))

    def test_asked(self):
        """At a question a paste declines, and nothing of it is typed, nor counts as an answer."""
        person = self.person()
        person.commands.acts.ask("close it? y closes it", ClosePane(0))
        self.assertEqual(person.types(b"\x1b[200~y"), [])
        self.assertEqual((person.types(b"y\x1b[201~z"), person.display.row.told), (["char 7a"], "not pasted: a question was open"))

    def test_scrolls(self):
        """It ends the scroll mode."""
        person = self.person()
        person.types(b"\x02[kk")
        self.assertEqual(person.types(b"\x1b[200~ab"), ["view -500"])
        self.assertEqual((person.types(b"\x1b[201~"), person.display.row.told), (["char 61", "char 62"], ""))

    def test_paused(self):
        """Without a client nothing is pasted, which is reported; keys in the paste neither leave nor count."""
        person = self.person()
        person.commands.acts.paused = True
        self.assertEqual(person.types(b"\x1b[200~q\x03\x1b[201~"), [])
        self.assertEqual((person.left, person.display.row.told), (None, "not pasted: the session is not shown"))


if __name__ == "__main__":
    unittest.main()
