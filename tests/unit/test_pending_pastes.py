"""Texts that are stored at the pty host, and inserted at their placeholders."""
import os
import random
import re
import termios
import unittest
from unittest import mock

from aids import Case, StillLoop, read_now
from roam_live.common import tty
from roam_live.common.event_loop import comes
from roam_live.host import input_queue, pane
from roam_live.host.input_queue import Placeholders, TypedQueue
from roam_live.host.pane_hold import PaneHold
from roam_live.host.state import PaneState, PendingPaste, SessionState
from roam_live.host.uploads import KEPT, PendingPastes
from roam_live.protocol import paste_text
from roam_live.protocol.host_lines import LONGEST_HOST_LINE
from roam_live.protocol.paste_text import (CLOSES, INSERTED, LOST, MOST_BYTES, MOST_SPENT, MOST_TEXTS, OPENS, STORED, TOO_LONG,
                                           TOO_MANY, cleaned, placeholder_acts, random_name, without_brackets)
from test_socket_server import NAMED, Sockets

NAME, OTHER = "0123456789abcdef", "fedcba9876543210"


def placeholder(name):
    """Return the bytes of a placeholder, as its acts type them."""
    return "".join(chr(int(act.removeprefix("char "), 16)) for act in placeholder_acts(name)).encode()


class Texts(unittest.TestCase):
    """The typed part of a text."""

    def test_cleaned(self):
        """LF and CR LF become CR; of the other control characters only TAB stays, and ESC on request."""
        every = "".join(map(chr, range(0x120)))
        kept = "".join(chr(code) for code in range(0x120) if code == 9 or code == 13 or 0x20 <= code < 0x7F or code >= 0xA0)
        self.assertEqual(cleaned(every.replace("\n", "")), kept)
        self.assertEqual(cleaned(every.replace("\n", ""), True), kept[:2] + "\x1b" + kept[2:])
        self.assertEqual(cleaned("a\r\nb\nc\rd\n\re\r\r\n"), "a\rb\rc\rd\r\re\r\r")

    def test_brackets(self):
        """No bracket remains, in any of its forms, nor one that forms once others are removed."""
        for begin in (b"\x1b[", b"\xc2\x9b", b"\x9b"):
            for kind in (b"200~", b"201~"):
                one = begin + kind
                for cut in range(len(one) + 1):
                    self.assertEqual(without_brackets(b"a" + one[:cut] + one + one[cut:] + b"b~"), b"ab~", (one, cut))
        self.assertEqual(without_brackets(b"\x1b[1m~\x1b[20~\x1b[201"), b"\x1b[1m~\x1b[20~\x1b[201")
        chance = random.Random(5)
        for _ in range(300):
            text = b"".join(chance.choice((b"\x1b", b"\x1b[", b"20", b"0", b"1", b"~", b"1~", b"\x9b", b"x")) for _ in range(60))
            self.assertIsNone(re.search(rb"(\x1b\[|\x9b)20[01]~", without_brackets(text)), text)

    def test_placeholder(self):
        """A placeholder is in a line that is taken whole, and is one random name of 64 bits."""
        self.assertEqual(placeholder(NAME), b"\xc2\x9f0123456789abcdef\xc2\x9c")
        self.assertEqual(placeholder_acts(NAME)[:2] + placeholder_acts(NAME)[-1:], ["char 9f", "char 30", "char 9c"])
        self.assertLessEqual(len(placeholder_acts(NAME)) + 3, 32)
        self.assertEqual(len({random_name() for _ in range(100)}), 100)
        self.assertTrue(re.fullmatch("[0-9a-f]{16}", random_name()))


class Found(unittest.TestCase):
    """Placeholders in the input."""

    def found(self, chunks):
        """Return the bytes and the names in chunks, with adjacent bytes joined."""
        placeholders, parts = Placeholders(), [b""]
        for chunk in chunks:
            for place, part in enumerate(placeholders.fed(chunk)):
                if place % 2:
                    parts += [part, b""]
                else:
                    parts[-1] += part
        return parts, placeholders.rest

    def test_cut(self):
        """They are found wherever the input is cut, and nothing else is changed."""
        text = b"a" + placeholder(NAME) + "\u00e9\u00b0".encode() + placeholder(OTHER) + placeholder(NAME) + b"\xc2\x9fz"
        wanted = [b"a", NAME.encode(), "\u00e9\u00b0".encode(), OTHER.encode(), b"", NAME.encode(), b"\xc2\x9fz"]
        for first in range(len(text) + 1):
            for second in range(first, len(text) + 1):
                self.assertEqual(self.found([text[:first], text[first:second], text[second:]]), (wanted, b""), (first, second))
        self.assertEqual(self.found([bytes([byte]) for byte in text]), (wanted, b""))

    def test_others(self):
        """C2 9F with other successors passes unchanged; a possible placeholder waits for the rest."""
        whole = placeholder(NAME)
        for text in (whole[:5] + b"x", whole[:-2] + b"x", whole[:-1] + b"x", whole[:-2] + b"0" + whole[-2:], whole.upper(), b"\xc2\x9c",
                     b"\x9f" + whole[2:], b"\xc2\x9f\x1b", whole.replace(b"a", b"g")):
            self.assertEqual(self.found([text]), ([text], b""), text)
            self.assertEqual(self.found([text[:7], text[7:]]), ([text], b""), text)
        for cut in range(1, len(whole)):
            self.assertEqual(self.found([b"a" + whole[:cut]]), ([b"a"], whole[:cut]))
        self.assertEqual(self.found([whole[:6] + whole]), ([whole[:6], NAME.encode(), b""], b""))


class Unread(Case):
    """A real terminal whose program doesn't read."""

    def setUp(self):
        self.loop = StillLoop(lambda: self.now)
        self.texts = PendingPastes(SessionState(), self.loop, lambda name, word: None)
        self.queue = TypedQueue(self.texts, lambda: True)
        asked = pane.Options(folder="/nowhere", command=["sh"])
        state, hold = PaneState(id=7, number=1, generation=4, size=(24, 80)), PaneHold(mock.Mock(), mock.Mock(), 7)
        self.pane = pane.PaneCommand(asked, self.loop, state, False, self.queue, hold)
        self.master, self.slave = os.openpty()
        for end in (self.master, self.slave):
            self.addCleanup(os.close, end)
            os.set_blocking(end, False)
        self.pane.terminal = self.master

    def write(self, *names):
        """Write as much as the terminal accepts, with texts of these names."""
        for name in names:
            self.texts.spent.clear()
            self.texts.take(PendingPaste.of(name, b"line of a text\n" * 4000, False))
            self.queue.take(placeholder(name))
        for _ in range(40):
            self.queue.write(self.master)

    def test_dropped(self):
        """The unread part of a text is dropped there, and the interrupt arrives at once; the written part stays."""
        for change in (lambda modes: modes, tty.raw):
            termios.tcsetattr(self.slave, termios.TCSANOW, change(termios.tcgetattr(self.slave)))
            os.write(self.slave, b"written")
            self.write(NAME, OTHER)
            self.assertGreater(len(self.queue), 60000)
            self.queue.take(b"typed\x03")
            self.write()
            self.assertEqual((len(self.queue), self.texts.texts), (0, {}))
            self.assertTrue(comes(self.master, 1))
            self.assertTrue(read_now(self.master).startswith(b"written"))
        self.assertTrue(comes(self.slave, 1))
        self.assertEqual(read_now(self.slave), CLOSES + b"\x03")

    def test_ahead(self):
        """Input typed ahead isn't dropped without a text, nor once the program has read the texts."""
        termios.tcsetattr(self.slave, termios.TCSANOW, tty.raw(termios.tcgetattr(self.slave)))
        self.queue.take(b"ahead\x03")
        self.write()
        self.assertTrue(comes(self.slave, 1))
        self.assertEqual(read_now(self.slave), b"ahead\x03")
        self.write(NAME)
        while self.queue or comes(self.slave, 0.05):
            read_now(self.slave)
            self.write()
        self.queue.take(b"ahead")
        self.write()
        self.queue.take(b"\x03")
        self.write()
        self.assertTrue(comes(self.slave, 1))
        self.assertEqual(read_now(self.slave), b"ahead\x03")

    def test_refused(self):
        """If the other end can't be opened the interrupt comes after the existing input."""
        self.write(NAME)
        with mock.patch.object(pane.fcntl, "ioctl", side_effect=OSError(25, "none")):
            self.queue.take(b"\x03")
        self.assertEqual(self.queue.parts[-1], b"\x03")


class Queues(Case):
    """The input queue of a pane's programs, at a pipe."""

    def setUp(self):
        self.loop, self.told = StillLoop(lambda: self.now), []
        self.texts = PendingPastes(SessionState(), self.loop, lambda name, word: self.told.append((name, word)))
        self.wants = True
        self.queue = TypedQueue(self.texts, lambda: self.wants)
        self.reader, self.writer = self.pipe()

    def give(self, name, data, is_plain=False):
        """Store a text."""
        self.texts.take(PendingPaste.of(name, data, is_plain))

    def written(self):
        """Return the programs' input until the queue is empty."""
        got = b""
        while self.queue:
            self.queue.write(self.writer)
            got += read_now(self.reader)
        return got

    def stuff(self):
        """Fill the programs' input."""
        os.set_blocking(self.writer, False)
        try:
            while True:
                os.write(self.writer, b"." * 4096)
        except BlockingIOError:
            pass

    def test_put(self):
        """A text is inserted at its placeholder, once, bracketed if the program wants that at its beginning."""
        self.give(NAME, b"two\rlines")
        self.queue.take(b"a" + placeholder(NAME) + b"b" + placeholder(NAME) + b"c")
        self.assertEqual((self.told, self.texts.state(NAME)), ([(NAME, INSERTED)], INSERTED))
        self.assertEqual(self.written(), b"a" + OPENS + b"two\rlines" + CLOSES + b"bc")
        self.queue.take(placeholder(NAME) + b"d")
        self.assertEqual((self.written(), self.texts.texts, self.texts.state(NAME)), (b"d", {}, INSERTED))
        self.wants = False
        self.give(OTHER, b"text")
        self.queue.take(placeholder(OTHER))
        self.assertEqual(self.written(), b"text")

    def test_plain(self):
        """A plain one has no brackets, and a bracketed one has none inside."""
        self.give(NAME, b"text", True)
        self.give(OTHER, b"\x1b[20\x1b[201~1~\x1b[mtext")
        self.queue.take(placeholder(NAME) + placeholder(OTHER))
        self.assertEqual(self.written(), b"text" + OPENS + b"\x1b[mtext" + CLOSES)

    def test_unknown(self):
        """The placeholder of an unknown text gives nothing, and the input around it stays."""
        self.queue.take(b"a" + placeholder(NAME) + b"b")
        self.assertEqual((self.written(), self.told), (b"ab", []))

    def test_one_after_another(self):
        """Texts come in sequence, each whole, with the input in between, whatever amount is taken at a time."""
        self.give(NAME, b"1" * 200000)
        self.give(OTHER, b"2" * 200000)
        for byte in b"a" + placeholder(NAME) + b"b" + placeholder(OTHER) + b"c":
            self.queue.take(bytes([byte]))
        self.assertEqual(self.written(), b"a" + OPENS + b"1" * 200000 + CLOSES + b"b" + OPENS + b"2" * 200000 + CLOSES + b"c")

    def test_interrupted(self):
        """C-c drops the rest of a paste, and the keys between and after pastes; open brackets are closed, and no character is cut."""
        for count in range(40):
            queue, waiting = TypedQueue(self.texts, lambda: True), "\u4e2d\u00e9x".encode() * 5
            for name in (NAME, OTHER):
                self.texts.spent.clear()
                self.give(name, waiting)
            queue.take(b"a" + placeholder(NAME) + b"b" + placeholder(OTHER) + b"c")
            with mock.patch.object(input_queue, "write", side_effect=lambda end, waiting: taken(got, waiting, 1)):
                got = bytearray()
                for _ in range(count):
                    queue.write(self.writer)
                queue.take(b"d\x03e")
                while queue:
                    queue.write(self.writer)
            text = bytes(got)
            self.assertEqual(self.texts.texts, {}, count)
            self.assertTrue(text.startswith(b"a") and text.endswith(b"\x03e"), (count, text))
            inside = text[1:-2]
            self.assertTrue(not inside or inside.startswith(OPENS) and inside.endswith(CLOSES), (count, text))
            self.assertTrue(waiting.startswith(inside[6:-6]) and inside[6:-6].decode() is not None, (count, text))
            self.assertLessEqual(len(text), 1 + count + 12 + 3 + 6, count)

    def test_interrupt_read(self):
        """If the programs have read all texts, input typed ahead stays, and so does input before the first waiting text."""
        asked = []
        self.queue.drops_unread = lambda behind: bool(asked.append(behind))
        self.queue.take(b"ls\r\x03")
        self.give(NAME, b"text")
        self.queue.take(placeholder(NAME))
        self.assertEqual((self.written(), asked), (b"ls\r\x03" + OPENS + b"text" + CLOSES, []))
        self.queue.take(b"ls")
        self.written()
        self.queue.take(b"\r\x03")
        self.assertEqual((self.written(), asked), (b"\r\x03", [2]))
        self.queue.take(b"x\x03")
        self.give(OTHER, b"text")
        self.queue.take(b"ahead" + placeholder(OTHER) + b"behind\x03z\x03more")
        self.assertEqual((self.written(), asked), (b"x\x03ahead\x03\x03more", [2]))
        self.assertEqual((self.texts.texts, self.queue.typed, bool(self.queue)), ({}, 0, False))

    def test_interrupt_unread(self):
        """If the programs haven't read all it is dropped; a bracket closes a partly read one, while the program wants them."""
        for wants, before in ((True, CLOSES), (False, b"")):
            self.wants, self.queue.drops_unread = True, lambda behind: True
            self.texts.spent.clear()
            self.give(NAME, b"text")
            self.give(OTHER, b"two", True)
            self.queue.take(placeholder(NAME))
            self.written()
            self.queue.take(b"typed" + placeholder(OTHER) + b"behind")
            self.wants = wants
            self.queue.take(b"more\x03")
            self.assertEqual((self.written(), self.queue.typed), (before + b"\x03", 0))
            self.give(OTHER, b"plain", True)
            self.texts.spent.clear()
            self.queue.take(placeholder(OTHER))
            self.assertEqual(self.written(), b"plain")
            self.queue.take(b"\x03")
            self.assertEqual(self.written(), b"\x03")

    def test_typed_room(self):
        """Input after a text waits up to 65,536 bytes, as before; the text doesn't count."""
        self.give(NAME, b"1" * 300000)
        self.assertTrue(self.queue.take(b"x" * 65530 + placeholder(NAME) + b"y" * 6))
        self.assertFalse(self.queue.take(b"z"))
        self.assertEqual((len(self.queue), self.queue.typed), (365536, 65536))
        got = self.written()
        self.assertEqual((len(got), got[-6:], self.queue.typed), (65536 + 300012, b"y" * 6, 0))
        self.assertTrue(self.queue.take(b"z"))

    def test_gone(self):
        """Once the pane is gone nothing waits, and no room is taken."""
        self.give(NAME, b"1" * 300000)
        self.queue.take(placeholder(NAME) + b"x")
        self.queue.write(self.writer)
        os.close(self.reader)
        self.reader = os.open(os.devnull, os.O_RDONLY)
        self.addCleanup(os.close, self.reader)
        with mock.patch("os.write", side_effect=BrokenPipeError):
            self.queue.write(self.writer)
        self.assertEqual((bool(self.queue), len(self.queue), self.texts.texts), (False, 0, {}))
        self.give(OTHER, b"text")
        self.queue.take(placeholder(OTHER)[:5])
        self.queue.clear()
        self.queue.take(placeholder(OTHER)[5:])
        self.assertEqual(list(self.queue.parts), [placeholder(OTHER)[5:]])

    def test_unread(self):
        """A text that programs don't read for 60 seconds is dropped, but not while they read; open brackets are closed."""
        self.give(NAME, b"1" * 300000)
        self.give(OTHER, b"2")
        self.queue.take(placeholder(NAME) + placeholder(OTHER) + b"x")
        self.queue.write(self.writer)
        for _ in range(3):
            self.now += KEPT - 1
            self.loop.turn()
            self.queue.write(self.writer)
            read_now(self.reader)
            self.queue.write(self.writer)
        self.assertEqual(len(self.texts.texts), 2)
        self.stuff()
        self.now += KEPT
        self.loop.turn()
        self.assertEqual((self.texts.texts, len(self.queue)), ({}, len(CLOSES) + 1))
        read_now(self.reader)
        self.assertEqual(self.written(), CLOSES + b"x")


def taken(got, waiting, count):
    """Simulate a program that reads so many bytes."""
    got += waiting[:count]
    del waiting[:count]
    return True


class Waiting(Case):
    """Waiting texts, and finished ones."""

    def setUp(self):
        self.loop, self.told = StillLoop(lambda: self.now), []
        self.texts = PendingPastes(SessionState(), self.loop, lambda name, word: self.told.append((name, word)))

    def test_states(self):
        """A text waits for 60 seconds, and then is lost; an unknown name is lost."""
        self.assertEqual((self.texts.state(NAME), self.loop.wait_time()), (LOST, None))
        self.texts.take(PendingPaste.of(NAME, b"text", False))
        self.assertEqual((self.texts.state(NAME), self.loop.wait_time()), (STORED, KEPT))
        self.now += KEPT - 1
        self.loop.turn()
        self.assertEqual(self.told, [])
        self.now += 1
        self.loop.turn()
        self.assertEqual((self.told, self.texts.state(NAME), self.texts.placed(NAME)), ([(NAME, LOST)], LOST, None))

    def test_room(self):
        """16 MB wait together, including inserted ones until they are read, and 64 texts; beyond that a message gives the reason."""
        self.assertEqual((MOST_BYTES, MOST_TEXTS, KEPT, MOST_SPENT), (1 << 24, 64, 60.0, 1024))
        self.texts.take(PendingPaste.of(NAME, bytes(MOST_BYTES - 10), False))
        self.assertEqual((self.texts.refusal(10, 0), self.texts.refusal(11, 0)), ("", TOO_LONG))
        self.assertEqual((self.texts.refusal(9, 1), self.texts.refusal(10, 1)), ("", "16 MB wait to be pasted"))
        text = self.texts.placed(NAME)
        self.assertEqual(self.texts.refusal(11, 0), TOO_LONG)
        self.texts.drop(text)
        self.texts.drop(text)
        for number in range(MOST_TEXTS):
            self.assertEqual(self.texts.refusal(1, 0), "")
            self.texts.take(PendingPaste.of(f"{number:016x}", b"x", False))
        self.assertEqual((self.texts.refusal(1, 0), TOO_MANY), (TOO_MANY, "64 texts wait to be pasted"))
        for number in range(3000):
            self.texts.drop(PendingPaste.of(f"{number:016x}", b"x", False))
            self.texts.take(PendingPaste.of(f"{number + 1:016x}", b"x", False))
        self.assertLessEqual(len(self.texts.spent), MOST_SPENT)
        self.assertEqual(paste_text.INSERTED, "inserted")


class Given(Sockets):
    """Texts that are uploaded at the socket."""

    def test_given(self):
        """A text is stored once all of it has arrived, however it is cut; its fate is reported to its senders and to peers that asked."""
        text = f"paste {NAME} 9\ntwo\nlineswho\n".encode()
        for cut in range(len(text)):
            one = self.connect(text[:cut])
            self.say(one, text[cut:])
            self.assertEqual(read_now(one), f"stored {NAME}\nhost {NAMED}\nothers 0\n".encode(), cut)
            self.assertEqual(self.socket.uploads.texts.placed(NAME).data, b"two\nlines")
            self.loop.turn()
            self.assertEqual(read_now(one), f"inserted {NAME}\n".encode())
            self.socket.uploads.texts.texts.clear()
            one.close()
            self.loop.turns(2)

    def test_asked(self):
        """A peer that returns asks; an unknown text is lost, as with another host."""
        self.connect(f"paste {NAME} 1 plain\nx".encode()).close()
        one = self.connect(f"status {NAME}\nstatus {OTHER}\n".encode())
        self.assertEqual(read_now(one), f"stored {NAME}\nlost {OTHER}\n".encode())
        self.assertTrue(self.socket.uploads.texts.placed(NAME).is_plain)
        self.loop.turn()
        self.assertEqual(read_now(one), f"inserted {NAME}\n".encode())

    def test_again(self):
        """A repeated text is stored once, and an inserted one isn't inserted again."""
        one = self.connect(f"paste {NAME} 1\nxpaste {NAME} 1\nx".encode())
        self.assertEqual((read_now(one), len(self.socket.uploads.texts.texts)), (f"stored {NAME}\n".encode() * 2, 1))
        self.socket.uploads.texts.drop(self.socket.uploads.texts.placed(NAME))
        self.say(one, f"paste {NAME} 1\nx".encode())
        self.assertEqual((read_now(one), self.socket.uploads.texts.texts), (f"inserted {NAME}\ninserted {NAME}\n".encode(), {}))

    def test_refused(self):
        """A text without room is refused with a reason, its bytes are skipped, and the connection continues."""
        self.connect(f"paste {OTHER} {MOST_BYTES - 5}\n".encode())
        one = self.connect(f"paste {NAME} 6\n123456paste {NAME} 5\n12345".encode())
        self.assertEqual(read_now(one), f"refused {NAME} 16 MB wait to be pasted\nstored {NAME}\n".encode())
        self.say(one, f"paste {OTHER} 999999999\n".encode())
        self.assertIsNotNone(self.socket.peers[1].upload)

    def test_bad(self):
        """An invalid line is reported as such."""
        one = self.connect()
        for line in (f"paste {NAME} 0", f"paste {NAME}", f"paste {NAME} 1 plainly", f"paste {NAME.upper()} 1", f"paste {NAME[1:]} 1",
                     f"paste {NAME} -1", f"paste {NAME} 1000000000", f"status {NAME}0", "status"):
            self.say(one, f"{line}\n".encode())
            self.assertEqual(read_now(one), b"bad line\n", line)

    def test_stalled(self):
        """A peer that sends half of a text, and nothing for 60 seconds, is disconnected, and uses no room; the same for one that leaves."""
        one = self.connect(f"paste {NAME} {MOST_BYTES}\nhalf".encode())
        self.assertEqual(self.socket.uploads.coming(False), MOST_BYTES)
        self.now += KEPT - 1
        self.say(one, b"more")
        self.now += KEPT - 1
        self.loop.turns(2)
        self.assertEqual(len(self.socket.peers), 1)
        self.now += 1
        self.loop.turns(2)
        self.assertEqual((self.socket.peers, self.socket.uploads.coming(False)), ([], 0))
        self.connect(f"paste {NAME} 100\n".encode()).close()
        self.loop.turns(2)
        self.assertEqual((self.socket.uploads.coming(False), self.loop.due), (0, {}))

    def test_chance(self):
        """Any input, in any chunks, is taken or refused as a line, or ends its connection; no queue is unbounded."""
        chance = random.Random(11)
        words = (b"give ", NAME.encode(), b" 7", b" 700", b" plain", b"\n", b"\n", b"who", b"here a 1 2 read-write", b"status ",
                 b"commands",
                 b"\xff\x00\x1b", b"x" * 300)
        one = self.connect()
        for _ in range(3000):
            if not self.socket.peers:
                one = self.connect()
            one.send(b"".join(chance.choice(words) for _ in range(chance.randint(1, 6))))
            self.loop.turn()
            read_now(one)
            self.now += chance.random()
            self.assertLessEqual(sum(len(peer.came.kept) for peer in self.socket.peers), LONGEST_HOST_LINE)
            self.assertLessEqual(len(self.socket.uploads.texts.texts), 1)
        one.close()
        self.loop.turns(3)
        self.assertEqual((self.socket.peers, self.socket.uploads.coming(False)), ([], 0))

    def test_names(self):
        """A peer gets reports about at most 64 texts."""
        one = self.connect(b"".join(f"status {number:016x}\n".encode() for number in range(100)))
        self.assertEqual((read_now(one).count(b"lost"), len(self.socket.peers[0].names)), (100, 64))


if __name__ == "__main__":
    unittest.main()
