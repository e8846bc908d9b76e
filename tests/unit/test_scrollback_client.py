"""A front end's requests for scrollback rows and buffers: its lines, answers cut anywhere, and invalid ones."""
import socket

from aids import Case, LinkedClient, StillLoop, without_numbers
from roam_live.protocol.scrollback_client import MOST_ANSWER, MOST_LISTED, AnswerReader, BadAnswer, BufferNote, ScrollbackClient, Snapshot

TOLD = (b"host 00\nrows 2 5 10 2 9 \nrows 2 5 10 2 9\n +ab\n+c\x1b\nothers 0\nsnapshot 2 5 0 7 1 3\n x\nbuffers 2\n4 5 a b\n3 1 \n"
        b"buffer show 4 5\na\n\nb\nbuffer show 9 none\nmore 2 5 3\nbuffers 0\n")


class Asked(Case):
    """Requests, and their answers."""

    def setUp(self):
        without_numbers(self)
        self.said, self.told, self.is_connected = [], [], True
        self.link = ScrollbackClient(self.ask)

    def ask(self, line, data):
        """Record a request, while connected."""
        if self.is_connected:
            self.said.append(line.encode() + b"\n" + data)
        return self.is_connected

    def take(self, data):
        """Pass an answer to the link."""
        return [self.link.take(answer) for answer in AnswerReader().fed(data)]

    def tell(self, *told):
        """Record an answer."""
        self.told.append(told)

    def test_questions(self):
        """Each request is a line, and each answer reaches its caller, in order."""
        self.link.count(2, 5, self.tell)
        self.link.rows(2, 5, -3, 5000, self.tell)
        self.link.find(2, 5, 9, True, "a b", self.tell)
        self.link.find(2, 5, 9, False, "c", self.tell)
        self.link.snapshot(2, 5, self.tell)
        self.link.buffer(4, self.tell)
        self.link.buffers(self.tell)
        self.assertEqual(b"".join(self.said), b"count 2 5\nrows 2 5 0 2000\nfind 2 5 9 back a b\nfind 2 5 9 on c\nsnapshot 2 5\n"
                         b"buffer show 4\nbuffer list\n")
        self.take(b"count 2 5 0 7\nrows 2 5 1 2 6\n a\n+b\nfound 2 5 4\nfound 2 5 none\nsnapshot 2 5 0 7 1 3\n x\nbuffer show 4 2\n\n\n"
                  b"buffers 1\n4 2 a b\n")
        self.assertEqual(self.told, [((0, 7),), (1, [b" a", b"+b"]), (4,), (None,), (Snapshot(2, 5, 0, 7, [b" x"]),), (b"\n\n",),
                                     ([BufferNote(4, 2, "a b")],)])

    def test_none(self):
        """A failed request is reported as such, and so are all if no host is connected, or the connection is lost."""
        asks = (lambda: self.link.count(2, 5, self.tell), lambda: self.link.rows(2, 5, 3, 1, self.tell),
                lambda: self.link.find(2, 5, 0, False, "a", self.tell), lambda: self.link.snapshot(2, 5, self.tell),
                lambda: self.link.buffer(4, self.tell), lambda: self.link.buffers(self.tell), lambda: self.link.add_buffer(b"a", self.tell))
        nothing = [(None,), (3, []), *[(None,)] * 5]
        for ask in asks:
            ask()
        self.take(b"count 2 5 none\nrows 2 5 none\nfound 2 5 none\nsnapshot 2 5 none\nbuffer show 4 none\nbad line\nbad line\n")
        self.assertEqual(self.told, nothing)
        self.told.clear()
        for ask in asks:
            ask()
        self.link.forget()
        self.assertEqual(self.told, nothing)
        self.told.clear()
        self.is_connected = False
        for ask in asks:
            ask()
        self.assertEqual(self.told, nothing)

    def test_sought(self):
        """A text that no row or line can contain isn't requested."""
        for text in ("", "a\nb", "a" * 181, "\x1b"):
            self.link.find(2, 5, 0, False, text, self.tell)
        self.assertEqual((self.said, self.told), ([], [(None,)] * 4))

    def test_added(self):
        """A buffer's bytes follow its line; one without room has no number."""
        self.link.add_buffer(b"a\nb", self.tell)
        self.assertEqual(self.said, [b"buffer add 3\na\nb"])
        self.take(b"buffer add 7 3\n")
        self.link.add_buffer(b"c", self.tell)
        self.take(b"buffer add none there is no room\n")
        self.assertEqual(self.told, [(7,), (None,)])

    def test_more(self):
        """Unrequested reports about a snapshot are passed on; a release is sent."""
        self.link.on_more = self.tell
        self.assertEqual(self.take(b"more 2 5 9\n"), [True])
        self.assertEqual(self.told, [(2, 5, 9)])
        self.link.count(2, 5, self.tell)
        self.take(b"count 2 5 0 0\n")
        self.link.release(2, 5)
        self.assertEqual(self.said, [b"count 2 5\n", b"release 2 5\n"])

    def test_others(self):
        """Other lines, such as those about terminals, belong elsewhere."""
        self.assertEqual(self.take(b"others 0\nheld 00\n"), [False, False])

    def test_bad(self):
        """Invalid answers."""
        for told in (b"rows 2 5 1 1 x\n", f"rows 2 5 1 1 {MOST_ANSWER + 1}\n".encode(), f"buffers {MOST_LISTED + 1}\n".encode(),
                     b"a" * 65536, b"buffer show 4 -1\n", b"more 2 5\n", b"more a 5 1\n", b"count 2 5 x 1\n", b"snapshot 2 5 0 1 1 0\n",
                     b"count 2 5 " + b"1" * 16 + b" 1\n"):
            self.link.forget()
            self.link.count(2, 5, self.tell)
            with self.assertRaises(BadAnswer, msg=told[:30]):
                self.take(told)


class Read(Case):
    """Answers, however they are cut."""

    def test_numbers(self):
        """Each answer is about a window, or the session; a line without such a number is no answer."""
        data = b"12 rows 1 5 0 1 3\n a\n0 buffers 1\n9: x y\n3 others 0\n"
        found = AnswerReader().fed(data)
        self.assertEqual([(answer.window, answer.words[0], answer.data, answer.lines) for answer in found],
                         [(12, "rows", b" a\n", []), (0, "buffers", b"", ["9: x y"]), (3, "others", b"", [])])
        for line in (b"others 0\n", b"03 others 0\n", b"100 others 0\n", b"-1 others 0\n", b"\xd9\xa1 others 0\n", b"\n"):
            with self.assertRaises(BadAnswer, msg=line):
                AnswerReader().fed(line)

    def test_cut(self):
        """Each cut gives the same answers."""
        without_numbers(self)
        def shown(answers):
            return [(answer.words, answer.data, answer.lines) for answer in answers]

        told = TOLD.replace(b"rows 2 5 10 2 9 \n", b"")
        whole = shown(AnswerReader().fed(told))
        self.assertEqual([words[0] for words, _, _ in whole],
                         ["host", "rows", "others", "snapshot", "buffers", "buffer", "buffer", "more", "buffers"])
        self.assertEqual([data for _, data, _ in whole if data], [b" +ab\n+c\x1b\n", b" x\n", b"a\n\nb\n"])
        for cut in range(len(told)):
            reader = AnswerReader()
            self.assertEqual(shown(reader.fed(told[:cut]) + reader.fed(told[cut:])), whole)
        reader = AnswerReader()
        self.assertEqual(shown(answer for at in range(len(told)) for answer in reader.fed(told[at : at + 1])), whole)


class Linked(Case):
    """The same over a front end's connection to a host."""

    def setUp(self):
        without_numbers(self)
        self.loop = StillLoop(lambda: self.now)
        self.link = LinkedClient(None, self.loop, lambda: (24, 80), False, lambda: None)
        ours, self.host = socket.socketpair()
        for end in (ours, self.host):
            end.setblocking(False)
            self.addCleanup(end.close)
        self.link.begin(ours)
        self.loop.turns(2)
        self.host.recv(4096)
        self.told = []

    def test_asked(self):
        """Answers with data come between lines about terminals; an invalid answer ends the connection."""
        self.link.scrollback.rows(1, 2, 0, 5, lambda first, rows: self.told.append((first, rows)))
        self.loop.turns(2)
        self.assertEqual(self.host.recv(4096), b"rows 1 2 0 5\n")
        self.host.send(b"host 00\nrows 1 2 0 2 8\n gone\n\nx\nothers 0\n"[:-1])
        self.loop.turns(2)
        self.assertFalse(self.link.is_known)
        self.host.send(b"\n")
        self.loop.turns(2)
        self.assertTrue(self.link.is_known)
        self.assertEqual(self.told, [(0, [b" gone", b""])])
        self.link.scrollback.count(1, 2, self.told.append)
        self.host.send(b"rows 1 2 none\n")
        self.loop.turns(2)
        self.assertIsNone(self.link.peer)
        self.assertEqual(self.link.why, "rows is not the answer to the request")

    def test_buffer_given(self):
        """A buffer is sent by its number, again to a host that returns."""
        self.host.send(b"host 00\nothers 0\n")
        self.loop.turns(2)
        self.link.store("00112233445566aa", 7)
        self.loop.turns(2)
        self.assertEqual(self.host.recv(4096), b"paste 00112233445566aa buffer 7\n")
        self.link.answers = lambda *told: self.told.append(told)
        self.link.meet("00")
        self.loop.turns(2)
        self.assertEqual(self.host.recv(4096), b"paste 00112233445566aa buffer 7\n")
        self.host.send(b"refused 00112233445566aa no buffer has this number\n")
        self.loop.turns(2)
        self.assertEqual(self.told, [("00112233445566aa", "refused", "no buffer has this number")])
