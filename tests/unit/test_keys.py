"""Keys of bytes: the spellings of xterm and the VT220."""
import unittest

from modes_played import acts_of_bytes
from roam_live.input.keys import Key, Keys, acts_of

KEYS = (
    (b"a", "char 61"), (b"\xc3\xa9", "char e9"), (b"\xe2\x82\xac", "char 20ac"), (b"\xf0\x9f\x98\x80", "char 1f600"), (b"\x00", "char 0"),
    (b"\x03", "char 3"), (b"\x1b", "char 1b"), (b"\t", "char 9"), (b"\x08", "char 8"), (b"\n", "char a"), (b"\r", "key return"),
    (b"\x7f", "key backspace"), (b"\x1b[A", "key up"), (b"\x1b[B", "key down"), (b"\x1b[C", "key right"), (b"\x1b[D", "key left"),
    (b"\x1bOA", "key up"), (b"\x1bOB", "key down"), (b"\x1bOC", "key right"), (b"\x1bOD", "key left"), (b"\x1b[H", "key find"),
    (b"\x1bOH", "key find"), (b"\x1b[1~", "key find"), (b"\x1b[7~", "key find"), (b"\x1b[F", "key select"), (b"\x1bOF", "key select"),
    (b"\x1b[4~", "key select"), (b"\x1b[8~", "key select"), (b"\x1b[2~", "key insert"), (b"\x1b[3~", "key remove"),
    (b"\x1b[5~", "key prev"), (b"\x1b[6~", "key next"),
    (b"\x1bOP", "key pf1"), (b"\x1bOQ", "key pf2"), (b"\x1bOR", "key pf3"), (b"\x1bOS", "key pf4"),
    (b"\x1b[11~", "key pf1"), (b"\x1b[[A", "key pf1"), (b"\x1b[17~", "key f6"), (b"\x1b[18~", "key f7"), (b"\x1b[19~", "key f8"),
    (b"\x1b[20~", "key f9"), (b"\x1b[21~", "key f10"), (b"\x1b[23~", "key f11"), (b"\x1b[24~", "key f12"), (b"\x1b[25~", "key f13"),
    (b"\x1b[26~", "key f14"), (b"\x1b[28~", "key f15"), (b"\x1b[29~", "key f16"), (b"\x1b[31~", "key f17"), (b"\x1b[32~", "key f18"),
    (b"\x1b[33~", "key f19"), (b"\x1b[34~", "key f20"), (b"\x1bOp", "key pad0"), (b"\x1bOy", "key pad9"), (b"\x1bOm", "key padminus"),
    (b"\x1bOl", "key padcomma"), (b"\x1bOn", "key padperiod"), (b"\x1bOM", "key padenter"), (b"\xff", "char fffd"),
    (b"\x1b[15~", "char 1b, char 5b, char 31, char 35, char 7e"), (b"\x1bx", "char 1b, char 78"), (b"\x1b\x1b[A", "char 1b, key up"),
    (b"\x1b[1;2A", "char 1b, char 5b, char 31, char 3b, char 32, char 41"), (b"\x1b[", "char 1b, char 5b"),
)


class Spelled(unittest.TestCase):
    """Bytes as keys."""

    def test_acts(self):
        """Each spelling has its acts, also byte by byte."""
        for text, acts in KEYS:
            keys = Keys()
            bytewise = [key for byte in text for key in keys.fed(bytes([byte]))] + keys.ended()
            found = (", ".join(acts_of_bytes(text)), ", ".join(act for key in bytewise for act in acts_of(key)))
            self.assertEqual(found, (acts, acts), text)

    def test_cut(self):
        """A stream of all spellings has the same keys, wherever it is cut; but an escape without a successor is the key."""
        known = [(text, acts) for text, acts in KEYS if text not in (b"\x1b", b"\x1b[")]
        stream = b"".join(text for text, _ in known)
        wanted = [act for _, acts in known for act in acts.split(", ")]
        for cut in range(len(stream) + 1):
            keys = Keys()
            found = [act for chunk in (stream[:cut], stream[cut:]) for key in keys.fed(chunk) for act in acts_of(key)]
            self.assertEqual((found, keys.waits()), (wanted, False), cut)

    def test_waits(self):
        """A possible start of a sequence waits; one without an end becomes the keys of its letters."""
        for text, waits in ((b"\x1b", True), (b"\x1b[", True), (b"\x1b[1", True), (b"\x1b[1;5", True), (b"\x1bO", True), (b"\x1b[[", True),
                            (b"\x1b[A", False), (b"x", False), (b"\x1bx", False), (b"\x1b[200~", False), (b"a\x1b", True)):
            keys = Keys()
            before = keys.fed(text)
            self.assertEqual(keys.waits(), waits, text)
            self.assertEqual("".join(key.text for key in before + keys.ended()), text.decode())
            self.assertEqual((keys.waits(), keys.ended()), (False, []))

    def test_pasted(self):
        """A paste is text, with sequences in it, until its end, wherever the stream is cut; an escape in it does not wait."""
        inside = "a\x1b[A\x1b[20\x1b[200~\r\x02\u00e9\x1b[201\x1b[201"
        stream = f"x\x1b\x1b[200~{inside}\x1b[201~\x1b[Ay\x1b[200~\x1b[201~z".encode()
        for cut in range(len(stream) + 1):
            keys = Keys()
            found = [key for chunk in (stream[:cut], stream[cut:]) for key in keys.fed(chunk)]
            text = "".join(key.text for key in found if key.name == "text")
            names = [key.name for key in found if key.name != "text"]
            self.assertEqual((text, names), (inside, ["x", "\x1b", "paste", "pasted", "up", "y", "paste", "pasted", "z"]), cut)
        keys = Keys()
        self.assertEqual((keys.fed(b"\x1b[200~\x1b"), keys.waits(), keys.fed(b"x")[0].text), ([Key("paste", "\x1b[200~")], False, "\x1bx"))

    def test_many_pastes(self):
        """Each of many pastes in one read costs as much as a single one."""
        keys = Keys()
        found = keys.fed(b"\x1b[200~a\x1b[201~" * 20000)
        self.assertEqual((len(found), {key.name for key in found}, keys.rest), (60000, {"paste", "text", "pasted"}, ""))

    def test_long(self):
        """A sequence without an end in 32 letters does not wait."""
        keys = Keys()
        self.assertEqual(len(keys.fed(b"\x1b[" + b"1" * 40)), 42)
        self.assertFalse(keys.waits())

    def test_every_number(self):
        """The keys F6 to F20 have the numbers of the VT220, which omits 22, 27 and 30."""
        numbers = [number for number in range(17, 35) if number not in (22, 27, 30)]
        for key, number in zip(range(6, 21), numbers):
            self.assertEqual(acts_of_bytes(f"\x1b[{number}~".encode()), [f"key f{key}"])
        for digit, letter in enumerate("pqrstuvwxy"):
            self.assertEqual(acts_of_bytes(f"\x1bO{letter}".encode()), [f"key pad{digit}"])
