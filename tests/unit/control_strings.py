"""Random control strings, like those of a hostile program: whole, unended, nested, and cut anywhere."""

# Their parts.
OPENERS = (b"\x1b]", b"\x1bP", b"\x1b_", b"\x1b^", b"\x1bX", b"\x1b[", b"\x1b", b"\xc2\x9d", b"\xc2\x9b", b"\xc2\x90", b"\x9d", b"\x9b",
           b"")
BODIES = (b"52;c;?", b"52;c;YQ==", b"52;;YQ==", b"52;p;", b"2;title", b"0;", b"2;\xe6\x97\xa5", b"10;?", b"11;?", b"4;1;?", b"6n", b"c",
          b">c", b"?1003h", b"?1049l", b"21t", b"8;1;1t", b"5 q", b"!p", b"$qm", b"+q544e", b"\xe2\x80\xae", b"\xed\xa0\x80", b"\xff\xfe",
          b"a" * 300, b" ", b"\n", b"\r")
ENDS = (b"\x07", b"\x1b\\", b"\xc2\x9c", b"\x9c", b"\x18", b"\x1a", b"\x00", b"\x7f", b"")


def controls(chance):
    """Return random control strings, some of them nested."""
    parts = (chance.choice(kind) for _ in range(chance.randint(1, 3)) for kind in (OPENERS, BODIES, ENDS))
    return b"".join(parts)


def chunks(chance, text):
    """Return a text, cut at random."""
    places = sorted(chance.randint(0, len(text)) for _ in range(chance.randint(0, 4)))
    return [text[begin:end] for begin, end in zip([0, *places], [*places, len(text)])]
