"""The input for comparisons of copy mode with tmux: a text, keys by name for the emacs and vi tables, and roam's copies."""
from modes_played import copy_keys
from roam_live.common.cell_widths import width_of
from roam_live.frontend.copymode.actions import COPY, LEAVE
from roam_live.frontend.copymode.mode import CopyMode
from roam_live.frontend.copymode.rows import Rows

# Paragraphs, soft-wrapped rows, separators, brackets, blanks at the beginning and the end, wide and combining characters.
TEXT = "".join(f"{line}\n" for line in (
    *(f"row {number} of the older ones, number-{number}" for number in range(1, 31)), "",
    "    indented: call(first, [second, {third}]) here",
    "a row that is so long that it goes on in the next one and, with words, in one more before it ends", "",
    "Alpha beta, gamma-delta /usr/lib/python3.11 x", "the second row: alpha again; ALPHA", "wide \u6f22\u5b57 and e\u0301 joined", "",
    "  blanks behind    ", "beta alpha", "last line"))


def rows_of(text, cols):
    """Return the rows of a text on a terminal of so many columns, in the scrollback process's form."""
    found = []
    for line in text.split("\n"):
        row, width = "", 0
        for letter in line:
            if width + width_of(letter) > cols:
                found.append(f"+{row}".encode())
                row, width = "", 0
            row += letter
            width += width_of(letter)
        found.append(f" {row}".encode())
    return found


def mode_of(text, is_vi, size, first=0):
    """Copy mode over such rows, all of which are there."""
    lines = rows_of(text, size[1])
    lines += [b" "] * (size[0] - len(lines))
    rows = Rows(first, first + len(lines), size[1])
    rows.put(first, lines)
    mode = CopyMode(rows, size[0], is_vi)
    answer_all(mode, mode.open)
    return mode


def answer_all(mode, does):
    """Do something, and answer each of its searches."""
    while True:
        try:
            return mode.attempt(does)
        except Exception as lack:
            if not hasattr(lack, "text"):
                raise
            mode.finds.put(lack, found_row(mode.rows, lack.first, lack.is_back, lack.text))


def found_row(rows, first, is_back, text):
    """Return the row after one, or before it, in which a match begins, like the host."""
    from roam_live.frontend.copymode.search import matches

    numbers = range(first - 1, rows.first - 1, -1) if is_back else range(first + 1, rows.end)
    return next((row for row in numbers if any(match[0][0] == row for match in matches(rows, row, text))), None)


def typed(mode, keys):
    """Type groups of bytes, and return the requests."""
    found = []
    for group in keys:
        for key in copy_keys(group):
            answer_all(mode, lambda key=key: mode.take(key))
            found += mode.asked
            mode.asked = []
            if any(asked.word == LEAVE or asked.leaves for asked in found):
                return found
    return found


def copied_by_roam(keys, is_vi, size):
    """Return the text copied by these keys; None if there is none."""
    found = [asked.text.gather().decode() for asked in typed(mode_of(TEXT, is_vi, size), keys) if asked.word == COPY]
    return (found[-1] or None) if found else None


TOP_EMACS, TOP_VI = b"\x1b<", b"g"

# The cases by name: keys that are typed in groups, each at once.
CASES = {
    "emacs": {
        "C-Space, C-e, M-w: the rest of a line": [TOP_EMACS, b"\x00", b"\x05", b"\x1bw"],
        "C-w copies too": [TOP_EMACS, b"\x00", b"\x05", b"\x17"],
        "C-f and C-n": [TOP_EMACS, b"\x06\x06\x06", b"\x00", b"\x0e\x0e", b"\x06\x06", b"\x1bw"],
        "C-b and C-p": [b"\x1b>", b"\x10\x10\x10", b"\x00", b"\x10", b"\x02\x02\x02", b"\x1bw"],
        "arrows": [TOP_EMACS, b"\x1b[C\x1b[C", b"\x00", b"\x1b[B", b"\x1b[D", b"\x1bw"],
        "C-a": [TOP_EMACS, b"\x0e\x05", b"\x00", b"\x01", b"\x1bw"],
        "Home and End": [TOP_EMACS, b"\x0e\x1b[F", b"\x00", b"\x1b[H", b"\x1bw"],
        "M-f": [TOP_EMACS, b"\x00", b"\x1bf", b"\x1bf", b"\x1bf", b"\x1bw"],
        "M-b": [TOP_EMACS, b"\x05", b"\x00", b"\x1bb", b"\x1bb", b"\x1bw"],
        "M-m": [b"\x1b>", b"\x12indented", b"\r", b"\x05", b"\x00", b"\x1bm", b"\x1bw"],
        "C-k": [TOP_EMACS, b"\x1bf", b"\x0b"],
        "M-3 C-n": [TOP_EMACS, b"\x00", b"\x1b3", b"\x0e", b"\x1bw"],
        "M-1 2 C-f": [TOP_EMACS, b"\x00", b"\x1b1", b"2\x06", b"\x1bw"],
        "C-v": [TOP_EMACS, b"\x00", b"\x16", b"\x1bw"],
        "Space": [TOP_EMACS, b"\x00", b" ", b" ", b"\x1bw"],
        "M-v": [b"\x1b>", b"\x00", b"\x1bv", b"\x1bw"],
        "PgUp and PgDn": [b"\x1b[5~", b"\x1b[5~", b"\x00", b"\x1b[6~", b"\x05", b"\x1bw"],
        "M-Down": [TOP_EMACS, b"\x00", b"\x1b[1;3B", b"\x1bw"],
        "M-Up": [b"\x1b>", b"\x00", b"\x1b[1;3A", b"\x1bw"],
        "C-Up and C-Down": [TOP_EMACS, b"\x0e\x0e", b"\x1b[1;5B", b"\x1b[1;5B", b"\x00", b"\x1b[1;5A", b"\x05", b"\x1bw"],
        "M-{": [b"\x1b>", b"\x00", b"\x1b{", b"\x1b{", b"\x1bw"],
        "M-}": [TOP_EMACS, b"\x00", b"\x1b}", b"\x1b}", b"\x1bw"],
        "M-R and M-r": [b"\x1b>", b"\x1bR", b"\x00", b"\x1br", b"\x1bw"],
        "g": [b"g5\r", b"\x1bR", b"\x00", b"\x05", b"\x1bw"],
        "R selects a block": [TOP_EMACS, b"\x06\x06", b"R", b"\x00", b"\x0e\x0e", b"\x06\x06\x06", b"\x1bw"],
        "R to the left": [TOP_EMACS, b"\x05", b"R", b"\x00", b"\x0e\x0e", b"\x02\x02\x02", b"\x1bw"],
        "f and ;": [TOP_EMACS, b"fo", b"\x00", b";", b"\x1bw"],
        "F": [TOP_EMACS, b"\x05", b"\x00", b"Fo", b"\x1bw"],
        "t and ,": [TOP_EMACS, b"tt", b"\x00", b"\x05", b",", b"\x1bw"],
        "T": [TOP_EMACS, b"\x05", b"\x00", b"To", b"\x1bw"],
        "C-s": [TOP_EMACS, b"\x13gamma", b"\r", b"\x00", b"\x05", b"\x1bw"],
        "C-s and n": [TOP_EMACS, b"\x13alpha", b"\r", b"n", b"\x00", b"n", b"\x1bw"],
        "C-r and N": [b"\x1b>", b"\x12alpha", b"\r", b"n", b"\x00", b"N", b"\x1bw"],
        "C-s of capitals": [TOP_EMACS, b"\x13Alpha", b"\r", b"\x00", b"\x05", b"\x1bw"],
        "C-g clears": [TOP_EMACS, b"\x00", b"\x0e", b"\x07", b"\x00", b"\x05", b"\x1bw"],
        "X and M-x": [TOP_EMACS, b"\x0eX", b"\x0e\x0e", b"\x00", b"\x1bx", b"\x1bw"],
        "M-C-f": [TOP_EMACS, b"\x13call", b"\r", b"\x00", b"\x1b\x06", b"\x1bw"],
        "M-C-b": [b"\x1b>", b"\x12here", b"\r", b"\x02\x02", b"\x00", b"\x1b\x02", b"\x1bw"],
        "rows that go on are joined": [TOP_EMACS, b"\x13a row that", b"\r", b"\x01", b"\x00", b"\x05", b"\x1bw"],
        "wide characters": [TOP_EMACS, b"\x13wide", b"\r", b"\x00", b"\x06\x06", b"\x1bw"],
        "blanks behind": [TOP_EMACS, b"\x13blanks", b"\r", b"\x01", b"\x00", b"\x0e", b"\x05", b"\x1bw"],
        "M-<, M->": [TOP_EMACS, b"\x00", b"\x1b>", b"\x1bw"],
    },
    "vi": {
        "Space, $, Enter": [TOP_VI, b" ", b"$", b"\r"],
        "C-j copies too": [TOP_VI, b" ", b"$", b"\n"],
        "l and j": [TOP_VI, b"lll", b" ", b"jj", b"ll", b"\r"],
        "h and k": [b"G", b"kkk", b" ", b"k", b"$", b"hhh", b"\r"],
        "0": [TOP_VI, b"j$", b" ", b"0", b"\r"],
        "w": [TOP_VI, b" ", b"w", b"w", b"w", b"\r"],
        "b": [TOP_VI, b"$", b" ", b"b", b"b", b"\r"],
        "e": [TOP_VI, b" ", b"e", b"e", b"\r"],
        "W": [TOP_VI, b"4W", b" ", b"W", b"\r"],
        "B": [TOP_VI, b"$", b" ", b"B", b"\r"],
        "E": [TOP_VI, b" ", b"7E", b"\r"],
        "^": [b"G", b"?indented\r", b"$", b" ", b"^", b"\r"],
        "D": [TOP_VI, b"w", b"D"],
        "2 D": [TOP_VI, b"w", b"2D"],
        "3 j": [TOP_VI, b" ", b"3j", b"\r"],
        "12 l": [TOP_VI, b" ", b"12l", b"\r"],
        "C-f": [TOP_VI, b" ", b"\x06", b"\r"],
        "C-b": [b"G", b" ", b"\x02", b"\x02", b"\r"],
        "C-d": [TOP_VI, b" ", b"\x04", b"\x04", b"\r"],
        "C-u": [b"G", b" ", b"\x15", b"\r"],
        "C-e and C-y": [TOP_VI, b"jj", b"\x05\x05\x05", b" ", b"\x19", b"$", b"\r"],
        "J and K": [TOP_VI, b"jj", b"JJJ", b" ", b"K", b"$", b"\r"],
        "{": [b"G", b" ", b"{", b"{", b"\r"],
        "}": [TOP_VI, b" ", b"}", b"}", b"\r"],
        "H, M and L": [b"G", b"H", b" ", b"M", b"\r"],
        "L": [b"g", b"L", b" ", b"$", b"\r"],
        ":": [b":7\r", b"H", b" ", b"$", b"\r"],
        "V": [TOP_VI, b"jll", b"V", b"\r"],
        "V and j": [TOP_VI, b"j", b"V", b"jj", b"\r"],
        "V and k": [TOP_VI, b"jjjj", b"V", b"kk", b"\r"],
        "V of rows that go on": [TOP_VI, b"/goes on\r", b"V", b"\r"],
        "v selects a block": [TOP_VI, b"ll", b" ", b"v", b"jj", b"lll", b"\r"],
        "C-v to the left": [TOP_VI, b"$", b"\x16", b" ", b"jj", b"hhh", b"\r"],
        "v past the end of a row": [b"G", b"?wide\r", b"0", b" ", b"v", b"jjj", b"20l", b"\r"],
        "o": [TOP_VI, b"jll", b" ", b"jj", b"o", b"k", b"\r"],
        "o of V": [TOP_VI, b"jjj", b"V", b"j", b"o", b"k", b"\r"],
        "V and G": [TOP_VI, b"jjj", b"V", b"G", b"\r"],
        "V, o and G": [TOP_VI, b"jjj", b"V", b"o", b"G", b"\r"],
        "V and g": [TOP_VI, b"jjj", b"V", b"g", b"\r"],
        "V, o and g": [TOP_VI, b"jjj", b"V", b"o", b"g", b"\r"],
        "f and ;": [TOP_VI, b"fo", b" ", b";", b"\r"],
        "F": [TOP_VI, b"$", b" ", b"Fo", b"\r"],
        "t and ,": [TOP_VI, b"tt", b" ", b"$", b",", b"\r"],
        "T": [TOP_VI, b"$", b" ", b"To", b"\r"],
        "2 f": [TOP_VI, b" ", b"2fo", b"\r"],
        "/ and n": [TOP_VI, b"/alpha\r", b" ", b"n", b"\r"],
        "? and N": [b"G", b"?alpha\r", b"n", b" ", b"N", b"\r"],
        "n goes round": [b"G", b"/number-7\r", b" ", b"$", b"\r"],
        "/ of capitals": [TOP_VI, b"/Alpha\r", b" ", b"$", b"\r"],
        "* searches the word": [TOP_VI, b"/beta\r", b"*", b" ", b"$", b"\r"],
        "# searches it back": [b"G", b"?beta\r", b"#", b" ", b"$", b"\r"],
        "Escape clears": [TOP_VI, b" ", b"j", b"\x1b", b"j", b" ", b"$", b"\r"],
        "X and M-x": [TOP_VI, b"jX", b"jj", b" ", b"\x1bx", b"\r"],
        "%": [TOP_VI, b"/call\r", b"f(", b" ", b"%", b"\r"],
        "A": [TOP_VI, b" ", b"e", b"A"],
        "BSpace": [TOP_VI, b"$", b" ", b"\x7f\x7f", b"\r"],
        "arrows and pages": [b"\x1b[5~", b"\x1b[5~", b" ", b"\x1b[6~", b"\x1b[A\x1b[C", b"\r"],
        "joined and wide": [TOP_VI, b"/wide\r", b" ", b"$", b"\r"],
        "match is copied": [TOP_VI, b"/gamma\r", b"\r"],
    },
}

# The known differences, and their reasons.
BEHIND = "since what tmux selects stays at the beginning of what is found, and the cursor goes behind it"
KNOWN = {("emacs", "C-s and n"): BEHIND, ("emacs", "C-r and N"): BEHIND}

# Random keys after a beginning, with one that selects among them; and the final copy.
CHANCE = {
    "vi": ((b"g", b"ll", b"X", b"/row\r"), b" ", b"\r",
           (b"h", b"j", b"k", b"l", b"w", b"b", b"e", b"W", b"B", b"E", b"0", b"$", b"^", b"g", b"G", b"H", b"M", b"L", b"\x06",
            b"\x02", b"\x04", b"\x15", b"\x05", b"\x19", b"{", b"}", b"%", b" ", b"V", b"v", b"o", b"fo", b"Fo", b"t-", b"Tr", b";", b",",
            b"n", b"N", b"/alpha\r", b"?row\r", b"X", b"\x1bx", b"\x1b", b"3j", b"5l", b"12k", b":9\r")),
    "emacs": ((b"\x1b<", b"\x06\x06", b"X"), b"\x00", b"\x1bw",
              (b"\x02", b"\x0e", b"\x10", b"\x06", b"\x1bf", b"\x1bb", b"\x01", b"\x05", b"\x1bm", b"\x1b<", b"\x1b>", b"\x1bR",
               b"\x1br", b"\x16", b"\x1bv", b"\x1b[1;3A", b"\x1b[1;3B", b"\x1b[1;5A", b"\x1b[1;5B", b"\x1b{", b"\x1b}", b"\x00", b"\x07",
               b"R", b"fo", b"Fo", b"t-", b"Tr", b";", b",", b"X", b"\x1bx", b"\x1b3\x0e", b"\x1b\x06", b"\x1b\x02", b"g9\r")),
}


def by_chance(chance, table):
    """Return random keys."""
    begins, selects, copies, keys = CHANCE[table]
    before, behind = ([chance.choice(keys) for _ in range(chance.randrange(1, 6))] for _ in range(2))
    return [*begins, *before, selects, *behind, copies]
