"""The meanings of the capabilities of the entry tmux-256color, by terminfo(5) and the functions of VT100 and xterm that they name.

Each has an action and its visible effect. Only those in NAMED depend on roam's behaviour.
"""
from collections import namedtuple

from roam_live.protocol.screen_cells import Style

# The screen of 4 by 8 before a capability is written; that of 2 by 20 is blank.
TEXT = ("abcdefgh", "ijklmnop", "qrstuvwx", "yz012345")
FULL = "/".join(TEXT)
WIDE = 20

Shown = namedtuple("Shown", "rows cursor parameters at before behind said cols")
Styled = namedtuple("Styled", "flags foreground background parameters before")
Told = namedtuple("Told", "line parameters before behind")


def shown(rows, cursor, *parameters, at="2;3", before="", behind="", said="", cols=8):
    """Return the expected screen: its rows without trailing blanks, the cursor, and the terminal's answers. Before, the cursor is put at a
    position, and a capability with parameters is written between two texts.
    """
    return Shown(rows, cursor, parameters, at, before, behind, said, cols)


def styled(flags="", foreground=None, background=None, parameters=(), before=""):
    """Return the style of a letter written after a capability, in the default style and after an earlier text."""
    return Styled(frozenset(flags.split()), foreground, background, parameters, before)


def told(line, *parameters, before="", behind=""):
    """Return the expected report beside the screen, with P for the pane and its generation."""
    return Told(line, parameters, before, behind)


# Capabilities with an effect on a screen; flags and numbers are tested by their promise.
SCREENS = {
    "OTbs": shown(FULL, "2 2 shown", behind="\b"),
    "OTpt": shown("/", "1 9 shown", at="1;3", behind="\t", cols=WIDE),
    "am": shown(f"{TEXT[0]}/12345678/9{TEXT[2][1:]}/{TEXT[3]}", "3 2 shown", at="2;1", behind="123456789"),
    "mir": shown(f"{TEXT[0]}/ijklmnop/qrXstuvw/{TEXT[3]}", "3 4 shown", before="\x1b[4h", behind="\x1b[3;3HX"),
    "xenl": shown(f"{TEXT[0]}/12345678/X{TEXT[2][1:]}/{TEXT[3]}", "3 2 shown", at="2;1", behind="12345678\r\nX"),
    "it": shown("/", "1 17 shown", at="1;1", behind="\t\t", cols=WIDE),
    "U8": shown(f"{TEXT[0]}/ij\u2500lmnop/{TEXT[2]}/{TEXT[3]}", "2 4 shown", behind="\u2500"),
    "G0": shown(f"{TEXT[0]}/ij\u2500qmnop/{TEXT[2]}/{TEXT[3]}", "2 5 shown", behind="\x1b(0q\x1b(Bq"),
    "bel": shown(FULL, "2 3 shown"),
    "cbt": shown("/", "1 9 shown", at="1;12", cols=WIDE),
    "civis": shown(FULL, "2 3 hidden"),
    "clear": shown("///", "1 1 shown"),
    "cnorm": shown(FULL, "2 3 shown", before="\x1b[?25l"),
    "cr": shown(FULL, "2 1 shown"),
    "csr": shown(f"{TEXT[0]}/{TEXT[2]}/X/{TEXT[3]}", "3 2 shown", 1, 2, behind="\x1b[3;1H\nX"),
    "cub": shown(FULL, "2 3 shown", 2, at="2;5"),
    "cub1": shown(FULL, "2 2 shown"),
    "cud": shown(FULL, "4 3 shown", 2),
    "cud1": shown(FULL, "3 3 shown"),
    "cuf": shown(FULL, "2 6 shown", 3),
    "cuf1": shown(FULL, "2 4 shown"),
    "cup": shown(FULL, "2 5 shown", 1, 4, at="4;8"),
    "cuu": shown(FULL, "2 3 shown", 2, at="4;3"),
    "cuu1": shown(FULL, "2 3 shown", at="3;3"),
    "dch": shown(f"{TEXT[0]}/ijmnop/{TEXT[2]}/{TEXT[3]}", "2 3 shown", 2),
    "dch1": shown(f"{TEXT[0]}/ijlmnop/{TEXT[2]}/{TEXT[3]}", "2 3 shown"),
    "dl": shown(f"{TEXT[0]}/{TEXT[3]}//", "2 1 shown", 2, at="2;1"),
    "dl1": shown(f"{TEXT[0]}/{TEXT[2]}/{TEXT[3]}/", "2 1 shown", at="2;1"),
    "ed": shown(f"{TEXT[0]}/ij//", "2 3 shown"),
    "el": shown(f"{TEXT[0]}/ij/{TEXT[2]}/{TEXT[3]}", "2 3 shown"),
    "el1": shown(f"{TEXT[0]}/   lmnop/{TEXT[2]}/{TEXT[3]}", "2 3 shown"),
    "enacs": shown(f"{TEXT[0]}/ij\u2500qmnop/{TEXT[2]}/{TEXT[3]}", "2 5 shown", behind="\x0eq\x0fq"),
    "home": shown(FULL, "1 1 shown"),
    "hpa": shown(FULL, "2 5 shown", 4),
    "ht": shown("/", "1 9 shown", at="1;3", cols=WIDE),
    "hts": shown("/", "1 4 shown", at="1;4", behind="\r\t", cols=WIDE),
    "ich": shown(f"{TEXT[0]}/ij  klmn/{TEXT[2]}/{TEXT[3]}", "2 3 shown", 2),
    "il": shown(f"{TEXT[0]}///{TEXT[1]}", "2 1 shown", 2, at="2;1"),
    "il1": shown(f"{TEXT[0]}//{TEXT[1]}/{TEXT[2]}", "2 1 shown", at="2;1"),
    "ind": shown(f"{TEXT[1]}/{TEXT[2]}/{TEXT[3]}/", "4 1 shown", at="4;1"),
    "indn": shown(f"{TEXT[2]}/{TEXT[3]}//", "4 1 shown", 2, at="4;1"),
    "is2": shown(f"{TEXT[0]}/ij\u2500lmnop/{TEXT[2]}/{TEXT[3]}", "2 4 shown", behind="\x0eq"),
    "nel": shown(FULL, "3 1 shown"),
    "rc": shown(FULL, "2 3 shown", before="\x1b7\x1b[4;8H"),
    "ri": shown(f"/{TEXT[0]}/{TEXT[1]}/{TEXT[2]}", "1 1 shown", at="1;1"),
    "rin": shown(f"//{TEXT[0]}/{TEXT[1]}", "1 1 shown", 2, at="1;1"),
    "rmacs": shown(f"{TEXT[0]}/ij\u2500qmnop/{TEXT[2]}/{TEXT[3]}", "2 5 shown", before="\x1b)0\x0eq", behind="q"),
    "rmcup": shown(FULL, "2 3 shown", before="\x1b[?1049h\x1b[HX"),
    "rmir": shown(f"{TEXT[0]}/ijXlmnop/{TEXT[2]}/{TEXT[3]}", "2 4 shown", before="\x1b[4h", behind="X"),
    "rs2": shown("///", "1 1 shown", before="\x1b[?25l\x1b[2;3r\x1b[4h\x1b[1m"),
    "sc": shown(FULL, "2 3 shown", behind="\x1b[4;8H\x1b8"),
    "smacs": shown(f"{TEXT[0]}/ijq\u2500mnop/{TEXT[2]}/{TEXT[3]}", "2 5 shown", before="\x1b)0q", behind="q"),
    "smcup": shown(FULL, "2 3 shown", behind="\x1b[HX\x1b[?1049l"),
    "smir": shown(f"{TEXT[0]}/ijXklmno/{TEXT[2]}/{TEXT[3]}", "2 4 shown", behind="X"),
    "tbc": shown("/", "1 20 shown", at="1;3", behind="\t", cols=WIDE),
    "u7": shown(FULL, "2 3 shown", said="\x1b[2;3R"),
    "vpa": shown(FULL, "3 3 shown", 2),
    "E0": shown(f"{TEXT[0]}/ij\u2500qmnop/{TEXT[2]}/{TEXT[3]}", "2 5 shown", before="\x1b(0q", behind="q"),
    "S0": shown(f"{TEXT[0]}/ijq\u2500mnop/{TEXT[2]}/{TEXT[3]}", "2 5 shown", ord("0"), before="q", behind="q"),
    # These have no effect on a screen, and roam ignores them.
    "cvvis": shown(FULL, "2 3 shown"),
    "flash": shown(FULL, "2 3 shown"),
    "E3": shown(FULL, "2 3 shown"),
    "Cr": shown(FULL, "2 3 shown"),
    "Cs": shown(FULL, "2 3 shown", "red"),
    # It is a query; `u8` describes the answer.
    "u9": shown(FULL, "2 3 shown", said="\x1b[?62;6c"),
}

# The characters of the second set for the letters of acsc, by the table of the VT100; those in NAMED show themselves there, or another
# character.
GRAPHICS = {"`": "\u25c6", "a": "\u2592", "f": "\u00b0", "g": "\u00b1", "j": "\u2518", "k": "\u2510", "l": "\u250c", "m": "\u2514",
            "n": "\u253c", "o": "\u23ba", "p": "\u23bb", "q": "\u2500", "r": "\u23bc", "s": "\u23bd", "t": "\u251c", "u": "\u2524",
            "v": "\u2534", "w": "\u252c", "x": "\u2502", "y": "\u2264", "z": "\u2265", "{": "\u03c0", "|": "\u2260", "}": "\u00a3",
            "~": "\u00b7", "+": "+", ",": ",", "-": "-", ".": ".", "0": "0", "h": "\u2424", "i": "\u240b"}

# The styles: each capability once or more.
STYLES = {
    "msgr": [styled("reverse", before="\x1b[7m\x1b[24;1H\r\n\x1b[1;1H")],
    "AX": [styled(before="\x1b[31;42m\x1b[39m\x1b[49m")],
    "colors": [styled("", 255, before="\x1b[38;5;255m")],
    "pairs": [styled("", 200, 100, before="\x1b[38;5;200m\x1b[48;5;100m")],
    "blink": [styled("blink")],
    "bold": [styled("bold")],
    "dim": [styled("faint")],
    "invis": [styled("conceal")],
    "op": [styled("bold", before="\x1b[1;31;42m")],
    "rev": [styled("reverse")],
    "ritm": [styled("bold", before="\x1b[1;3m")],
    "rmso": [styled("bold", before="\x1b[1;7m")],
    "rmul": [styled("bold", before="\x1b[1;4m")],
    "rmxx": [styled("bold", before="\x1b[1;9m")],
    "setab": [styled("", None, number, (number,)) for number in (0, 7, 8, 15, 16, 255)],
    "setaf": [styled("", number, None, (number,)) for number in (0, 7, 8, 15, 16, 255)],
    "sgr": [styled(flags, None, None, numbers, "\x1b[3;31m") for flags, numbers in (
        ("", (0,) * 9), ("reverse", (1,) + (0,) * 8), ("underline", (0, 1) + (0,) * 7), ("reverse", (0, 0, 1) + (0,) * 6),
        ("blink", (0, 0, 0, 1) + (0,) * 5), ("faint", (0,) * 4 + (1,) + (0,) * 4), ("bold", (0,) * 5 + (1, 0, 0, 0)),
        ("conceal", (0,) * 6 + (1, 0, 0)), ("bold underline reverse", (1, 1, 0, 0, 0, 1, 0, 0, 0)))],
    "sgr0": [styled("", before="\x1b[1;2;3;4;5;7;8;9;31;42m")],
    "sitm": [styled("italic")],
    "smso": [styled("reverse")],
    "smul": [styled("underline")],
    "smxx": [styled("strike")],
    # Each kind is an underline.
    "Smulx": [styled("", None, None, (0,), "\x1b[4m"), *(styled("underline", None, None, (kind,)) for kind in range(1, 6))],
}
DEFAULT = Style()

# The reports beside the screen.
ASIDES = {
    "bel": told("bell P"),
    "tsl": told("title P 61c3a9", behind="a\u00e9\x07"),
    "TS": told("title P 61c3a9", behind="a\u00e9\x07"),
    "fsl": told("title P 7a", before="\x1b]0;z"),
    "hs": told("title P 78", before="\x1b]0;x\x07"),
    "dsl": told("title P ", before="\x1b]0;x\x07"),
    "BE": told("modes P paste"),
    "BD": told("modes P", before="\x1b[?2004h"),
    "Ss": told("shape P 4", 4),
    "Se": told("shape P 2", before="\x1b[6 q"),
    "Ms": told("clip P YWJj", "c", "YWJj"),
}

# These are tested with the keys.
OF_KEYS = ("smkx", "rmkx", "PS", "PE")

# Capabilities that roam lacks, with the reason. Those that are in a table above too behave as in that table, and do no harm.
NAMED = {
    "km": "no eighth bit is set: a key with Alt comes as ESC and the key, as the person's terminal sends it, and characters are UTF-8",
    "cols": "the size is what the pseudo-terminal tells; a session has 24 by 80 at first, and a pane as much of it as is its own",
    "lines": "likewise",
    "acsc": "the VT220's set has no arrows and no solid block (+ , - . 0), and signs for NL and VT in place of a board of squares and a "
            "lantern (h i); where the locale has UTF-8 programs write their characters, as U8 asks for",
    "cvvis": "the cursor isn't made more visible; its shape is what Ss asks for",
    "flash": "there is no visible bell",
    "u8": "the answer to u9 is that of a VT220 (CSI ? 62 ; 6 c), not a VT100's",
    "u6": "it is the form of what is read, and holds as the answer to u7",
    "E3": "rows that scrolled off stay: the profile's ED has no 3",
    "Cs": "the cursor's colour is the person's terminal's own",
    "Cr": "likewise",
    "Smulx": "each kind is a plain underline, by the filter before a pane's terminal",
    "Ms": "it is told to front ends, and sets the clipboard where ROAM_CLIPBOARD is on",
}
