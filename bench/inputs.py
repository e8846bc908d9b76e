#!/usr/bin/env python3
"""Seeded inputs for the benchmarks: inputs.py FOLDER MEGABYTES KIND..

Each kind makes one file of its name, a stream of bytes as a program in raw mode writes it (CR LF line ends). The same size gives the same
bytes on every machine.

- prose: words in lines of up to 120 characters, so that about a third of them wraps at 80 columns
- colours: a new rendition (SGR) every 1 to 6 characters, with 1 to 10 parameters
- cjk: Chinese, kana, Hangul, Cyrillic, and Latin with combining marks
- redraw: full-screen frames addressed by CUP, with EL and ED
- log: time, coloured level and text in each line, and bursts of short lines, so that it always scrolls
"""
import os
import random
import sys

ESC = "\x1b"
WORDS = ("the of and a to in is you that it he was for on are as with his they at be this have from or one had by word but not "
         "what all were we when your can said there use an each which she do how their if will up other about out many then them "
         "terminal screen buffer session cursor window server client packet state sequence").split()
LATIN = "abcdefghijklmnopqrstuvwxyzàâçéèêëîïôùûüñöä"
CYRILLIC = [chr(c) for c in range(0x0410, 0x0450)]
CHINESE = [chr(c) for c in range(0x4E00, 0x4E00 + 3000)]
KANA = [chr(c) for c in range(0x3041, 0x3097)]
HANGUL = [chr(c) for c in range(0xAC00, 0xAC00 + 2000)]
MARKS = [chr(c) for c in range(0x0300, 0x0334)]


def words(r, width):
    text = ""
    while len(text) < width:
        text += r.choice(WORDS) + " "
    return text[:width]


def prose(r):
    return words(r, r.randrange(121)) + "\r\n"


def rendition(r):
    kind = r.randrange(7)
    if kind == 0:
        return f"{ESC}[0m"
    if kind == 1:
        return f"{ESC}[{30 + r.randrange(8)}m"
    if kind == 2:
        return f"{ESC}[{40 + r.randrange(8)};{90 + r.randrange(8)}m"
    if kind == 3:
        return f"{ESC}[38;5;{r.randrange(256)}m"
    if kind == 4:
        return f"{ESC}[38;5;{r.randrange(256)};48;5;{r.randrange(256)}m"
    if kind == 5:
        return f"{ESC}[38;2;{r.randrange(256)};{r.randrange(256)};{r.randrange(256)}m"
    return f"{ESC}[{r.choice((1, 2, 3, 4, 5, 7, 8, 9, 22, 24, 27, 39, 49))}m"


def colours(r):
    return "".join(rendition(r) + words(r, r.randrange(1, 7)) for _ in range(20)) + f"{ESC}[m\r\n"


def cjk(r):
    count = r.randrange(5, 60)
    kind = r.randrange(5)
    if kind == 4:
        return "".join(r.choice(LATIN) + (r.choice(MARKS) if r.random() < 0.4 else "") for _ in range(count)) + "\r\n"
    return "".join(r.choice((CHINESE, KANA, HANGUL, CYRILLIC)[kind]) for _ in range(count)) + "\r\n"


def redraw(r):
    text = f"{ESC}[H{ESC}[J"
    for _ in range(20):
        text += f"{ESC}[{r.randrange(1, 25)};{r.randrange(1, 40)}H{words(r, r.randrange(5, 40))}{ESC}[K"
    for _ in range(40):
        text += f"{ESC}[{r.randrange(1, 25)};{r.randrange(1, 78)}H{words(r, 3)}"
    return text


def log(r):
    level, colour = r.choice((("DEBUG", 36), ("INFO", 32), ("WARN", 33), ("ERROR", 31)))
    burst = "y\r\n" * r.randrange(50) if r.random() < 0.02 else ""
    time = f"2026-{r.randrange(1, 13):02d}-{r.randrange(1, 29):02d}T{r.randrange(24):02d}:{r.randrange(60):02d}"
    return f"{burst}{time} {ESC}[{colour}m{level:5}{ESC}[0m {words(r, r.randrange(10, 110))}\r\n"


KINDS = {kind.__name__: kind for kind in (prose, colours, cjk, redraw, log)}


def main():
    folder, size = sys.argv[1], int(float(sys.argv[2]) * 1_000_000)
    os.makedirs(folder, exist_ok=True)
    for name in sys.argv[3:]:
        r = random.Random(name)
        pieces, have = [], 0
        while have < size:
            piece = KINDS[name](r).encode()
            pieces.append(piece)
            have += len(piece)
        with open(os.path.join(folder, name), "wb") as file:
            file.write(b"".join(pieces)[:size])


main()
