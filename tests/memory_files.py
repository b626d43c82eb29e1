#!/usr/bin/env python3
"""Memory files, written a second time from document 01's sentences alone.

Compares what this file expects with crates/check_files/stdout, the output that the gate holds
the program to. The texts that are tried are read from the program's source; what is expected of them is not.

    python3 tests/memory_files.py
"""
import ast
import re
import sys
from pathlib import Path

CRATES = Path(__file__).resolve().parent.parent / "crates"
SOURCE = CRATES / "check_files" / "src"
DONE = (0, 0, 0)
WRONG_LENGTH = (1, 0, 0)


def lines(text):
    """The last LF may be missing."""
    parts = text.split(b"\n")
    return parts[:-1] if parts[-1] == b"" else parts


def read_words(text, words, digits):
    """Asks 10, then 9, of the first bad line; missing lines are zero. Gives what is told, and the memory unless refused."""
    memory = []
    for place, line in enumerate(lines(text), 1):
        if place > words:
            return (10, place, 0), None
        if not re.fullmatch(rb"[0-9A-Fa-f]{%d}" % digits, line):
            return (9, place, 0), None
        memory.append(int(line, 16))
    return DONE, memory + [0] * (words - len(memory))


def read_irq2(text, room):
    """Asks 10, 11, 12 in this order of the first bad line."""
    cycles = []
    for place, line in enumerate(lines(text), 1):
        if place > room:
            return (10, place, 0), []
        if not re.fullmatch(rb"[0-9]{1,13}", line) or int(line) > 2**40 - 2:
            return (11, place, 0), []
        if cycles and int(line) <= cycles[-1]:
            return (12, place, 0), []
        cycles.append(int(line))
    return (0, 0, len(cycles)), cycles


def write_words(words, digits, room):
    """Every word, in capitals; 15 where the whole text doesn't fit."""
    text = b"".join(b"%0*X\n" % (digits, word % 16**digits) for word in words)
    return ((15, 0, 0), b"") if len(text) > room else ((0, 0, len(text)), text)


def write_part(first, sectors, room):
    """A part of a disk whose words are their own places."""
    if sectors == 0 or first + sectors > 128:
        return WRONG_LENGTH, b""
    return write_words(range(128 * first, 128 * (first + sectors)), 8, room)


def tried(module, function):
    """The arguments of each try_.. call in a function of check_files."""
    body = (SOURCE / module).read_text().split("pub fn " + function, 1)[1].split("\n}", 1)[0]
    return [ast.literal_eval("(" + call + ")") for call in re.findall(r"try_\w+\((.*)\);", body)]


def shown(point, told, words=()):
    return " ".join([point.decode() + ":"] + [str(n) for n in told] + ["%x" % w for w in words])


def sector_line(point, text):
    told, memory = read_words(text, 128, 8)
    memory = memory or [0xA5] * 128
    return shown(point, told, (memory[0], memory[1], memory[127]))


def changed_line(point, place, byte):
    text = bytearray(write_words([0] * 128, 8, 1152)[1] + b"0")
    text[place] = byte
    return sector_line(point, bytes(text))


def cycles_line(point, text):
    told, cycles = read_irq2(text, 3)
    return shown(point, told, (cycles + [7] * 3)[:3])


def part_line(point, first, sectors, room):
    told, text = write_part(first, sectors, room)
    memory = text + b"." * (4096 - len(text))
    return shown(point, told, [memory[place] for place in (5, 6, 7, 1150, 1151, 3456)])


def length_lines():
    told, text = write_words([0xFFFF_8000_0000_0001] * 4096, 12, 53249)
    yield shown(b"F12 image written", told)
    told, image = read_words(text, 4096, 12)
    yield shown(b"F11 image back", told, (image[0], image[4095]))
    yield shown(b"F12 image", WRONG_LENGTH)
    yield shown(b"F12 data", WRONG_LENGTH)
    yield shown(b"F13 33 sectors", DONE)
    yield shown(b"F12 data written", WRONG_LENGTH)
    yield shown(b"F12 frame", WRONG_LENGTH)
    yield shown(b"F12 frame written", WRONG_LENGTH)
    yield shown(b"F13 no whole sector", WRONG_LENGTH)


def check_files():
    expected = [sector_line(*case) for name in ("refused", "accepted") for case in tried("sector.rt", name)]
    expected += [changed_line(*case) for case in tried("sector.rt", "past_the_end")]
    expected += [cycles_line(*case) for name in ("accepted", "refused") for case in tried("cycles.rt", name)]
    expected += [part_line(*case) for case in tried("written.rt", "disk")]
    expected += length_lines()
    _, memory = read_words((CRATES / "check_files" / "stdin").read_bytes(), 128, 8)
    return "".join(line + "\n" for line in expected).encode() + write_words(memory, 8, 1152)[1]


def main():
    same = check_files() == (CRATES / "check_files" / "stdout").read_bytes()
    print("the output is as expected" if same else "the output differs")
    return 0 if same else 1


sys.exit(main())
