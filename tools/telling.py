"""How mistakes and refused calls are told to people: as lines, in colours where standard output is a terminal."""
import os
import sys

import mistakes
from processes import WORD

BOLD, RED, YELLOW, PLAIN = "\033[1m", "\033[31m", "\033[33m", "\033[0m"
LONGEST = 300


def in_colour(colour, text):
    return colour + text + PLAIN if sys.stdout.isatty() and not os.environ.get("NO_COLOR") else text


def shown(text):
    """A text without what a terminal would not show: such bytes are written as \\xNN."""
    return "".join(
        "\\x%02x" % (ord(char) & 255) if "\udc80" <= char <= "\udcff" else
        "".join("\\x%02x" % byte for byte in char.encode()) if char < " " and char != "\t" or "\x7f" <= char < "\xa0" else char
        for char in text)


def marked(mistake):
    """The line, and below it the words at fault."""
    line, under, faulty = mistake.shown, "", list(mistake.faulty)
    for word in WORD.finditer(line):
        if faulty and word.group() == faulty[0]:
            under = under.ljust(len(shown(line[:word.start()]))) + "~" * len(shown(faulty.pop(0)))
    return shown(line)[:LONGEST], under[:LONGEST]


def head(mistake):
    """Which lines it is about, of which those that follow one another are told as a range, and what the program says."""
    found = mistake.numbers
    lines = "line %s" % found[0] if len(found) == 1 else "lines %s to %s" % (found[0], found[-1])
    return "%s: %s" % (in_colour(BOLD, lines), in_colour(RED, mistake.why))


def body(mistake):
    """The line with the words at fault, other lines that have to do with it, and sentences."""
    line, under = marked(mistake)
    if line.strip():
        yield "    " + line
    if under:
        yield "    " + in_colour(YELLOW, under)
    for other in mistake.beside:
        if other is not None and other.number and other.number not in mistake.numbers:
            yield "    line %d: %s" % (other.number, shown(other.original.decode("utf-8", "replace").strip())[:LONGEST])
    for sentence in mistake.says:
        yield "  " + shown(sentence)


def merged(found):
    """The mistakes, of which those that follow one another and are the same are one."""
    kept = None
    for mistake in found:
        if kept and mistake.key and mistake.key == kept.key and mistake.numbers[0] == kept.numbers[-1] + 1:
            kept.numbers += mistake.numbers
            continue
        if kept:
            yield kept
        kept = mistake
    if kept:
        yield kept


def all_of(draft):
    """All mistakes that are found in a draft; at last perhaps a text, why no more are told."""
    stopped = None

    def seen():
        nonlocal stopped
        try:
            yield from mistakes.found(draft)
        except mistakes.Stopped as why:
            stopped = why.args[0]

    yield from merged(seen())
    if stopped:
        yield stopped
