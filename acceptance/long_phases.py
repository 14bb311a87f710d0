#!/usr/bin/env python3
"""acceptance/long_phases.py FILE LINE..: prints a process file with so many more lines in each phase that its actors work in threads.

Behind the file's own lines of a phase stand the lines that are given, in turn, 64 in all: a shorter phase is worked by one
thread in the order of the file, and so nobody would race.
"""
import itertools
import os
import sys

sys.dont_write_bytecode = True
sys.path.insert(0, os.path.join(os.path.dirname(os.path.dirname(os.path.realpath(__file__))), "tools"))
import commands

MORE = 64


def lengthened(text, lines):
    head, *phases = text.split("\nphase\n")
    more = "\n".join(itertools.islice(itertools.cycle(lines), MORE))
    return "\nphase\n".join([head, *(phase.rstrip("\n") + "\n" + more for phase in phases)]) + "\n"


def main(words):
    if len(words) < 2:
        commands.usage(__doc__)
    with open(words[0], encoding="utf-8") as file:
        sys.stdout.write(lengthened(file.read(), words[1:]))


commands.run(main, __doc__)
