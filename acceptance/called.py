"""Tries each program where it is called by a name that is no UTF-8, as in a folder of such a name: it works as elsewhere.

What a word that is no UTF-8 does stands in the cases of command-line/ and fitting/, and in keeps.py.
"""
import os
import shutil
import tempfile

import closed


def what_differs(program, name):
    """None where the program does its work in a folder whose name is no UTF-8."""
    words, given, output, _ = closed.PROGRAMS[name]
    with tempfile.TemporaryDirectory(prefix="acceptance-") as folder:
        inside = os.path.join(os.fsencode(folder), b"caf\xe9")
        os.mkdir(inside)
        copy = shutil.copy(os.fsencode(program), inside)
        got = closed.run(copy, words, given, inside)
    return None if got == (0, output, b"") else "wanted %s, got %s" % ((0, output, b""), got)


def tried(programs):
    for name, program in programs.items():
        yield name + " in a folder whose name is no UTF-8", what_differs(program, name)
