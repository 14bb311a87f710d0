"""Compares the words that editors/ highlights in process files with those of the forms of lines, and of the server's questions."""
import os
import re

import line_forms
import reasons

EDITORS = os.path.join(os.path.dirname(os.path.dirname(os.path.abspath(__file__))), "editors")
# What is no question by itself stands in front of a unit, or of a group.
ASKED = {form.split()[1] for form in reasons.QUESTIONS} | {"if", "move"}


def content(*path):
    with open(os.path.join(EDITORS, *path), encoding="utf-8") as file:
        return file.read()


def what_differs(found, wanted):
    return None if found == wanted else "it lacks %s and has besides %s" % (sorted(wanted - found), sorted(found - wanted))


def tried():
    """The name of each comparison with what differs, or None."""
    vim, code = content("vim", "syntax", "adept.vim"), content("vscode", "syntaxes", "adept.json")
    wanted = line_forms.KEYWORDS - {"adept"}
    yield "the words that vim highlights", what_differs(set(re.search("adeptWord (.*)", vim).group(1).split()), wanted)
    yield "the words that VS Code highlights", what_differs(set(re.search(r'\(\?:(act\|[^)]*)\)', code).group(1).split("|")), wanted)
    yield "the questions that vim highlights", what_differs(set(re.search(r"\\\((report.*)\\\)", vim).group(1).split("\\|")), ASKED)
    yield "the questions that VS Code highlights", what_differs(set(re.search(r'\(\?:(report\|[^)]*)\)', code).group(1).split("|")), ASKED)
