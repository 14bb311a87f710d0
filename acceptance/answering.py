"""What the server answers to a talk, told by `PROGRAM play`: a second reading of docs/SERVE.md.

A unit is tried by a process file of format 3: the units so far and this one behind them.  Its entries are what the report
of that file has more than the report before; what a question asks for is taken from the report.  So this holds for talks
within the limits of a process file, and takes a run of `play` for each unit.
"""
import os
import re
import subprocess
import sys

TOP = os.path.dirname(os.path.dirname(os.path.abspath(__file__)))
sys.path.append(os.path.join(TOP, "tools"))
import talks

SECONDS = 60
HEADER = b"adept 3\n"
LONGEST = 8388608
NAME = re.compile(rb"[A-Za-z_][A-Za-z0-9_.-]{0,63}$")
REFUSED = re.compile(rb"adept: line (\d+): (.*)\n$")
BEHIND_IF = re.compile(rb"[ \t]*\?[ \t]+if")
STATE = re.compile(rb"state (\d+ (?:running|finished) own=\d+|none)$")
# Questions, with how many names stand behind the word.
QUESTIONS = {b"report": (0,), b"type": (1,), b"case": (1,), b"cases": (0, 1), b"items": (0, 1), b"types": (0,), b"actors": (0,),
             b"count": (0,), b"last": (0,), b"lines": (0,)}


class Part:
    """A type or a case of a report: its first line, its journal, and the lines behind that."""

    def __init__(self, first):
        self.first, self.journal, self.end = first, [], []

    def lines(self):
        return [self.first, *self.journal, *self.end]

    def items(self):
        """The work items of a case; none where it was not created."""
        words = self.end[-1].split(b" ")
        return words[1:] if words[0] == b"items" else []


class Report:
    """A report, taken apart."""

    def __init__(self, text):
        self.lines = text.split(b"\n")[:-1]
        self.types, self.cases = {}, {}
        part = None
        for line in self.lines[1:-1]:
            words = line.split(b" ")
            if words[0] in (b"type", b"case") and len(words) == (2 if words[0] == b"type" else 3):
                part = Part(line)
                (self.types if words[0] == b"type" else self.cases)[words[1]] = part
            elif line[:1].isdigit():
                part.journal.append(line)
            else:
                part.end.append(line)

    def behind(self, old):
        """The entries that this report has more than an older one: of types, and then of cases."""
        for kind, parts, before in ((b"type", self.types, old.types), (b"case", self.cases, old.cases)):
            for name, part in parts.items():
                for line in part.journal[len(before[name].journal) if name in before else 0:]:
                    yield b"%s %s %s" % (kind, name, line)


def is_text(line):
    try:
        line.decode()
    except UnicodeDecodeError:
        return False
    return True


def role_text(word):
    return b"%d" % int(word) if word.isdigit() else word


def quoted(data):
    return [b"| " + line for line in data.split(b"\n")[:-1]]


class Model:
    """What is held, and what is answered."""

    def __init__(self, program, units=()):
        self.program, self.units, self.last, self.is_first = program, [], [], True
        self.report = Report(self.play(HEADER)[1])
        for unit in units:
            self.unit(unit)

    def play(self, given):
        """The status with which `play` ends on a file, what it writes and what it says."""
        done = subprocess.run([*self.program, "play"], input=given, timeout=SECONDS, stdout=subprocess.PIPE, stderr=subprocess.PIPE, check=False)
        return done.returncode, done.stdout, done.stderr

    def file(self):
        return HEADER + b"".join(self.units)

    def actors(self):
        """The actors with their roles as they are printed, in order of declaration."""
        found = {}
        for unit in self.units:
            for line in unit.split(b"\n"):
                words = talks.words_of(line)
                if not talks.is_skipped(words):
                    if words[0] == b"actor":
                        found[words[1]] = [role_text(word) for word in words[3:]]
                    break
        return found

    def answer(self, data):
        """The answer to an item."""
        item = talks.Item()
        for line in data.split(b"\n")[:-1]:
            item.take(line + b"\n")
        is_first, self.is_first = self.is_first, False
        if len(data) > LONGEST:
            return b"no %d limit bytes\n" % (1 + self.within(data))
        if item.is_question():
            lines = self.question(item)
        elif is_first and talks.words_of(item.said[0][:-1]) in talks.HEADERS:
            lines = []
        else:
            lines = self.unit(data)
        if isinstance(lines, bytes):
            return b"no %s\n" % lines
        return b"".join(line + b"\n" for line in [*lines, b"ok %d" % len(self.units)])

    def within(self, data):
        """How many lines say something and end within the longest item."""
        lines = data[:LONGEST].split(b"\n")[:-1]
        return sum(not talks.is_skipped(talks.words_of(line)) for line in lines)

    def rest(self, data):
        """What is said of a rest."""
        lines = data.split(b"\n")
        said = [line for line in lines[:-1] if not talks.is_skipped(talks.words_of(line))]
        if not said and not lines[-1]:
            return b""
        if len(data) > LONGEST:
            return b"no %d limit bytes\n" % (1 + self.within(data))
        return b"no %d unended\n" % (1 + len(said))

    def tried(self, held, old, data):
        """The entries of a unit behind a file and its report, or why it is refused; and the file and the report with it."""
        status, text, said = self.play(held + data)
        if status:
            number, why = REFUSED.match(said).groups()
            lines = data.split(b"\n")[:int(number) - held.count(b"\n")]
            return b"%d %s" % (sum(not talks.is_skipped(talks.words_of(line)) for line in lines), why), held, old
        report = Report(text)
        return list(report.behind(old)), held + data, report

    def unit(self, data):
        """The entries of a unit, or why it is refused."""
        found, held, self.report = self.tried(self.file(), self.report, data)
        if isinstance(found, list):
            self.units.append(data)
            self.last = found
        return found

    def question(self, item):
        """What a question asks for, or why it is refused."""
        line, words = item.said[0], talks.words_of(item.said[0][:-1])
        behind = b"".join(item.lines[item.lines.index(line) + 1:])
        if words[:2] == [b"?", b"if"]:
            return self.what_if(words[2:], BEHIND_IF.sub(b"", line, count=1) + behind)
        if words[:2] == [b"?", b"move"]:
            return self.move(line, words[2:], behind)
        if not is_text(line):
            return b"1 form"
        if len(words) < 2 or words[0] != b"?" or len(words) - 2 not in QUESTIONS.get(words[1], ()) or not all(map(NAME.match, words[2:])):
            return b"1 form"
        asked = getattr(self, words[1].decode() + "_asked")(*words[2:])
        return b"1 unknown" if asked is None else asked

    def what_if(self, words, unit):
        """What a unit would be answered."""
        if not words or words[0] == b"?" or words[0].startswith(b"#"):
            return b"1 form"
        return self.tried(self.file(), self.report, unit)[0]

    def move(self, line, words, behind):
        """What an install would be answered, and where it is installed what a migrate would be behind it."""
        if not is_text(line):
            return b"1 not-text"
        if len(words) != 2 or words[0] in (talks.GROUP, *talks.LINES) or words[0].startswith(b"#"):
            return b"1 form"
        actor, kind = words
        installed, held, report = self.tried(self.file(), self.report, b"%s install %s\n%s" % (actor, kind, behind))
        if isinstance(installed, bytes) or b" -> installed " not in installed[0]:
            return installed
        return installed + self.tried(held, report, b"%s migrate %s\n" % (actor, kind))[0]

    def report_asked(self):
        return self.report.lines

    def type_asked(self, name):
        return self.report.types[name].lines() if name in self.report.types else None

    def case_asked(self, name):
        return self.report.cases[name].lines() if name in self.report.cases else None

    def cases_asked(self, name=None):
        if name is not None and name not in self.report.types:
            return None
        return [part.first + b" " + STATE.match(part.end[0])[1] for part in self.report.cases.values()
                if name is None or part.first.split(b" ")[2] == name]

    def items_asked(self, actor=None):
        actors = self.actors()
        if actor is not None and actor not in actors:
            return None
        return [b"item %s %s" % (name, item) for name, part in self.report.cases.items() for item in part.items()
                if actor is None or self.concerns(item, actor, actors[actor])]

    def concerns(self, item, actor, roles):
        _, sign, who = re.match(rb"(.*)([@:])(.*)", item).groups()
        return who == actor if sign == b":" else who == b"0" or who in roles

    def types_asked(self):
        cases = [part.first.split(b" ")[2] for part in self.report.cases.values()]
        return [b"type %s versions=%d cases=%d" % (name, 1 + sum(b" -> installed " in line for line in part.journal), cases.count(name))
                for name, part in self.report.types.items()]

    def actors_asked(self):
        return [b" ".join([b"actor", name, *([b"roles", *roles] if roles else [])]) for name, roles in self.actors().items()]

    def count_asked(self):
        return []

    def last_asked(self):
        return quoted(self.units[-1]) + self.last if self.units else []

    def lines_asked(self):
        return quoted(b"".join(self.units))


def answers(program, data, units=()):
    """The answers to a talk over a store that holds units, and the units that it holds behind it."""
    model = Model(program, units)
    found, rest = talks.items(data)
    said = b"".join([*map(model.answer, found), model.rest(rest)])
    return said, model.units
