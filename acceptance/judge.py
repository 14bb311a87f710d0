#!/usr/bin/env python3
"""acceptance/judge.py FILE REPORT PROGRAM...

Judges whether REPORT is what a legal run of the process file FILE leaves, whatever way the turns of its actors fell, and
prints what is wrong with it.  Status 0: it is one.

What must hold in any legal run:
- the report has the file's types and cases in order, and each journal counts from 1;
- each journal has the calls of each actor's lines, in the order of the lines, once, and no others; a create or a migrate
  carries the version that the actor's own question, in the type's journal, was answered;
- in each journal the calls of one phase stand before those of the next;
- the replies, and the state in the end, are those that the machine gives for that order;
- the summary counts what the journals and the states show.

The machine is `PROGRAM play` on a file in which one actor after the other does what the journal says, on this cell alone.
"""
import collections
import os
import re
import subprocess
import sys

WORD = re.compile(r'(?:[^ \t"]|"(?:[^"\\]|\\.)*")+')
TEXT = re.compile(r'"(?:[^"\\]|\\.)*"')
ACCEPTED = {"created", "started", "ended", "repeated", "withdrawn", "changed", "migrated"}

# In format 3 a line that begins so declares something or begins a phase.
RESERVED = ("type", "actor", "case", "phase")

# A script line: its phase, its actor, what is done to what, the line itself with those of its group, and how many cases were
# declared before it.
Script = collections.namedtuple("Script", "phase actor verb target lines many")
# An entry of a journal: the caller, the event's first word, its second, the reply's words, and the line without its number.
Entry = collections.namedtuple("Entry", "caller verb second reply text")


class Illegal(Exception):
    """What is wrong with a report."""


class File:
    """A process file that the program takes: its declarations and its script."""

    def __init__(self, text):
        self.types, self.actors, self.cases, self.script = {}, [], {}, []
        self.nodes, self.elements = {"start": 0, "finish": 1}, {}
        lines = [line.rstrip("\r") for line in text.split("\n")]
        rows = [(WORD.findall(line), line) for line in lines if line.strip(" \t") and not line.lstrip(" \t").startswith("#")]
        self.format = rows[0][0][1]
        rows, phase = iter(rows[1:]), 0
        for words, line in rows:
            if words[0] == "phase" and len(words) == 1:
                phase += 1
            elif words[0] not in RESERVED if self.format == "3" else phase:
                phase = max(phase, 1)
                self.put_script(phase, words, line, rows)
            elif words[0] == "type":
                self.types[words[1]] = self.group(line, rows, self.see_type_line)
            elif words[0] == "actor":
                self.actors.append(line)
            else:
                self.cases[words[1]] = words[2]

    def put_script(self, phase, words, line, rows):
        actor, verb, target = words[:3]
        if verb in ("start", "end", "withdraw"):
            self.see(self.nodes, words[3])
            self.see(self.elements, *(word.split("=")[0] for word in words[4:] if "=" in word))
        grouped = verb in ("change", "install")
        lines = self.group(line, rows, self.see_operation) if grouped else [line]
        self.script.append(Script(phase, actor, verb, target, lines, len(self.cases)))

    @staticmethod
    def group(line, rows, see):
        lines = [line]
        for words, line in rows:
            lines.append(line)
            if words == ["end"]:
                break
            see(words)
        return lines

    # Names are numbered where they occur first, and lists are told by number.

    @staticmethod
    def see(names, *found):
        for name in found:
            names.setdefault(name, len(names))

    def see_type_line(self, words):
        if words[0] == "element":
            self.see(self.elements, words[1])
        elif words[0] in ("read", "write"):
            self.see(self.nodes, words[1])
            self.see(self.elements, words[2])
        elif words[0] not in ("branch", "done"):
            self.see(self.nodes, *words[1:2 if words[0] == "act" else 3])

    def see_operation(self, words):
        verb, rest = words[0], words[1:]
        if verb in ("insert", "parallel", "conditional"):
            self.see(self.nodes, rest[0])
            rest = rest[3:] if rest[1] == "role" else rest[1:]
            if verb != "insert":
                self.see(self.nodes, rest[1], rest[2])
                rest = rest[3:]
            self.see(self.nodes, *(rest[1:] if verb == "parallel" else rest[1:2]))
        elif verb == "element":
            self.see(self.elements, rest[0])
        elif verb in ("read", "unread", "write", "unwrite"):
            self.see(self.nodes, rest[0])
            self.see(self.elements, rest[1])
        elif verb == "move":
            self.see(self.nodes, rest[0], rest[2])
        else:
            self.see(self.nodes, *rest[:2 if verb in ("sync", "unsync") else 1])

    def calls(self):
        """The cells that each script line calls, in order, with the verb of the call."""
        for number, script in enumerate(self.script):
            if script.verb in ("create", "migrate"):
                kind = self.cases[script.target] if script.verb == "create" else script.target
                yield number, ("type", kind), "newest"
            if script.verb == "install":
                yield number, ("type", script.target), "install"
            elif script.verb == "migrate":
                for case in (name for name, kind in list(self.cases.items())[:script.many] if kind == script.target):
                    yield number, ("case", case), "migrate"
            else:
                yield number, ("case", script.target), script.verb

    def is_settled(self):
        """Whether in each phase each cell is called by one actor at most, so that there is one legal run."""
        callers = collections.defaultdict(set)
        for number, cell, _ in self.calls():
            callers[self.script[number].phase, cell].add(self.script[number].actor)
        return all(len(names) == 1 for names in callers.values())


class Report:
    """A report: the journals by cell, the lines of the end state by case, and the summary."""

    def __init__(self, text, format):
        self.journals, self.states = {}, {}
        if not text.endswith("\n"):
            raise Illegal("the last line has no line feed")
        lines = text[:-1].split("\n")
        if lines[0] != "adept report " + format:
            raise Illegal("the first line is %r" % lines[0])
        self.summary, cell = lines[-1], None
        for line in lines[1:-1]:
            words = line.split(" ")
            if words[0] in ("type", "case"):
                cell = (words[0], words[1])
                if cell in self.journals:
                    raise Illegal("this stands there twice: %s" % line)
                self.journals[cell], self.states[cell] = [], [line]
            elif cell is None:
                raise Illegal("this stands before any type: %s" % line)
            elif re.match(r"\d", line):
                self.journals[cell].append(entry_of(line, len(self.journals[cell]) + 1))
            else:
                self.states[cell].append(line)


def entry_of(line, number):
    """The entry that a journal's line shows; quoted texts may hold an arrow."""
    if not line.startswith("%d " % number):
        raise Illegal("the number %d is wanted: %s" % (number, line))
    text = line[line.index(" ") + 1:]
    arrow = TEXT.sub(lambda found: "x" * len(found[0]), text).index(" -> ")
    caller, verb, *more = text[:arrow].split(" ")
    return Entry(caller, verb, more[0] if more else "", text[arrow + 4:].split(" "), text)


def played(program, file, kind, script, cases=()):
    """The report of these lines, with one type and these cases, and with the names numbered as in the file."""
    numbers = "numbers"
    while numbers in file.types:
        numbers += "_"
    lines = ["adept " + file.format, "type " + numbers]
    lines += ["act " + node for node in list(file.nodes)[2:]] + ["element %s int" % element for element in file.elements] + ["end"]
    lines += file.types[kind] + file.actors + ["case %s %s" % (case, kind) for case in cases] + ["phase"] + script
    text = "".join(line + "\n" for line in lines)
    done = subprocess.run([*program, "play"], input=text.encode(), stdout=subprocess.PIPE, stderr=subprocess.PIPE)
    if done.returncode:
        raise Illegal("the machine's file ends with status %d: %s" % (done.returncode, done.stderr.decode()))
    return Report(done.stdout.decode(), file.format)


class Judge:
    def __init__(self, program, file, report):
        self.program, self.file, self.report = program, file, report
        self.lines = {}      # for each cell the script line of each entry
        self.answers = {}    # for each script line that asks for a version the one that was answered

    def judge(self):
        cells = [("type", name) for name in self.file.types] + [("case", name) for name in self.file.cases]
        heads = [["type", name] for name in self.file.types] + [["case", *pair] for pair in self.file.cases.items()]
        if [self.report.states[cell][0].split(" ") for cell in self.report.journals] != heads:
            raise Illegal("the types and cases are not those of the file, in order")
        self.match_lines()
        for cell in cells:
            try:
                (self.judge_type if cell[0] == "type" else self.judge_case)(cell)
            except Illegal as why:
                raise Illegal("%s %s: %s" % (*cell, why)) from None
        self.judge_summary()

    def match_lines(self):
        """Finds the script line of each entry: each caller's are its lines in order, once, phase after phase."""
        queues = collections.defaultdict(collections.deque)
        for number, cell, verb in self.file.calls():
            queues[cell, self.file.script[number].actor].append((number, verb))
        for cell, journal in self.report.journals.items():
            if cell[0] == "type" and (not journal or journal.pop(0).text != "- define -> defined"):
                raise Illegal("type %s: it is not defined first" % cell[1])
            self.lines[cell], phase = [], 0
            for entry in journal:
                queue = queues[cell, entry.caller]
                number, verb = queue.popleft() if queue else (None, None)
                if entry.verb != verb:
                    raise Illegal("%s %s: the caller's next call is %s: %s" % (*cell, verb or "none", entry.text))
                if self.file.script[number].phase < phase:
                    raise Illegal("%s %s: this call is of an earlier phase: %s" % (*cell, entry.text))
                phase = self.file.script[number].phase
                self.lines[cell].append(number)
                if verb == "newest":
                    self.answers[number] = entry.reply[1:]
                elif verb in ("create", "migrate") and self.answers.get(number) != [entry.second]:
                    raise Illegal("%s %s: the caller was answered another version: %s" % (*cell, entry.text))
        for (cell, actor), queue in queues.items():
            if queue:
                raise Illegal("%s %s: a call of %s is missing" % (*cell, actor))

    def judge_type(self, cell):
        kind, script = cell[1], []
        for number in self.lines[cell]:
            line = self.file.script[number]
            script += line.lines if line.verb == "install" else ["%s migrate %s" % (line.actor, kind)]
        compare(self.report.journals[cell], played(self.program, self.file, kind, script).journals[cell][1:])
        if len(self.report.states[cell]) > 1:
            raise Illegal("this is no entry: %s" % self.report.states[cell][1])

    def judge_case(self, cell):
        journal, kind = self.report.journals[cell], self.file.cases[cell[1]]
        first, later = self.orders(journal)
        for order in [first, *later]:
            found = played(self.program, self.file, kind, self.serial(cell, kind, order), [cell[1]])
            compare([journal[at] for at in order], found.journals[cell])
            if order is first and self.report.states[cell] != found.states[cell]:
                raise Illegal("the machine ends with %s: %s" % (found.states[cell][1:], self.report.states[cell][1:]))

    @staticmethod
    def orders(journal):
        """Which entries one serial file can show: versions rise there, while an actor may be late with an old one. What is
        refused changes nothing, so an entry that does not fit is shown alone behind what was accepted before it. A version
        that is older than the case's has one reply."""
        def version(at):
            return int(journal[at].second) if journal[at].verb in ("create", "migrate") else 0

        accepted = [at for at, entry in enumerate(journal) if entry.reply[0] in ACCEPTED]
        first, later, newest, base = [], [], 1, 0
        for at, entry in enumerate(journal):
            next_one = min((version(it) for it in accepted if it > at and version(it)), default=version(at))
            if version(at) and base and version(at) < base:
                wanted = ["already"] if entry.verb == "create" else ["not-newer", str(base)]
                if entry.reply != wanted:
                    raise Illegal("the reply is not %s: %s" % (" ".join(wanted), entry.text))
            elif at in accepted or not version(at) or newest <= version(at) <= next_one:
                first.append(at)
                newest = max(newest, version(at))
            else:
                later.append([it for it in accepted if it < at] + [at])
            base = version(at) if at in accepted and version(at) else base
        return first, later

    def serial(self, cell, kind, order):
        """The script lines of these entries, with the installs that make the versions before."""
        journal = self.report.journals["type", kind]
        made = [number for number, entry in zip(self.lines["type", kind], journal) if entry.reply[0] == "installed"]
        script, newest = [], 1
        for at in order:
            entry, line = self.report.journals[cell][at], self.file.script[self.lines[cell][at]]
            while entry.verb in ("create", "migrate") and newest < int(entry.second):
                script += self.file.script[made[newest - 1]].lines
                newest += 1
            script += line.lines
        return script

    def judge_summary(self):
        journals = [journal for cell, journal in self.report.journals.items() if cell[0] == "case"]
        fates = collections.Counter(entry.reply[0] for journal in journals for entry in journal if entry.verb == "migrate")
        finished = sum(re.match(r"state \d+ finished ", lines[1]) is not None for cell, lines in self.report.states.items() if cell[0] == "case")
        wanted = "summary cases=%d finished=%d entries=%d migrated=%d blocked=%d overlap=%d" % (
            len(journals), finished, sum(map(len, journals)), fates["migrated"], fates["blocked"], fates["overlap"])
        if self.report.summary != wanted:
            raise Illegal("the last line is not %s" % wanted)


def compare(journal, found):
    for entry, right in zip(journal, found):
        if entry.text != right.text:
            raise Illegal("the machine has %s: %s" % (right.text, entry.text))
    if len(journal) != len(found):
        raise Illegal("the machine has %d entries" % len(found))


def what_is_wrong(program, file, report):
    """What is wrong with the report of the file, or None."""
    try:
        read = File(file)
        Judge(program, read, Report(report, read.format)).judge()
    except Illegal as why:
        return str(why)
    except (LookupError, ValueError) as why:
        return "it has not the form of a report: %r" % why
    return None


def main(file, report, *program):
    with open(file, encoding="utf-8") as one, open(report, encoding="utf-8") as other:
        why = what_is_wrong(list(program), one.read(), other.read())
    print(why or "legal")
    return 1 if why else 0


def judge_of(words):
    if len(words) < 3:
        commands.usage(__doc__)
    sys.exit(main(*words))


if __name__ == "__main__":
    sys.path.insert(0, os.path.join(os.path.dirname(os.path.dirname(os.path.realpath(__file__))), "tools"))
    import commands
    commands.run(judge_of, __doc__)
