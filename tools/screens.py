"""A talk with a server for a person at a terminal: what is typed is cut into items, and how answers are shown.

The other side is an object with `send(data)`, which says whether the bytes went; `answer()`, the lines of the next answer, of
which the last is none of an end where the other side ended; `left()`, the lines that come behind the last answer; and `stop()`.
"""
import os
import re
import sys

import asking
import reasons
import talks
import telling

GOOD = (b"defined", b"installed", b"is", b"created", b"started", b"ended", b"repeated", b"changed", b"migrated", b"withdrawn")
MARKS = {b"C": 32, b"R": 33, b"A": 34}
QUOTED = re.compile(rb'"(?:[^"\\]|\\.)*"')


# How an answer is shown.

def shown(line):
    """The line without bytes that a terminal would not show."""
    return telling.shown(asking.text_of(line))


def painted(number, text):
    return "\033[%dm%s\033[0m" % (number, text)


def reply_at(line):
    """Where the reply begins, behind the arrow that stands in no quoted text; at most 3 where there is none."""
    return QUOTED.sub(lambda found: b"x" * len(found[0]), line).find(b" -> ") + 4


def coloured(line):
    """A line of an answer in colours: what was done is green, what was refused red."""
    text, first = shown(line), line.split(b" ", 1)[0]
    if first in (b"ok", b"no"):
        return painted(32 if first == b"ok" else 31, text)
    if line.startswith(b"| ") or line == b"|":
        return painted(90, text)
    if first == b"marking":
        return " ".join([shown(first), *(painted(MARKS.get(word[-1:], 90), shown(word)) for word in line.split()[1:])])
    at = reply_at(line)
    if at > 3:
        return shown(line[:at]) + painted(32 if line[at:].split(b" ", 1)[0] in GOOD else 31, shown(line[at:]))
    if first in (b"adept", b"type", b"case", b"summary"):
        return painted(1, text)
    return text


class Screen:
    """Where answers are shown."""

    def __init__(self):
        sys.stdout.reconfigure(errors="backslashreplace")
        self.show = coloured if sys.stdout.isatty() and not os.environ.get("NO_COLOR") else shown

    def put(self, line):
        print(self.show(line[:-1] if line.endswith(b"\n") else line), flush=True)


class Refusals:
    """How many units and calls of a talk are refused, by the lines of its answers."""

    def __init__(self):
        self.units, self.calls, self.entries, self.is_repeated = 0, 0, 0, False

    def take(self, line):
        if talks.ends_answer(line):
            self.units += line.startswith(b"no ")
            # the answer to `? last` has entries that were told before
            self.calls += 0 if self.is_repeated else self.entries
            self.entries, self.is_repeated = 0, False
            return
        self.is_repeated = self.is_repeated or line.startswith(b"| ")
        at = reply_at(line)
        self.entries += at > 3 and line[:1] in b"tc" and line[at:].split()[0] not in GOOD

    def told(self, store):
        if self.units:
            yield "serve: %d refused: what is answered `no` is not kept" % self.units
        if self.calls:
            yield "serve: %d call%s refused: tools/explain --store %s says why" % (self.calls, "" if self.calls == 1 else "s", store)


# The talk.

def typed(prompt):
    """The next line as it was typed, without a line feed; None at the end of the input."""
    try:
        return input(prompt).encode(errors="surrogateescape")
    except EOFError:
        print()
        return None


class Talk:
    """A talk that is typed; `before` gives what stands in front of a prompt, `ready` the bytes that are sent for an item. What is
    said of refusals is asked of the other side, and of the server's program over stores of its own."""

    def __init__(self, other, before=lambda: "", ready=lambda item: b"".join(item.lines), program=None):
        self.other, self.before, self.ready, self.screen, self.server = other, before, ready, Screen(), asking.Server(program)

    def run(self):
        """Goes on until the input ends, or the other side does."""
        import readline  # so that a line can be edited
        del readline
        sys.stdin.reconfigure(errors="surrogateescape")
        try:
            while self.goes_on():
                pass
        except KeyboardInterrupt:
            self.other.stop()

    def show_rest(self):
        """Shows what comes behind the last answer."""
        for line in self.other.left():
            self.screen.put(line)

    def goes_on(self):
        """Takes an item and shows its answer, and says whether the talk goes on."""
        try:
            item, has_more = self.next_item()
        except KeyboardInterrupt:
            print()
            return True
        return self.other.send(self.ready(item)) and has_more and self.show_answer(item.said)

    def next_item(self):
        """The next item that is typed, and whether the input goes on behind it."""
        item = talks.Item()
        while True:
            line = typed("%s> " % self.before() if not item.said else "  ")
            if line is None:
                return item, False
            if item.take(line + b"\n"):
                return item, True

    def show_answer(self, said):
        """Shows the answer to an item, and why something in it is refused, and says whether there was one."""
        answer = []
        for line in self.other.answer():
            self.screen.put(line)
            answer.append(line.rstrip(b"\n"))
        if not answer or not talks.ends_answer(answer[-1]):
            return False
        try:
            for line in reasons.told(self.ask, self.server, said, answer):
                print("  " + line, flush=True)
        except Exception:
            # a talk goes on where what is said beside it fails
            pass
        return True

    def ask(self, talk):
        """The answers to questions, a line each: the lines of each answer without line feeds."""
        self.other.send(talk)
        told = [[line.rstrip(b"\n") for line in self.other.answer()] for _ in range(talk.count(b"\n"))]
        if not all(lines and talks.ends_answer(lines[-1]) for lines in told):
            raise asking.Unanswered("the other side has ended")
        return told


def lines_of_answer(lines):
    """The lines of a stream up to the end of an answer."""
    for line in lines:
        yield line
        if talks.ends_answer(line):
            return
