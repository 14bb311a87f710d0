"""What the scripts of this folder know without a broker: where a unit goes, what a message holds, which counts, and what is told.

A message of `lines-K` holds whole units, one behind another, and has the name of its client and a number that rises with each
message of this client on this partition.  A place in the log is a pair: the offset of a message, and which of its units, from 0.
"""
import collections
import os
import re
import sys
import zlib

sys.path.insert(0, os.path.join(os.path.dirname(os.path.realpath(__file__)), "..", "..", "tools"))
import talks

# A message is full with so many bytes; so long a beginning of a line is read in full.
FULL, BLOCK = 1 << 20, 1 << 16
UNIT, QUESTION, REFUSED = range(3)
# Second words of units that go to every partition, and first words of such units.
VERBS, FIRST = (b"install", b"migrate"), (b"type", b"actor", b"phase")
PLACE = re.compile(rb"# (\d+) (\d+)\n")
NAMES = re.compile(rb"[\w.-]+ [\w.-]+ ")
# The last line of an answer.
END = re.compile(rb"^(?:ok|no) .*\n", re.M)


# Where an item ends, and where it goes.

def case_of(words):
    """The case that a unit or a question with these first words is about; None where it is for every partition."""
    if words[0] == b"?":
        if words[1:2] == [b"if"] and words[2:]:
            return case_of(words[2:])
        return words[2] if words[1:2] == [b"case"] and words[2:] else None
    if words[0] == b"case":
        return words[1] if words[1:] else b""
    if words[0] in FIRST or words[1:2] and words[1] in VERBS:
        return None
    return words[2] if words[2:] else b""


def goes_to(case, count):
    """The partitions, of so many, to which what is about a case goes: the CRC-32 of its name, modulo their number, or every one."""
    return tuple(range(count)) if case is None else (zlib.crc32(case) % count,)


def is_header(data):
    """Whether an item is a header line."""
    said = [words for words in map(talks.words_of, data.split(b"\n")) if not talks.is_skipped(words)]
    return len(said) == 1 and said[0] in talks.HEADERS


class Cutter:
    """Cuts what comes in pieces into items: each as its bytes, its case, and its kind; of one that is refused here the bytes are the answer.

    Where an item ends is told by tools/talks.py.  What is quick here is the line of an act: where lines of these first two words
    were a unit by themselves and about the case of the third, this one is.
    """

    def __init__(self):
        self.cutter, self.is_inside, self.rest, self.acts = talks.Cutter(), False, b"", set()

    def take(self, piece):
        """The items that are whole with these bytes."""
        piece = self.rest + piece
        *lines, self.rest = piece.split(b"\n")
        # a byte that parts or ends words otherwise has all lines read in full
        found, acts = [], set() if b"\t" in piece or b"\r" in piece else self.acts
        for line in lines:
            head = line.split(b" ", 3)
            if not self.is_inside and len(head) > 2 and head[2] and (head[0], head[1]) in acts:
                found.append((line + b"\n", head[2], UNIT))
            else:
                found += self.read(line + b"\n")
        if len(self.rest) > BLOCK:
            found += self.read(self.rest)
            self.rest = b""
        return found

    def read(self, piece):
        """The item that ends with a line, or none."""
        ended = [*self.cutter.take(piece)]
        self.is_inside = not ended
        return [self.item(cut) for cut in ended]

    def item(self, cut):
        if cut.data is None:
            return talks.too_long(cut.within), None, REFUSED
        case = case_of(cut.words)
        if cut.data.count(b"\n") == 1 and cut.words[2:] and case is cut.words[2] and NAMES.match(cut.data):
            self.acts.add((cut.words[0], cut.words[1]))
        return cut.data, case, QUESTION if cut.words[0] == b"?" else UNIT

    def unended(self):
        """The answer to what has not ended; None where that is nothing, or says nothing."""
        self.read(self.rest)
        return self.cutter.refusal_of_rest() if self.cutter.is_inside() else None


# What a client gathers.

class Gathered:
    """Units on their way to one partition, as messages with numbers that rise."""

    def __init__(self, most):
        self.most, self.units, self.size, self.number = most, [], 0, 0

    def add(self, unit):
        """Takes a unit, and says whether the message is full with it."""
        self.units.append(unit)
        self.size += len(unit)
        return len(self.units) >= self.most or self.size >= FULL

    def message(self):
        """The next message, its number and its bytes; None where nothing waits."""
        if not self.units:
            return None
        self.number += 1
        body = b"".join(self.units)
        self.units, self.size = [], 0
        return self.number, body


# What a worker takes.

class Counted:
    """Which messages count: those whose number is above all earlier ones of their client."""

    def __init__(self):
        self.numbers = {}

    def counts(self, client, number):
        """Whether a message counts, which is the next of the log; what is no message of a client does not."""
        if not isinstance(client, str) or not isinstance(number, int) or number <= self.numbers.get(client, 0):
            return False
        self.numbers[client] = number
        return True

    def has(self, client, number):
        """Whether the client's message of that number has been met; who tells none is behind nothing."""
        return not (isinstance(client, str) and isinstance(number, int)) or self.numbers.get(client, 0) >= number


def units_in(body):
    """The whole units of a message; a rest behind them is nobody's."""
    return [unit for unit, _, kind in Cutter().take(body) if kind == UNIT]


def is_question(body):
    """Whether a message is one question and no more."""
    cutter = Cutter()
    return [kind for _, _, kind in cutter.take(body)] == [QUESTION] and not cutter.rest and not cutter.is_inside


def placed(units, offset, begin):
    """Units of the message at an offset, from one on, each with a comment in front that has its place."""
    return b"".join([b"# %d %d\n%s" % (offset, at, unit) for at, unit in enumerate(units, begin)])


def place_in(payload):
    """The place in front of what a store holds; None where there is none."""
    found = PLACE.match(payload)
    return (int(found[1]), int(found[2])) if found else None


def told_last(answer):
    """The bytes of the unit that an answer to `? last` shows, if there is one."""
    return b"".join(line[2:] + b"\n" for line in answer.split(b"\n") if line.startswith(b"| "))


class Apart(Exception):
    """What is on every partition differs."""


def whole(units):
    """Of units with their cases, those up to the first that is on every partition, and that one; None where they end."""
    found = []
    for unit, case in units:
        if case is None:
            return found, unit
        found.append(unit)
    return found, None


def joined(parts):
    """The units of several partitions as those of one: what is on every partition once, in its order, and each case's units in theirs."""
    while True:
        met = [whole(part) for part in parts]
        for found, _ in met:
            yield from found
        same = {unit for _, unit in met}
        if len(same) > 1:
            raise Apart(same)
        if same == {None}:
            return
        yield same.pop()


# Answers.

def ends_in(data):
    """How many answers end in whole lines of them."""
    return data.startswith((b"ok ", b"no ")) + data.count(b"\nok ") + data.count(b"\nno ")


def answers_in(data):
    """The answers in whole lines of them, each as bytes."""
    ends = [found.end() for found in END.finditer(data)]
    return [data[begun:end] for begun, end in zip([0, *ends], ends)]


def pieces_of(answers, begin, most=FULL):
    """Answers to the units from one on, in pieces that are not long: each with its first unit, how many there are, and the bytes."""
    piece, size = [], 0
    for answer in answers:
        piece.append(answer)
        size += len(answer)
        if size >= most:
            yield begin, len(piece), b"".join(piece)
            begin, piece, size = begin + len(piece), [], 0
    if piece:
        yield begin, len(piece), b"".join(piece)


def behind(place, offset, begin, answers):
    """Of answers to the units of a message from one on, those that are not in front of a place."""
    if offset < place[0]:
        return []
    return answers[max(0, place[1] - begin):] if offset == place[0] else answers


class Told:
    """The answers of a partition as somebody reads them: a place that came before is dropped."""

    def __init__(self):
        self.next = (0, 0)

    def new(self, offset, begin, answers):
        """Of answers to the units of a message from one on, those whose place did not come before."""
        found = behind(self.next, offset, begin, answers)
        self.next = max(self.next, (offset, begin + len(answers)))
        return found


def together(parts):
    """One answer of those that the partitions gave to the same unit or question, in their order."""
    if len(parts) == 1:
        return parts[0]
    cut = [part[:-1].rfind(b"\n") + 1 for part in parts]
    lines = b"".join(part[:at] for part, at in zip(parts, cut))
    ends = [part[at:-1] for part, at in zip(parts, cut)]
    if all(end.startswith(b"ok ") for end in ends):
        return lines + b"ok %s\n" % b" ".join(end[3:] for end in ends)
    same = collections.Counter(ends)
    return lines + (ends[0] if len(same) == 1 else b"no apart: " + b", ".join(ends)) + b"\n"
