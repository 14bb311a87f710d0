"""What the scripts of this folder know of a talk with the server: its words, where an item ends, and where an answer does."""
import collections
import itertools
import re

# Units that are a group only by their first word, and first words with which a line is one unit by itself.
GROUP, LINES = b"type", (b"actor", b"case", b"phase")
VERBS = (b"change", b"install")
HEADERS = ([b"adept", b"1"], [b"adept", b"2"], [b"adept", b"3"])
# How many bytes an item may have; how many words of a line tell what it is, and no word that does has so many bytes.
LONGEST, TELLING, LONG_WORD = 8388608, 5, 1024
WORD, RUN = re.compile(rb"[^ \t]+"), re.compile(rb"[ \t]+|[^ \t\"\\]+|[\"\\]")
# The last line of an answer, behind the line feed in front of it.
LAST_LINE = re.compile(rb"\n(?:ok|no)(?: .*)?(?=\n)")


# Words.

class Words:
    """The words of a line whose bytes come in pieces, or the first ones: blanks part them, but not inside a quoted text."""

    def __init__(self, most=None, longest=None):
        self.found, self.most, self.longest = [], most, longest
        self.word, self.quoted, self.escaped = bytearray(), False, False

    def take(self, piece):
        for found in RUN.finditer(piece):
            run = found[0]
            if len(self.found) == self.most:
                return
            if not self.quoted and run[0] in b" \t":
                self.end_word()
                continue
            if self.longest is None or len(self.word) < self.longest:
                self.word += run[:self.longest]
            if run == b'"' and not self.escaped:
                self.quoted = not self.quoted
            self.escaped = self.quoted and run == b"\\" and not self.escaped

    def end_word(self):
        self.found += [bytes(self.word)] if self.word else []
        self.word = bytearray()

    def end(self):
        """The words, where the line ends here."""
        self.end_word()
        return self.found[:self.most]


def words_of(line, most=None):
    """The words of a line without its line feed, or so many of them."""
    line = line[:-1] if line.endswith(b"\r") else line
    if b'"' not in line:
        return [found[0] for found in itertools.islice(WORD.finditer(line), most)]
    words = Words(most)
    words.take(line)
    return words.end()


def is_skipped(words):
    return not words or words[0].startswith(b"#")


# Items.

def opens_group(words):
    """Whether an item that begins with these words goes on to a line `end`."""
    if words[:2] == [b"?", b"move"]:
        return True
    if words[:2] == [b"?", b"if"]:
        words = words[2:] or [b"?"]
    return words[0] == GROUP or words[0] not in (b"?", *LINES) and words[1:2] and words[1] in VERBS


class End:
    """Tells where an item ends by the words of its lines: `said` is how many are not skipped, `first` has the words of the first."""

    def __init__(self):
        self.said, self.first, self.is_group = 0, [], False

    def take(self, words):
        """Takes the words of the next line, and says whether the item ends with it."""
        if is_skipped(words):
            return False
        self.said += 1
        if self.said == 1:
            self.first, self.is_group = words, bool(opens_group(words))
            return not self.is_group
        return words == [b"end"]


class Item:
    """An item while its lines come: `lines` are all of them, `said` those that are not skipped."""

    def __init__(self):
        self.lines, self.said, self.end = [], [], End()

    def take(self, line):
        """Takes a line, with its line feed, and says whether the item ends with it."""
        before, is_end = self.end.said, self.end.take(words_of(line[:-1]))
        self.lines.append(line)
        self.said += [line] if self.end.said > before else []
        return is_end

    def is_question(self):
        return self.end.first[:1] == [b"?"]

    def is_unit(self):
        return bool(self.said) and not self.is_question()


def units(data):
    """Of each line of a process file, from 1, of which unit it is, counted as a server counts that is told it; 0 is the header's."""
    found, line = {}, 1
    for unit, item in enumerate(items(data)[0]):
        for line in range(line, line + item.count(b"\n")):
            found[line] = unit
        line += 1
    return found


def is_question(item):
    """Whether an item, as bytes, is a question."""
    return next((words[0] == b"?" for words in map(words_of, item.split(b"\n")) if not is_skipped(words)), False)


def items(data):
    """The items of a talk, each as bytes, and the rest behind them."""
    item, found = Item(), []
    lines = data.split(b"\n")
    for line in lines[:-1]:
        if item.take(line + b"\n"):
            found.append(b"".join(item.lines))
            item = Item()
    return found, b"".join(item.lines) + lines[-1]


# An item that was cut out of a stream: its bytes, or None where they are too many; the first words of its first line that is not
# skipped; and how many such lines end within as many bytes as an item may have.
Cut = collections.namedtuple("Cut", "data words within")


class LongLine:
    """A line of which no more is kept than its first words."""

    def __init__(self):
        self.words, self.size, self.has_return = Words(TELLING, LONG_WORD), 0, False

    def take(self, piece):
        self.size += len(piece)
        # a carriage return is dropped directly before the line feed alone
        if piece and self.has_return:
            self.words.take(b"\r")
        self.has_return = piece.endswith(b"\r") or not piece and self.has_return
        self.words.take(piece[:-1] if piece.endswith(b"\r") else piece)


class Cutter:
    """Cuts into items what comes in pieces.  Of an item that is too long no more is kept than tells where it ends."""

    def __init__(self):
        self.begin_item()
        self.begin_line()

    def begin_item(self):
        self.data, self.size, self.end, self.within = bytearray(), 0, End(), 0

    def begin_line(self):
        self.part, self.long = bytearray(), None

    def take(self, data):
        """The items that are whole with these bytes."""
        *lines, rest = data.split(b"\n")
        for piece in lines:
            if self.end_line(piece):
                yield Cut(bytes(self.data) if self.size <= LONGEST else None, self.end.first, self.within)
                self.begin_item()
        if rest:
            self.go_on(rest)

    def go_on(self, piece):
        """Takes bytes of a line that does not end with them."""
        if self.long is None:
            self.part += piece
            if self.size + len(self.part) > LONGEST:
                self.long, piece, self.part, self.data = LongLine(), self.part, bytearray(), bytearray()
        if self.long is not None:
            self.long.take(piece)

    def end_line(self, piece):
        """Takes the last bytes of a line, and says whether the item ends with it."""
        if self.long is None:
            line = bytes(self.part) + piece if self.part else piece
            words, size = words_of(line, TELLING), len(line) + 1
        else:
            self.long.take(piece)
            line, words, size = b"", self.long.words.end(), self.long.size + 1
        self.begin_line()
        self.size += size
        is_end = self.end.take(words)
        if self.size <= LONGEST:
            self.data += line
            self.data += b"\n"
            self.within = self.end.said
        else:
            self.data = bytearray()
        return is_end

    def is_inside(self):
        """Whether an item has begun, or a line, and has not ended."""
        return bool(self.end.said or self.part or self.long)

    def refusal_of_rest(self):
        """What is answered where the stream ends inside an item."""
        size = self.size + (self.long.size if self.long else len(self.part))
        return b"no %d unended\n" % (self.end.said + 1) if size <= LONGEST else too_long(self.within)


def too_long(within):
    """What is answered to an item that is too long."""
    return b"no %d limit bytes\n" % (within + 1)


# Answers.

def ends_answer(line):
    """Whether a line of an answer is its last one."""
    return line.split(b" ", 1)[0].rstrip(b"\n") in (b"ok", b"no")


class Answers:
    """Cuts into answers what comes in pieces."""

    def __init__(self):
        self.rest = b""

    def take(self, data):
        """The pieces of answers that are whole lines with these bytes, each with whether an answer ends with it."""
        lines, feed, rest = data.rpartition(b"\n")
        if not feed:
            self.rest += data
            return
        lines, self.rest, begun = b"\n%s%s\n" % (self.rest, lines), rest, 1
        for found in LAST_LINE.finditer(lines):
            yield lines[begun:found.end() + 1], True
            begun = found.end() + 1
        if begun < len(lines):
            yield lines[begun:], False
