"""What is wrong with a process file: each refusal of the program, with the word, what may stand there, and the way out.

What is refused is asked of a program (asking.py): of the file as it is, and then of the file with its first mistake mended, so
that the next one is told. A mend is no advice: it is the least that lets the program read on. What is said to a server is a
file too, behind names that are declared already.
"""
import difflib
import re
import time

import faults
import habits
import line_forms
from asking import Unanswered, text_of as decoded
from line_forms import KINDS, is_kind, nearest
from processes import GROUPS, RESERVED, WORD, words_of

MOST_MISTAKES, MOST_SECONDS, MOST_NAMES = 100, 60, 12
# How names begin that a mend puts in: of these nothing is told.
MADE_UP = "put-in-"
LISTED = ("sync", "element", "read", "write", "end")
# How many there may be, and what one more is; of types, actors and cases the program that is asked has how many.
LIMITS = {
    "types": (None, "a type"), "actors": (None, "an actor"), "cases": (None, "a case"), "phases": (256, "a phase"),
    "lines": (60000, "a script line"), "installs": (1024, "an install"), "ops": (256, "an operation of this group"),
    "migrations": (65536, "a migration: each migrate line counts the cases of its type that stand before it"),
    "roles": (32, "a role of this actor"), "depth": (64, "a block inside blocks"), "bytes": (8388608, "a byte of one item"),
}
WAYS = {
    "roles": "Let one role stand for several.", "depth": "Close blocks, or put what stands inside into a type of its own.",
    "ops": "Divide the group into several.", "migrations": "Divide the cases into several files.",
}


class Stopped(Exception):
    """Why nothing more can be said."""


class Row:
    """A line: its number in the file, or None where it was put in; its text now, and as it was."""

    def __init__(self, number, text):
        self.number, self.text, self.original, self.mends = number, text, text, 0


class Mistake:
    """What is wrong: the lines' numbers, what the program says, the words at fault, and sentences; `beside` are other lines."""

    def __init__(self, row, why, faulty, says, beside=(), key=None):
        self.numbers, self.why, self.shown = [row.number], why, row.original.decode("utf-8", "replace").rstrip("\r")
        self.faulty, self.says, self.beside, self.key = faulty, says, list(beside), key


def text_of(row):
    return decoded(row.text).rstrip("\r")


def known(names, word):
    """Names that are known where a word is none of them, as words; of many those that are most like it."""
    if not names:
        return "none is known here"
    shown = difflib.get_close_matches(word, names, MOST_NAMES, 0) if len(names) > MOST_NAMES else names
    return "known here: " + ", ".join("`%s`" % name for name in shown) + (" and %d more" % (len(names) - MOST_NAMES) if len(names) > MOST_NAMES else "")


def in_line(row):
    """Where something is, behind a word: in a line, or before all."""
    return " in line %d" % row.number if row and row.number else ""


class Here:
    """What was read before a row: declared names with their rows, and what is open."""

    def __init__(self, rows):
        self.names = {"type": {}, "actor": {}, "case": {}}
        self.first_phase = self.type = self.group = self.header = None
        self.format = "1"
        self.blocks, self.seen, self.ops, self.last = [], {}, 0, []
        for row in rows:
            words = words_of(text_of(row))
            if words:
                self.take(row, words)
                self.last = words

    def take(self, row, words):
        if self.header is None:
            self.header, self.format = row, words[-1]
        elif self.type:
            self.take_type_line(row, words)
        elif self.group:
            self.group = None if words == ["end"] else self.group
        elif words == ["phase"]:
            self.first_phase = self.first_phase or row
        elif words[0] not in RESERVED if self.format == "3" else self.first_phase:
            self.group = row if words[1:2] and words[1] in GROUPS else None
        elif words[0] in self.names and len(words) > 1:
            self.names[words[0]].setdefault(words[1], row)
            if words[0] == "type":
                self.type, self.blocks, self.seen = row, [], {}

    def take_type_line(self, row, words):
        if words[0] in ("and", "xor", "loop"):
            self.blocks.append([words[0], row, words[0] == "loop"])
        elif words[0] == "branch" and self.blocks:
            self.blocks[-1][2] = True
        elif words[0] == "done" and self.blocks:
            self.blocks.pop()
        elif words == ["end"]:
            self.type = None
        elif words[0] in LISTED:
            self.seen.setdefault((words[0], *words[1:2 if words[0] == "element" else 3]), row)

    def place(self, words):
        """Of which place the forms of a line with these words are."""
        if self.header is None:
            return "header"
        if self.type:
            return "type"
        if self.group:
            return "operation"
        is_script = words[0] not in RESERVED if self.format == "3" else self.first_phase
        return "script" if is_script else "declaration"

    def forms(self, words):
        """All forms of the lines that may stand where one with these words does."""
        place = self.place(words)
        both = self.format == "3" and place in ("script", "declaration")
        return list(dict.fromkeys([*line_forms.FORMS["declaration"], *line_forms.FORMS["script"]])) if both else line_forms.FORMS[place]


class Draft:
    """A file as it was mended so far, and the program that is asked about it. `before` are lines that are no part of it and stand
    before it, and `declared` the names that are declared there, of each kind all, though the lines need not have all."""

    def __init__(self, data, asked, before=(), declared=None):
        pieces = data.split(b"\n")
        self.is_ended = pieces[-1] == b""
        self.rows = [Row(None, text) for text in before]
        self.rows += [Row(number, text) for number, text in enumerate(pieces[:-1] if self.is_ended else pieces, 1)]
        self.asked, self.declared, self.fresh, self.began = asked, declared or {}, 0, time.monotonic()
        self.format = next((words[-1] for words in map(words_of, map(text_of, self.rows)) if words), "1")
        line_forms.of_format(self.format)

    def ask(self, rows=None, is_ended=None):
        """Where and why the program refuses the rows: a place among them and the text, or None."""
        rows = self.rows if rows is None else rows
        is_ended = self.is_ended if is_ended is None else is_ended
        data = b"".join(row.text + b"\n" for row in rows)
        try:
            return self.asked.refusal(data if is_ended else data[:-1])
        except Unanswered as why:
            raise Stopped(str(why)) from None

    def known(self, kind, word, here):
        """The names of a kind that are known before a row, as words, where a word is none of them."""
        return known(list(dict.fromkeys([*self.declared.get(kind, ()), *here.names[kind]])), word)

    def has_form(self, at, words):
        """Whether the program finds a form for the line, were it these words; a group is not read before it is closed."""
        refusal = self.ask([*self.rows[:at], Row(None, " ".join(words).encode("utf-8", "surrogateescape")), Row(None, b"end")], True)
        return refusal is None or refusal[0] > at or refusal[0] == at and refusal[1] != "form"

    def put(self, at, *texts):
        self.rows[at:at] = [Row(None, text.encode()) for text in texts]

    def put_behind(self, row, *texts):
        self.put(self.rows.index(row) + 1, *texts)

    @staticmethod
    def write(row, *words):
        row.text = " ".join(words).encode("utf-8", "surrogateescape")

    def drop(self, at):
        self.rows[at].text = b""

    def name(self):
        self.fresh += 1
        return MADE_UP + str(self.fresh)

    def before_phases(self):
        """The place of the first phase, or the end."""
        return next((at for at, row in enumerate(self.rows) if words_of(text_of(row)) == ["phase"]), len(self.rows))

    def declaring(self, at):
        """Where something is declared that the row at a place names: before it, and but for format 3 before the first phase."""
        return at if self.format == "3" else min(at, self.before_phases())

    def move(self, at, place):
        """Moves a declaration to a place before it; a type with its lines."""
        last = self.end_of_group(at) if words_of(text_of(self.rows[at]))[0] == "type" else at
        moved = self.rows[at:last + 1]
        del self.rows[at:last + 1]
        self.rows[place:place] = moved

    def end_of_group(self, at):
        """The place of the `end` of the type or group that begins there, or of the last row."""
        for place in range(at, len(self.rows)):
            if words_of(text_of(self.rows[place])) == ["end"]:
                return place
        return len(self.rows) - 1


# What is said of each refusal, and the mend.

def header(draft, at, why):
    row = draft.rows[at] if at < len(draft.rows) else Row(at + 1, b"")
    words = words_of(text_of(row))
    says = ["The first line that is not skipped says the format: `adept 1`, or `adept 2` where nodes are given back (`withdraw`), or `adept 3` where declarations stand among script lines or roles have names."]
    if row.text.startswith(b"\xef\xbb\xbf"):
        says.append("A byte order mark stands before it: save the file as UTF-8 without one.")
    if any(line_forms.has_form(words, place) for place in ("declaration", "type")) and words[0] != "adept":
        draft.put(at, "adept 2")
        raise_format(draft, draft.rows[at])
        return Mistake(row, why, [], [*says, "It is missing before this line."])
    if at < len(draft.rows):
        draft.rows[at].text = b"adept 2"
    else:
        draft.put(at, "adept 2")
    wrong = [word for word, right in zip(words, ["adept", None]) if word != right] if len(words) == 2 else words
    return Mistake(row, why, wrong, says)


def raise_format(draft, header):
    """Lets a file be one of format 3 where the program reads further then, and says whether it does."""
    before, text = draft.ask(), header.text
    header.text = b"adept 3"
    after = draft.ask()
    if before is None or after is not None and after[0] <= before[0]:
        header.text = text
        return False
    draft.format = "3"
    line_forms.of_format("3")
    return True


def unended(draft, at, why):
    if not draft.is_ended:
        draft.is_ended = True
        return Mistake(draft.rows[at], why, [], ["The last line has no line feed: end it with one. It may have been cut off."])
    here = Here(draft.rows)
    opened = here.type or here.group
    draft.put(at, *["done"] * len(here.blocks), "end")
    what = "type" if here.type else "group"
    return Mistake(Row(at + 1, b""), why, [], ["The file ends inside the %s that line %s opens: `%s` is missing%s." % (
        what, opened.number, "end", " behind %d `done`" % len(here.blocks) if here.blocks else "")], [opened])


def not_text(draft, at, why):
    row = draft.rows[at]
    try:
        row.text.decode()
    except UnicodeDecodeError as wrong:
        place, byte = wrong.start, row.text[wrong.start]
    shown = row.text.decode("utf-8", "replace")
    row.text = shown.replace("�", "?").encode()
    faulty = [word for word in WORD.findall(shown) if "�" in word]
    return Mistake(row, why, faulty, ["Byte %d of the line (%d) is no UTF-8: save the file as UTF-8." % (place + 1, byte)])


def out_of_place(draft, at, words, here):
    """What to say where the line has a right form, of another place, and the mend; None where it has none."""
    place = here.place(words)
    others = [other for other in ("declaration", "script", "operation", "type") if other != place]
    at_other = [other for other in others if line_forms.belongs(words, other, place)]
    if place == "type" and line_forms.has_form(words, "type"):
        return inside_a_type(draft, at, words, here)
    if line_forms.has_form(words, place):
        return format_1(words, here)
    if place in ("type", "operation") and set(at_other) & {"declaration", "script"}:
        opened, lacking = here.type or here.group, len(here.blocks) if here.type else 0
        draft.put(at, *["done"] * lacking, "end")
        kind, before = "type" if here.type else "group", " (and %d `done` before it)" % lacking if lacking else ""
        says = "Line %d opens a %s, which is not closed before this line: `end` is missing%s."
        return says % (opened.number, kind, before), [opened], None
    if place == "script" and "declaration" in at_other:
        draft.move(at, draft.before_phases())
        says = "`%s` declares something, and stands before the first `phase` (line %d); where the file begins with `adept 3`, anywhere."
        return says % (words[0], here.first_phase.number or at), [], None
    if place == "declaration" and "script" in at_other:
        draft.put(at, "phase")
        return "What actors do stands behind a line `phase`, which is missing before this line.", [], None
    if at_other:
        draft.drop(at)
        kinds = ["type"] if "type" in at_other and (place == "declaration" or here.format == "3") else []
        kinds += ["group `change` or `install`"] if "operation" in at_other and (place == "script" or not kinds) else []
        return "A line `%s` stands inside a %s, and none is open here." % (words[0], " or a ".join(kinds or ["type"])), [], "nothing open"
    return None


def format_1(words, here):
    if words[1:2] != ["withdraw"] or words_of(text_of(here.header))[-1] != "1":
        return None
    here.header.text = b"adept 2"
    return "`withdraw` is a line from format 2 on: the file begins with `adept 1`; write `adept 2`.", [here.header], None


def inside_a_type(draft, at, words, here):
    """Where a line of a type stands in the wrong place of it."""
    verb, blocks = words[0], here.blocks
    if blocks and not blocks[-1][2] and verb not in ("branch", "done"):
        draft.put(at, "branch 0")
        says = "The line behind `%s` is `branch CODE` or `done`: `branch` is missing before this line."
        return says % blocks[-1][0], [blocks[-1][1]], None
    if blocks and verb in LISTED:
        lacking = sum(weight_of(row) for row in draft.rows[at:draft.end_of_group(at)]) + len(blocks)
        if lacking > 0 or verb == "end":
            draft.put(at, *["done"] * max(1, lacking))
            way = "%d `done` missing: a block is closed by `done`." % max(1, lacking)
        else:
            row = draft.rows.pop(at)
            draft.rows.insert(draft.end_of_group(at), row)
            way = "Put the line behind the `done` of the outermost block."
        says = "`%s` stands only where no block is open, and the block of line %s is. %s"
        return says % (verb, blocks[-1][1].number, way), [blocks[-1][1]], None
    if verb == "branch" and (not blocks or blocks[-1][0] == "loop"):
        draft.drop(at)
        inside = "the innermost block is the loop of line %s" % blocks[-1][1].number if blocks else "no block is open here"
        return "`branch` belongs to an `and` or an `xor`, and %s." % inside, [blocks[-1][1]] if blocks else [], None
    if verb == "done" and not blocks:
        draft.drop(at)
        return "`done` closes a block, and none is open here.", [], None
    return None


def weight_of(row):
    words = words_of(text_of(row))
    return {"and": 1, "xor": 1, "loop": 1, "done": -1}.get(words[0] if words else "", 0)


def sample(draft, token, here):
    """A word of that kind which the program takes, and a name that is known where it must be."""
    if not is_kind(token):
        return token
    names = here.names.get({"TYPE": "type", "ACTOR": "actor", "CASE": "case"}.get(token))
    if names:
        return next(iter(names))
    return {"ROLE": "1", "CODE": str(50000 + draft.fresh), "PAIR": "e=0"}.get(token) or draft.name()


def form(draft, at, why):
    row, here = draft.rows[at], Here(draft.rows[:at])
    words = words_of(text_of(row))
    if not words:
        raise Stopped("The program refuses a line that was left out: the rest was not looked at.")
    if here.format == "3" and here.place(words) == "declaration" and words[0] == "actor" and words[1:2] and words[1] in RESERVED:
        draft.write(row, words[0], draft.name(), *words[2:])
        says = "In format 3 a line that begins with `%s` declares something or begins a phase, so no actor has that name."
        return Mistake(row, why, words[1:2], [says % words[1]])
    slip = habits.slip(words, here.place(words), lambda made: draft.has_form(at, made))
    if slip:
        says, faulty, meant = slip
        draft.write(row, *meant)
        return Mistake(row, why, faulty, [says])
    misplaced = out_of_place(draft, at, words, here)
    if misplaced:
        says, beside, key = misplaced
        return Mistake(row, why, words[:1], [says], beside, key)
    candidates = nearest(words, here.place(words))
    for _, text, steps in candidates:
        fit = fitted(draft, at, words, steps, here) if line_forms.is_alike(words, steps) else None
        if fit:
            return misformed(draft, at, why, fit, text, candidates)
    draft.drop(at)
    begin = line_forms.beginning(words[0], here.place(words)) or here.forms(words)
    says = "The line has none of the forms for its place. They are: %s."
    return Mistake(row, why, [], [says % ", ".join("`%s`" % one for one in begin)])


class Fit:
    """The words of a line, the steps of a form along them, and words that the program takes for each step but words too many."""

    def __init__(self, words, steps, made):
        self.words, self.steps, self.made = words, steps, made

    def at(self, step):
        return [other for other in self.steps if other[1]].index(step)

    def is_kept(self, step):
        return step[0] is not None and step[1] and self.made[self.at(step)] == self.words[step[0]]

    def with_word(self, step):
        """The words of the form, but for the line's own at a step."""
        at = self.at(step)
        return [*self.made[:at], self.words[step[0]], *self.made[at + 1:]]


def fitted(draft, at, words, steps, here):
    """A line that has a form, with as many of the words as the program takes there; None where it takes it with no words."""
    tokens = [step for step in steps if step[1]]
    kept = [place is not None and line_forms.differ(words[place], token) < 0.5 for place, token in tokens]
    samples = [sample(draft, token, here) for _, token in tokens]
    made = [words[place] if keeps else word for (place, _), keeps, word in zip(tokens, kept, samples)]
    fit = next((Fit(words, steps, one) for one in (made, samples) if draft.has_form(at, one)), None)
    for step in tokens if fit else []:
        if step[0] is not None and not fit.is_kept(step) and draft.has_form(at, fit.with_word(step)):
            fit.made = fit.with_word(step)
    return fit


def misformed(draft, at, why, fit, text, candidates):
    """What to say of words that are not those of a form: each that is refused in its place, is missing or is too many."""
    wrong = [step for step in fit.steps if not fit.is_kept(step)]
    says, parts, last = [], [], ()
    for place, token in wrong:
        if place is None:
            before = [step[0] for step in fit.steps[:fit.steps.index((None, token))] if step[0] is not None]
            where = "Behind `%s`" % fit.words[before[-1]] if before else "At the front"
            says.append("%s %s is missing." % (where, described(token)))
            continue
        # Values that follow one another are told as one, as `fever = 38`, and so are words too many.
        first = last[0] if token in (None, "PAIR") and last[1:] == (place - 1, token) else place
        says[len(says) - (first != place):] = [refused(fit.words[first:place + 1], place, token, candidates)]
        parts[len(parts) - (first != place):] = [(fit.words, first, place + 1, token)]
        last = (first, place, token)
    faulty = [fit.words[place] for place, _ in wrong if place is not None]
    hints = [hint for part in parts for hint in habits.hints(*part, draft.format)]
    header = Here(draft.rows[:at]).header
    is_raised = habits.NAMED_ROLES in hints and raise_format(draft, header)
    if not is_raised:
        mend(draft.rows[at], fit.made, any(token and is_kind(token) for _, token in wrong))
    longer = [other for other in line_forms.longer(text) if any(token is None for _, token in wrong)]
    forms = ", or ".join("`%s`" % form for form in [text, *longer])
    return Mistake(draft.rows[at], why, faulty, [*says, "The form: %s." % forms, *hints], [header] if is_raised else [])


def refused(words, place, token, candidates):
    """What is wrong with words that stand where a form has a token, or none."""
    if token is not None:
        return instead(" ".join(words), place, token, candidates)
    return "`%s` %s too many." % (" ".join(words), "is one word" if len(words) == 1 else "are %d words" % len(words))


def mend(row, made, is_made_up):
    """Gives a row the words; one with names that were made up goes, unless it opens something or lines behind it need it."""
    opens = made[0] in ("type", "and", "xor", "loop", "branch", "act", "case") or made[1:2] and made[1] in GROUPS
    row.text = b"" if is_made_up and not opens else " ".join(made).encode("utf-8", "surrogateescape")


def described(token):
    return KINDS[token][0] if is_kind(token) else "`%s`" % token


def instead(word, place, token, candidates):
    """What may stand in place of a word: of words of the format the nearest."""
    if not is_kind(token):
        least = candidates[0][0]
        others = [dict((at, kind) for at, kind in steps).get(place) for cost, _, steps in candidates if cost == least]
        tokens = list(dict.fromkeys([token, *(other for other in others if other and not is_kind(other))]))
        return "In place of `%s` may stand %s." % (word, " or ".join("`%s`" % other for other in tokens))
    return "`%s` is not %s, which %s." % (word, *line_forms.kind_of(token, word))


def limit(draft, at, why):
    row, kind = draft.rows[at], why.split()[1]
    words = WORD.findall(text_of(row))
    if kind in ("name", "text"):
        return too_long(draft, row, why, kind, words)
    most, what = LIMITS[kind]
    most = most or draft.asked.most[kind]
    says = "This is %s past the limit of %s. %s" % (what, format(most, ","), WAYS.get(kind, draft.asked.larger))
    if kind == "roles":
        row.text = " ".join(words[:3 + most]).encode()
        return Mistake(row, why, words[3 + most:], [says])
    if kind == "depth":
        empty_type(draft, at)
        return Mistake(row, why, [], [says])
    raise Stopped(Mistake(row, why, [], [says, "Behind this line nothing was looked at."]))


def too_long(draft, row, why, kind, words):
    """A name or a text that is too long, which is made short wherever it stands."""
    parts = [part for word in words for part in ([word] if '"' in word else word.split("="))]
    if kind == "name":
        wrong = next(part for part in parts if len(part.encode("utf-8", "surrogateescape")) > 64 and '"' not in part)
        short = draft.name()
        for other in draft.rows:
            other.text = other.text.replace(wrong.encode(), short.encode())
        return Mistake(row, why, [word for word in words if wrong in word], ["The name has %d bytes; it may have 64." % len(wrong)])
    for word in words:
        name, _, value = word.partition("=")
        made = re.sub(r'\\(.)', r'\1', value[1:-1])
        if len(made.encode("utf-8", "surrogateescape")) > 256:
            row.text = row.text.replace(word.encode("utf-8", "surrogateescape"), (name + '=""').encode())
            return Mistake(row, why, [word], ["The text of `%s` has %d bytes; it may have 256." % (name, len(made.encode()))])
    draft.drop(draft.rows.index(row))
    return Mistake(row, why, [], ["A text is longer than 256 bytes."])


def unknown(draft, at, why):
    row, here = draft.rows[at], Here(draft.rows[:at])
    words = words_of(text_of(row))
    if here.place(words) == "declaration":
        wanted = [(words[2], "type")]
    else:
        wanted = [(words[0], "actor"), (words[2], "type" if words[1] in ("install", "migrate") else "case")]
    missing = [(word, kind) for word, kind in wanted if word not in here.names[kind]]
    says = []
    for word, kind in missing:
        if word.startswith(MADE_UP):
            declare(draft, draft.declaring(draft.rows.index(row)), here, word, kind)
            continue
        rows = [other for other in draft.rows if other.number and other.number > row.number and word in words_of(text_of(other))]
        later = [other for other in rows if words_of(text_of(other))[:2] == [kind, word]]
        says.append("No %s `%s` is declared before this line; %s." % (kind, word, draft.known(kind, word, here)))
        if later:
            says.append("Line %d declares it: put that line before this one." % later[0].number)
            draft.move(draft.rows.index(later[0]), draft.declaring(draft.rows.index(row)))
        else:
            declare(draft, draft.declaring(draft.rows.index(row)), here, word, kind)
        more = len(rows) - len(later)
        if more > 0:
            says.append("It stands on %d further line%s." % (more, "" if more == 1 else "s"))
    return Mistake(row, why, [word for word, _ in missing], says) if says else None


def declare(draft, place, here, word, kind):
    """Declares an unknown name, so that each line that has it is read."""
    if kind == "type":
        draft.put(place, "type " + word, "end")
    elif kind == "actor":
        draft.put(place, "actor " + word)
    elif here.names["type"]:
        draft.put(place, "case %s %s" % (word, next(iter(here.names["type"]))))
    else:
        name = draft.name()
        draft.put(place, "type " + name, "end", "case %s %s" % (word, name))


def twice(draft, at, why):
    row, here = draft.rows[at], Here(draft.rows[:at])
    words = words_of(text_of(row))
    if here.type:
        first = here.seen.get((words[0], *words[1:2 if words[0] == "element" else 3]))
        says = "The same %s stands%s already: leave one of them out." % (words[0], in_line(first))
        faulty = words[1:3]
        draft.drop(at)
    else:
        first = here.names[words[0]].get(words[1])
        says = "A%s %s `%s` is declared%s already: give this one another name, or leave it out." % (
            "n" if words[0] == "actor" else "", words[0], words[1], in_line(first))
        faulty = words[1:2]
        row.text = ("type " + draft.name()).encode() if words[0] == "type" else b""
    return Mistake(row, why, faulty, [says], [first] if first else [])


def empty_type(draft, at):
    """Leaves nothing of the type round a row but its first line and its `end`."""
    first = max(place for place in range(at + 1) if words_of(text_of(draft.rows[place]))[:1] == ["type"])
    for place in range(first + 1, draft.end_of_group(at)):
        draft.drop(place)


def unsound(draft, at, why):
    first = max(place for place in range(at) if words_of(text_of(draft.rows[place]))[:1] == ["type"])
    rows = [(row, words_of(text_of(row))) for row in draft.rows[first + 1:at]]
    rows = [(row, words) for row, words in rows if words]
    told = faults.of_type(why.split()[1:], rows, draft.fresh)
    row = draft.rows[at]
    draft.fresh += 1
    if told.mend is None or row.mends > 30:
        empty_type(draft, at)
    else:
        told.mend(draft)
    mistake = Mistake(row, why, [], told.says, told.rows)
    mistake.shown = ""
    return None if MADE_UP in why else mistake


KINDS_OF_REFUSAL = {"header": header, "unended": unended, "not-text": not_text, "form": form, "limit": limit,
                    "unknown": unknown, "twice": twice, "unsound": unsound}


def found(draft):
    """The mistakes of a file one after another, each of the file with those before it mended."""
    last, told = None, 0
    while True:
        refusal = draft.ask()
        if refusal is None:
            return
        at, why = refusal
        row = draft.rows[at] if at < len(draft.rows) else None
        if row and row.number is None or (row is None and refusal == last):
            raise Stopped("What else is wrong behind this cannot be told before it is mended.")
        if told and (told == MOST_MISTAKES or time.monotonic() - draft.began > MOST_SECONDS):
            raise Stopped("There may be more: mend these first.")
        last = refusal
        if row:
            row.mends += 1
            if row.mends > 4 and why.split()[0] != "unsound":
                draft.drop(at)
                if row.mends > 6:
                    raise Stopped("What else is wrong behind line %d cannot be told before it is mended." % row.number)
                continue
        mistake = KINDS_OF_REFUSAL[why.split()[0]](draft, at, why)
        if mistake:
            told += 1
            yield mistake
