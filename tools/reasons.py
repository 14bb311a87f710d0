"""Why the server refuses what was said, in the words of tools/explain: the words of a unit, or the calls that it makes.

What is asked besides is asked of the same server: the names that are declared, or all that it holds and its report.
"""
import asking
import mistakes
import refusals
import talks
import telling
from asking import text_of
from processes import WORD, Entry

# With more units than these calls are not explained: all that is held would have to be read.
MOST_UNITS = 20000
QUESTIONS = ["? report", "? type TYPE", "? case CASE", "? cases", "? cases TYPE", "? items", "? items ACTOR", "? types",
             "? actors", "? count", "? last", "? lines", "? if UNIT", "? move ACTOR TYPE"]
# What people type who want to know what to type, or to go.
LOST = (b"help", b"exit", b"quit", b"bye", b"h", b"q")
WAY = "What is said are lines of a process file; `?` alone tells what may be asked, docs/SERVE.md all, and Ctrl-D ends the talk."
NAMED = {"type": "type", "case": "case", "cases": "type", "items": "actor"}


def units_of(lines):
    """The lines of units that an item is about: its own, or those of which it asks what they would do."""
    words = talks.words_of(lines[0].rstrip(b"\n"))
    if words[:2] == [b"?", b"if"]:
        return [lines[0].split(b"if", 1)[1].lstrip(b" \t"), *lines[1:]]
    if words[:2] == [b"?", b"move"] and len(words) == 4:
        return [b"%s install %s\n" % tuple(words[2:]), *lines[1:], b"%s migrate %s\n" % tuple(words[2:])]
    return [] if words[0] == b"?" else lines


class Names:
    """The names that are declared: of each kind all, and lines that declare some of them."""

    def __init__(self, ask):
        types, actors, cases = (self.told(*pair) for pair in zip((b"type", b"actor", b"case"), ask(b"? types\n? actors\n? cases\n")))
        self.cases = {words[1]: words[2] for words in cases}
        self.all = {"type": [words[1] for words in types], "actor": [words[1] for words in actors], "case": list(self.cases)}

    @staticmethod
    def told(kind, answer):
        """The words of each line that an answer has about a kind."""
        return [line.split() for line in answer[:-1] if line.startswith(kind + b" ")]

    def lines(self, words):
        """A header and lines that declare those that stand among words, and one of each kind."""
        def chosen(kind):
            return [name for name in self.all[kind] if name in words] or self.all[kind][:1]

        cases = chosen("case")
        types = dict.fromkeys([*chosen("type"), *(self.cases[name] for name in cases)])
        return [b"adept 3", *(line for name in types for line in (b"type " + name, b"end")),
                *(b"actor " + name for name in chosen("actor")), *(b"case %s %s" % (name, self.cases[name]) for name in cases)]

    def known(self):
        return {kind: [text_of(name) for name in names] for kind, names in self.all.items()}


def of_words(ask, server, lines):
    """What is wrong with the lines of a unit."""
    names = Names(ask)
    words = {word for line in lines for word in talks.words_of(line.rstrip(b"\n"))}
    draft = mistakes.Draft(b"".join(lines), server, names.lines(words), names.known())
    for mistake in telling.all_of(draft):
        # why no more is told is not said here
        if isinstance(mistake, mistakes.Mistake):
            yield from [telling.head(mistake)] if len(lines) > 1 else []
            yield from telling.body(mistake)


def of_calls(ask, server, lines, answer):
    """What stands against the calls of an answer that are refused, where not too much is held."""
    told = [words for words in (WORD.findall(text_of(line)) for line in answer[:-1]) if "->" in words]
    entries = [(words[0], words[1], Entry(words[2:])) for words in told]
    wanted = [(kind, name, entry.number) for kind, name, entry in entries if entry.is_refused()]
    if not wanted or int(answer[-1].split()[1]) > MOST_UNITS:
        return
    data, report = asking.held_by(ask)
    asked = refusals.Held(data, report, server) if lines is None else refusals.Held(data + b"".join(lines), None, server)
    calls = [call for call in refusals.refused(asked) if (call.kind(), call.cell.name, call.entry.number) in wanted]
    asked.look(calls)
    for call in calls:
        reply, *sentences = refusals.told(call)
        yield from [reply] if len(calls) > 1 else []
        yield from sentences


def of_question(ask, lines, refusal):
    """Which questions there are, or which names are known."""
    words = [text_of(word) for word in talks.words_of(lines[0].rstrip(b"\n"))[1:]]
    if refusal == "form":
        begin = [form for form in QUESTIONS if form.split()[1] == words[0]] if words else []
        yield from ["The questions that begin so:", *begin] if begin else ["The questions are:", *QUESTIONS]
    elif refusal == "unknown" and words[0] in NAMED and len(words) > 1:
        kind = NAMED[words[0]]
        yield "No %s `%s` is declared; %s." % (kind, telling.shown(words[1]), mistakes.known(Names(ask).known()[kind], words[1]))


def told(ask, server, lines, answer):
    """What is told of the answer to an item whose lines that say something are these. `ask` gives the answers of the server to a
    talk, and `server` is asked about lines that are not its own."""
    refused, is_question = asking.REFUSED.match(answer[-1]), talks.words_of(lines[0].rstrip(b"\n"))[0] == b"?"
    units = units_of(lines)
    if refused and len(lines) == 1 and lines[0].strip() in LOST:
        yield WAY
        return
    if not refused:
        yield from of_calls(ask, server, units if is_question else None, answer) if units else []
        return
    found = list(of_words(ask, server, units)) if units else []
    yield from found or (of_question(ask, lines, text_of(refused[2])) if is_question else [])
