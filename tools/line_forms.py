"""The forms of a process file's lines, and which of them a line was meant to have: a guess, which the program is asked about.

They are those of docs/FILE_FORMAT.md. In a form a word in capitals stands for what the file names; all others are written
as they are.
"""
import difflib
import itertools
import re

LONG = 40
PLACES = ["after NODE", "head SPLIT CODE"]
FORMS = {
    "header": ["adept 1", "adept 2", "adept 3"],
    "declaration": ["type TYPE", "actor ACTOR", "actor ACTOR roles ROLE..", "case CASE TYPE", "phase"],
    "type": ["act NODE", "act NODE role ROLE", "and SPLIT JOIN", "xor SPLIT JOIN", "xor SPLIT JOIN role ROLE", "branch CODE",
             "loop START END", "loop START END role ROLE", "done", "sync SOURCE TARGET", "element ELEMENT int",
             "element ELEMENT text", "read NODE ELEMENT", "read NODE ELEMENT optional", "write NODE ELEMENT", "end"],
    "script": ["phase", "ACTOR create CASE", "ACTOR start CASE NODE", "ACTOR end CASE NODE PAIR..",
               "ACTOR end CASE NODE choice CODE PAIR..", "ACTOR withdraw CASE NODE", "ACTOR change CASE",
               "ACTOR install TYPE", "ACTOR migrate TYPE"],
    "operation": ["insert NODE PLACE", "insert NODE role ROLE PLACE", "parallel NODE with SPLIT JOIN around FIRST",
                  "parallel NODE with SPLIT JOIN around FIRST LAST", "parallel NODE role ROLE with SPLIT JOIN around FIRST",
                  "parallel NODE role ROLE with SPLIT JOIN around FIRST LAST", "conditional NODE with SPLIT JOIN PLACE",
                  "conditional NODE role ROLE with SPLIT JOIN PLACE", "delete NODE", "move NODE PLACE",
                  "sync SOURCE TARGET", "unsync SOURCE TARGET", "element ELEMENT int", "element ELEMENT text",
                  "read NODE ELEMENT", "read NODE ELEMENT optional", "unread NODE ELEMENT", "write NODE ELEMENT",
                  "unwrite NODE ELEMENT", "role NODE ROLE", "end"],
}
NAME = "has letters from `a` to `z`, small or capital, digits, `_`, `-` and `.`, of which the first is a letter or `_`"
# What a word in capitals stands for, and what it looks like.
KINDS = {
    "TYPE": ("the name of a type", NAME), "ACTOR": ("the name of an actor", NAME), "CASE": ("the name of a case", NAME),
    "NODE": ("the name of a node", NAME), "SPLIT": ("the name of the node that splits", NAME),
    "JOIN": ("the name of the node that joins", NAME), "START": ("the name of the loop's start", NAME),
    "END": ("the name of the loop's end", NAME), "SOURCE": ("the name of the node that is waited for", NAME),
    "TARGET": ("the name of the node that waits", NAME), "ELEMENT": ("the name of an element", NAME),
    "FIRST": ("the name of the first node", NAME), "LAST": ("the name of the last node", NAME),
    "ROLE": ("a role", "has 1 to 10 digits, and is below 4,294,967,296"),
    "CODE": ("a code", "has 1 to 5 digits, and is at most 65535"),
    "PAIR": ("a value", "is ELEMENT=INTEGER or ELEMENT=\"TEXT\", without blanks round the `=`"),
}
TEXT = ("a text", "stands between two `\"`, in which `\"` is written `\\\"` and `\\` is written `\\\\`, and has no control characters")
INTEGER = ("an integer", "has 1 to 20 digits, perhaps behind a `-`, and is from -9223372036854775808 to 9223372036854775807; "
           "there are no decimals")
LOOKS = {"ROLE": r"\d{1,10}$", "CODE": r"\d{1,5}$", "PAIR": r'[A-Za-z_][\w.-]*=(-?\d{1,20}|"([^"\\]|\\["\\])*")$'}
# A role of format 3.
NAMED_ROLE = ("a role", "is a name, or has 1 to 10 digits and is below 2,147,483,648")
KEYWORDS = {word for forms in [*FORMS.values(), PLACES] for form in forms for word in re.findall(r"\b[a-z]+\b", form)}


def of_format(format):
    """From now on lines are those of a file of that format."""
    if format == "3":
        KINDS["ROLE"] = NAMED_ROLE
        LOOKS["ROLE"] = r"(\d{1,10}|[A-Za-z_][\w.-]*)$"


def is_kind(token):
    return token.isupper()


def spelled(form, count):
    """The words of a form for a line of so many words: places are written out, and what may repeat does."""
    tokens = form.split()
    for place in PLACES if tokens[-1] == "PLACE" else [None]:
        made = tokens[:-1] + place.split() if place else list(tokens)
        if made[-1].endswith(".."):
            kind = made.pop()[:-2]
            least, most = 1 if kind == "ROLE" else 0, count - len(made)
            # So many as there are words, and one less, where a word may be too many.
            yield from (made + [kind] * max(least, times) for times in (most, most - 1))
        else:
            yield made


def differ(word, token):
    """How much a word differs from what a form has at its place: 0 for not at all, to 1."""
    if is_kind(token):
        if re.match(LOOKS.get(token, r"[A-Za-z_][\w.-]*$"), word, re.A):
            return 0.1 if word in KEYWORDS else 0
        if token == "PAIR":
            # A value that was written with blanks is several words.
            return 0.3 if "=" in word else 0.6
        # What has no digits is rather no role.
        return 0.8 if token != "ROLE" or re.search(r"\d", word) else 1.25
    if word == token:
        return 0
    return 0.6 if word.lower() == token or difflib.SequenceMatcher(None, word, token).ratio() >= 0.6 else 1


def aligned(words, tokens):
    """The least difference of words and a form, and the steps: pairs of a place among the words and a token, or None.

    The first keyword of a form counts more than the others, and a word too many more than one that is missing.
    """
    best, first = {(0, 0): (0, [])}, next(at for at, token in enumerate(tokens) if not is_kind(token))
    for i, j in itertools.product(range(len(words) + 1), range(len(tokens) + 1)):
        ways = []
        if i:
            cost, steps = best[i - 1, j]
            ways.append((cost + (1.2 if words[i - 1] in KEYWORDS else 1.1), steps + [(i - 1, None)]))
        if j:
            cost, steps = best[i, j - 1]
            ways.append((cost + 1, steps + [(None, tokens[j - 1])]))
        if i and j:
            cost, steps = best[i - 1, j - 1]
            weight = 1.6 if j - 1 == first else 1
            ways.append((cost + weight * differ(words[i - 1], tokens[j - 1]), steps + [(i - 1, tokens[j - 1])]))
        if ways:
            best[i, j] = min(ways, key=lambda way: way[0])
    return best[len(words), len(tokens)]


def oddness(words, steps):
    """In a line that has no right form: how odd it is that words of the format would be names, less for those in their place."""
    there = [(words[place], token) for place, token in steps if place is not None and token is not None]
    return 0.95 * sum(is_kind(token) and word in KEYWORDS for word, token in there) - 0.25 * sum(word == token for word, token in there)


def compared(words, place):
    """The forms at a place, each with its difference from the words and the steps."""
    for form in FORMS[place]:
        for tokens in spelled(form, len(words)):
            # Of a long line the beginning is aligned; the words behind it are taken as they come.
            cost, steps = aligned(words[:LONG], tokens[:LONG])
            yield cost, form, steps + [(at, tokens[at] if at < len(tokens) else None) for at in range(LONG, len(words))]


def nearest(words, place, most=4):
    """The forms at a place that a line without a right form was meant to have, the likeliest first, each with its steps."""
    found = [(cost + oddness(words, steps), form, steps) for cost, form, steps in compared(words, place)]
    return sorted(found, key=lambda one: one[0])[:most]


def is_alike(words, steps):
    """Whether a line was perhaps meant to have a form: a word is like a word of it, or two are of the kinds that it has there."""
    met = [token for place, token in steps if place is not None and token is not None and differ(words[place], token) < 0.8]
    return len(met) > 1 or any(not is_kind(token) for token in met)


def difference(words, place):
    """The least difference from the forms at a place; below 0.5 the line has one."""
    return min(cost for cost, _, _ in compared(words, place))


def kind_of(token, word):
    """What a word in capitals stands for and what it looks like, as far as a word that is none of it was meant so."""
    name, equals, value = word.partition("=")
    if token != "PAIR" or not equals or not re.match(r"[A-Za-z_][\w.-]*$", name, re.A) or not re.match(r'"|[-+.,\d]+$', value):
        return KINDS[token]
    return TEXT if value.startswith('"') else INTEGER


def has_form(words, place):
    """Whether the words look like a line of that place."""
    return bool(words) and difference(words, place) < 0.5


def belongs(words, place, here):
    """Whether a line that stands at one place looks like one of another: by its form, or by its first word alone."""
    begins = not beginning(words[0], here) and beginning(words[0], place) and difference(words, here) >= 1
    return has_form(words, place) or bool(begins)


def longer(form):
    """The forms that go on behind the last word of one."""
    return list(dict.fromkeys(other for forms in FORMS.values() for other in forms if other.startswith(form + " ")))


def beginning(word, place):
    """The forms at a place that begin with a word."""
    return [form for form in FORMS[place] if form.split()[0] == word]
