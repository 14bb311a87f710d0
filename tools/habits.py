"""What people write from habit where a process file has another way: sentences with that way, beside what is wrong."""
import re

import line_forms

NAMED = re.compile(r"[A-Za-z_][\w.-]*$", re.A)
NUMBER = re.compile(r"[-+.,\d]+$")
# What begins a comment elsewhere, and is no name; behind other words these alone.
REMARK, REMARK_BEHIND = re.compile(r"//|--|;|%|/\*|\*|<!--"), re.compile("#|//")
QUOTES = re.compile("[\u2018-\u201f\u00ab\u00bb'`]")
QUESTION = "A line that begins with `?` asks a server (./serve): a file has none."
NAMED_ROLES = "Roles have names in a file that begins with `adept 3`."
COMMENT = "A comment is a line of its own, which begins with `#`."


def slip(words, place, has_form):
    """Of a line that is no line of its place but for one slip: what to say, the words at fault, and the words that were meant."""
    return remark(words, has_form) or doubled(words, place, has_form) or swapped(words, place, has_form)


def remark(words, has_form):
    """A question, a comment in another way, or one behind a line."""
    if words[0].startswith("?"):
        return QUESTION, words, []
    if REMARK.match(words[0]):
        return COMMENT, words, []
    at = next((place for place, word in enumerate(words) if place and REMARK_BEHIND.match(word)), None)
    return (COMMENT, words[at:], words[:at]) if at and has_form(words[:at]) else None


def doubled(words, place, has_form):
    """A word that stands there twice."""
    for at, pair in enumerate(zip(words, words[1:])):
        made = [*words[:at], *words[at + 1:]]
        if pair[0] == pair[1] and line_forms.has_form(made, place) and has_form(made):
            return "`%s` stands there twice." % pair[0], pair, made
    return None


def swapped(words, place, has_form):
    """Two words that stand in each other's place."""
    for at, pair in enumerate(zip(words, words[1:])):
        made = [*words[:at], *reversed(pair), *words[at + 2:]]
        if line_forms.has_form(made, place) and has_form(made):
            return "`%s` and `%s` stand in each other's place: `%s`." % (*pair, " ".join(made)), pair, made
    return None


def hints(words, first, last, token, format):
    """Of the words of a line from one place to before another, which stand where a form has a token, or no more."""
    if token == "PAIR":
        return of_value(" ".join(words[first:last]))
    if token == "ROLE" and format != "3" and NAMED.match(words[first]):
        return [NAMED_ROLES]
    if token is None:
        return of_blanks(words[first - 1:last])
    return of_blanks(words[first - 1:]) if token == "role" else []


def of_blanks(parts):
    """Of words that were perhaps to be one name."""
    return ["A name has no blanks: `%s` is one." % "-".join(parts)] if len(parts) > 1 and all(map(NAMED.match, parts)) else []


def of_value(pair):
    """Of what is no value: quotation marks that are none, or a text without any."""
    name, _, value = (part.strip() for part in pair.partition("="))
    if QUOTES.search(value):
        return ["The quotation marks of a text are two straight `\"`."]
    if NAMED.match(name) and value and not value.startswith('"') and not NUMBER.match(value):
        return ["A text stands between two `\"`: `%s=\"%s\"`." % (name, value)]
    return []
