"""Who may say what to a server that is shared: the file of `tools/share --as FILE`.

    # a line for each right: a user of the system, `as` and actors, or `may` and kinds of lines
    nora as nora
    nora may cases
    desk as nora tim
    dara as dara
    dara may cases installs migrations
    it may types actors

A user says the lines whose first word is one of the actors behind `as`.  Lines that declare types, actors and cases, and among
the actors' lines installs and migrations, are said by users alone who have that kind behind `may`.  Questions are everybody's.
"""
import processes

KINDS = {b"type": "types", b"actor": "actors", b"case": "cases"}
ACTS = {b"install": "installs", b"migrate": "migrations"}
NAMED = {*KINDS.values(), *ACTS.values()}
# Words that are no actor's name, since a line that begins so says something else.
TAKEN = (*processes.RESERVED, "?")


class Rights:
    """What each user may say."""

    def __init__(self, lines):
        """Takes the lines of the file; a ValueError tells what is wrong with one."""
        self.actors, self.kinds = {}, {}
        for number, line in enumerate(lines, 1):
            words = line.split()
            if words and not words[0].startswith("#"):
                self.take(number, words)

    def take(self, number, words):
        """Takes the words of a line."""
        user, verb, names = words[0], words[1:2], words[2:]
        if not names or verb not in (["as"], ["may"]):
            raise ValueError("line %d: it is `USER as ACTOR..` or `USER may KIND..`" % number)
        if verb == ["may"]:
            for name in set(names) - NAMED:
                raise ValueError("line %d: there is no kind %s; there are %s" % (number, name, ", ".join(sorted(NAMED))))
            self.kinds.setdefault(user, set()).update(names)
        else:
            for name in names:
                if name in TAKEN or name.startswith("#"):
                    raise ValueError("line %d: no actor is named %s" % (number, name))
            self.actors.setdefault(user, set()).update(name.encode() for name in names)

    def allow(self, user, words):
        """Whether the user may say an item whose first line has these words."""
        if words[0] == b"?":
            return True
        if words[0] in KINDS:
            return KINDS[words[0]] in self.kinds.get(user, ())
        kind = ACTS.get(words[1]) if len(words) > 1 else None
        return words[0] in self.actors.get(user, ()) and (kind is None or kind in self.kinds.get(user, ()))


def read(path):
    """The rights that a file gives."""
    with open(path, encoding="utf-8") as file:
        return Rights(file)
