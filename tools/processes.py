"""What the scripts of this folder know of process files and of reports: words, types as trees, script lines, journals.

Whether a file is right, and what is answered to a call, is asked of the programs; here a file and a report that they gave
are only taken apart. No command writes a schema, so what operations make of a type is done here once more, for those that
were accepted: `nodes` then gives the nodes in the order in which a report's marking has them.
"""
import collections
import copy
import re

WORD = re.compile(r'(?:[^ \t"]|"(?:[^"\\]|\\.)*"?)+')
GROUPS = ("change", "install")
# In format 3 a line that begins so declares something or begins a phase.
RESERVED = ("type", "actor", "case", "phase")
# A script line: its number, its phase, who does what to which case or type, its further words, and the lines of its group.
Line = collections.namedtuple("Line", "number phase actor verb target rest ops")
Act = collections.namedtuple("Act", "node")
# A block: its kind (and, xor, loop), its first and last node, and its branches, each a code with items.
Block = collections.namedtuple("Block", "kind first last branches")


def words_of(text):
    """The words of a line; none where it is skipped."""
    found = WORD.findall(text)
    return [] if found and found[0].startswith("#") else found


def role_of(word):
    """A role: its number, or its name."""
    return int(word) if word.isdigit() else word


def in_order(roles):
    """Roles: those that are numbers first."""
    return sorted(roles, key=lambda role: (isinstance(role, str), role))


class Schema:
    """The blocks of a type or a case, and its lists. `lines` says on which line of the file something stands."""

    def __init__(self):
        self.items, self.syncs, self.elements, self.reads, self.writes, self.roles = [], [], {}, {}, [], {}
        self.lines = {}

    def nodes(self):
        return ["start", *nodes_in(self.items), "finish"]

    def sources(self):
        """For each node the edges into it, as pairs of a source and the code of the branch that leads from it."""
        found = {}
        found["finish"] = self.flow(self.items, [("start", None)], found)
        for source, target in self.syncs:
            found.setdefault(target, []).append((source, None))
        return found

    def flow(self, items, before, found):
        for item in items:
            if isinstance(item, Act):
                found[item.node] = list(before)
                before = [(item.node, None)]
            else:
                found[item.first] = list(before)
                found[item.last] = [edge for code, body in item.branches for edge in self.flow(body, [(item.first, code)], found)]
                before = [(item.last, None)]
        return before

    def blocks(self, items=None):
        for item in self.items if items is None else items:
            if isinstance(item, Block):
                yield item
                for _, body in item.branches:
                    yield from self.blocks(body)

    def around(self, node, items=None):
        """The blocks that have the node in a branch, the outermost first, each with that branch's code."""
        for item in self.items if items is None else items:
            if isinstance(item, Block):
                for code, body in item.branches:
                    if node in nodes_in(body):
                        return [(item, code), *self.around(node, body)]
        return []

    def written(self, node):
        return [element for writer, element in self.writes if writer == node]

    # What an operation does.

    def place(self, node, items=None):
        """The list in which an item with the node stands, and where; the node is its first one or its last one."""
        items = self.items if items is None else items
        for at, item in enumerate(items):
            if node in ((item.node,) if isinstance(item, Act) else (item.first, item.last)):
                return items, at
            for _, body in () if isinstance(item, Act) else item.branches:
                found = self.place(node, body)
                if found:
                    return found
        return None

    def put(self, item, place):
        """Puts an item at a place, as `after NODE` or `head SPLIT CODE`."""
        if place[0] == "head":
            items, at = self.place(place[1])
            body = next(body for code, body in items[at].branches if code == int(place[2]))
            body.insert(0, item)
        elif place[1] == "start":
            self.items.insert(0, item)
        else:
            items, at = self.place(place[1])
            if isinstance(items[at], Block) and place[1] == items[at].first:
                items[at].branches[0][1].insert(0, item)
            else:
                items.insert(at + 1, item)

    def take(self, node):
        items, at = self.place(node)
        return items.pop(at)

    def forget(self, node):
        """An activity goes, with all that it has."""
        self.take(node)
        self.syncs = [pair for pair in self.syncs if node not in pair]
        self.reads = {key: optional for key, optional in self.reads.items() if key[0] != node}
        self.writes = [key for key in self.writes if key[0] != node]
        self.roles.pop(node, None)

    def operate(self, number, words):
        verb, rest = words[0], words[1:]
        if verb in ("insert", "parallel", "conditional"):
            self.grow(number, verb, rest)
        elif verb == "delete":
            self.forget(rest[0])
        elif verb == "move":
            self.put(self.take(rest[0]), rest[1:])
        elif verb == "role":
            self.roles[rest[0]] = role_of(rest[1])
        else:
            self.list_line(number, verb, rest)

    def grow(self, number, verb, rest):
        node, rest = rest[0], rest[1:]
        role = 0
        if rest[0] == "role":
            role, rest = role_of(rest[1]), rest[2:]
        self.name(number, node, role)
        if verb == "insert":
            self.put(Act(node), rest)
            return
        first, last, rest = rest[1], rest[2], rest[3:]
        self.name(number, first, role if verb == "conditional" else 0)
        self.name(number, last, 0)
        if verb == "conditional":
            self.put(Block("xor", first, last, [[0, []], [1, [Act(node)]]]), rest)
        else:
            items, at = self.place(rest[1])
            items[at] = Block("and", first, last, [[0, [items[at]]], [1, [Act(node)]]])

    def name(self, number, node, role):
        self.lines.setdefault(("node", node), number)
        if role:
            self.roles[node] = role

    def list_line(self, number, verb, rest):
        """A line that adds to a list or takes from it, in a type or a group."""
        if not verb.startswith("un"):
            self.lines.setdefault((verb, *rest[:1 if verb == "element" else 2]), number)
        if verb == "sync":
            self.syncs.append((rest[0], rest[1]))
        elif verb == "element":
            self.elements[rest[0]] = rest[1]
        elif verb == "read":
            self.reads[(rest[0], rest[1])] = rest[2:] == ["optional"]
        elif verb == "write":
            self.writes.append((rest[0], rest[1]))
        elif verb == "unsync":
            self.syncs.remove((rest[0], rest[1]))
        elif verb == "unread":
            self.reads.pop((rest[0], rest[1]))
        elif verb == "unwrite":
            self.writes.remove((rest[0], rest[1]))

    def after(self, ops):
        """The schema that operations make of this one."""
        made = copy.deepcopy(self)
        for number, words in ops:
            made.operate(number, words)
        return made


def nodes_in(items):
    for item in items:
        if isinstance(item, Act):
            yield item.node
        else:
            yield item.first
            for _, body in item.branches:
                yield from nodes_in(body)
            yield item.last


class TypeReader:
    """Makes a schema of the lines of a type."""

    def __init__(self):
        self.made = Schema()
        self.open, self.bodies = [], [self.made.items]

    def take(self, number, words):
        verb, rest = words[0], words[1:]
        role = role_of(rest[-1]) if "role" in rest[1:-1] else 0
        if verb == "act":
            self.made.name(number, rest[0], role)
            self.bodies[-1].append(Act(rest[0]))
        elif verb in ("and", "xor", "loop"):
            self.begin(number, verb, rest, role)
        elif verb == "branch":
            block = self.open[-1]
            self.made.lines[("branch", block.first, len(block.branches))] = number
            block.branches.append([int(rest[0]), []])
            self.bodies[-1] = block.branches[-1][1]
        elif verb == "done":
            self.open.pop()
            self.bodies.pop()
        else:
            self.made.list_line(number, verb, rest)

    def begin(self, number, kind, rest, role):
        block = Block(kind, rest[0], rest[1], [[None, []]] if kind == "loop" else [])
        self.made.name(number, rest[0], role if kind == "xor" else 0)
        self.made.name(number, rest[1], role if kind == "loop" else 0)
        self.bodies[-1].append(block)
        self.open.append(block)
        self.bodies.append(block.branches[0][1] if kind == "loop" else [])


class File:
    """A process file that a program took: types, actors with their roles, cases with their types, and script lines."""

    def __init__(self, text):
        self.format, self.types, self.actors, self.cases, self.script = "1", {}, {}, {}, []
        self.numbers, self.phases = {}, 0
        rows = ((number, words_of(row.rstrip("\r"))) for number, row in enumerate(text.split("\n"), 1))
        rows = iter([row for row in rows if row[1]])
        self.format = next(rows, (1, ["adept", "1"]))[1][-1]
        for number, words in rows:
            if words == ["phase"]:
                self.phases += 1
            elif words[0] not in RESERVED if self.format == "3" else self.phases:
                self.phases = max(self.phases, 1)
                ops = list(until_end(rows)) if words[1] in GROUPS else []
                self.script.append(Line(number, self.phases, *words[:3], words[3:], ops))
            else:
                self.declare(number, words, rows)

    def declare(self, number, words, rows):
        self.numbers[(words[0], words[1])] = number
        if words[0] == "type":
            reader = TypeReader()
            for row in until_end(rows):
                reader.take(*row)
            self.types[words[1]] = reader.made
        elif words[0] == "actor":
            self.actors[words[1]] = [role_of(role) for role in words[3:]]
        else:
            self.cases[words[1]] = words[2]

    def holders(self, role):
        """The actors who have the role; 0 is everybody's."""
        return [name for name, roles in self.actors.items() if role == 0 or role in roles]

    def calls(self):
        """The cells that the script's lines call, in order: the line, and what it calls, as ("type", NAME)."""
        for line in self.script:
            if line.verb in ("create", "migrate", "install"):
                yield line, ("type", self.cases[line.target] if line.verb == "create" else line.target)
            if line.verb == "migrate":
                yield from ((line, ("case", name)) for name, kind in self.cases.items()
                            if kind == line.target and self.numbers["case", name] < line.number)
            elif line.verb != "install":
                yield line, ("case", line.target)


def until_end(rows):
    for number, words in rows:
        if words == ["end"]:
            return
        yield number, words


class Entry:
    """A line of a journal: its number there, who called, the event and the reply, and the script line that it is of."""

    def __init__(self, words):
        at = words.index("->")
        self.number, self.caller, self.event, self.reply, self.line = int(words[0]), words[1], words[2:at], words[at + 1:], None

    def is_refused(self):
        return self.reply[0] not in ("defined", "installed", "is", "created", "started", "ended", "repeated", "withdrawn",
                                     "changed", "migrated")


class Cell:
    """A type or a case of a report, with its journal. A case that was created has a state, a marking, values and items."""

    def __init__(self, name, kind):
        self.name, self.kind, self.entries = name, kind, []
        self.state, self.marking, self.values, self.items = ["none"], {}, [], []

    def take(self, words):
        if words[0] == "state":
            self.state = words[1:]
        elif words[0] == "marking":
            self.marking = dict(word.rsplit("=", 1) for word in words[1:])
        elif words[0] == "values":
            self.values = words[1:]
        elif words[0] == "items":
            self.items = [re.split("([@:])", word) for word in words[1:]]
        else:
            self.entries.append(Entry(words))


class Report:
    """A report, in order: its types and its cases by their names."""

    def __init__(self, text):
        self.types, self.cases, self.summary = {}, {}, ""
        cell = None
        for row in text.split("\n")[1:-1]:
            words = WORD.findall(row)
            if words[0] == "summary":
                self.summary = row
            elif words[0] == "type":
                cell = self.types[words[1]] = Cell(words[1], None)
            elif words[0] == "case":
                cell = self.cases[words[1]] = Cell(words[1], words[2])
            else:
                cell.take(words)

    @staticmethod
    def of_case(rows):
        """A case by the lines that a report has of it."""
        return next(iter(Report("\n".join(["", *rows, ""])).cases.values()))

    def cells(self):
        yield from ((("type", name), cell) for name, cell in self.types.items())
        yield from ((("case", name), cell) for name, cell in self.cases.items())

    def join(self, file):
        """Gives each entry the script line that it is of: in a journal the entries of an actor are those of its lines."""
        owed = collections.defaultdict(collections.deque)
        for line, cell in file.calls():
            owed[cell, line.actor].append(line)
        for key, cell in self.cells():
            for entry in cell.entries:
                if entry.caller != "-":
                    entry.line = owed[key, entry.caller].popleft()
        return self

    def versions(self, file, name):
        """The schemas of a type's versions, the first one first."""
        found = [file.types[name]]
        for entry in self.types[name].entries:
            if entry.reply[0] == "installed":
                found.append(found[-1].after(entry.line.ops))
        return found


def along(cell, versions):
    """The entries of a case, each with the case's schema before it, and its own operations then; at last (None, ..)."""
    schema, own = None, []
    for entry in cell.entries:
        yield entry, schema, own
        if entry.reply[0] == "created":
            schema = versions[int(entry.event[1]) - 1]
        elif entry.reply[0] == "changed":
            schema, own = schema.after(entry.line.ops), own + entry.line.ops
        elif entry.reply[0] == "migrated":
            schema = versions[int(entry.reply[1]) - 1].after(own)
    yield None, schema, own
