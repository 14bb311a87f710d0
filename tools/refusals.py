"""What is told of a file that a program takes: the calls that its cases and types refuse, and what no command tells of.

What is refused, and how a case stands before that, is asked of the program (asking.py). What the call would have needed is read
off the blocks of the case and its journal.
"""
import collections

import faults
import talks
from asking import text_of
from processes import File, Report, along, role_of
from telling import BOLD, LONGEST, RED, YELLOW, in_colour, shown

MOST_TOLD, MOST_NAMES = 100, 12


class Call:
    """A refused call: its entry, its case or type, the schema and the own operations before it, and the entries before it."""

    def __init__(self, asked, cell, entry, schema, own, before):
        self.asked, self.cell, self.entry, self.schema, self.own, self.before = asked, cell, entry, schema, own, before
        self.line, self.reply = entry.line, entry.reply

    def node(self):
        return self.line.rest[0]

    def kind(self):
        return "case" if self.cell.kind else "type"

    def at(self, line):
        return self.asked.place(line.number) if line else "before"

    def is_waiting(self):
        """Whether what it waits for is told by how the case stands."""
        return self.reply[:2] in (["not-ready", "N"], ["not-running", "N"])

    def last(self, verbs, node=None, replies=("started", "ended", "repeated", "created")):
        """The line of the last call of that kind that was accepted before, or None."""
        for entry in reversed(self.before):
            if entry.event[0] in verbs and entry.reply[0] in replies and node in (None, *entry.event[1:2]):
                return entry.line
        return None


class Asked:
    """A file, its report, and how its cases stand before a line, as a program tells them."""

    warned_of = ("open_orders", "lonely_roles", "idle")

    def __init__(self, data, program, report=None):
        self.data, self.program, self.states = data, program, {}
        self.rows = data.split(b"\n")
        self.file = File(text_of(data))
        self.report = Report(program.report(data) if report is None else report).join(self.file)

    def look(self, calls):
        """Asks how the cases of calls stood before them."""
        wanted = {(call.line.number, call.cell.name) for call in calls if call.is_waiting()}
        self.states.update(self.program.cells(self.data, wanted) if wanted else {})

    def before(self, number, name):
        """The case as it stands before a line of the file, or None where that was not asked."""
        return self.states.get((number, name))

    def text(self, number):
        """What stands in a line."""
        return shown(text_of(self.rows[number - 1]).strip())[:LONGEST]

    # How a place in the file is told, and the ways out.

    def place(self, number):
        return "line %d" % number

    def other(self, words):
        """That a line is to come first."""
        return "put `%s` before this line" % words

    def joined(self, actor, roles):
        """How somebody has these roles."""
        return "declare `actor %s roles %s`" % (actor, " ".join(map(str, roles)))

    def way(self, text):
        """What is to be done with lines of a file that can be changed."""
        return text


class Held(Asked):
    """What a server holds: what was said is not changed any more, and its units are counted."""

    warned_of = ("lonely_roles", "idle")

    def __init__(self, data, report, server):
        super().__init__(data, server, report)
        self.units = talks.units(data)

    def place(self, number):
        return "unit %d" % self.units[number]

    def other(self, words):
        return "say `%s` first" % words

    def joined(self, _actor, roles):
        return "declare somebody who has it, `actor NAME roles %s`" % roles[-1]

    def way(self, text):
        return ""


def named(names, joint="and"):
    listed = ["`%s`" % name for name in names]
    if len(listed) > MOST_NAMES:
        listed = [*listed[:MOST_NAMES], "%d more" % (len(listed) - MOST_NAMES)]
    return listed[0] if len(listed) == 1 else ", ".join(listed[:-1]) + " %s %s" % (joint, listed[-1]) if listed else "nobody"


def joined(*parts):
    """What is said and a way out, where there is one."""
    return ": ".join(part for part in parts if part) + "."


# What to say of each reply.

def offered(call, item):
    """Who may work on a work item, or does."""
    node, how, who = item
    if how == ":":
        return "`%s`, which `%s` is at work on" % (node, who)
    if who == "0":
        return "`%s`, which everybody may start" % node
    return "`%s`, which is for role %s (%s)" % (node, who, named(call.asked.file.holders(role_of(who)), "or"))


def waited_for(schema, marking, node):
    """The nodes that are activated or running on the ways to a node, as far as nothing on them is done."""
    sources, todo, seen = schema.sources(), [node], set()
    while todo:
        for source, _ in sources.get(todo.pop(), []):
            if source not in seen:
                seen.add(source)
                if marking.get(source) == "N":
                    todo.append(source)
    return [source for source in schema.nodes() if source in seen and marking.get(source) in ("A", "R")]


def waits(call, node):
    stands = call.asked.before(call.line.number, call.cell.name)
    if stands is None or list(stands.marking) != call.schema.nodes():
        return ["`%s` is not ready: what stands before it is not done." % node]
    items = {item[0]: item for item in stands.items}
    found = [offered(call, items[source]) for source in waited_for(call.schema, stands.marking, node) if source in items]
    return ["`%s` is not ready: it waits for %s." % (node, " and for ".join(found) if found else "what stands before it")]


def left_out(call, node):
    """Which choice leaves a node out."""
    for block, code in call.schema.around(node):
        line = call.last(("end",), block.first) if block.kind == "xor" else None
        if line and line.rest[1:3] != ["choice", str(code)]:
            return ["`%s` is left out: it stands in branch %s of `%s`, which %s ended with choice %s." % (
                node, code, block.first, call.at(line), " ".join(line.rest[2:3]))]
    return ["`%s` is left out: its branch was not chosen." % node]


def not_ready(call):
    node, letter = call.node(), call.reply[1]
    if letter == "N":
        return waits(call, node)
    if letter == "S":
        return left_out(call, node)
    if letter == "C":
        says = "`%s` is done already, since %s: nothing is done twice but in a loop that goes on."
        return [says % (node, call.at(call.last(("end",), node)))]
    started = call.last(("start",), node)
    return ["`%s` is at work on `%s`, since %s." % (started.actor, node, call.at(started))]


def not_running(call):
    node, letter = call.node(), call.reply[1]
    if letter == "C":
        return not_ready(call)
    if letter == "S":
        return left_out(call, node)
    if letter == "N":
        return ["`%s` was not started. %s" % (node, waits(call, node)[0])]
    return ["`%s` was not started: %s." % (node, call.asked.other("%s start %s %s" % (call.line.actor, call.cell.name, node)))]


def not_allowed(call):
    role, actor, roles = call.reply[1], call.line.actor, call.asked.file.actors[call.line.actor]
    holders = call.asked.file.holders(role_of(role))
    who = "which %s ha%s" % (named(holders), "s" if len(holders) == 1 else "ve") if holders else "which no actor has"
    has = "role " + ", ".join(map(str, roles)) if roles else "no role"
    return ["`%s` is for role %s, %s; `%s` has %s." % (call.node(), role, who, actor, has),
            "Let somebody with the role do it, or %s." % call.asked.joined(actor, [*roles, role])]


def not_holder(call):
    started = call.last(("start",), call.node())
    back = ", or gives it back (`withdraw`)" if call.asked.file.format != "1" else ""
    says = "`%s` is at work on `%s`, since %s, and alone may end it: `%s` ends it%s."
    return [says % (call.reply[1], call.node(), call.at(started), call.reply[1], back)]


def no_node(call):
    nodes = [node for node in call.schema.nodes() if node not in ("start", "finish")]
    return ["The case has no node `%s` at this point; it has %s." % (call.node(), named(nodes))]


def no_case(call):
    name, line = call.cell.name, call.line
    later = [other for other in call.asked.file.script if other.verb == "create" and other.target == name and other.number > line.number]
    way = "%s does that later" % call.at(later[0]) if later else call.asked.other("%s create %s" % (line.actor, name))
    return ["The case is not created at this point: %s." % way]


def already(call):
    return [joined("The case was created in %s" % call.at(call.last(("create",))), call.asked.way("leave this line out"))]


def wrong_writes(call):
    node = call.node()
    pairs = [word.split("=", 1) for word in call.line.rest[1:] if "=" in word]
    says = []
    for element in call.reply[1:]:
        given = [value for name, value in pairs if name == element]
        kind = call.schema.elements.get(element)
        example = element + ('="..."' if kind == "text" else "=0")
        if element not in call.schema.written(node):
            says.append("`%s` does not write `%s`: leave it out, or let it (`write %s %s`)." % (node, element, node, element))
        elif not given:
            says.append("`%s` writes `%s`, and no value is given: put `%s` behind." % (node, element, example))
        elif len(given) > 1:
            says.append("`%s` is given %d times: leave one." % (element, len(given)))
        else:
            says.append("`%s` is %s: write `%s`." % (element, {"int": "an integer", "text": "a text"}[kind], example))
    return says


def no_branch(call):
    node = call.node()
    for block in call.schema.blocks():
        if block.kind == "xor" and block.first == node:
            codes = " or ".join("`choice %d`" % code for code, _ in block.branches)
            return ["`%s` is ended with the code of one of its branches: %s." % (node, codes)]
        if block.kind == "loop" and block.last == node:
            return ["`%s` ends a loop: `choice 1` goes on once more, `choice 0` ends it." % node]
    return ["`%s` is an activity, and is ended without a choice." % node]


def finished(call):
    return [joined("The case is finished, and neither changes nor moves any more", call.asked.way("put the line before its last `end`"))]


def unsound(call):
    fault, ops = call.reply[1:], call.line.ops
    schema = call.schema if fault[0] == "op" else call.schema.after(ops)
    if call.line.verb == "migrate":
        return ["With the case's own operations the new version would be unsound: %s." % " ".join(fault)]
    says, keys = faults.explained(fault, schema)
    found = []
    for key in keys:
        number = ops[key[1] - 1][0] if key[0] == "op" else schema.lines.get(key)
        if number:
            found.append("%s: %s" % (call.asked.place(number), call.asked.text(number)))
    return [*dict.fromkeys(found), *says]


def blocked(call):
    verb, node = call.reply[2], " ".join(call.reply[3:])
    line = call.last((verb,), node) if verb in ("start", "end") else None
    where = " (%s)" % call.at(line) if line else ""
    says = "`%s %s`%s is done already, and could not have been done where that change holds: what is done stays done."
    return [says % (verb, node, where), "Change what comes behind it%s." % call.asked.way(", or change the case before that line")]


def overlap(call):
    says = "The case's own change and a version behind the case's base both touch this: %s. So it stays where it is: change it " \
        "by hand as the version does."
    return [says % " ".join(call.reply[1:])]


def not_newer(call):
    return ["The case stands on version %s, and there is no newer one: `install` one first." % call.reply[1]]


def version_limit(call):
    return ["A type has 256 versions at most: a type of another name begins anew."]


SAYS = {"not-ready": not_ready, "not-running": not_running, "not-allowed": not_allowed, "not-holder": not_holder, "no-node": no_node,
        "no-case": no_case, "already": already, "wrong-writes": wrong_writes, "no-branch": no_branch, "finished": finished,
        "unsound": unsound, "blocked": blocked, "overlap": overlap, "not-newer": not_newer, "version-limit": version_limit}


def refused(asked):
    """The calls that were refused, as the report has them."""
    report, file = asked.report, asked.file
    for name, cell in report.types.items():
        versions = report.versions(file, name)
        count = 0
        for entry in cell.entries:
            count += entry.reply[0] in ("defined", "installed")
            if entry.is_refused():
                yield Call(asked, cell, entry, versions[count - 1], [], [])
    for cell in report.cases.values():
        if any(entry.is_refused() for entry in cell.entries):
            before = []
            for entry, schema, own in along(cell, report.versions(file, cell.kind)):
                if entry and entry.is_refused():
                    yield Call(asked, cell, entry, schema, own, list(before))
                before.append(entry)


def told(call):
    """What is told of a refused call: the reply, and sentences."""
    of_case = "`%s`: " % call.cell.name if call.line.verb == "migrate" and call.cell.kind else ""
    yield of_case + in_colour(RED, " ".join(call.reply))
    for sentence in SAYS[call.reply[0]](call):
        yield shown(sentence)


def show_calls(asked):
    """Shows the refused calls in the order of their lines: how many there are."""
    calls = sorted(refused(asked), key=lambda call: call.line.number)
    last = None
    asked.look(calls[:MOST_TOLD])
    for call in calls[:MOST_TOLD]:
        if call.line.number != last:
            last = call.line.number
            print("%s: %s" % (in_colour(BOLD, asked.place(last)), asked.text(last)))
        for line in told(call):
            print("  " + line)
    if len(calls) > MOST_TOLD:
        print("%d more calls are refused." % (len(calls) - MOST_TOLD))
    return len(calls)


# What no command tells of.

def open_orders(asked):
    """Cases and types that two actors of one phase call: their order is open under `run`."""
    callers = collections.defaultdict(list)
    for line, cell in asked.file.calls():
        callers[line.phase, cell].append(line)
    for (phase, (kind, name)), lines in callers.items():
        actors = list(dict.fromkeys(line.actor for line in lines))
        asks_alone = kind == "type" and all(line.verb == "create" for line in lines)
        if len(actors) > 1 and not asks_alone:
            second = next(line for line in lines if line.actor != lines[0].actor)
            says = "phase %d: %s call the %s `%s`, and under `run` actors of one phase do not wait for one another, so which call " \
                "comes first is open (`play` takes the order of the lines). Put a line `phase` between them where the order counts."
            yield second.number, says % (phase, named(actors), kind, name)


def roles_asked(asked):
    """Each role that a node has in a version or in a case, with the node and the line that brings it."""
    for name in asked.report.types:
        for schema in asked.report.versions(asked.file, name):
            yield from ((role, node, schema.lines.get(("node", node))) for node, role in schema.roles.items())
    for cell in asked.report.cases.values():
        if any(entry.reply[0] == "changed" for entry in cell.entries):
            *_, (_, schema, _) = along(cell, asked.report.versions(asked.file, cell.kind))
            yield from ((role, node, schema.lines.get(("node", node))) for node, role in schema.roles.items())


def lonely_roles(asked):
    roles = collections.defaultdict(dict)
    for role, node, number in roles_asked(asked):
        roles[role].setdefault(node, number)
    for role, nodes in roles.items():
        if not asked.file.holders(role):
            says = "no actor has role %s, so nobody may do %s: declare `actor NAME roles %s`, or give the node another role."
            yield min(nodes.values()), says % (role, named(nodes), role)
    for actor, own in asked.file.actors.items():
        for role in own:
            if role not in roles and role:
                yield asked.file.numbers["actor", actor], "`%s` has role %s, which no node asks for." % (actor, role)


def idle(asked):
    """Cases that are never created, and types without cases."""
    for name, cell in asked.report.cases.items():
        if cell.state == ["none"]:
            yield asked.file.numbers["case", name], "the case `%s` is never created: `ACTOR create %s` does it." % (name, name)
    for name in asked.file.types:
        if name not in asked.file.cases.values():
            yield asked.file.numbers["type", name], "the type `%s` has no case: `case NAME %s` declares one." % (name, name)
    moves = collections.defaultdict(list)
    for cell in asked.report.cases.values():
        for entry in cell.entries:
            if entry.event[0] == "migrate":
                moves[entry.line.number].append(entry.reply[0])
    for number, replies in moves.items():
        if "migrated" not in replies:
            yield number, "this migration moves none of its %d cases." % len(replies)


WARNINGS = {"open_orders": open_orders, "lonely_roles": lonely_roles, "idle": idle}


def traps_of(asked):
    return sorted(trap for name in asked.warned_of for trap in WARNINGS[name](asked))


def count(asked):
    """How many calls are refused, and how many warnings there are."""
    return len(list(refused(asked))), len(traps_of(asked))


def show(asked):
    """Shows what is refused while the file is worked, and what no command tells of: how much there is."""
    count, traps = show_calls(asked), traps_of(asked)
    for number, says in traps[:MOST_TOLD]:
        print("%s: %s" % (in_colour(BOLD, asked.place(number)), in_colour(YELLOW, "warning")))
        print("  " + says[0].upper() + says[1:])
    if len(traps) > MOST_TOLD:
        print("%d more warnings." % (len(traps) - MOST_TOLD))
    return count + len(traps)
