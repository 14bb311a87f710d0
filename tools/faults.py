"""Why a schema or an operation is refused, in sentences with the way out, and which lines of the file it is about.

Which fault there is says the program; here its names are looked up in the blocks of the type or the case.
"""
from processes import TypeReader, words_of

LIMITS = {"nodes": "1,024 nodes, with `start` and `finish`", "depth": "64 blocks one inside another", "syncs": "1,024 sync edges",
          "elements": "1,024 elements", "reads": "16 reads of a node", "writes": "16 writes of a node"}
OPERATIONS = {
    "no-node": "There is no node `%s` at that point: earlier lines of the group count, later ones do not",
    "node-there": "A node `%s` is there already: give the new one another name",
    "wrong-kind": "`%s` is no node that this operation takes: `delete` and `move` take activities, `read`, `write` and `role` nodes "
                  "that are worked on, `sync` activities, `after` anything but a split and `finish`, `head` a split with that code",
    "self-target": "`%s` would move behind itself",
    "no-sync": "There is no such sync edge", "sync-there": "That sync edge is there already",
    "no-edge": "There is no such read or write", "edge-there": "That read or write is there already",
    "element-there": "That element is there already",
}


class Told:
    """Sentences, the rows that they are about, and how to mend a type, if that is known."""

    def __init__(self, says, rows=(), mend=None):
        self.says, self.rows, self.mend = says, list(rows), mend


def explained(words, schema):
    """The sentences on a fault of a schema, and what they are about, as keys of its lines."""
    return EXPLAIN[words[0]](schema, *words[1:])


def limit(schema, kind):
    return ["There may be %s at most: divide it." % LIMITS[kind]], []


def twice(schema, node):
    says = "`%s` stands twice: each node has a name of its own" % node
    way = ", and `start` and `finish` are there from the beginning." if node in ("start", "finish") else ". Rename one of them."
    return [says + way], [("node", node)]


def few_branches(schema, split):
    return ["The block of `%s` has fewer than two branches: it wants two `branch CODE` lines at least; a branch may be empty." % split], \
        [("node", split)]


def code_twice(schema, split, code):
    return ["Two branches of `%s` have the code %s: give one of them another." % (split, code)], [("node", split)]


def kind_of(schema, node):
    """What a node is, in words."""
    for block in schema.blocks():
        if node in (block.first, block.last):
            place = "first" if node == block.first else "last"
            return "the %s node of %s" % (place, {"and": "an `and` block", "xor": "an `xor` block", "loop": "a loop"}[block.kind])
    if node in ("start", "finish"):
        return "the %s of the whole" % node
    return "an activity" if node in schema.nodes() else "no node of this type"


def sync_end(schema, source, target):
    wrong = [node for node in (source, target) if kind_of(schema, node) != "an activity"] or [source]
    says = ["A sync edge joins two activities, and `%s` is %s." % (node, kind_of(schema, node)) for node in wrong]
    return says, [("sync", source, target)]


def meeting(schema, one, other):
    """The innermost block round both nodes, with the code of the branch of each; None where there is none."""
    met = None
    for (block, code), (other_block, other_code) in zip(schema.around(one), schema.around(other)):
        if block is other_block:
            met = block, code, other_code
    return met


def sync_place(schema, source, target):
    met = meeting(schema, source, target)
    if met and met[0].kind == "xor" and met[1] != met[2]:
        why = "they stand in different branches of the choice `%s`, of which one alone is done" % met[0].first
    elif source == target:
        why = "it is one node"
    else:
        why = "they stand one behind the other, so that their order is settled without it"
    says = "A sync edge joins activities in different branches of an `and` block, and for `%s` and `%s` %s: leave the line out, " \
        "or put them into two branches."
    return [says % (source, target, why)], [("sync", source, target), ("node", source), ("node", target)]


def sync_loop(schema, source, target):
    says = "A sync edge may not lead into a loop or out of one: `%s` and `%s` are to stand in the same loop, or both in none."
    return [says % (source, target)], [("sync", source, target), ("node", source), ("node", target)]


def way(schema, start, goal):
    """Nodes from one to another along the edges, control and sync."""
    targets = {}
    for node, sources in schema.sources().items():
        for source, _ in sources:
            targets.setdefault(source, []).append(node)
    ways, seen = [[start]], {start}
    while ways:
        path = ways.pop(0)
        if path[-1] == goal:
            return path
        for node in targets.get(path[-1], []):
            if node not in seen:
                seen.add(node)
                ways.append([*path, node])
    return []


def sync_cycle(schema, source, target):
    path = way(schema, target, source)
    return ["`%s` would wait for `%s`, which itself waits for it (%s): take one of these edges away." % (
        target, source, " before ".join("`%s`" % node for node in path))], [("sync", source, target)]


def unknown(schema, node, element):
    says = []
    if element not in schema.elements:
        says.append("No `element %s int` or `element %s text` is in the type; its elements: %s." % (
            element, element, ", ".join("`%s`" % name for name in schema.elements) or "none"))
    kind = kind_of(schema, node)
    if kind != "an activity":
        says.append("`%s` is %s: activities, first nodes of `xor` blocks and last nodes of loops are worked on, and they alone "
                    "read and write." % (node, kind))
    return says, [key for key in (("read", node, element), ("write", node, element)) if key in schema.lines]


def why_not_sure(schema, writer, node):
    """Why what one node writes is not sure at another."""
    order = schema.nodes()
    if writer not in order:
        return "`%s` is no node of it" % writer
    if writer == node:
        return "`%s` itself writes it only when it ends" % node
    met = meeting(schema, writer, node)
    if met and met[1] != met[2]:
        if met[0].kind == "xor":
            return "`%s` is done only where `%s` is not, in another branch of `%s`" % (writer, node, met[0].first)
        says = "`%s` stands beside it, in another branch of `%s`, and need not come first (`sync %s %s` would make it wait)"
        return says % (writer, met[0].first, writer, node)
    if order.index(writer) > order.index(node):
        return "`%s` comes later" % writer
    inside = [block for block, _ in schema.around(node)]
    passed = [(block, code) for block, code in schema.around(writer) if block not in inside and block.kind == "xor"]
    if passed:
        block, code = passed[0]
        others = " or ".join(str(other) for other, _ in block.branches if other != code)
        return "`%s` (branch %s of `%s`) is passed by on the way through branch %s" % (writer, code, block.first, others)
    return "`%s` need not be done before" % writer


def missing(schema, node, element):
    writers = [writer for writer, what in schema.writes if what == element]
    why = "; ".join(why_not_sure(schema, writer, node) for writer in writers) or "nobody writes it"
    return ["`%s` must read `%s`, which on some way to it has no value: %s." % (node, element, why),
            "Write it before on every way (`write NODE %s`), or let it read `read %s %s optional`." % (element, node, element)], \
        [("read", node, element), *(("write", writer, element) for writer in writers)]


def parallel_write(schema, one, other, element):
    says = "`%s` and `%s` stand in different branches of an `and` block and both write `%s`, so that chance would decide what it " \
        "is: put a line `sync %s %s`, or the other way round, or let one of them write an element of its own."
    return [says % (one, other, element, one, other)], [("write", one, element), ("write", other, element)]


def op(schema, index, why, node=""):
    says = OPERATIONS[why]
    return ["Operation %s of the group is refused. %s." % (index, says % node if "%s" in says else says)], [("op", int(index))]


EXPLAIN = {"limit": limit, "twice": twice, "few-branches": few_branches, "code-twice": code_twice, "sync-end": sync_end,
           "sync-place": sync_place, "sync-loop": sync_loop, "sync-cycle": sync_cycle, "unknown": unknown, "missing": missing,
           "parallel-write": parallel_write, "op": op}


# The rows of a type.

def schema_of(rows):
    reader = TypeReader()
    for row, words in rows:
        if words[0] != "end":
            reader.take(row, words)
    return reader.made


def named_by(words, node):
    """Whether the line of a type brings the node."""
    return words[0] in ("act", "and", "xor", "loop") and node in words[1:2 if words[0] == "act" else 3]


def of_type(fault, rows, fresh):
    """What to say of a type that is refused, by its rows with their words, and the mend, a function of the draft."""
    schema = schema_of(rows)
    says, keys = explained(fault, schema)
    about = [schema.lines[key] for key in keys if key in schema.lines]
    if fault[0] in ("twice", "few-branches", "code-twice"):
        about = [row for row, words in rows if named_by(words, fault[1])] + about
    if fault[0] == "twice" and fault[1] not in ("start", "finish"):
        about = about[1:2] + about[:1]
    if fault[0] == "code-twice":
        about = second_branch(schema, fault) + about
    return Told(says, list(dict.fromkeys(about)), mend_of(fault, about, fresh))


def second_branch(schema, fault):
    """The row of the second branch of a split that has the code."""
    for block in schema.blocks():
        if block.first == fault[1]:
            places = [place for place, (code, _) in enumerate(block.branches) if str(code) == fault[2]]
            return [schema.lines[("branch", block.first, places[1])]] if len(places) > 1 and block.kind != "loop" else []
    return []


def mend_of(fault, about, fresh):
    """What to do so that the type is refused for something else next, or None."""
    kind, row = fault[0], about[0] if about else None
    if row is None or kind in ("limit", "op"):
        return None
    words = words_of(row.text.decode("utf-8", "surrogateescape"))
    if kind == "twice":
        renamed = [word if word != fault[1] or not at else "put-in-%d" % fresh for at, word in enumerate(words)]
        return lambda draft: draft.write(row, *renamed)
    if kind == "code-twice":
        return lambda draft: draft.write(row, "branch", str(40000 + fresh))
    if kind == "few-branches":
        return lambda draft: draft.put_behind(row, "branch %d" % (40000 + fresh))
    if kind == "missing":
        return lambda draft: draft.write(row, *words[:3], "optional")
    if kind == "parallel-write":
        return lambda draft: draft.put_behind(row, "sync %s %s" % (fault[1], fault[2]))
    return lambda draft: draft.write(row, "#")
