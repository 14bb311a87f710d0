"""Which choices lie between the activities of a case, where the next activity decides them.

Exports have activities alone, and a process also has choices, which somebody makes at the first node of an XOR block and at the
last node of a loop. By the blocks of the type:

- An activity inside a branch says that this branch was chosen.
- An activity behind an XOR block that nothing was done in says that a branch without activities was chosen, if there is one alone.
- An activity that can't come in the present round of a loop, since it was done in it, since what stands behind it was, or since
  another branch was chosen, says that the loop went on; so for the innermost loop in which that is so.
- An activity behind a loop says that the loop ended.

All else stays open.
"""
from processes import Act, Block, nodes_in


class Choices:
    """What was done in a case so far, and chosen."""

    def __init__(self, schema):
        self.schema, self.done, self.chosen, self.open = schema, set(), {}, []

    def is_begun(self, item):
        if isinstance(item, Act):
            return item.node in self.done
        return item.first in self.chosen or any(self.is_begun(inner) for _, body in item.branches for inner in body)

    def path(self, node, items=None):
        """The lists of items round an activity, the outermost first, each with the place in it; None where it is none."""
        items = self.schema.items if items is None else items
        for at, item in enumerate(items):
            if isinstance(item, Act):
                if item.node == node:
                    return [(items, at, None)]
                continue
            for code, body in item.branches:
                inner = self.path(node, body)
                if inner:
                    return [(items, at, code), *inner]
        return None

    def contradicted(self, path):
        """Whether the activity can't come now, and the innermost loop round what speaks against it."""
        loop = None
        for items, at, code in path:
            item = items[at]
            later = any(self.is_begun(other) for other in items[at + 1:])
            if later or isinstance(item, Act) and item.node in self.done:
                return True, loop
            if isinstance(item, Block) and item.kind == "loop":
                if self.chosen.get(item.last) == 0:
                    return True, loop
                loop = item
            elif isinstance(item, Block) and item.kind == "xor" and self.chosen.get(item.first, code) != code:
                return True, loop
        return False, None

    def choose(self, node, code):
        self.chosen[node] = code
        return [(node, code)]

    def close(self, item):
        """The choices by which an item is passed."""
        if isinstance(item, Act):
            return []
        if item.kind == "xor":
            return self.close_choice(item)
        made = [choice for _, body in item.branches for choice in self.close_all(body)]
        if item.kind == "loop" and item.last not in self.chosen:
            made += self.choose(item.last, 0)
        return made

    def close_choice(self, item):
        made = []
        if item.first not in self.chosen:
            empty = [code for code, body in item.branches if not body]
            if len(empty) != 1:
                self.open.append(item.first)
                return []
            made = self.choose(item.first, empty[0])
        return made + [choice for code, body in item.branches if code == self.chosen[item.first] for choice in self.close_all(body)]

    def close_all(self, items):
        return [choice for item in items for choice in self.close(item)]

    def repeat(self, loop):
        """The choices by which a loop goes on once more, and nothing in it is done."""
        made = self.close_all(loop.branches[0][1]) + [(loop.last, 1)]
        for node in nodes_in(loop.branches[0][1]):
            self.done.discard(node)
            self.chosen.pop(node, None)
        return made

    def before(self, node):
        """The choices before a start of the node, each a node and a code."""
        path, made = self.path(node), []
        if path is None:
            return []
        is_wrong, loop = self.contradicted(path)
        while is_wrong and loop:
            made += self.repeat(loop)
            is_wrong, loop = self.contradicted(path)
        if not is_wrong:
            for items, at, code in path:
                made += self.close_all(items[:at])
                if isinstance(items[at], Block) and items[at].kind == "xor" and items[at].first not in self.chosen:
                    made += self.choose(items[at].first, code)
        self.done.add(node)
        return made


def with_choices(records, schema):
    """The records of a log with those of the choices between them, and where in a case a choice stays open."""
    cases, made = {}, []
    for case, event, node, user, choice, writes in records:
        known = cases.setdefault(case, Choices(schema))
        if event == "start":
            for chooser, code in known.before(node):
                made += [[case, "start", chooser, user, "", ""], [case, "end", chooser, user, code, ""]]
        made.append([case, event, node, user, choice, writes])
    return made, [(case, node) for case, known in cases.items() for node in known.open]
