"""Whether crates.txt, and the table and the picture of ARCHITECTURE.md, say the same of crates and layers.

In crates.txt each crate stands on crates further up alone, below the heading of its layer; the table has the crates in that
order, read from its end; and in the picture a layer stands on layers in rows further down alone. Besides, whether editors know the words of the format.
"""
import json
import os
import re
import sys

TOP = os.path.dirname(os.path.dirname(os.path.realpath(__file__)))


def text_of(name):
    with open(os.path.join(TOP, name), encoding="utf-8") as file:
        return file.read()


def listed(text):
    """Each crate of crates.txt, in order: its name, its layer, and what it stands on."""
    layer = None
    for line in text.splitlines():
        heading = re.match(r"## (\w+): ", line)
        if heading:
            layer = heading.group(1)
        elif line.strip() and not line.startswith("#"):
            head, _, below = line.partition("#")[0].partition(":")
            yield head.split()[0], layer, below.split()


def tabled(text):
    """Each crate of the map's table, in order: its name and its layer. A row may have several."""
    table = text[text.index("\n| Layer | Crate |"):].lstrip("\n").split("\n\n")[0]
    for row in table.splitlines()[2:]:
        layer, crates = row.split(" | ")[:2]
        for name in re.findall(r"`(\w+)`", crates):
            yield name, layer.lstrip("| ")


def drawn(text):
    """The number of the row in which each layer begins in the map's picture, and which layers stand there twice."""
    rows, twice = {}, []
    for number, line in enumerate(re.search(r"^```\n(\+.*?)^```$", text, re.M | re.S).group(1).splitlines()):
        for layer in re.findall(r"\w+", line):
            twice += [layer] if layer in rows else []
            rows[layer] = number
    return rows, twice


def first_difference(wanted, found):
    for left, right in zip([*wanted, None], [*found, None]):
        if left != right:
            return "crates.txt, from its end, has %s where the table has %s" % (left, right)
    return None


def wrong_order(crates):
    """What a crate stands on that is a crate further down."""
    places = {name: place for place, (name, _, _) in enumerate(crates)}
    for name, layer, below in crates:
        if layer is None:
            return "%s has no heading" % name
        for other in below:
            if places.get(other, -1) >= places[name]:
                return "%s stands on %s, which is not further up" % (name, other)
    layers = [layer for layer, after in zip([c[1] for c in crates], [*[c[1] for c in crates[1:]], None]) if layer != after]
    return None if len(layers) == len(set(layers)) else "a heading stands there twice"


def wrong_picture(crates, rows, twice):
    """A layer that stands beside or below one that stands on it, or is drawn not once."""
    layer_of = {name: layer for name, layer, _ in crates}
    if twice or set(rows) != set(layer_of.values()):
        return "drawn are %s, and twice %s" % (sorted(rows), twice)
    for name, layer, below in crates:
        for other in below:
            beneath = layer_of.get(other, layer)
            if beneath != layer and rows[beneath] <= rows[layer]:
                return "%s of %s stands on %s of %s, which is not drawn further down" % (name, layer, other, beneath)
    return None


def wrong_words():
    """Whether the editors know other words of the format than docs/FILE_FORMAT.md and the scripts."""
    sys.path.append(os.path.join(TOP, "tools"))
    from line_forms import KEYWORDS
    vim = re.search(r"^syntax keyword adeptWord (.*)$", text_of("editors/vim/syntax/adept.vim"), re.M).group(1).split()
    code = [rule["match"] for rule in json.loads(text_of("editors/vscode/syntaxes/adept.json"))["patterns"]]
    code = next(re.search(r"\(\?:([a-z|]+)\)", match).group(1).split("|") for match in code if "(?:act|" in match)
    shown = {word for span in re.findall(r"`([^`]*)`", text_of("docs/FILE_FORMAT.md")) for word in span.split()}
    absent = KEYWORDS - shown
    words = KEYWORDS - {"adept"}
    if absent:
        return "docs/FILE_FORMAT.md lacks %s" % absent
    other = (set(vim) ^ words) | (set(code) ^ words)
    return "other words: %s" % other if other else None


def tried():
    """The name of each comparison with what is wrong, or None."""
    crates, map_text = list(listed(text_of("crates.txt"))), text_of("ARCHITECTURE.md")
    yield "the order of crates.txt", wrong_order(crates)
    yield "the table of ARCHITECTURE.md", first_difference([(name, layer) for name, layer, _ in reversed(crates)], list(tabled(map_text)))
    yield "the picture of ARCHITECTURE.md", wrong_picture(crates, *drawn(map_text))
    yield "the words of the format in editors/", wrong_words()
