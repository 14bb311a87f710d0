"""Whether what a script line calls stands in one place: which files tell the acts of script lines apart.

A new event of a case is to have its arm in `line_calls`. So of the files of src/ one at most matches on an arm of `Act`, by
`match`, `if let` or `matches!`; and of definitions and proofs those of `line_calls`, of the reader and of the crates named
below have a clause for an act, and no others, but for examples.
"""

import glob
import os
import re

TOP = os.path.dirname(os.path.dirname(os.path.realpath(__file__)))
MOST = 1
ARM = re.compile(r"\bAct::[A-Z]\w*")
CLAUSE = re.compile(r"(?<![.\w])act\.[A-Z]\w*")
NAMED = re.compile(r"\buse\b[^;]*\bAct(::|\s+as\b)")
# The reader's make acts from the words of a line, or say which acts a file may have; others still go by acts in proofs.
READER = {"file_model", "file_facts", "file_state", "file_units", "unit_files", "audit_facts"}
WITH_CLAUSES = READER | {"line_calls", "store_calls", "store_runs", "talk_told", "talk_answers", "talk_state", "case_audit"}
# Text, and whether an arm is matched on in it.
SEEN = [("match act { Act::Start { id, node } => 1, _ => 2 }", True), ("Act::Create { .. } | Act::Migrate { .. } => None,", True),
        ("Act::Install { ops, .. } if ops.is_empty() => 1,", True), ("if let Act::Create { id } = act {", True),
        ("let Act::Create { id } = act else {", True), ("matches!(line.act, Act::Create { .. })", True), ("use file_model::Act::*;", True),
        ("use file_model::{Act as Deed, File};", True), ("use file_model::{Act, File};", False), ("with_line(at, Act::Start { id, node })", False),
        ("let act = Act::Migrate { type_no };", False), ("Target::Case(id) => Act::Change { id, ops: group.ops },", False),
        ("// Act::Create { id } => 1,", False)]


def tried():
    """The name of each check with what differs, or None."""
    wrong = [text for text, seen in SEEN if matches(text) != seen]
    yield "places, arms are seen", wrong[0] if wrong else None
    files = [path for path in sources("src", "rt") if matches(text_of(path))]
    yield "places, acts in src", None if len(files) <= MOST else "%d files match on an act: %s" % (len(files), ", ".join(map(short, files)))
    files = [path for folder in ("specs", "proofs") for path in sources(folder, "antt") if has_clause(path)]
    yield "places, acts in specs and proofs", None if not files else "they have clauses for acts: " + ", ".join(map(short, files))


def sources(folder, ending):
    return sorted(glob.glob(os.path.join(TOP, "crates", "*", folder, "**", "*." + ending), recursive=True))


def short(path):
    return os.path.relpath(path, TOP)


def text_of(path):
    with open(path) as file:
        return file.read()


def has_clause(path):
    crate = os.path.relpath(path, os.path.join(TOP, "crates")).split(os.sep)[0]
    if crate in WITH_CLAUSES or os.path.basename(path).startswith("Examples"):
        return False
    return CLAUSE.search(re.sub(r"--.*", "", text_of(path))) is not None


def matches(text):
    """Whether an arm of `Act` is a pattern in the text, or may be one under another name."""
    text = re.sub(r"//.*", "", text)
    return NAMED.search(text) is not None or any(is_pattern(text, arm) for arm in ARM.finditer(text))


def is_pattern(text, arm):
    behind = text[behind_fields(text, arm.end()):].lstrip()
    before = text[:arm.start()].rstrip()
    if re.match(r"=>|\|(?!\|)|if\b", behind):
        return True
    if re.match(r"=(?!=)", behind) and before.endswith("let"):
        return True
    return "matches!(" in before.rpartition(";")[2] and behind.startswith(")")


def behind_fields(text, at):
    """The place behind the fields of an arm that ends there, where it has any."""
    opened = re.match(r"\s*[({]", text[at:])
    if not opened:
        return at
    depth = 0
    for place in range(at + opened.end() - 1, len(text)):
        depth += {"(": 1, "{": 1, ")": -1, "}": -1}.get(text[place], 0)
        if depth == 0:
            return place + 1
    return at
