"""Whether each must-fail edit fits the text that it changes: what is old stands once in its file, and what is new differs.

rt ci counts an edit that does not fit for nothing, and passes all the same.  So it is asked of the changes with which
trials/stop and trials/stop-serve make wrong programs.  And docs/EDITS.md names the edits of each crate, no more and no fewer.
"""

import glob
import importlib.machinery
import importlib.util
import os
import re

TOP = os.path.dirname(os.path.dirname(os.path.realpath(__file__)))


def tried():
    """The name of each edit with what is wrong with it, or None."""
    for path in sorted(glob.glob(os.path.join(TOP, "crates", "*", "must-fail", "*.edit"))):
        yield os.path.relpath(path, TOP), what_is_wrong(path)
    there, listed = edits_there(), edits_listed()
    other = sorted(crate for crate in set(there) | set(listed) if there.get(crate, []) != listed.get(crate, []))
    yield "docs/EDITS.md", None if not other else "it has other edits than the folders of " + ", ".join(other)
    for trial in "stop", "stop-serve":
        for what, source, old, new in changes_of(trial):
            count = (text_of(os.path.join(TOP, "crates", source)) or "").count(old)
            is_fit = count == 1 and old != new
            yield "trials/%s, %s" % (trial, what), None if is_fit else "the old text stands %d times in its file" % count


def edits_there():
    """The names of each crate's edits."""
    there = {}
    for path in glob.glob(os.path.join(TOP, "crates", "*", "must-fail", "*.edit")):
        crate = os.path.basename(os.path.dirname(os.path.dirname(path)))
        there.setdefault(crate, []).append(os.path.basename(path)[:-len(".edit")])
    return {crate: sorted(names) for crate, names in there.items()}


def edits_listed():
    """The names that stand in the second column of the page's tables, by the crate in the first."""
    rows = re.findall(r"^\| `(\w+)` \|([^|]*)\|", text_of(os.path.join(TOP, "docs", "EDITS.md")), re.MULTILINE)
    return {crate: sorted(re.findall(r"`([\w-]+)`", names)) for crate, names in rows}


def changes_of(trial):
    """The changes of sources with which a trial makes wrong programs."""
    loader = importlib.machinery.SourceFileLoader("trial", os.path.join(TOP, "trials", trial))
    module = importlib.util.module_from_spec(importlib.util.spec_from_loader("trial", loader))
    loader.exec_module(module)
    return module.WRONG


def what_is_wrong(path):
    crate = os.path.dirname(os.path.dirname(path))
    text = old = None
    with open(path) as edit:
        for line in edit.read().splitlines():
            word, _, rest = line.partition(": ")
            if word == "file":
                text = text_of(os.path.join(crate, rest.strip()))
            elif word == "old":
                old = rest
                if (text or "").count(old) != 1:
                    return "the old text stands %d times in its file" % (text or "").count(old)
            elif word == "new" and rest == old:
                return "the new text is the old one"
    return None if old else "it has no old text"


def text_of(path):
    if not os.path.isfile(path):
        return None
    with open(path) as file:
        return file.read()
