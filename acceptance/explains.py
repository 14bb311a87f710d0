"""Tries tools/explain on the folders of acceptance/explaining, and on the files of acceptance/limits that are refused.

What documents show of it is the whole of what is told. A folder has `stdin`, the file, or `talk`, which a server is told whose
store is asked about then, or `typed`, lines that are typed at a terminal of ./serve; and `told`: its lines stand in what is told,
in that order, each as a part of a line (which may have several). Of a file or a store those that begin with `line`, `lines` or
`unit` are all that do so.
"""
import glob
import os
import re
import subprocess
import sys
import tempfile

import terminals

HERE = os.path.dirname(os.path.realpath(__file__))
EXPLAIN = os.path.join(os.path.dirname(HERE), "tools", "explain")
TALK = os.path.join(os.path.dirname(HERE), "tools", "talk")
HEAD = re.compile(r"(lines?|unit) \d")
WAY = re.compile("past the limit of|may have|There may be")


def explained(command, given, *words):
    """What is told of a file, or as the words have it, as lines, and the status."""
    done = subprocess.run([EXPLAIN, "--program", command[0], *words], input=given, stdout=subprocess.PIPE, stderr=subprocess.STDOUT)
    return done.stdout.decode("utf-8", "replace").splitlines(), done.returncode


def explained_store(server, talk):
    """What is told of a store whose server was told a talk."""
    with tempfile.TemporaryDirectory(prefix="acceptance-") as folder:
        store = os.path.join(folder, "store")
        subprocess.run([server, store], input=talk, stdout=subprocess.DEVNULL, check=True)
        return explained([server], None, "--store", store)


def what_differs(told, found, status):
    heads, wanted = [line for line in found if HEAD.match(line)], [line for line in told if HEAD.match(line)]
    if heads != wanted:
        return "wanted the heads %s, got %s" % (wanted, heads)
    if status != bool(wanted):
        return "status %d" % status
    missing = first_missing(told, found)
    return "wanted %r, in this order, in %r" % (missing, found) if missing else None


def first_missing(told, found):
    """The first line that stands in no line of what was found from the one on in which that before it stands."""
    at = 0
    for line in told:
        at = next((place for place in range(at, len(found)) if line in found[place]), None)
        if at is None:
            return line
    return None


def what_typing_differs(server, lines, told):
    """What is shown otherwise where lines are typed."""
    with tempfile.TemporaryDirectory(prefix="acceptance-") as folder:
        command = [TALK, "--no-stamp", server, os.path.join(folder, "store")]
        status, shown = terminals.typed(command, lines, folder, {**os.environ, "TERM": "xterm", "NO_COLOR": "1"})
    missing = first_missing(told, shown.splitlines())
    return "wanted %r, in this order, in %r" % (missing, shown) if missing else "status %d" % status if status else None


def content(path):
    with open(path, "rb") as file:
        return file.read()


def documents(command):
    """What documents show as told of the last process file before it."""
    for path in sorted(glob.glob(os.path.join(os.path.dirname(HERE), "docs", "*.md"))):
        given = b""
        for block in re.findall(rb"^```\n(.*?)^```$", content(path), re.M | re.S):
            if re.match(rb"adept [123]\n", block):
                given = block
            elif re.match(rb"line \d+: ", block):
                found = "\n".join(explained(command, given)[0]) + "\n"
                yield "explaining a file in " + os.path.basename(path), None if found == block.decode() else "got %r" % found


def what_folder_differs(folder, command, server):
    told = content(os.path.join(folder, "told")).decode().splitlines()
    if os.path.exists(os.path.join(folder, "talk")):
        return what_differs(told, *explained_store(server, content(os.path.join(folder, "talk"))))
    if os.path.exists(os.path.join(folder, "typed")):
        return what_typing_differs(server, content(os.path.join(folder, "typed")).decode().splitlines(), told)
    return what_differs(told, *explained(command, content(os.path.join(folder, "stdin"))))


def tried(command, server):
    """The name of each case with what differs, or None. What is told to a server is tried where there is one."""
    yield from documents(command)
    for folder in sorted(glob.glob(os.path.join(HERE, "explaining", "*"))):
        name = os.path.relpath(folder, HERE)
        if server or os.path.exists(os.path.join(folder, "stdin")):
            yield name, what_folder_differs(folder, command, server)
        else:
            print("not tried %s: there is no proved serve_main" % name, flush=True)
    for folder in sorted(glob.glob(os.path.join(HERE, "limits", "*"))):
        refusal = os.path.join(folder, "stderr")
        maker = os.path.join(folder, "make-stdin")
        if os.path.exists(maker) and os.path.exists(refusal) and b"limit " in content(refusal):
            given = subprocess.run([sys.executable, maker], stdout=subprocess.PIPE, check=True).stdout
            head = content(refusal).decode()[len("adept: "):].rstrip("\n")
            found = explained(command, given)[0]
            has_way = any(WAY.search(line) for line in found)
            difference = None if found[:1] == [head] and has_way else "wanted %r first, and the limit, got %r" % (head, found[:3])
            yield "explaining " + os.path.relpath(folder, HERE), difference
