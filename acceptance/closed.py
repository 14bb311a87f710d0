"""Tries each program with each set of its standard streams closed.

A stream that is closed is one that fails: what cannot be read gives status 3, what cannot be written 4, and messages that
nobody can read are none.  No file is opened in the place of a stream: a store keeps what it has, and no other file is made
or written to.  The work is the sequence of two activities, whose report and fit stand here.
"""
import itertools
import os
import subprocess
import tempfile
from keeps import SEQUENCE as FILE

SECONDS = 300
REPORT = b"""adept report 1
type t
1 - define -> defined
2 ann newest -> is 1
case c t
1 ann create 1 -> created
2 ann start A -> started
3 ann end A -> ended
4 ann start B -> started
5 ann end B -> ended
state 1 finished own=0
marking start=C A=C B=C finish=C
values
items
summary cases=1 finished=1 entries=5 migrated=0 blocked=0 overlap=0
"""
LOG = b"log\ncase,event,node,user,choice,writes\nx,start,A,1,,\nx,end,A,1,,\n"
FIT = b"case,events,fits,next\nx,2,2,\n"
REDIRECTIONS = {0: "<&-", 1: ">&-", 2: "2>&-"}
SETS = [streams for size in (1, 2, 3) for streams in itertools.combinations(REDIRECTIONS, size)]
# What each program is given, what it writes where nothing is closed, and whether it says on standard error why it ends.
PROGRAMS = {"adept_main": (["play"], FILE, REPORT, True), "audit_main": ([], FILE + REPORT, b"legal\n", False),
            "fit_main": (["t", "1"], FILE + LOG, FIT, False), "keep_main": (["store"], FILE, REPORT, True),
            "store_main": ([], FILE, REPORT, False)}
WHY = {3: b"cannot read\n", 4: b"cannot write\n"}


def files(folder):
    """The files of a folder with their bytes."""
    found = {}
    for name in os.listdir(folder):
        with open(os.path.join(folder, name), "rb") as file:
            found[name] = file.read()
    return found


def run(program, words, given, folder, streams=()):
    """Runs the program in the folder: its status, its output and its messages."""
    redirections = " ".join(REDIRECTIONS[stream] for stream in streams)
    command = ["sh", "-c", 'exec "$@" ' + redirections, "sh", program, *words]
    done = subprocess.run(command, input=given, cwd=folder, timeout=SECONDS, stdout=subprocess.PIPE, stderr=subprocess.PIPE)
    return done.returncode, done.stdout, done.stderr


def wanted(name, streams):
    """How the program ends: its status, its output and its messages."""
    _, _, output, speaks = PROGRAMS[name]
    status = 3 if 0 in streams else 4 if 1 in streams else 0
    said = b"%s: %s" % (name[:-len("_main")].encode(), WHY[status]) if status and speaks and 2 not in streams else b""
    return status, b"" if status else output, said


def begun(program, given, count):
    """What a folder has in which the program worked so many of the first lines over a store."""
    with tempfile.TemporaryDirectory(prefix="acceptance-") as folder:
        run(program, ["store"], b"".join(given.splitlines(True)[:count]), folder)
        return files(folder)


def what_differs(program, name, streams, before, behind):
    """None where the program ends as it should, and leaves the files that it should."""
    words, given, _, _ = PROGRAMS[name]
    with tempfile.TemporaryDirectory(prefix="acceptance-") as folder:
        for each, held in before.items():
            with open(os.path.join(folder, each), "wb") as file:
                file.write(held)
        got, left = run(program, words, given, folder, streams), files(folder)
    if got != wanted(name, streams):
        return "wanted %s, got %s" % (wanted(name, streams), got)
    return None if left == behind else "wanted the files %s, got %s" % (behind, left)


def kept(program, streams):
    """The files before and behind: a store is missing, is begun, or has all calls; what was not read leaves it so."""
    lines = len(FILE.splitlines())
    whole = begun(program, FILE, lines)
    for before in {}, begun(program, FILE, lines - 2), whole:
        yield before, before if 0 in streams else whole


def tried(programs):
    """Runs each program with each set of closed streams: a name, and what differs."""
    for name, program in programs.items():
        for streams in SETS:
            pairs = kept(program, streams) if name == "keep_main" else [({}, {}), ({"store": b"a letter\n"}, {"store": b"a letter\n"})]
            title = "%s without %s" % (name, " and ".join(("standard input", "output", "messages")[stream] for stream in streams))
            for before, behind in pairs:
                yield title, what_differs(program, name, streams, before, behind)
