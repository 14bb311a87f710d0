"""Tries what spreads cases over partitions (deploy/rabbitmq), without RabbitMQ.

Where lines end and where they go, what a client numbers, what a worker leaves out, places and answers are functions of a module.
A worker is tried over a real server and a log in memory, which stands in for the brokers' streams.
"""
import collections
import importlib.machinery
import importlib.util
import os
import random
import subprocess
import sys
import tempfile

HERE = os.path.dirname(os.path.abspath(__file__))
TOP = os.path.dirname(HERE)
DEPLOY = os.path.join(TOP, "deploy", "rabbitmq")
sys.path += [os.path.join(TOP, "tools"), DEPLOY]
import broker
import partitions
import server
import stores
import talks

loader = importlib.machinery.SourceFileLoader("work", os.path.join(DEPLOY, "work"))
work = importlib.util.module_from_spec(importlib.util.spec_from_loader("work", loader))
loader.exec_module(work)

UNIT, QUESTION, REFUSED = partitions.UNIT, partitions.QUESTION, partitions.REFUSED
# What goes where: an item, and its case; None is every partition.
GOES = [
    (b"type t\nact A\nend\n", None), (b"actor ann roles 1\n", None), (b"phase\n", None), (b"case c1 t\n", b"c1"), (b"case\n", b""),
    (b"ann create c1\n", b"c1"), (b"# ann fly c9\n\tann  start\tc1 A\r\n", b"c1"), (b"ann end c1 A x=\"a b\"\n", b"c1"), (b"ann change c1\ndelete A\nend\n", b"c1"),
    (b"ann install t\nend\n", None), (b"ann migrate t\n", None), (b"ann fly\n", b""), (b"adept 3\n", b""), (b"ann withdraw c1 A\n", b"c1"),
    (b"? report\n", None), (b"? items ann\n", None), (b"? case c1\n", b"c1"), (b"? case\n", None), (b"?\n", None), (b"? if\n", None),
    (b"? if ann start c1 A\n", b"c1"), (b"? if case c1 t\n", b"c1"), (b"? if ann migrate t\n", None), (b"? if ann change c1\nend\n", b"c1"),
    (b"? move ann t\nend\n", None),
]
TALK = [b"type t\nact A\nact B\nend\n", b"actor ann\n", b"case c t\n", b"ann create c\n", b"# a note\nann start c A\n", b"ann fly c\n",
        b"ann end c A\n", b"ann start d A\n", b"ann start c B\n"]


class Differs(Exception):
    """What came, and was not wanted."""


def wants(got, wanted):
    if got != wanted:
        raise Differs("wanted %r, got %r" % (wanted, got))


# Items, messages, places and answers.

def goes():
    """Each item goes to the partition of its case, or to each; which, is told by words alone."""
    for data, case in GOES:
        kind = QUESTION if data.startswith(b"?") else UNIT
        wants(partitions.Cutter().take(data), [(data, case, kind)])
    for kind in UNIT, QUESTION:
        found = partitions.Cutter().take(b"".join(data for data, _ in GOES) * 2)
        wants([data for data, _, each in found if each == kind], [data for data, _ in GOES if data.startswith(b"?") == (kind == QUESTION)] * 2)


def parts():
    """The partition of a case is the CRC-32 of its name modulo their number."""
    # of these nine bytes it is cbf43926
    for count in range(1, 40):
        wants(partitions.goes_to(b"123456789", count), (0xcbf43926 % count,))
    wants(partitions.goes_to(b"", 4), (0,))
    wants(partitions.goes_to(None, 3), (0, 1, 2))


def cutting():
    """Whatever comes in whatever pieces is cut as tools/talks.py cuts it."""
    chance = random.Random(52)
    words = [b"ann", b"start", b"c1", b"c2", b"A", b"change", b"install", b"type", b"end", b"?", b"if", b"move", b"case", b"#", b"\"a b", b"x=\"\\\"", b"\r", b"\t", b""]
    for _ in range(300):
        data = b"".join(b" ".join(chance.choices(words, k=chance.randrange(6))) + b"\n" * (chance.random() < 0.95) for _ in range(60))
        cutter, found, at = partitions.Cutter(), [], 0
        while at < len(data):
            size = chance.choice([1, 7, 100, 10000])
            found += cutter.take(data[at:at + size])
            at += size
        items, rest = talks.items(data)
        wants([item for item, _, _ in found], items)
        inside = talks.Item()
        for line in rest.split(b"\n")[:-1]:
            inside.take(line + b"\n")
        says = inside.said or not rest.endswith(b"\n") and rest
        wants(cutter.unended(), b"no %d unended\n" % (len(inside.said) + 1) if says else None)


def long_items():
    """An item that is too long is answered, and goes nowhere."""
    cutter = partitions.Cutter()
    found = cutter.take(b"# x\nann start c A x=\"")
    for _ in range(9):
        found += cutter.take(b"x" * (1 << 20))
    found += cutter.take(b"\"\nann create c\n")
    wants(found, [(b"no 1 limit bytes\n", None, REFUSED), (b"ann create c\n", b"c", UNIT)])


def messages():
    """Messages have so many units at most, or are full with so many bytes, and their numbers rise by one."""
    gathered, made = partitions.Gathered(3), []
    for at in range(7):
        if gathered.add(b"%d\n" % at):
            made.append(gathered.message())
    wants((made, gathered.message(), gathered.message()), ([(1, b"0\n1\n2\n"), (2, b"3\n4\n5\n")], (3, b"6\n"), None))
    wants([gathered.add(b"x" * size) for size in (partitions.FULL - 1, 1)], [False, True])


def sent_twice():
    """A message counts where its number is above all earlier ones of its client."""
    counted = partitions.Counted()
    sent = [("a", 1), ("a", 1), ("b", 1), ("a", 2), ("a", 1), ("b", 7), ("b", 6), ("b", 8), (None, 9), ("c", None), ("c", 1)]
    wants([counted.counts(*each) for each in sent], [True, False, True, True, False, True, False, True, False, False, True])
    wants([counted.has("b", 8), counted.has("b", 9), counted.has("d", 0), counted.has(None, 0), counted.has("d", 1)], [True, False, True, True, False])
    wants([counted.has("b", "9"), counted.has([], 9), counted.has("b", None), counted.has(7, 9)], [True] * 4)


def places():
    """A unit has its place in front; `? last` tells it again."""
    wants(partitions.placed([b"a\n", b"# n\nb\n"], 17, 3), b"# 17 3\na\n# 17 4\n# n\nb\n")
    wants([partitions.place_in(each) for each in (b"# 17 4\n# n\nb\n", b"# 17 4 x\n", b"b\n", b"")], [(17, 4), None, None, None])
    wants(partitions.told_last(b"| # 17 4\n| # n\n| b \"| x\"\r\ncase c 1 -> x\nok 3\n"), b"# 17 4\n# n\nb \"| x\"\r\n")
    wants(partitions.units_in(b"a b c\n? count\n# x\nd\nann change c\n"), [b"a b c\n", b"# x\nd\n"])


def answers():
    """Answers are counted and cut by their last lines; a place that came before is dropped; those of all partitions are one."""
    told = b"case c 1 ann create 1 -> created\nok 4\nno 1 form\n| ok\nokay\nno full\n"
    wants((partitions.ends_in(told), partitions.answers_in(told)), (3, [told[:38], b"no 1 form\n", b"| ok\nokay\nno full\n"]))
    four = [b"ok %d\n" % at for at in range(4)]
    wants([*partitions.pieces_of(four, 5, 10)], [(5, 2, b"ok 0\nok 1\n"), (7, 2, b"ok 2\nok 3\n")])
    heard = partitions.Told()
    came = [(3, 0, four[:2]), (3, 0, four[:1]), (3, 1, four[1:3]), (3, 2, four[2:]), (2, 9, four), (7, 0, four[:1]), (3, 0, four)]
    wants([heard.new(*each) for each in came], [four[:2], [], four[2:3], four[3:], [], four[:1], []])
    wants(partitions.together([b"x\nok 1\n"]), b"x\nok 1\n")
    wants(partitions.together([b"x\nok 1\n", b"ok 2\n", b"y\nz\nok 1\n"]), b"x\ny\nz\nok 1 2 1\n")
    wants(partitions.together([b"no 1 form\n", b"no 1 form\n"]), b"no 1 form\n")
    wants(partitions.together([b"x\nok 1\n", b"no full\n"]), b"x\nno apart: ok 1, no full\n")


def cut_back():
    """A store is cut back to a place, with what stood in front of it; it keeps its rights, and a link to it stays one."""
    payloads = [stores.HEADER, b"# 1 0\na\n", b"# 1 2\nb\n", b"# 4 0\nc\n"]
    image = stores.MARK + b"".join(map(server.record, payloads)) + b"\0"
    for place, left in ((1, 0), 1), ((1, 1), 2), ((1, 2), 2), ((1, 3), 3), ((4, 0), 3), ((4, 1), 4), ((9, 9), 4):
        with tempfile.TemporaryDirectory() as folder:
            path = os.path.join(folder, "store")
            with open(path, "wb") as file:
                file.write(image)
            os.chmod(path, 0o640)
            os.symlink("store", os.path.join(folder, "link"))
            server.cut_back(os.path.join(folder, "link"), place)
            with open(path, "rb") as file:
                wants([*stores.payloads(file)], payloads[:left])
            wants((sorted(os.listdir(folder)), os.path.islink(os.path.join(folder, "link")), os.stat(path).st_mode & 0o777), (["link", "store"], True, 0o640))


# Runs a line of code in which `put` is the client, without a broker.
PUT = """
import importlib.machinery, importlib.util, sys
sys.dont_write_bytecode = True
loader = importlib.machinery.SourceFileLoader("put", %r)
put = importlib.util.module_from_spec(importlib.util.spec_from_loader("put", loader))
loader.exec_module(put)
put.commands.hold_streams()
"""


def streams():
    """A client that cannot print what it is answered ends with 4, and one that cannot read what it is to put with 3."""
    for line, ways, status, said in (
            ("put.put_out(b'ok 1')", ">/dev/full", 4, "put: cannot write: No space left on device\n"),
            ("put.put_out(b'ok 1')", ">&-", 4, "put: cannot write: Bad file descriptor\n"),
            ("put.put_out(b'ok 1')", "", 0, ""), ("put.Source(0).next(lambda: None)", "<&-", 3, "put: cannot read\n"),
            ("put.Source(0).next(lambda: None)", "0>/dev/null", 3, "put: cannot read\n")):
        code = PUT % os.path.join(DEPLOY, "put") + line
        done = subprocess.run(["sh", "-c", 'exec "$@" ' + ways, "sh", sys.executable, "-c", code], stdin=subprocess.DEVNULL, capture_output=True, text=True, check=False)
        wants((line, ways, done.returncode, done.stderr, done.stdout), (line, ways, status, said, "" if status else "ok 1"))


# A worker over a log in memory.

class Streams:
    """Stands in for a connection: streams are lists of messages; what is lost for want of a broker is told by `lost`."""

    def __init__(self):
        self.held, self.left = {"lines-0": [], "answers-0": []}, None
        for stream in self.held:
            self.put(stream, b"", {"partitions": 1})

    def put(self, stream, body, headers):
        if self.left == 0:
            raise broker.Lost("for a try")
        self.left = self.left and self.left - 1
        self.held[stream].append(broker.Message(len(self.held[stream]), headers, body))

    def sent(self, client, number, units):
        self.put("lines-0", b"".join(units), {"client": client, "number": number})


class Reader:
    """Stands in for a reader of a stream."""

    def __init__(self, link, stream, place, **_more):
        held = link.held[stream]
        self.left = held[-1:] if place == "last" else list(held)

    def next(self, _seconds=None):
        return self.left.pop(0) if self.left else None


class Trial:
    """A log, and workers of it over a store."""

    def __init__(self, program, folder):
        self.program, self.folder, self.link = program, folder, Streams()
        broker.Reader = Reader

    def worker(self, store="store"):
        """A worker that begins."""
        worker = work.Worker(0, os.path.join(self.folder, store), self.program)
        try:
            worker.begin(self.link)
        except work.NotOfLog:
            worker.server.end()
            raise
        return worker

    def works(self, worker):
        """What the log holds is worked, and answered."""
        for message in list(self.link.held["lines-0"])[0 if worker.read == "first" else worker.read:]:
            worker.take(message)
            worker.write(self.link)

    def told(self):
        """The answers as somebody reads them."""
        heard = partitions.Told()
        return [answer for message in self.link.held["answers-0"][1:]
                for answer in heard.new(message.headers["offset"], message.headers["first"], partitions.answers_in(message.body))]

    def held(self, store="store"):
        with open(os.path.join(self.folder, store), "rb") as file:
            return [*stores.payloads(file)][1:]


def accepted(units, places):
    """What a store holds of units at places: the refused ones are not there."""
    return [b"# %d %d\n%s" % (*place, unit) for place, unit in zip(places, units) if b"fly" not in unit and b" d " not in unit]


def worked(trial):
    """A worker answers each unit once, holds each with its place, and leaves out what was sent twice; a second one does the same."""
    trial.link.sent("a", 1, TALK[:4])
    trial.link.sent("a", 1, TALK[:4])
    trial.link.sent("b", 1, TALK[4:7])
    trial.link.sent("a", 2, TALK[7:])
    first, second = trial.worker(), trial.worker("other")
    trial.works(first)
    places = [(1, 0), (1, 1), (1, 2), (1, 3), (3, 0), (3, 1), (3, 2), (4, 0), (4, 1)]
    wants([answer.split(b"\n")[-2] for answer in trial.told()], [b"ok 1", b"ok 2", b"ok 3", b"ok 4", b"ok 5", b"no 1 form", b"ok 6", b"no 1 unknown", b"ok 7"])
    wants(trial.held(), accepted(TALK, places))
    trial.works(second)
    wants((len(trial.told()), trial.held("other")), (len(TALK), trial.held()))
    wants((first.server.end(), second.server.end()), (0, 0))


def goes_on(trial):
    """A worker that comes back goes on behind what its store holds; what was sent twice is left out then too."""
    trial.link.sent("a", 1, TALK[:6])
    first = trial.worker()
    trial.works(first)
    first.server.end()
    trial.link.sent("a", 1, TALK[:6])
    trial.link.sent("a", 2, TALK[6:])
    second = trial.worker()
    # a refused unit stands behind the last one that is held
    wants(second.next, (1, 5))
    trial.works(second)
    wants((len(trial.told()), len(trial.held())), (len(TALK), 7))
    wants([message.headers["offset"] for message in trial.link.held["answers-0"][1:]], [1, 3])
    second.server.end()


def unanswered(trial):
    """Where a stop left units on the store without answers, the worker that comes back makes them again, and the store is the same."""
    trial.link.sent("a", 1, TALK[:5])
    trial.link.sent("a", 2, TALK[5:])
    first = trial.worker()
    for message in trial.link.held["lines-0"][:2]:
        first.take(message)
    first.write(trial.link)
    first.take(trial.link.held["lines-0"][2])
    first.server.end()
    held, told = trial.held(), trial.told()
    wants((len(held), len(told)), (7, 5))
    second = trial.worker()
    wants(len(trial.held()), 5)
    trial.works(second)
    second.server.end()
    wants((trial.held(), trial.told()[:5], len(trial.told())), (held, told, len(TALK)))


def lost(trial):
    """An answer that a broker did not confirm is written again."""
    trial.link.sent("a", 1, TALK)
    worker = trial.worker()
    trial.link.left = 0
    try:
        trial.works(worker)
        raise Differs("nothing was lost")
    except broker.Lost:
        trial.link.left = None
    worker.write(trial.link)
    wants((len(trial.told()), len(worker.waiting)), (len(TALK), 0))
    worker.server.end()


def ahead(trial):
    """A store that is ahead of the log, or of another log, is refused, and left as it is."""
    trial.link.sent("a", 1, TALK[:4])
    trial.link.sent("a", 2, TALK[4:])
    worker = trial.worker()
    trial.works(worker)
    worker.server.end()
    held, lines = trial.held(), trial.link.held["lines-0"]
    for other in lines[:2], [*lines[:2], lines[2]._replace(body=b"".join(reversed(TALK[4:])))]:
        trial.link.held["lines-0"] = other
        try:
            worker = trial.worker()
            trial.works(worker)
            raise Differs("it was not refused")
        except work.NotOfLog:
            worker.server.end()
        wants(trial.held(), held)
    trial.link.held["lines-0"] = lines[:2]
    try:
        trial.worker("new")
        raise Differs("answers that are ahead of the log were not told")
    except work.NotOfLog:
        pass


def asked(trial):
    """A question is answered behind its client's lines; what is more than one question, or none, is none."""
    trial.link.sent("a", 1, TALK[:4])
    worker = trial.worker()
    trial.works(worker)
    waiting = Questions([("a", 1, b"? count\n"), ("a", 2, b"? count\n"), ("c", 0, b"ann create c\n"), ("c", 0, b"? count\n? count\n"), ("c", 0, b"? move x y\n")])
    worker.answer(waiting)
    wants((waiting.told, len(waiting.came)), ([b"ok 4\n", b"no 1 form\n", b"no 1 form\n", b"no 1 form\n"], 1))
    trial.link.sent("a", 2, TALK[4:])
    trial.works(worker)
    worker.answer(waiting)
    wants((waiting.told[4:], len(waiting.came), len(trial.held())), ([b"ok 7\n"], 0, 7))
    worker.server.end()


class Questions:
    """Stands in for the queue of questions."""

    def __init__(self, questions):
        self.came, self.told = collections.deque((0, Asked(client, number), body) for client, number, body in questions), []

    def reply(self, _tag, _asked, body):
        self.told.append(body)


class Asked:
    def __init__(self, client, number):
        self.headers = {"client": client, "number": number}


ALONE = [goes, parts, cutting, long_items, messages, sent_twice, places, answers, cut_back, streams]
WORKERS = [worked, goes_on, unanswered, lost, ahead, asked]


def outcome(check, *words):
    try:
        check(*words)
    except Differs as why:
        return str(why)
    return None


def tried(program):
    """Makes each check, those of a worker where there is a server: its name, and what differs."""
    for check in ALONE:
        yield "spread, " + check.__name__, outcome(check)
    before, said = broker.Reader, broker.said
    broker.said = lambda what: None
    for check in WORKERS if program else []:
        with tempfile.TemporaryDirectory() as folder:
            yield "spread, " + check.__name__, outcome(check, Trial(program, folder))
    broker.Reader, broker.said = before, said
