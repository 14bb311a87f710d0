"""Tries the server: talks with their answers, at once and line by line; each status; what is no store; streams that fail.

A case is a folder of serving/ with

  talk      what is said, or a script `make-talk` that prints it
  answers   the whole of the answers, or `make-answers`
  store     the bytes of the store before, if it is there

Each ends with status 0 and without a message.  So are the talks of examples/, each with its answers beside it, and those
that documents show, where what is typed stands behind `> ` or two blanks.  What the store holds then is told by talk and
answers: behind what it held the bytes of each unit whose answer is `ok`.  The cases were worked out from docs/SERVE.md by
hand; made talks (chatter.py) are answered by a second reading of it (answering.py).
"""
import collections
import fcntl
import glob
import os
import re
import resource
import select
import shutil
import signal
import stat
import subprocess
import sys
import tempfile
import time

import answering

HERE = os.path.dirname(os.path.abspath(__file__))
TOP = os.path.dirname(HERE)
sys.path.append(os.path.join(TOP, "tools"))
import talks

SECONDS, WAIT = 300, 60
MARK, HEADER, LIMIT = b"rushowa store 1\n", b"adept 3\n", 1 << 30
USAGE, NO_STORE = b"usage: serve STORE\n", b"serve: not a store\n"
SMALL = b"type t\nact A\nend\nactor ann\ncase c t\nann create c\n"
SMALL_ANSWERS = b"""type t 1 - define -> defined
ok 1
ok 2
ok 3
type t 2 ann newest -> is 1
case c 1 ann create 1 -> created
ok 4
"""
# A file of the other name, which a run that was stopped may leave.
OTHER = re.compile(r"\.rushowa-\d+$")


class Differs(Exception):
    """What the program did, and was not to do."""


def wants(got, wanted):
    if got != wanted:
        raise Differs("wanted %s, got %s" % (shown(wanted), shown(got)))


def shown(value):
    text = ascii(value)
    return text if len(text) < 700 else text[:300] + " .. " + text[-300:]


def content(folder, name):
    """What a file holds, or what the script `make-NAME` prints; None where there is neither."""
    path, maker = os.path.join(folder, name), os.path.join(folder, "make-" + name)
    if os.path.exists(maker):
        return subprocess.run([sys.executable, maker], stdout=subprocess.PIPE, check=True).stdout
    return read(path) if os.path.exists(path) else None


def read(path):
    with open(path, "rb") as file:
        return file.read()


def write(path, held):
    with open(path, "wb") as file:
        file.write(held)


# Stores and answers.

def framed(payloads):
    """The bytes of a store with these payloads."""
    return MARK + b"".join(b"\1" + len(payload).to_bytes(4, "big") + payload for payload in payloads) + b"\0"


def payloads_of(store):
    """The payloads of a store that is whole; none where it is not begun."""
    found, at = [], len(MARK)
    while store[at:at + 1] == b"\1":
        size = int.from_bytes(store[at + 1:at + 5], "big")
        found.append(store[at + 5:at + 5 + size])
        at += 5 + size
    return found


def answers_in(output):
    """The answers, each as its lines."""
    found, lines = [], []
    for line in output.split(b"\n")[:-1]:
        lines.append(line)
        if talks.ends_answer(line):
            found.append(lines)
            lines = []
    return found


def accepted(talk, output):
    """The units of a talk whose answers are `ok`."""
    found, _ = talks.items(talk)
    for number, (data, answer) in enumerate(zip(found, answers_in(output))):
        item = talks.Item()
        for line in data.split(b"\n")[:-1]:
            item.take(line + b"\n")
        is_header = number == 0 and talks.words_of(item.said[0][:-1]) in talks.HEADERS
        if item.is_unit() and not is_header and answer[-1].startswith(b"ok "):
            yield data


# Running the program.

class Serve:
    """The program, with a folder of its own for stores."""

    def __init__(self, program, folder):
        self.program, self.folder = program, folder

    def path(self, name="store"):
        return os.path.join(self.folder, name)

    def run(self, given, words=None, before=(), **more):
        """A talk at once, from a file: status, output and message."""
        with tempfile.TemporaryFile() as file:
            file.write(given)
            file.seek(0)
            done = subprocess.run([*before, self.program, *([self.path()] if words is None else words)], stdin=file,
                                  timeout=SECONDS, **{"stdout": subprocess.PIPE, "stderr": subprocess.PIPE, **more})
        return done.returncode, done.stdout, done.stderr

    def through_a_pipe(self, given):
        """A talk line by line: each answer is waited for before more is said."""
        with subprocess.Popen([self.program, self.path()], stdin=subprocess.PIPE, stdout=subprocess.PIPE, stderr=subprocess.PIPE, bufsize=0) as child:
            try:
                output = b"".join([*self.said_singly(child, given), self.left(child)])
                return child.wait(WAIT), output, child.stderr.read()
            finally:
                child.kill()

    def said_singly(self, child, given):
        found, rest = talks.items(given)
        for data in found:
            for line in data.splitlines(True):
                child.stdin.write(line)
            yield answer_from(child.stdout)
        child.stdin.write(rest)
        child.stdin.close()

    def left(self, child):
        return child.stdout.read()


def answer_from(pipe):
    """The next answer; a Differs where none comes."""
    answer, until = b"", time.time() + WAIT
    while not (answer.endswith(b"\n") and talks.ends_answer(answer[:-1].rsplit(b"\n", 1)[-1])):
        ready, _, _ = select.select([pipe], [], [], max(0, until - time.time()))
        piece = os.read(pipe.fileno(), 1 << 16) if ready else b""
        if not piece:
            raise Differs("no answer behind %s" % shown(answer))
        answer += piece
    return answer


def what_differs(program, talk, answers, before=None):
    """None where the talk is answered so, at once and line by line, and the store holds what it should."""
    held = payloads_of(before or b"") or [HEADER]
    behind = framed([*held, *accepted(talk, answers)])
    for way in ("run", "through_a_pipe"):
        with tempfile.TemporaryDirectory(prefix="acceptance-") as folder:
            serve = Serve(program, folder)
            if before is not None:
                write(serve.path(), before)
            try:
                wants(getattr(serve, way)(talk), (0, answers, b""))
                wants(read(serve.path()), behind)
                wants(os.listdir(folder), ["store"])
            except Differs as why:
                return "%s: %s" % ("at once" if way == "run" else "line by line", why)
    return None


def cases():
    """The cases of serving/ and the examples: names, talks, answers and stores before."""
    for folder in sorted(glob.glob(os.path.join(HERE, "serving", "*", ""))):
        yield os.path.relpath(folder, HERE), content(folder, "talk"), content(folder, "answers"), content(folder, "store")
    for path in sorted(glob.glob(os.path.join(TOP, "examples", "*.talk"))):
        yield os.path.relpath(path, TOP), read(path), read(path[:-len("talk")] + "answers"), None
    for path in [os.path.join(TOP, "README.md"), *sorted(glob.glob(os.path.join(TOP, "docs", "*.md")))]:
        for block in re.findall(rb"^```\n(> .*?)^```$", read(path), re.M | re.S):
            typed = re.findall(rb"^(?:> |  )(.*\n)", block, re.M)
            answers = re.findall(rb"^(?!> |  ).*\n", block, re.M)
            yield "a talk in " + os.path.relpath(path, TOP), b"".join(typed), b"".join(answers), None


# What is tried besides. The first line of each says what holds.

def closed_streams(serve):
    """A stream that is closed is one that fails, and the store never stands in its place."""
    for number in range(1, 8):
        streams = [bool(number >> stream & 1) for stream in range(3)]
        text = 'exec "$@"' + "".join(way for way, is_closed in zip((" <&-", " >&-", " 2>&-"), streams) if is_closed)
        status = 3 if streams[0] else 4 if streams[1] else 0
        said = b"" if streams[2] or not status else b"serve: cannot %s\n" % (b"read" if status == 3 else b"write")
        for before in (None, framed([HEADER]), framed([HEADER, b"actor bob\n"])):
            write(serve.path(), before) if before else remove(serve.path())
            got = serve.run(b"actor ann\n", before=["sh", "-c", text, "sh"])
            many = len(payloads_of(before or b"")) or 1
            wants((text, *got), (text, status, b"" if status else b"ok %d\n" % many, said))
            wants(read(serve.path()), framed([*(payloads_of(before or b"") or [HEADER]), *([] if streams[0] else [b"actor ann\n"])]))
        write(serve.path(), b"a letter\n")
        wants(serve.run(b"actor ann\n", before=["sh", "-c", text, "sh"])[0], 9)
        wants(read(serve.path()), b"a letter\n")
    remove(serve.path())


def remove(path):
    if os.path.exists(path):
        os.remove(path)


def words(serve):
    """Words that are not one path end with 2, and nothing is read or made."""
    for given in ([], [serve.path(), serve.path()], ["a", "b", "c"], [serve.path(), ""]):
        wants(serve.run(SMALL, given), (2, b"", USAGE))
    wants(os.listdir(serve.folder), [])


def no_store(serve):
    """What is no regular file that can be opened or made ends with 11, and nothing is answered."""
    os.mkfifo(serve.path("pipe"))
    os.symlink("loop", serve.path("loop"))
    names = [serve.folder, serve.path("none/store"), "/dev/null", "", serve.path("x" * 300), serve.path("loop"), os.fsencode(serve.path("caf")) + b"\xe9"]
    for name in names:
        status, output, said = serve.run(SMALL, [name])
        wants((name, status, output, said[:28]), (name, 11, b"", b"serve: cannot open the store"))
    # a pipe is not waited for
    child = subprocess.Popen([serve.program, serve.path("pipe")], stdin=subprocess.DEVNULL, stdout=subprocess.PIPE, stderr=subprocess.PIPE)
    try:
        wants(child.wait(WAIT), 11)
    finally:
        child.kill()
        child.communicate()


def held_store(serve):
    """A store that somebody else holds ends with 10, whatever it is; once it is let go it is opened."""
    for held in (framed([HEADER]), b"a letter\n", b""):
        write(serve.path(), held)
        with open(serve.path(), "rb+") as file:
            fcntl.flock(file, fcntl.LOCK_EX)
            status, output, said = serve.run(SMALL)
            wants((status, output, said[:26]), (10, b"", b"serve: the store is in use"))
        wants(read(serve.path()), held)
    wants(serve.run(SMALL), (0, SMALL_ANSWERS, b""))


def foreign_files(serve):
    """A file that does not begin as a store does is refused with 9, and left byte for byte."""
    image = framed([HEADER])
    letters = [b"a letter\n", b"\n", b"\0", SMALL, b"adept 3\n", image[len(MARK):], b" " + image, image.replace(b"1\n", b"2\n", 1),
               image.replace(b"1\n", b"1\r\n", 1), MARK[:-1] + b" ", b"rushowa\n", b"x" * 100000]
    for held in letters:
        write(serve.path(), held)
        wants(serve.run(SMALL), (9, b"", NO_STORE))
        wants(read(serve.path()), held)


def begun_stores(serve):
    """A file that is empty, a beginning of the mark, or the mark with an image that a stop may leave is a new store."""
    whole = framed([HEADER])
    images = [b"", b"\0", b"\1", b"\7", *(b"\0" + whole[len(MARK) + 1:len(MARK) + length] for length in (2, 5, 14)), b"\2" * 14]
    for held in [MARK[:1], MARK[:7], MARK[:-1], *(MARK + image for image in images)]:
        write(serve.path(), held)
        wants((held, *serve.run(SMALL)), (held, 0, SMALL_ANSWERS, b""))
        wants(payloads_of(read(serve.path())), [HEADER, *accepted(SMALL, SMALL_ANSWERS)])


def damage(place):
    return b"serve: the store is not of a server: damaged %d\n" % place


def damaged_stores(serve):
    """A store is damaged at the first frame that is no whole record, or payload that is no unit; it is left as it is."""
    units = list(accepted(SMALL, SMALL_ANSWERS))
    first, second = 5 + len(HEADER), 10 + len(HEADER) + len(units[0])
    whole = framed([HEADER, *units])
    places = [len(MARK) + sum(5 + len(one) for one in [HEADER, *units][:count]) for count in range(len(units) + 2)]
    told = [(whole[:length], max(place for place in places if place <= length) - len(MARK)) for length in range(len(MARK) + 2, len(whole), 3)]
    for bad in (b"", b"\n", b"# a comment\n", b"? count\n", b"actor ann", b"actor ann\nactor bob\n", b"ann create c\n", b"actor ann\n# behind\n",
                b"adept 3\n", b"type u\nxor a b\ndone\nend\n", b"type u\nact A\n", b"case d u\n", b"actor \xff\n"):
        told.append((framed([HEADER, units[0], bad, units[1]]), second))
    for bad in (b"adept 2\n", b"adept 3\r\n", b"# first\nadept 3\n", b"adept 3", units[0], HEADER + units[0]):
        told.append((framed([bad, units[0]]), 0))
    told += [(MARK + b"\0" + whole[len(MARK) + 1:], 0), (MARK + b"\2" * 15, 0),
             (framed([HEADER, b"actor ann\n", b"actor ann\n"]), first + 5 + len(b"actor ann\n"))]
    for held, place in told:
        write(serve.path(), held)
        wants((held, *serve.run(SMALL)), (held, 9, b"", damage(place)))
        wants(read(serve.path()), held)


def places_in(store):
    """Where the gates of a store stand, each record's and the last."""
    places = [0]
    for payload in payloads_of(store):
        places.append(places[-1] + 5 + len(payload))
    return places


def changed_stores(serve):
    """A store of which one byte was changed, or that was cut, tells the units that its records then have, or is damaged at one of them and left as it is."""
    whole = framed([HEADER, *accepted(SMALL, SMALL_ANSWERS)])
    changed = [whole[:at] + bytes([whole[at] ^ 1 << at % 8]) + whole[at + 1:] for at in range(len(MARK), len(whole))]
    for held in changed + [whole[:length] for length in range(len(MARK) + 2, len(whole))]:
        write(serve.path(), held)
        status, output, said = serve.run(b"? lines\n")
        if status == 0:
            units = payloads_of(held)[1:]
            lines = b"".join(units).split(b"\n")[:-1]
            wants((held, output, said), (held, b"".join(b"| %s\n" % line for line in lines) + b"ok %d\n" % len(units), b""))
        else:
            wants((held, status, output, said in [*map(damage, places_in(held))]), (held, 9, b"", True))
        wants(read(serve.path()), held)


def behind_the_list(serve):
    """What stands behind the gate that ends a list does not count."""
    for gate in (b"\0", b"\2", b"\xff"):
        for rest in (b"", b"\0", b"\1\0\0\0\1", b"x" * 1000):
            write(serve.path(), framed([HEADER, b"actor bob\n"])[:-1] + gate + rest)
            wants(serve.run(b"? count\nactor ann\n"), (0, b"ok 1\nok 2\n", b""))
            wants(payloads_of(read(serve.path())), [HEADER, b"actor bob\n", b"actor ann\n"])


def long_stores(serve):
    """An image of more than a gigabyte is told by the file's length; one that has just so much is read."""
    for held in (framed([HEADER]), MARK + b"\1\1"):
        write(serve.path(), held)
        os.truncate(serve.path(), len(MARK) + LIMIT + 1)
        wants(serve.run(SMALL), (9, b"", b"serve: the store is not of a server: too long\n"))
        wants(os.path.getsize(serve.path()), len(MARK) + LIMIT + 1)


def opened_on_a_copy(serve):
    """A store whose first gate was shut is opened on a copy by the line of shell in docs/SERVE.md."""
    serve.run(SMALL)
    whole = read(serve.path())
    shut = MARK + b"\0" + whole[len(MARK) + 1:]
    write(serve.path(), shut)
    wants(serve.run(b"? count\n")[0], 9)
    with open(os.path.join(TOP, "docs", "SERVE.md"), encoding="utf-8") as file:
        line = re.search(r"^    (\{ head .*)$", file.read(), re.M)[1]
    subprocess.run(["sh", "-c", line.replace("ward.store", "store")], cwd=serve.folder, check=True)
    wants(read(serve.path()), shut)
    os.rename(serve.path("copy.store"), serve.path())
    wants(serve.run(b"? count\n"), (0, b"ok 4\n", b""))
    wants(read(serve.path()), whole)


def unread_answers(serve):
    """Where an answer cannot be written the status is 4, and the store has what was accepted."""
    for out in ("/dev/full", None):
        remove(serve.path())
        reader, pipe = os.pipe()
        os.close(reader)
        with open(out, "wb") if out else os.fdopen(pipe, "wb") as file:
            wants(serve.run(SMALL, stdout=file)[::2], (4, b"serve: cannot write\n"))
        wants(payloads_of(read(serve.path())), [HEADER, *accepted(SMALL, SMALL_ANSWERS)])


def reader_that_goes_away(serve):
    """A reader that goes away in the middle of an answer: 4, and the units before it are on the store."""
    write(serve.path(), framed([HEADER, b"type t\nact A\nend\n", *(b"case c%d t\n" % number for number in range(9000))]))
    with subprocess.Popen([serve.program, serve.path()], stdin=subprocess.PIPE, stdout=subprocess.PIPE, stderr=subprocess.PIPE) as child:
        child.stdin.write(b"actor ann\n? cases\n")
        child.stdin.close()
        while child.stdout.readline().split(b" ")[0] != b"case":
            pass
        child.stdout.close()
        wants((child.wait(WAIT), child.stderr.read()), (4, b"serve: cannot write\n"))
    wants(payloads_of(read(serve.path()))[-1], b"actor ann\n")


def unreadable_input(serve):
    """Input that cannot be read is 3, and the store is begun."""
    folder = os.open("/", os.O_RDONLY)
    done = subprocess.run([serve.program, serve.path()], stdin=folder, stdout=subprocess.PIPE, stderr=subprocess.PIPE, timeout=SECONDS)
    os.close(folder)
    wants((done.returncode, done.stdout, done.stderr), (3, b"", b"serve: cannot read\n"))
    wants(read(serve.path()), framed([HEADER]))


def impatient_streams(serve):
    """An input that does not wait where it has nothing is one that fails, 3; an output likewise, 4."""
    reader, writer = os.pipe()
    os.set_blocking(reader, False)
    os.write(writer, SMALL)
    done = subprocess.run([serve.program, serve.path()], stdin=reader, stdout=subprocess.PIPE, stderr=subprocess.PIPE, timeout=SECONDS)
    wants((done.returncode, done.stdout, done.stderr), (3, SMALL_ANSWERS, b"serve: cannot read\n"))
    os.close(reader)
    os.close(writer)
    reader, writer = os.pipe()
    os.set_blocking(writer, False)
    done = serve.run(b"actor ben\n" + b"? report\n" * 2000, stdout=writer)
    wants(done[::2], (4, b"serve: cannot write\n"))
    os.close(reader)
    os.close(writer)
    wants(payloads_of(read(serve.path()))[-1], b"actor ben\n")


def failing_store(serve):
    """Where the store fails the status is 7: the turn's answers are not written, and the store goes on where it was."""
    first = b"type t\nact A\nend\nactor ann\n"
    serve.run(first)
    size = os.path.getsize(serve.path())

    def short():
        signal.signal(signal.SIGXFSZ, signal.SIG_IGN)
        resource.setrlimit(resource.RLIMIT_FSIZE, (size + 20, size + 20))

    status, output, said = serve.run(b"actor bob\nactor cora\nactor dan\n? count\n", preexec_fn=short)
    wants((status, output, said[:23]), (7, b"", b"serve: the store failed"))
    wants(serve.run(b"? count\nactor bob\n"), (0, b"ok 2\nok 3\n", b""))


def little_memory(serve):
    """With little memory the answers are a beginning by whole turns, and the store has what they acknowledge."""
    talk = b"type t\nact A\nend\n" + b"".join(b"case c%d t\n" % number for number in range(20000))
    remove(serve.path())
    status, whole, _ = serve.run(talk)
    wants(status, 0)
    ended = set()
    for limit in range(1000, 60000, 1500):
        def short(limit=limit):
            resource.setrlimit(resource.RLIMIT_AS, (limit << 10, limit << 10))

        remove(serve.path())
        if serve.run(b"", [], preexec_fn=short)[0] != 2:
            continue
        status, output, said = serve.run(talk, preexec_fn=short)
        ended.add(status)
        wants((status, said) in ((0, b""), (5, b"serve: out of memory\n")), True)
        wants(whole.startswith(output), True)
        held = payloads_of(read(serve.path()))[1:] if os.path.exists(serve.path()) else []
        wants(held, list(accepted(talk, output)))
    if ended and ended != {0, 5}:
        raise Differs("it ended with %s alone" % ended)


def opened_with_little_memory(serve):
    """A store that is opened with little memory tells all that it holds, or 5 and nothing; it is left as it is."""
    serve.run(b"type t\nact A\nend\n" + b"".join(b"case c%d t\n" % number for number in range(3000)))
    whole, told = read(serve.path()), serve.run(b"? cases\n? count\n")
    ended = collections.Counter()
    for limit in range(1000, 40000, 1500):
        def short(limit=limit):
            resource.setrlimit(resource.RLIMIT_AS, (limit << 10, limit << 10))

        if serve.run(b"", [], preexec_fn=short)[0] != 2:
            continue
        got = serve.run(b"? cases\n? count\n", preexec_fn=short)
        wants(got in (told, (5, b"", b"serve: out of memory\n")), True)
        wants(read(serve.path()), whole)
        ended[got[0]] += 1
    if ended and set(ended) != {0, 5}:
        raise Differs("it ended with %s alone" % [*ended])


def long_items(serve):
    """An item of 8,388,608 bytes is taken, one of a byte more is refused, and the line is told."""
    longest = 8388608
    for more, answer in ((0, b"ok 1\n"), (1, b"no 1 limit bytes\n")):
        talk = b"#" * (longest - len(b"\nactor ann\n") + more) + b"\nactor ann\n"
        remove(serve.path())
        wants(serve.run(talk + b"? count\n"), (0, answer + b"ok %d\n" % (not more), b""))
    talk = b"type t\nact A\n" + b"#" * longest + b"\nact B\nend\n? count\nactor ann"
    remove(serve.path())
    wants(serve.run(talk), (0, b"no 3 limit bytes\nok 0\nno 1 unended\n", b""))


def new_files(serve):
    """A store is made where its path, or what a link there points to, has no file; nothing else is left in the folder."""
    os.mkdir(serve.path("other"))
    os.symlink("other/place", serve.path())
    wants(serve.run(SMALL), (0, SMALL_ANSWERS, b""))
    wants((os.listdir(serve.path("other")), os.path.islink(serve.path())), (["place"], True))
    wants(stat.S_ISREG(os.stat(serve.path()).st_mode), True)
    wants(sorted(os.listdir(serve.folder)), ["other", "store"])


def odd_folder(serve):
    """It works in a folder whose name is no UTF-8."""
    inside = os.fsencode(serve.path("caf")) + b"\xe9"
    os.mkdir(inside)
    wants(serve.run(SMALL, ["store"], cwd=inside), (0, SMALL_ANSWERS, b""))
    wants(os.listdir(inside), [b"store"])


def many_questions(serve):
    """Questions and units in one write are answered in order, though the pipe for answers is small and read late."""
    talk = b"actor ann\n" + b"".join(b"actor a%d\n? count\n" % number for number in range(6000))
    wanted = b"ok 1\n" + b"".join(b"ok %d\n" % (number // 2 + 2) for number in range(12000))
    wants(serve.run(talk), (0, wanted, b""))


def kept_for_lines(serve):
    """tools/lines prints what a store holds: put in again it makes the same store; from a time on; and up to a damage."""
    stamped = b"# 2026-11-30T07:45:00Z ann\nactor ann\n# 2026-11-30T08:00:00Z ann\n# note\ntype t\n# 2026-11-30T09:00:00Z ann\nact A\nend\ncase c t\n"
    serve.run(stamped)
    whole, lines = read(serve.path()), os.path.join(TOP, "tools", "lines")

    def said(*more):
        done = subprocess.run([lines, serve.path(), *more], stdout=subprocess.PIPE, stderr=subprocess.PIPE, check=False)
        return done.returncode, done.stdout, done.stderr

    wants(said(), (0, HEADER + stamped, b""))
    wants(said("--since", "2026-11-30T07:45:00Z"), (0, stamped, b""))
    wants(said("--since", "2026-11-30T07:45:01Z"), (0, stamped[stamped.index(b"# 2026-11-30T08"):], b""))
    wants(said("--since", "2026-11-30T08:00:01Z"), (0, b"", b""))
    wants(said("--since", "today")[0], 2)
    remove(serve.path())
    wants(serve.run(HEADER + stamped)[0], 0)
    wants(read(serve.path()), whole)
    place = whole.index(b"\1\0\0\0\x09case") - len(MARK)
    write(serve.path(), whole[:-3])
    wants(said(), (1, (HEADER + stamped)[:-len(b"case c t\n")], b"lines: damaged %d\n" % place))
    for held, wanted in ((b"", (0, b"", b"")), (MARK, (0, b"", b"")), (MARK + b"\1", (0, b"", b"")), (MARK + b"\0" * 14, (0, b"", b"")),
                         (MARK + b"\0" * 15, (1, b"", b"lines: damaged 0\n")), (MARK + b"\0" + whole[len(MARK) + 1:], (1, b"", b"lines: damaged 0\n"))):
        write(serve.path(), held)
        wants((held, *said()), (held, *wanted))
    for held in (b"a letter\n", framed([b"\1"])):
        write(serve.path(), held)
        wants(said()[:2], (1, b""))


def lines_without_streams(serve):
    """tools/lines needs no input; where it cannot write it says so, 1; what it prints has never a message in it."""
    serve.run(SMALL)
    whole, printed = read(serve.path()), HEADER + SMALL
    torn = b"lines: damaged %d\n" % (whole.index(b"\1\0\0\0\x0dann") - len(MARK))
    for held, ways, wanted in (
            (whole, "<&-", (0, printed, b"")), (whole, "2>&-", (0, printed, b"")), (whole, ">/dev/full", (1, b"", b"lines: cannot write: No space left on device\n")),
            (whole, ">&-", (1, b"", b"lines: cannot write: Bad file descriptor\n")), (whole[:-1], "<&-", (1, printed, b"lines: damaged %d\n" % (len(whole) - 1 - len(MARK)))),
            (whole[:-2], "", (1, printed[:-len(b"ann create c\n")], torn)), (whole[:-2], "2>&-", (1, printed[:-len(b"ann create c\n")], b"")),
            (whole[:-2], "2>/dev/full", (1, printed[:-len(b"ann create c\n")], b"")), (whole[:-2], "<&- >&- 2>&-", (1, b"", b""))):
        write(serve.path(), held)
        done = subprocess.run(["sh", "-c", 'exec "$@" ' + ways, "sh", os.path.join(TOP, "tools", "lines"), serve.path()], capture_output=True, check=False)
        wants((ways, done.returncode, done.stdout, done.stderr), (ways, *wanted))


# What befalls single calls of the system, by strace.

# The calls whose fault counts, and what the first of them is that the program makes by itself.
CALLS = "openat,readlink,link,unlink,statx,flock,pread64,pwrite64,fsync,fdatasync,read,write"
# Those that no signal interrupts.
ONCE = "readlink", "link", "unlink", "statx"
FIRST, OPENED = 'openat(AT_FDCWD, "/", ', '"\\0\\0\\0\\10adept 3\\n\\0"'


def injected(name, how, number):
    """Before a run: its call of that number and name is met so."""
    return ["strace", "-f", "-qq", "-o", "/dev/null", "-e", "trace=" + name, "-e", "inject=%s:%s:when=%d" % (name, how, number)]


def traced(told):
    """Before a run: its calls are told in that file."""
    return ["strace", "-f", "-qq", "-o", told, "-e", "trace=" + CALLS]


def calls_in(told):
    """The calls of a run that it makes by itself: the name of each, its number among those of that name, and its line."""
    counted, has_begun = collections.Counter(), False
    for line in [line.split(None, 1)[1] for line in read(told).decode().splitlines()]:
        name = line.split("(")[0]
        counted[name] += 1
        has_begun = has_begun or line.startswith(FIRST)
        if has_begun:
            yield name, counted[name], line


def status_of(line, opened):
    """The status where a call fails: 3 and 4 of streams, 7 behind the calls with which a store is opened, and 11 of these."""
    return 3 if line.startswith((FIRST, "read(0,")) else 4 if line.startswith("write(1,") else 7 if opened else 11


def calls(serve):
    """The calls of a run over a new store: the name of each, its number among those of that name, and the status where it fails."""
    wants(serve.run(SMALL, before=traced(serve.path("told"))), (0, SMALL_ANSWERS, b""))
    found = list(calls_in(serve.path("told")))
    clear(serve)
    is_open = False
    for name, number, line in found:
        is_open = is_open or OPENED in line
        yield name, number, status_of(line, is_open)


def clear(serve):
    for name in os.listdir(serve.folder):
        os.remove(serve.path(name))


def goes_on(serve, *statuses):
    """A store that a run left is none, or has the whole mark and the units of whole turns; the next run goes on to the end."""
    others = [name for name in os.listdir(serve.folder) if name != "store" and not OTHER.match(name)]
    left = read(serve.path()) if os.path.exists(serve.path()) else MARK
    wants((others, left[:len(MARK)]), ([], MARK))
    units = list(accepted(SMALL, SMALL_ANSWERS))
    held = payloads_of(left)
    wants((statuses, held in ([], [HEADER], [HEADER, *units])), (statuses, True))
    wants(serve.run(b"? count\n" + b"".join(units[max(0, len(held) - 1):]))[0], 0)
    wants(read(serve.path())[:len(framed([HEADER, *units]))], framed([HEADER, *units]))


def failing_calls(serve):
    """Each call of the system that fails is told: 11 while the store is opened, 7 behind it, 3 and 4 of streams; the next run goes on."""
    said = {3: b"serve: cannot read\n", 4: b"serve: cannot write\n", 7: b"serve: the store failed: ", 11: b"serve: cannot open the store: "}
    reason = os.fsencode(serve.path()) + b": Input/output error (os error 5)\n"
    statuses = collections.Counter()
    for name, number, status in calls(serve):
        clear(serve)
        got = serve.run(SMALL, before=injected(name, "error=EIO", number))
        # the read that finds the end comes behind the answers
        output = SMALL_ANSWERS if status == 3 and statuses[3] == 2 else b""
        wants((name, number, *got), (name, number, status, output, said[status] + (reason if status > 4 else b"")))
        statuses[status] += 1
        goes_on(serve, name, number)
    wants((statuses[3], statuses[4], statuses[7], statuses[11] > 10), (3, 1, 8, True))


def stopped_at_calls(serve):
    """A stop at any call of the system leaves no store or one with its whole mark, and all of a turn or nothing; the next run goes on."""
    for name, number, _ in calls(serve):
        clear(serve)
        wants(serve.run(SMALL, before=injected(name, "signal=KILL", number))[0], -signal.SIGKILL)
        goes_on(serve, name, number)


def interrupted_calls(serve):
    """A call of the system that a signal interrupts is made again."""
    for name, number, _ in calls(serve):
        if name in ONCE:
            continue
        clear(serve)
        wants((name, number, *serve.run(SMALL, before=injected(name, "error=EINTR", number))), (name, number, 0, SMALL_ANSWERS, b""))
        wants(read(serve.path()), framed([HEADER, *accepted(SMALL, SMALL_ANSWERS)]))


def lines_that_cannot_be_read(serve):
    """Where a read of a store fails tools/lines says so, 1, and prints a beginning by whole units."""
    units = [b"# %s\nactor a%d\n" % (b"x" * 1000, number) for number in range(60)]
    serve.run(b"".join(units))
    beginnings = [b"", *(HEADER + b"".join(units[:count]) for count in range(len(units) + 1))]
    statuses = collections.Counter()
    for number in range(1, 24):
        before = ["strace", "-qq", "-o", "/dev/null", "-P", serve.path(), "-e", "trace=read,pread64", "-e", "inject=read:error=EIO:when=%d" % number]
        done = subprocess.run([*before, os.path.join(TOP, "tools", "lines"), serve.path()], capture_output=True, check=False)
        statuses[done.returncode] += 1
        wants((number, done.stdout in beginnings), (number, True))
        said = b"lines: cannot read %s: Input/output error\n" % os.fsencode(serve.path())
        wants((number, done.stderr, done.stdout == beginnings[-1]), (number, said if done.returncode else b"", not done.returncode))
    wants((statuses[1] > 3, statuses[0] > 0), (True, True))


TRACED = [failing_calls, stopped_at_calls, interrupted_calls, lines_that_cannot_be_read]
CHECKS = [closed_streams, words, no_store, held_store, foreign_files, begun_stores, damaged_stores, changed_stores, behind_the_list, long_stores,
          opened_on_a_copy, unread_answers, reader_that_goes_away, unreadable_input, impatient_streams, failing_store, little_memory,
          opened_with_little_memory, long_items, new_files, odd_folder, many_questions, kept_for_lines, lines_without_streams]


def of_old(program):
    """The stores of stores/: each is opened, and tells what it told. They are never made anew."""
    for path in sorted(glob.glob(os.path.join(HERE, "stores", "*.store"))):
        held, report = read(path), read(path[:-len("store")] + "report")
        with tempfile.TemporaryDirectory(prefix="acceptance-") as folder:
            serve = Serve(program, folder)
            write(serve.path(), held)
            told = b"%sok %d\n" % (report, len(payloads_of(held)) - 1)
            got = serve.run(b"? report\n")
            same = got == (0, told, b"") and read(serve.path()) == held
        yield os.path.relpath(path, HERE), None if same else "it tells another past, or was changed: %s" % shown(got)


def checked(program, check):
    with tempfile.TemporaryDirectory(prefix="acceptance-") as folder:
        try:
            check(Serve(program, folder))
            return None
        except Differs as why:
            return str(why)


def has_strace(program):
    """Whether there is a strace that can trace the program, which ends with 2 where it has no words."""
    run = ["strace", "-qq", "-o", "/dev/null", program]
    return shutil.which("strace") is not None and subprocess.run(run, capture_output=True, check=False).returncode == 2


def tried(program, player):
    """For each case of the server its name and what differs. `player` is the command whose `play` a second reading asks."""
    for name, talk, answers, before in cases():
        yield name, what_differs(program, talk, answers, before)
    for name, talk, answers, _ in cases():
        if name.startswith("examples"):
            yield name + ", as play has it", None if answering.answers(player, talk)[0] == answers else "another reading answers otherwise"
    traced = TRACED if has_strace(program) else []
    if not traced:
        print("not tried serves, %s: there is no strace that can trace" % ", ".join(check.__name__ for check in TRACED), flush=True)
    for check in CHECKS + traced:
        yield "serve: " + (check.__doc__ or "").splitlines()[0], checked(program, check)
    yield from of_old(program)
