"""Tries tools/share: several clients and one server, with the program itself.

The talks of the server (serves.py) are said to it by one client, with the same answers; what clients send in pieces and at once is
not mixed; and whoever goes away, takes no answers, or may not say what it says, harms nobody else.  What holds where the server is
killed under the load of many clients is tried by trials/share.
"""
import fcntl
import os
import random
import re
import selectors
import signal
import socket
import stat
import subprocess
import sys
import tempfile
import time

import answering
import chatter
import explains
import serves
import stamps
import talks
import terminals
from serves import Differs, wants

HERE = os.path.dirname(os.path.abspath(__file__))
TOP = os.path.dirname(HERE)
SHARE, LINES = (os.path.join(TOP, "tools", name) for name in ("share", "lines"))
WAIT = 600
TALKS = 4
STAMP = re.compile(rb"^\| # \d{4}-\d\d-\d\dT\d\d:\d\d:\d\dZ \S+ \d+\n", re.M)
NOBODY = 65534
# What a client that may speak for `nor` alone tries, in pieces that are sent one after another, and the last lines of its answers;
# None is any answer.
NOT_YOURS, FORM = b"no 1 not-yours\n", b"no 1 form\n"
ATTEMPTS = [
    ("another actor", [b"nora start c A\n"], [NOT_YOURS]),
    ("a name that begins so", [b"no start c A\n", b"nor. start c A\n", b"noraa start c A\n"], [NOT_YOURS] * 3),
    ("a name in pieces", [b"nor", b"a start c A\n"], [NOT_YOURS]),
    ("a line feed in pieces", [b"nor start c B", b"\n", b"nora start c A", b"\n"], [None, NOT_YOURS]),
    ("a group whose later lines are another's", [b"nor change c\nnora start c A\nend\n"], [b"no 2 form\n"]),
    ("a group that seems to end", [b"nor change c\nend here\nnora start c A\nend\n"], [b"no 2 form\n"]),
    ("a group that is none", [b"nor change\nnora start c A\nend\n"], [FORM]),
    ("a quote that opens across lines", [b'nor end c A x="abc\nnora start c A\n', b'nora start c A x="\n'], [FORM, NOT_YOURS, NOT_YOURS]),
    ("a quote round the name", [b'"nora" start c A\n', b'"nor" start c A\n', b'nor"a" start c A\n'], [NOT_YOURS] * 3),
    ("a quote that hides a blank", [b'nor"\ta start c A\n', b'nor" start c A\nnora start c A\n'], [NOT_YOURS] * 3),
    ("a carriage return in a line", [b"nor start c A\rnora start c A\n", b"\rnora start c A\r\n"], [FORM, NOT_YOURS]),
    ("other bytes that end lines", [b"nor start c A\x0bnora\n", b"nor start c A\x0cnora\n", b"nor start c A\xc2\x85nora\n", b"\x00nora start c A\n"],
     [None, None, None, NOT_YOURS]),
    ("blanks in front", [b" \t nora start c A\n"], [NOT_YOURS]),
    ("comments in front", [b"# nor\n\n \t# nor start c A\nnora start c A\n"], [NOT_YOURS]),
    ("letters that look alike", [b"Nora start c A\n", b"n\xd0\xbera start c A\n", b"\xffnora start c A\n"], [NOT_YOURS] * 3),
    ("declarations", [b"type u\nact A\nend\n", b"actor more\n", b"case d t\n", b" phase\n"], [NOT_YOURS] * 4),
    ("a version, and cases that move", [b"nor install t\ninsert X after A\nend\n", b"nor migrate t\n"], [NOT_YOURS] * 2),
    ("a header behind the first line", [b"adept 3\n", b"adept 3\nnora start c A\n"], [NOT_YOURS] * 3),
    ("a question with another's unit", [b"? if nora start c A\n", b"? if nora change c\nnora start c A\nend\n", b"? move nora t\nnora start c A\nend\n"], [None] * 3),
    ("a comment that is too long", [b"#" * 8388608 + b"\nnora start c A\n", b"nora start c A\n"], [b"no 1 limit bytes\n", NOT_YOURS]),
    ("another's stamp", [b"# 2030-01-01T00:00:00Z nora 900000\nnor start c B\n"], [None]),
    ("a group that goes on behind the end", [b"nor change c\ninsert Y after nothing\nend\nnora start c A\nend\n"], [None, NOT_YOURS, NOT_YOURS]),
]
# Words, and what stands behind them, of lines that are hard to cut into items.
WORDS = [b"?", b"?", b"if", b"if", b"move", b"type", b"actor", b"case", b"phase", b"change", b"install", b"end", b"end", b"ann", b"c", b"act", b"A", b"#x", b"#", b'"a b"', b'"',
         b'x="', b'\\"', b'"\\', b"adept", b"3", b"\r", b"\xff", b"\x0b", b"\x00", b"?x", b"count"]
BLANKS = [b" ", b" ", b"\t", b"  ", b""]
BEFORE = b"type t\nact A\nact B\nend\nactor nor\nactor nora\ncase c t\nnora create c\n"


class Share:
    """tools/share at work in a folder."""

    def __init__(self, program, folder, *words, before=()):
        self.program, self.store, self.socket = program, os.path.join(folder, "store"), os.path.join(folder, "socket")
        self.child = subprocess.Popen([*before, SHARE, "--program", program, *words, self.store, self.socket], stdin=subprocess.DEVNULL, stderr=subprocess.PIPE)
        until = time.time() + WAIT
        while not (self.is_there() or self.child.poll() is not None or time.time() > until):
            time.sleep(0.01)

    def is_there(self):
        try:
            self.connect().close()
            return True
        except OSError:
            return False

    def connect(self, user=None):
        """A new client, which another user of the system may be."""
        made = socket.socket(socket.AF_UNIX)
        made.settimeout(WAIT)
        try:
            if user is not None:
                os.seteuid(user)
            made.connect(self.socket)
            return made
        finally:
            if user is not None:
                os.seteuid(0)

    def server(self):
        """The number of the server's process."""
        with open("/proc/%d/task/%d/children" % (self.child.pid, self.child.pid), encoding="ascii") as file:
            return int(file.read().split()[0])

    def wait(self):
        """The status, and what was said."""
        said = self.child.communicate(timeout=WAIT)[1]
        return self.child.returncode, said

    def stop(self):
        self.child.send_signal(signal.SIGTERM)
        return self.wait()

    def kill(self):
        """Kills it, and waits until its server has ended by itself, which holds the store until then."""
        self.child.kill()
        self.wait()
        with open(self.store, "rb") as store:
            fcntl.flock(store, fcntl.LOCK_EX)

    def answers(self, *numbers):
        """What --answers prints."""
        return subprocess.run([SHARE, "--program", self.program, "--answers", self.store, *map(str, numbers)], stdout=subprocess.PIPE, timeout=WAIT, check=True).stdout

    def lines(self):
        return subprocess.run([LINES, self.store], stdout=subprocess.PIPE, timeout=WAIT, check=True).stdout


def told(client, count=None):
    """So many answers of a client, each as bytes; all up to the end where no number is given."""
    data, answers, found, answer = b"-", talks.Answers(), [], b""
    while data and len(found) != count:
        try:
            data = client.recv(1 << 16)
        except ConnectionError:
            data = b""
        for piece, is_end in answers.take(data):
            answer += piece
            if is_end:
                found.append(answer)
                answer = b""
    return found


def rest(client):
    """The bytes that still come of a client's answers, up to the end."""
    found, data = b"", b"-"
    while data:
        try:
            data = client.recv(1 << 16)
        except ConnectionError:
            data = b""
        found += data
    return found


def ask(client, *pieces, count=1):
    """The answers to what is sent in pieces."""
    for piece in pieces:
        client.sendall(piece)
        if len(pieces) > 1:
            time.sleep(0.02)
    return told(client, count)


def shell(ways):
    """What stands before a command whose streams are these."""
    return ["sh", "-c", 'exec "$@" ' + ways, "sh"]


def last_lines(answers):
    return [answer[answer[:-1].rfind(b"\n") + 1:] for answer in answers]


def said_at_once(share, talk):
    """What one client is answered to a talk, by --to."""
    done = subprocess.run([SHARE, "--to", share.socket], input=talk, stdout=subprocess.PIPE, timeout=WAIT, check=False)
    return done.returncode, STAMP.sub(b"", done.stdout)


# What is tried. The first line of each says what holds.

def groups_in_pieces(program, folder):
    """Two clients send groups in pieces, in turn: each is answered its own, and nothing is mixed."""
    share = Share(program, folder)
    one, other = share.connect(), share.connect()
    for first, second in zip((b"type t\n", b"act A\nac", b"t B\n", b"en", b"d\n"), (b"typ", b"e u\nact", b" C\n# end\n", b"end", b"\n")):
        one.sendall(first)
        other.sendall(second)
        time.sleep(0.05)
    answers = sorted([*told(one, 1), *told(other, 1)])
    wants([answer[:answer.index(b"ok")] for answer in answers], [b"type t 1 - define -> defined\n", b"type u 1 - define -> defined\n"])
    wants(sorted(last_lines(answers)), [b"ok 1\n", b"ok 2\n"])
    wants(share.stop(), (0, b""))
    wants(os.path.exists(share.socket), False)


def goes_away_in_a_group(program, folder):
    """A client that goes away in the middle of a group sends nothing of it; what it sent before that is worked."""
    share = Share(program, folder)
    gone, other = share.connect(), share.connect()
    gone.sendall(b"actor ann\ntype t\nact A\n")
    gone.close()
    wants(ask(other, b"type t\nact B\nend\n")[0][:-2], b"type t 1 - define -> defined\nok ")
    wants(ask(other, b"? actors\n"), [b"actor ann\nok 2\n"])
    rest = share.connect()
    rest.sendall(b"actor bob\ntype t\n# note\nact A\nac")
    rest.shutdown(socket.SHUT_WR)
    wants(told(rest), [b"ok 3\n", b"no 3 unended\n"])
    wants(share.stop()[0], 0)
    wants(b"act A" in share.lines(), False)


def odd_line(chance):
    """A line of a few words that tell what it is, or nearly do."""
    words = [chance.choice(WORDS) + chance.choice(BLANKS) for _ in range(chance.randrange(7))]
    return b"".join([chance.choice(BLANKS), *words, chance.choice((b"\n", b"\n", b"\r\n"))])


def same_items(program, folder):
    """What comes is cut into the same items as by the server: a question behind each is one by itself."""
    for seed in random.Random(time.time()).sample(range(10 ** 9), 3):
        chance = random.Random(seed)
        items, _ = talks.items(b"".join(odd_line(chance) for _ in range(300)))
        talk = b"".join(item + b"? count\n" for item in items)
        cutter, cut, at = talks.Cutter(), [], 0
        while at < len(talk):
            size = chance.choice((1, 3, 50, 4000))
            cut += [each.data for each in cutter.take(talk[at:at + size])]
            at += size
        wants((seed, cut), (seed, [each for item in items for each in (item, b"? count\n")]))
        _, output, _ = serves.Serve(program, folder).run(talk)
        answers = serves.answers_in(output)
        wants((seed, len(answers), [answer for answer in answers[1::2] if len(answer) > 1 or not answer[0].startswith(b"ok ")]), (seed, 2 * len(items), []))


def long_items(program, folder):
    """An item that is too long is answered as by the server, wherever it ends, and the next one is taken."""
    blanks, letters = b" " * talks.LONGEST, b"a" * talks.LONGEST
    said = b"".join([b"type t\nact A\n#" + letters + b"\nact B\nend\n", blanks + b"actor ann \r\n", b"type t\nend" + blanks + b"x\nend" + blanks + b"\r\n",
                     letters + b" change x\n? count\nend\n", b'"\\"' + blanks + b'" change x\n? count\nend\n? count\n'])
    share = Share(program, folder)
    wants(said_at_once(share, said + b"type t\n" + letters), (0, b"".join(b"no %d limit bytes\n" % line for line in (3, 1, 2, 1, 1)) + b"ok 0\nno 2 limit bytes\n"))
    share.stop()


def takes_nothing(program, folder):
    """A client that takes no answers is dropped in time; until then the others are answered."""
    share = Share(program, folder, "--wait", "2")
    one, other = share.connect(), share.connect()
    wants(ask(one, b"type t\nact A\nend\n" + b"".join(b"case c%d t\n" % number for number in range(4000)), count=4001)[-1], b"ok 4001\n")
    other.sendall(b"? report\n" * 1000 + b"actor late\n")
    began = time.time()
    for number in range(20):
        wants(ask(one, b"actor a%d\n" % number), [b"ok %d\n" % (4002 + number)])
    wants(time.time() - began < 60, True)
    until = time.time() + WAIT
    while ask(one, b"? count\n") and time.time() < until and not is_dropped(other):
        time.sleep(0.1)
    wants(is_dropped(other), True)
    wants(ask(one, b"? count\n"), [b"ok 4021\n"])
    wants(share.stop()[0], 0)


def is_dropped(client):
    """Whether the other side has gone, told without a read."""
    try:
        client.send(b"\n", socket.MSG_DONTWAIT)
        return False
    except BlockingIOError:
        return False
    except OSError:
        return True


def is_killed(program, folder):
    """Where the server is killed each client is told of its units; the numbers go on behind."""
    share = Share(program, folder)
    clients = [share.connect() for _ in range(3)]
    wants(ask(clients[0], b"type t\nact A\nend\n"), [b"type t 1 - define -> defined\nok 1\n"])
    server = share.server()
    os.kill(server, signal.SIGSTOP)
    for number, client in enumerate(clients):
        client.sendall(b"actor a%d\n? count\nactor b" % number)
    time.sleep(0.2)
    os.kill(server, signal.SIGKILL)
    for client in clients:
        wants(told(client), [b"no 1 ended\n"] * 2)
    wants(share.wait(), (137, b"share: the server has ended with 137\n"))
    again = Share(program, folder)
    wants(ask(again.connect(), b"actor ann\n"), [b"ok 2\n"])
    again.stop()
    wants(again.answers(2)[-len(b" root 2\n| actor ann\nok 2\n") + 5:], b" 2\n| actor ann\nok 2\n")


# It answers as the program does until it has stored so many units; then it ends with 7 before it says so.
SILENT = """#!/usr/bin/env python3
import os, subprocess, sys
program, most, mark = %r, %d, %r
if os.path.exists(mark):
    os.execv(program, [program, *sys.argv[1:]])
open(mark, "w").close()
child = subprocess.Popen([program, *sys.argv[1:]], stdout=subprocess.PIPE)
for line in child.stdout:
    if line == b"ok %%d\\n" %% most:
        sys.exit(child.kill() or child.wait() and 7)
    os.write(1, line)
"""


def is_silent(program, folder):
    """Where the server ends before it answers a unit that it has stored, the client gets the rest of the answer from the store."""
    silent = os.path.join(folder, "silent")
    with open(silent, "w", encoding="utf-8") as file:
        file.write(SILENT % (program, 4, os.path.join(folder, "mark")))
    os.chmod(silent, 0o755)
    share = Share(silent, folder)
    one, other = share.connect(), share.connect()
    wants(len(ask(other, b"type t\nact A\nend\nactor ann\ncase c t\n", count=3)), 3)
    other.sendall(b"ann create c\n? count\n")
    wants(told(other), [b"type t 2 ann newest -> is 1\ncase c 1 ann create 1 -> created\nok 4\n", b"no 1 ended\n"])
    wants(told(one), [])
    wants(share.wait()[0], 7)
    wants(share.answers(4).split(b"\n", 1)[1], b"| ann create c\ntype t 2 ann newest -> is 1\ncase c 1 ann create 1 -> created\nok 4\n")


def stamps_and_numbers(program, folder):
    """In front of each unit stand time, user and number, or the number alone; a client's own comments stay behind them."""
    share = Share(program, folder)
    one = share.connect()
    wants(ask(one, b"# mine\n\nactor ann\r\n? count\nactor ann\nactor bob\n", count=4), [b"ok 1\n", b"ok 1\n", b"no 1 twice\n", b"ok 2\n"])
    share.stop()
    share = Share(program, folder, "--no-stamp")
    wants(ask(share.connect(), b"adept 3\n# 1\n# 700\nactor cora\n", count=2), [b"ok 2\n", b"ok 3\n"])
    share.stop()
    lines = re.sub(rb"(?m)^# \d{4}-\d\d-\d\dT\d\d:\d\d:\d\dZ \S+ ", b"# TIME USER ", share.lines())
    wants(lines, b"adept 3\n# TIME USER 1\n# mine\n\nactor ann\r\n# TIME USER 3\nactor bob\n# 4\n# 1\n# 700\nactor cora\n")


def rights_of_users(program, folder):
    """What a user may not say is answered `no 1 not-yours`, and never reaches the server, whatever way it is tried."""
    attempt_all(program, folder)


def attempt_all(program, folder):
    """Makes each attempt, beside a client that says what it may, where there can be two users; says how many there were."""
    serves.Serve(program, folder).run(BEFORE)
    os.chmod(folder, 0o755)
    good, bad = (os.geteuid(), NOBODY) if os.geteuid() == 0 else (None, os.geteuid())
    file = os.path.join(folder, "rights")
    with open(file, "w", encoding="utf-8") as rights:
        rights.write("# who may say what\n%s as nor\n" % stamps.name_of(bad))
        rights.write("root as nora\nroot may cases installs\n" if good == 0 else "")
    share = Share(program, folder, "--as", file, "--mode", "666")
    honest = share.connect() if good == 0 else None
    for what, pieces, answers in ATTEMPTS:
        attempt(share, bad if good == 0 else None, what, pieces, answers)
        if honest:
            wants((what, last_lines(ask(honest, b"nora start c A\n"))[0][:3]), (what, b"ok "))
    if honest:
        wants([line[:3] for line in last_lines(ask(honest, b"case d t\nactor more\nnora install t\nend\n", count=3))], [b"ok ", b"no ", b"ok "])
    wants(share.stop()[0], 0)
    said = [first_words(unit) for unit in units(share.store) if unit.split(b"\n")[0].split()[2:3] == [stamps.name_of(bad).encode()]]
    wants({first for first, _ in said} | {b"nor"}, {b"nor"})
    wants({second for _, second in said} & {b"install", b"migrate"}, set())
    wants(len(said), 3)
    return len(ATTEMPTS)


def attempt(share, user, what, pieces, answers):
    """A client of this user tries something, and is answered so."""
    with share.connect(user) as client:
        wants(len(ask(client, b"adept 2\n")), 1)
        got = last_lines(ask(client, *pieces, count=len(answers)))
        wants((what, [one if wanted else None for one, wanted in zip(got, answers)]), (what, answers))
        wants((what, last_lines(ask(client, b"? count\n"))[0][:3]), (what, b"ok "))


def units(path):
    return serves.payloads_of(serves.read(path))[1:]


def first_words(unit):
    """The first two words of a unit."""
    end = talks.End()
    for line in unit.split(b"\n")[:-1]:
        end.take(talks.words_of(line))
    return end.first[:2]


def files_of_rights(program, folder):
    """A file of rights that is wrong is told with its line, and nothing is served."""
    for text, why in ((b"ann\n", b"line 1: it is"), (b"# x\nann may cook\n", b"line 2: there is no kind cook"), (b"ann can cases\n", b"line 1: it is"),
                      (b"ann as bob phase\n", b"line 1: no actor is named phase"), (b"ann as # bob\n", b"line 1: no actor is named #"), (b"ann as \xff\n", b"utf-8")):
        with open(os.path.join(folder, "rights"), "wb") as file:
            file.write(text)
        status, said = Share(program, folder, "--as", file.name).wait()
        wants((status, why in said, os.path.exists(os.path.join(folder, "store"))), (1, True, False))


def reaches(share, user):
    """Whether a user of the system can connect; where there can be no other, this one."""
    try:
        share.connect(user if os.geteuid() == 0 else None).close()
        return True
    except PermissionError:
        return False


def sockets(program, folder):
    """The socket has the rights that are told; a stale one is replaced, and whatever else is there is left."""
    os.chmod(folder, 0o755)
    path = os.path.join(folder, "socket")
    with socket.socket(socket.AF_UNIX) as stale:
        stale.bind(path)
    for words, mode in (((), 0o600), (("--mode", "660"), 0o660)):
        share = Share(program, folder, *words)
        wants(stat.S_IMODE(os.stat(path).st_mode), mode)
        # who is nobody there has the group of who is root
        wants(reaches(share, NOBODY), os.geteuid() != 0 or mode != 0o600)
        second = subprocess.run([SHARE, "--program", program, share.store + "2", path], stderr=subprocess.PIPE, timeout=WAIT, check=False)
        wants((second.returncode, second.stderr), (1, b"share: somebody listens at %s\n" % path.encode()))
        third = subprocess.run([SHARE, "--program", program, share.store, path + "2"], stderr=subprocess.PIPE, timeout=WAIT, check=False)
        wants((third.returncode, third.stderr[:26]), (10, b"serve: the store is in use"))
        wants(share.stop()[0], 0)
        wants(sorted(name for name in os.listdir(folder) if name.startswith("socket")), [])
    for held in b"a letter\n", b"":
        with open(path, "wb") as file:
            file.write(held)
        status, said = Share(program, folder).wait()
        wants((status, b"is no socket" in said, serves.read(path)), (1, True, held))
    os.remove(path)
    with open(os.path.join(folder, "store"), "wb") as file:
        file.write(b"a letter\n")
    wants(Share(program, folder).wait(), (9, serves.NO_STORE))
    wants(os.path.exists(path), False)


def to_a_server(program, folder):
    """--to says what it is given and ends with 0 when all is answered, and with 1 where nobody is there, or the server has gone."""
    wants(subprocess.run([SHARE, "--to", os.path.join(folder, "none")], stderr=subprocess.PIPE, timeout=WAIT, check=False).returncode, 1)
    share = Share(program, folder)
    wants(said_at_once(share, b"adept 1\n" + serves.SMALL), (0, b"ok 0\n" + serves.SMALL_ANSWERS))
    wants(said_at_once(share, b""), (0, b""))
    client = subprocess.Popen([SHARE, "--to", share.socket], stdin=subprocess.PIPE, stdout=subprocess.PIPE, stderr=subprocess.PIPE)
    client.stdin.write(b"? count\n")
    client.stdin.flush()
    wants(client.stdout.readline(), b"ok 4\n")
    wants(share.stop()[0], 0)
    output, said = client.communicate(b"? count\n", timeout=WAIT)
    wants((client.returncode, output, said), (1, b"", b"share: the talk has ended before all was answered\n"))


def at_a_terminal(program, folder):
    """A client at a terminal is told why a call is refused as by ./serve, and in colours."""
    share, case = Share(program, folder), os.path.join(HERE, "explaining", "typed-calls")
    lines, said = (serves.read(os.path.join(case, name)).decode().splitlines() for name in ("typed", "told"))
    environment = {name: value for name, value in os.environ.items() if name != "NO_COLOR"}
    for more in {"NO_COLOR": "1"}, {}:
        status, shown = terminals.typed([SHARE, "--to", share.socket], lines, folder, {**environment, "TERM": "xterm", **more})
        wants((status, "\x1b[32mok " in shown), (0, not more))
        wants(explains.first_missing(said, shown.splitlines()) if more else None, None)
        share.stop()
        os.remove(share.store)
        share = Share(program, folder)
    share.stop()


def streams_of_a_client(program, folder):
    """Where --to cannot read what it is given, or not write what it is answered, it ends with 1, and what it sent is worked."""
    share = Share(program, folder)

    def said(ways, given):
        done = subprocess.run([*shell(ways), SHARE, "--to", share.socket], input=given, stdout=subprocess.PIPE, stderr=subprocess.PIPE, timeout=WAIT, check=False)
        return done.returncode, done.stdout, done.stderr

    for ways in "0>/dev/null", "<&-":
        wants((ways, *said(ways, b"")), (ways, 1, b"", b"share: cannot read: Bad file descriptor\n"))
    for number, (ways, why) in enumerate(((">/dev/full", b"No space left on device"), (">&-", b"Bad file descriptor"), ("| true", b"Broken pipe"))):
        status, output, message = said(ways, b"actor a%d\n" % number + b"? report\n" * 2000)
        wants((ways, output, message), (ways, b"", b"share: cannot write: %s\n" % why))
        wants((ways, status), (ways, 0 if ways == "| true" else 1))
    reader, writer = os.pipe()
    os.set_blocking(reader, False)
    os.write(writer, b"? count\n")
    done = subprocess.run([SHARE, "--to", share.socket], stdin=reader, stdout=subprocess.PIPE, stderr=subprocess.PIPE, timeout=WAIT, check=False)
    wants((done.returncode, done.stdout, done.stderr), (1, b"ok 3\n", b"share: cannot read: Resource temporarily unavailable\n"))
    os.close(reader)
    os.close(writer)
    wants(share.stop(), (0, b""))


def streams_of_its_own(program, folder):
    """It needs no standard streams, and its clients are told all the same where nobody takes its messages."""
    for ways in "<&- >&- 2>&-", "<&- 2>/dev/full":
        share = Share(program, folder, before=shell(ways))
        client = share.connect()
        wants(ask(client, b"? count\n"), [b"ok 0\n"])
        os.kill(share.server(), signal.SIGSTOP)
        client.sendall(b"actor ann\n")
        time.sleep(0.1)
        os.kill(share.server(), signal.SIGKILL)
        wants(told(client), [b"no 1 ended\n"])
        wants(share.wait(), (137, b""))


def more_clients_than_files(program, folder):
    """Where more clients come than can be connected, those who come later wait until others have gone."""
    share = Share(program, folder, before=["sh", "-c", 'ulimit -n 24; exec "$@"', "sh"])
    clients = [share.connect() for _ in range(60)]
    with selectors.DefaultSelector() as selector:
        for number, client in enumerate(clients):
            client.sendall(b"actor a%d\n" % number)
            selector.register(client, selectors.EVENT_READ)
        while selector.get_map():
            for key, _ in selector.select(WAIT):
                wants(told(key.fileobj, 1)[0][:3], b"ok ")
                selector.unregister(key.fileobj)
                key.fileobj.close()
    wants(ask(share.connect(), b"? count\n"), [b"ok 60\n"])
    wants(share.stop(), (0, b""))


def in_order(program, folder):
    """Items are handed on in the order in which they came, whoever sent them."""
    share = Share(program, folder)
    clients = [share.connect() for _ in range(3)]
    for client in clients:
        wants(ask(client, b"? count\n"), [b"ok 0\n"])
    os.kill(share.server(), signal.SIGSTOP)
    order = [0, 1, 2, 2, 0, 1, 1, 0, 2]
    for number, who in enumerate(order):
        clients[who].sendall(b"actor a%d-%d\n" % (number, who))
        time.sleep(0.05)
    os.kill(share.server(), signal.SIGCONT)
    for who, client in enumerate(clients):
        wants(told(client, 3), [b"ok %d\n" % (number + 1) for number, one in enumerate(order) if one == who])
    share.stop()
    wants([unit.split(b"\n")[1] for unit in units(share.store)], [b"actor a%d-%d" % each for each in enumerate(order)])


def tool_is_killed(program, folder):
    """Where tools/share itself is killed its server ends, no unit is there in part or twice, --answers tells of each, and the next one goes on."""
    chance, sent, got = random.Random(time.time()), {}, {}
    for turn in range(3):
        share = Share(program, folder)
        clients = [share.connect() for _ in range(3)]
        for who, client in enumerate(clients):
            names = [b"%d-%d-%d" % (turn, who, number) for number in range(50)]
            sent.update((name, b"# %s\n%s" % (name, chance.choice((b"actor a%s\n", b"type t%s\nact A\nend\n")) % name)) for name in names)
            client.sendall(b"".join(sent[name] for name in names) + b"type half\nact A\n")
        heard = [client.recv(chance.choice((1, 100, 1000))) for client in clients]
        share.kill()
        for who, client in enumerate(clients):
            answers = serves.answers_in(heard[who] + rest(client))
            got.update((b"%d-%d-%d" % (turn, who, number), answer) for number, answer in enumerate(answers))
        wants(os.path.exists(share.socket), True)
    share = Share(program, folder)
    wants(share.stop(), (0, b""))
    held = units(share.store)
    wants([int(unit.split(b"\n")[0].split()[-1]) for unit in held], sorted({int(unit.split(b"\n")[0].split()[-1]) for unit in held}))
    names = [unit.split(b"\n")[1][2:] for unit in held]
    wants([unit.split(b"\n", 1)[1] for unit in held], [sent[name] for name in names])
    later = dict(zip(names, serves.answers_in(re.sub(rb"(?m)^\| .*\n", b"", share.answers()))))
    wants((len(later), {name: later.get(name) for name in got}), (len(names), got))


def is_stopped(program, folder):
    """Where it is stopped all that has come is worked, also of who has just connected, and answered to its client; the rest of a group is not."""
    share = Share(program, folder)
    names = [[b"a%d-%d" % (who, number) for number in range(60)] for who in range(4)]
    clients = [share.connect() for _ in names]
    for client, mine in zip(clients, names):
        client.sendall(b"".join(b"actor %s\n" % name for name in mine) + b"type half\nact A\n")
    clients[0].recv(1, socket.MSG_PEEK)
    share.child.send_signal(signal.SIGTERM)
    answers = [serves.answers_in(rest(client)) for client in clients]
    wants(share.wait(), (0, b""))
    held = [unit.split(b"\n")[1][len(b"actor "):] for unit in units(share.store)]
    for mine, told_of_it in zip(names, answers):
        wants([name for name in held if name in mine], mine)
        wants(told_of_it, [[b"ok %d" % (held.index(name) + 1)] for name in mine])
    wants(len(held), sum(map(len, names)))


def answers_of_stores(program, folder):
    """--answers tells what a store holds, also while it is in use; it makes none, and tells nothing of one that is damaged."""
    share = Share(program, folder)
    wants(len(ask(share.connect(), b"type t\nact A\nend\nactor ann\nactor ann\n", count=3)), 3)
    both = [b"| type t\n| act A\n| end\ntype t 1 - define -> defined\nok 1\n", b"| actor ann\nok 2\n"]
    wants(STAMP.sub(b"", share.answers()), b"".join(both))
    wants(share.stop(), (0, b""))
    wants([STAMP.sub(b"", share.answers(*numbers)) for numbers in ((), (1,), (2,), (3,), (2, 1))], [b"".join(both), *both, b"", b"".join(both)])
    for name, held, why in (("none", None, b"there is no store"), ("torn", serves.read(share.store)[:-3], b"damaged"), ("letter", b"a letter\n", serves.NO_STORE)):
        path = os.path.join(folder, name)
        if held:
            serves.write(path, held)
        done = subprocess.run([SHARE, "--program", program, "--answers", path], stdout=subprocess.PIPE, stderr=subprocess.PIPE, timeout=WAIT, check=False)
        wants((name, done.returncode, done.stdout, why in done.stderr), (name, 1, b"", True))
        wants(os.path.exists(path), held is not None)


def block(begins):
    """The block of docs/SERVE.md that begins so."""
    text = serves.read(os.path.join(TOP, "docs", "SERVE.md")).decode()
    return next(found for found in re.findall(r"^```\n(.*?)^```$", text, re.M | re.S) if found.startswith(begins))


def as_a_service(program, folder):
    """The unit and the lines of cron that docs/SERVE.md shows do what it says: a stop answers what has come, and backups are what tools/lines prints."""
    unit = dict(line.split("=", 1) for line in block("[Unit]").split("\n") if "=" in line)
    wants((unit["KillMode"], {"2", "9"} <= set(unit["RestartPreventExitStatus"].split())), ("mixed", True))
    places = {"/opt/rushowa": TOP, "/etc/ward.rights": os.path.join(folder, "rights"), "/var/lib/ward/store": os.path.join(folder, "store"),
              "/run/ward/socket": os.path.join(folder, "socket"), "/var/backups/ward": folder}

    def here(text):
        for place, other in places.items():
            text = text.replace(place, other)
        return text

    serves.write(os.path.join(folder, "rights"), block("# a line for each right").encode() + b"%s may actors\n" % stamps.name_of(os.geteuid()).encode())
    words = here(unit["ExecStart"]).split()
    share = Share(program, folder, *words[1:-2])
    wants([words[0], *words[-2:]], [SHARE, share.store, share.socket])
    wants(stat.S_IMODE(os.stat(share.socket).st_mode), 0o666)
    wants(ask(share.connect(), b"actor ann\ncase c t\n? count\n", count=3), [b"ok 1\n", NOT_YOURS, b"ok 1\n"])
    for line in block("10 3 * * *").splitlines():
        subprocess.run(here(line.split(None, 6)[6].replace("\\%", "%")), shell=True, timeout=WAIT, check=True)
    backups = [name for name in os.listdir(folder) if name.endswith(".adept")]
    wants((len(backups), {serves.read(os.path.join(folder, name)) for name in backups}), (2, {share.lines()}))
    wants(share.stop(), (0, b""))


def accept_fails(program, folder):
    """Where a connection is refused by the system for want of room it is taken a second later."""
    share = Share(program, folder, before=["strace", "-D", "-qq", "-o", "/dev/null", "-e", "trace=accept4", "-e", "inject=accept4:error=ENFILE:when=3..5"])
    for _ in range(4):
        with share.connect() as client:
            wants(ask(client, b"? count\n"), [b"ok 0\n"])
    wants(share.stop(), (0, b""))


def three_desks(program, folder):
    """The ward of examples/desks: three clients at once, until all patients have gone."""
    share = Share(program, folder)
    done = subprocess.run([os.path.join(TOP, "examples", "desks"), share.socket], stdout=subprocess.PIPE, timeout=WAIT, check=True)
    wants(done.stdout.split(b"\n")[-5:-1], [*(b"case bed-%d stay 1 finished own=0" % number for number in (1, 2, 3)), b"ok 34"])
    wants(share.stop()[0], 0)


CHECKS = [groups_in_pieces, in_order, goes_away_in_a_group, same_items, long_items, takes_nothing, more_clients_than_files, is_stopped, is_killed, is_silent, tool_is_killed,
          stamps_and_numbers, answers_of_stores, rights_of_users, files_of_rights, sockets, streams_of_its_own, to_a_server, at_a_terminal, streams_of_a_client, as_a_service,
          three_desks]
TRACED = [accept_fails]


def checked(program, check):
    with tempfile.TemporaryDirectory(prefix="acceptance-") as folder:
        try:
            check(program, folder)
            return None
        except (Differs, OSError, IndexError, subprocess.SubprocessError) as why:
            return "%s: %s" % (type(why).__name__, why)


def shared(program, talk, answers, before):
    """None where a talk is answered so by one client."""
    with tempfile.TemporaryDirectory(prefix="acceptance-") as folder:
        if before is not None:
            serves.write(os.path.join(folder, "store"), before)
        share = Share(program, folder)
        try:
            wants(said_at_once(share, talk), (0, answers))
            wants(share.stop(), (0, b""))
            return None
        except Differs as why:
            return str(why)


def made_talks(program, player, seed):
    """Talks of a seed, said in pieces."""
    for number in range(TALKS):
        chance = random.Random("share %d %d" % (seed, number))
        talk = chatter.made(chance)
        answers, _ = answering.answers(player, talk)
        yield "shared talk %d of the seed %d" % (number, seed), shared(program, talk, answers, None)


def tried(program, player):
    """For each case of tools/share its name and what differs."""
    traced = TRACED if serves.has_strace(program) else []
    for name, talk, answers, before in serves.cases():
        yield "shared: " + name, shared(program, talk, answers, before)
    for check in CHECKS + traced:
        yield "share: " + check.__doc__.splitlines()[0], checked(program, check)
    yield from made_talks(program, player, random.SystemRandom().randrange(10 ** 9))


if __name__ == "__main__":
    for case, difference in tried(sys.argv[1], [sys.argv[2]]):
        print("differs" if difference else "passed", case, difference or "", flush=True)
