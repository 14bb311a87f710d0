"""Tries the program that works process files over a store.

What a store holds of a file was written down from the forms of docs/STORE.md by another program than the one that is
tried: for each record its payload.
"""
import collections
import fcntl
import os
import re
import shutil
import stat
import subprocess
import tempfile

import serves

HERE = os.path.dirname(os.path.abspath(__file__))
TOP = os.path.dirname(HERE)
SECONDS = 300
# What stands in front of the image on a file, and what a store may be made under before it has its name.
MARK = b"rushowa store 1\n"
OTHER = re.compile(r"\.rushowa-\d+$")
# The first call behind those with which a store is opened.
OPENED = "fdatasync("
# How long the image of a store may be.
LIMIT = 1 << 30
NOBODY = 65534
SEQUENCE = b"""adept 1
type t
act A
act B
end
actor ann
case c t
phase
ann create c
ann start c A
ann end c A
ann start c B
ann end c B
"""
MIGRATED = b"""adept 1
type t
act A
end
actor ann
case c t
phase
ann create c
ann start c A
ann end c A
ann install t
insert B after A
end
ann migrate t
ann migrate t
"""
LOOP = b"""adept 1
type t
element d int
loop l e
act R
xor s j
branch 0
branch 1
act W
done
done
read R d optional
write W d
end
actor ann
case c t
phase
ann create c
ann start c R
ann end c R
ann start c s
ann end c s choice 1
ann start c W
ann end c W d=7
ann start c e
ann end c e choice 1
ann start c R
"""
STORED = [(SEQUENCE, """
010000000000000000000000000000000100000002000000000200000000030000000000000000000000000000000000000000
030000000100000000
0400000001000000000000000000000001
05000000010000000000000000000000020000000100000000
0600000001000000000000000000000002000000010000000000
05000000010000000000000000000000030000000100000000
0600000001000000000000000000000003000000010000000000
"""), (MIGRATED, """
01000000000000000000000000000000010000000100000000020000000000000000000000000000000000000000
030000000100000000
0400000001000000000000000000000001
05000000010000000000000000000000020000000100000000
0600000001000000000000000000000002000000010000000000
020000000100000000000000010000000003000000000000000002
030000000100000000
0800000001000000000000000000000002
030000000100000000
0800000001000000000000000000000002
"""), (LOOP, """
010000000000000000000000000000000100000001030000000200000003000000020000000004020000000500000006000000020000000000000001\
000000010000000007000000000000000100000000000000000100000004000000000000000001000000070000000000000000
030000000100000000
0400000001000000000000000000000001
05000000010000000000000000000000040000000100000000
0600000001000000000000000000000004000000010000000000
05000000010000000000000000000000050000000100000000
06000000010000000000000000000000050000000100000000010001
05000000010000000000000000000000070000000100000000
060000000100000000000000000000000700000001000000010000000000000000000000000700
05000000010000000000000000000000030000000100000000
06000000010000000000000000000000030000000100000000010001
05000000010000000000000000000000040000000100000000
""")]


class Differs(Exception):
    """What the program did, and was not to do."""


def wants(got, wanted):
    if got != wanted:
        raise Differs("wanted %s, got %s" % (wanted, got))


def image(payloads):
    """What a store holds with these payloads."""
    return b"".join(b"\1" + len(payload).to_bytes(4, "big") + payload for payload in payloads) + b"\0"


def payloads_of(lines):
    return [bytes.fromhex(line) for line in lines.split()]


class Keep:
    """The program of the store and the one that writes reports, with a folder of its own."""

    def __init__(self, command, player, folder):
        self.command, self.player, self.folder = command, player, folder

    def path(self, name="store"):
        return os.path.join(self.folder, name)

    def whole(self, name="store"):
        """All bytes of a file."""
        with open(self.path(name), "rb") as file:
            return file.read()

    def read(self):
        """The image of the store."""
        held = self.whole()
        wants(held[:len(MARK)], MARK)
        return held[len(MARK):]

    def put(self, held):
        """Makes the store's file hold these bytes."""
        with open(self.path(), "wb") as file:
            file.write(held)

    def write(self, held):
        """Makes the store hold this image."""
        self.put(MARK + held)

    def names(self):
        return sorted(os.listdir(self.folder))

    def clear(self):
        for name in self.names():
            os.remove(self.path(name))

    def run(self, given, *words, to=subprocess.PIPE, before=(), user=None):
        done = subprocess.run([*before, *self.command, *(words or [self.path()])], input=given, timeout=SECONDS, stdout=to, stderr=subprocess.PIPE, user=user)
        return done.returncode, done.stdout, done.stderr

    def ends(self, status, text, given=SEQUENCE, **how):
        """A run ends so, and writes nothing but this message."""
        wants(self.run(given, **how), (status, b"", b"keep: %s\n" % text.encode()))

    def injected(self, name, how, number):
        """Before a run: its call of that number and name is met so."""
        return ["strace", "-f", "-qq", "-o", "/dev/null", "-e", "trace=" + name, "-e", "inject=%s:%s:when=%d" % (name, how, number)]

    def done(self, given):
        """What a run ends with that works the file to its end."""
        return 0, subprocess.run([*self.player, "play"], input=given, timeout=SECONDS, stdout=subprocess.PIPE).stdout, b""


def is_stored(keep):
    """A store that is missing is begun, and a second run over it changes nothing."""
    for given, lines in STORED:
        wanted = image(payloads_of(lines))
        if os.path.exists(keep.path()):
            os.remove(keep.path())
        for _ in range(2):
            wants(keep.run(given), keep.done(given))
            wants(keep.read(), wanted)


def goes_on(keep):
    """A store with any beginning of the calls is gone on with, whatever stands behind a gate that is not open."""
    payloads = payloads_of(STORED[0][1])
    for count in range(len(payloads) + 1):
        for behind in b"", b"\0\0\0\x19" + b"\1" * 25 + b"\0", b"\xff" * 7:
            keep.write(image(payloads[:count])[:-1] + b"\2" + behind)
            wants(keep.run(SEQUENCE), keep.done(SEQUENCE))
            wants(len(keep.read()), max(len(image(payloads)), len(image(payloads[:count]) + behind)))
            wants(keep.read()[:len(image(payloads))], image(payloads) if count < len(payloads) else image(payloads)[:-1] + b"\2")


def grows(keep):
    """A file that grows at its end is gone on with; one that is cut, or has another call, is refused with the record."""
    lines = SEQUENCE.splitlines(True)
    for count in range(8, len(lines) + 1):
        given = b"".join(lines[:count])
        wants(keep.run(given), keep.done(given))
    held = keep.read()
    for given, number in ((b"".join(lines[:-1]), 7), (SEQUENCE.replace(b"end c A", b"withdraw c A").replace(b"adept 1", b"adept 2"), 5), (MIGRATED, 1)):
        wants(keep.run(given), (9, b"", b"keep: the store is not of this file: record %d\n" % number))
        wants(keep.read(), held)


def names_are_not_stored(keep):
    """A file with another name is gone on with."""
    wants(keep.run(SEQUENCE), keep.done(SEQUENCE))
    other = SEQUENCE.replace(b"ann", b"bob")
    wants(keep.run(other), keep.done(other))


def is_damaged(keep):
    """A store whose end is cut off is refused, with the place, and left as it is."""
    held = image(payloads_of(STORED[0][1]))
    for length, place in ((len(held) - 1, len(held) - 1), (len(held) - 2, 183), (2, 0), (60, 56)):
        keep.write(held[:length])
        wants(keep.run(SEQUENCE), (9, b"", b"keep: the store is not of this file: damaged %d\n" % place))
        wants(keep.read(), held[:length])


def words(keep):
    """One word is wanted, text or not; else nothing is read."""
    for words in [], [keep.path(), keep.path()], [keep.path(), b"\xff"], [b"\xff", b""]:
        done = subprocess.run([*keep.command, *words], input=SEQUENCE, timeout=SECONDS, stdout=subprocess.PIPE, stderr=subprocess.PIPE)
        wants((done.returncode, done.stdout, done.stderr), (2, b"", b"usage: keep STORE\n"))
    wants(os.path.exists(keep.path()), False)


def no_text(keep):
    """A path that is no UTF-8 opens nothing, behind what befalls the file; a folder of such a name is one like others."""
    no_path = b"keep: cannot open the store: its path is no UTF-8, or too long\n"
    for path in b"\xff", os.fsencode(keep.folder) + b"/caf\xe9", b"a" * 4097:
        wants(keep.run(SEQUENCE, path), (11, b"", no_path))
        wants(keep.run(SEQUENCE[:-1], path), (1, b"", b"keep: line %d: unended\n" % SEQUENCE.count(b"\n")))
    os.symlink(b"caf\xe9", keep.path())
    keep.ends(11, "cannot open the store: " + keep.path())
    wants(keep.names(), ["store"])
    folder = os.path.join(os.fsencode(keep.folder), b"caf\xe9")
    os.mkdir(folder)
    for _ in range(2):
        done = subprocess.run([*keep.command, "store"], input=SEQUENCE, timeout=SECONDS, capture_output=True, cwd=folder)
        wants((done.returncode, done.stdout, done.stderr), keep.done(SEQUENCE))
        wants(os.listdir(folder), [b"store"])


def refused_file(keep):
    """A file that is refused leaves the store alone, and is told with its line."""
    last = SEQUENCE.count(b"\n")
    for given, text in ((SEQUENCE[:-1], "line %d: unended" % last), (b"", "line 1: header"), (SEQUENCE.replace(b"end c B", b"end d B"), "line %d: unknown" % last),
                        (SEQUENCE + b"ann fly c\n", "line %d: form" % (last + 1))):
        keep.ends(1, text, given=given)
        wants(keep.names(), [])
    folder = os.open("/", os.O_RDONLY)
    done = subprocess.run([*keep.command, keep.path()], stdin=folder, capture_output=True)
    os.close(folder)
    wants((done.returncode, done.stdout, done.stderr), (3, b"", b"keep: cannot read\n"))
    wants(keep.names(), [])


def no_store(keep):
    """What is no regular file is no store, and one that is held is refused; both are told with the path, and the system's reason."""
    reasons = {keep.folder: ": Is a directory (os error 21)", keep.path("none/store"): ": No such file or directory (os error 2)", "/dev/null": ""}
    for path, reason in reasons.items():
        wants(keep.run(SEQUENCE, path), (11, b"", b"keep: cannot open the store: %s%s\n" % (path.encode(), reason.encode())))
    for held in b"", b"bread\n":
        keep.put(held)
        with open(keep.path(), "rb+") as file:
            fcntl.flock(file, fcntl.LOCK_EX)
            keep.ends(10, "the store is in use: " + keep.path())
            wants(keep.whole(), held)


def other_files(keep):
    """A file that holds something else is no store, and is left byte for byte as it is."""
    payloads = payloads_of(STORED[0][1])
    picture = b"\x89PNG\r\n\x1a\n\0\0\0\rIHDR" + bytes(17)
    letters = b"bread\n", b"\n", b"\0", b"\1", b"rushowa", b"rushowa store 1", b"rushowa store 1\n"
    near = [MARK[:count] + b"\0" for count in range(len(MARK))] + [b" " + MARK, MARK.replace(b"\n", b"\r\n"), MARK.replace(b"1", b"2") + image(payloads)]
    for held in [letters[0], letters[1], letters[2], letters[3], SEQUENCE, picture, image(payloads), image([]), b"\xef\xbb\xbf" + MARK, *near]:
        keep.put(held)
        keep.ends(9, "not a store")
        wants(keep.whole(), held)
        wants(keep.names(), ["store"])


def beginnings(keep):
    """A file that holds a beginning of the mark, or nothing, is a new store."""
    wanted = image(payloads_of(STORED[0][1]))
    for count in range(len(MARK) + 1):
        keep.put(MARK[:count])
        wants(keep.run(SEQUENCE), keep.done(SEQUENCE))
        wants(keep.read(), wanted)
        wants(keep.names(), ["store"])


def is_made(keep):
    """A new store stands alone in its folder, and may be read by whom any new file may."""
    with open(keep.path("beside"), "wb"):
        pass
    wants(keep.run(SEQUENCE), keep.done(SEQUENCE))
    wants(keep.names(), ["beside", "store"])
    wants(stat.S_IMODE(os.stat(keep.path()).st_mode), stat.S_IMODE(os.stat(keep.path("beside")).st_mode))
    wants(os.stat(keep.path()).st_nlink, 1)


def links(keep):
    """Behind links to a name that is not there the store is made at that name, in its folder, and is gone on with there."""
    os.mkdir(keep.path("far"))
    os.symlink("far/second", keep.path("store"))
    os.symlink(keep.path("far/third"), keep.path("far/second"))
    for _ in range(2):
        wants(keep.run(SEQUENCE), keep.done(SEQUENCE))
        wants(sorted(os.listdir(keep.path("far"))), ["second", "third"])
        wants(keep.read(), image(payloads_of(STORED[0][1])))
        wants([os.path.islink(keep.path(name)) for name in ("store", "far/second", "far/third")], [True, True, False])
    os.remove(keep.path())
    os.symlink("nowhere/store", keep.path())
    keep.ends(11, "cannot open the store: %s: No such file or directory (os error 2)" % keep.path())
    os.remove(keep.path())
    os.symlink("store", keep.path())
    keep.ends(11, "cannot open the store: %s: Too many levels of symbolic links (os error 40)" % keep.path())


def is_too_long(keep):
    """A store that is too long is told by its length, and left as it is; so is a long file that is none."""
    limited = ["sh", "-c", 'ulimit -v 800000; exec "$@"', "sh"]
    starts = subprocess.run([*limited, *keep.command], input=b"", capture_output=True).returncode == 2
    for front, text in (MARK, "the store is not of this file: too long"), (b"bread\n", "not a store"):
        keep.put(front)
        os.truncate(keep.path(), len(MARK) + LIMIT + 1)
        keep.ends(9, text, before=limited if starts else ())
        wants(os.path.getsize(keep.path()), len(MARK) + LIMIT + 1)
        with open(keep.path(), "rb") as file:
            wants(file.read(len(MARK)), front.ljust(len(MARK), b"\0"))


def is_too_long_a_file(keep):
    """A process file of one byte too many leaves the store alone."""
    keep.ends(6, "input too long", given=SEQUENCE + b"#" * (16_777_216 - len(SEQUENCE)) + b"\n")
    wants(keep.names(), [])


def little_memory(keep):
    """With little memory a run ends as it should, or is told so, and the next one goes on."""
    given, ended = SEQUENCE + b"# " + b"x" * 8_000_000 + b"\n", set()
    for limit in range(2000, 60_000, 1500):
        limited = ["sh", "-c", 'ulimit -v %d; exec "$@"' % limit, "sh"]
        if subprocess.run([*limited, *keep.command], capture_output=True).returncode != 2:
            continue
        done = keep.run(given, before=limited)
        if done[0] != 0:
            wants(done, (5, b"", b"keep: out of memory\n"))
        wants(keep.run(SEQUENCE), keep.done(SEQUENCE))
        ended.add(done[0])
        keep.clear()
    if ended:
        wants(ended, {0, 5})
    else:
        print("not tried keeps, little_memory: the program does not start with so little", flush=True)


def older(keep):
    """What docs/STORE.md says in one line of shell gives a store from before its mark."""
    with open(os.path.join(TOP, "docs", "STORE.md"), encoding="utf-8") as file:
        line = re.search(r"^    (\{ printf .*)$", file.read(), re.M).group(1)
    keep.put(image(payloads_of(STORED[0][1])[:4]))
    os.rename(keep.path(), keep.path("claims.old"))
    subprocess.run(["sh", "-c", line], cwd=keep.folder, check=True)
    os.rename(keep.path("claims.store"), keep.path())
    wants(keep.read(), image(payloads_of(STORED[0][1])[:4]))
    wants(keep.run(SEQUENCE), keep.done(SEQUENCE))
    wants(keep.read(), image(payloads_of(STORED[0][1])))


def folder_without_reading(keep):
    """In a folder that may not be read no store is made, and nothing is left."""
    folder = keep.path("closed")
    os.mkdir(folder)
    is_root = os.geteuid() == 0
    if is_root:
        os.chmod(keep.folder, 0o755)
        os.chown(folder, NOBODY, NOBODY)
    os.chmod(folder, 0o300)
    try:
        done = keep.run(SEQUENCE, os.path.join(folder, "store"), user=NOBODY if is_root else None)
    except PermissionError:
        print("not tried keeps, folder_without_reading: the program may not be run by another user", flush=True)
        return
    wants(done, (11, b"", b"keep: cannot open the store: %s/store: Permission denied (os error 13)\n" % folder.encode()))
    os.chmod(folder, 0o700)
    wants(os.listdir(folder), [])


def stops_while_made(keep):
    """A stop at each call while a store is made leaves the name to no file, or to one with the whole mark; the next run goes on."""
    names = {name: 0 for name in ("openat", "pwrite64", "fsync", "link", "unlink", "flock", "fdatasync")}
    for name in names:
        while True:
            keep.clear()
            status = keep.run(SEQUENCE, before=keep.injected(name, "signal=KILL", names[name] + 1))[0]
            if status == 0:
                break
            names[name] += 1
            wants([other for other in keep.names() if other != "store" and not OTHER.match(other)], [])
            if os.path.exists(keep.path()):
                keep.read()
            wants(keep.run(SEQUENCE), keep.done(SEQUENCE))
            wants(keep.read(), image(payloads_of(STORED[0][1])))
    wants([name for name in ("openat", "pwrite64", "fsync", "link", "unlink", "fdatasync") if not names[name]], [])


def failing_calls(keep):
    """Each call of the system that fails is told: 3 and 4 of streams, 11 while the store is opened, 7 behind it; the next run goes on."""
    reason = "%s: Input/output error (os error 5)" % keep.path()
    said = {3: "cannot read", 4: "cannot write", 7: "the store failed; run the same command again: " + reason, 11: "cannot open the store: " + reason}
    wants(keep.run(SEQUENCE, before=serves.traced(keep.path("told"))), keep.done(SEQUENCE))
    statuses, is_open = collections.Counter(), False
    for name, number, line in list(serves.calls_in(keep.path("told"))):
        keep.clear()
        is_open = is_open or line.startswith(OPENED)
        status = serves.status_of(line, is_open)
        got = keep.run(SEQUENCE, before=keep.injected(name, "error=EIO", number))
        wants((name, number, *got), (name, number, status, b"", b"keep: %s\n" % said[status].encode()))
        statuses[status] += 1
        wants([other for other in keep.names() if other != "store" and (name != "unlink" or not OTHER.match(other))], [])
        wants(keep.run(SEQUENCE), keep.done(SEQUENCE))
        wants(keep.read(), image(payloads_of(STORED[0][1])))
    wants((statuses[3], statuses[4], statuses[7], statuses[11] > 10), (3, 1, 7, True))


def fails(keep):
    """Each write and each sync behind the opening that fails is a store that failed, for the system's reason."""
    given = SEQUENCE.replace(b"phase\n", b"").replace(b"\nann ", b"\nphase\nann ")
    for name, error, reason in ("pwrite64", "ENOSPC", "No space left on device (os error 28)"), ("fdatasync", "EIO", "Input/output error (os error 5)"):
        number = 3
        while True:
            keep.clear()
            status, output, message = keep.run(given, before=keep.injected(name, "error=" + error, number))
            if status == 0:
                break
            wants((status, output), (7, b""))
            wants(message.decode(), "keep: the store failed; run the same command again: %s: %s\n" % (keep.path(), reason))
            wants(keep.run(given), keep.done(given))
            number += 1
        wants(number > 10, True)


def interrupted(keep):
    """A call that a signal interrupted is made again: the last two of each name."""
    begun = image(payloads_of(STORED[0][1])[:3])
    for name in "openat", "flock", "pread64", "pwrite64", "fsync", "fdatasync":
        keep.write(begun)
        keep.run(SEQUENCE, before=["strace", "-f", "-qq", "-o", keep.path("told"), "-e", "trace=" + name])
        count = len(keep.whole("told").splitlines())
        wants(count > 0, True)
        for number in range(max(count - 1, 1), count + 1):
            keep.write(begun)
            wants(keep.run(SEQUENCE, before=keep.injected(name, "error=EINTR", number)), keep.done(SEQUENCE))
            wants(keep.read(), image(payloads_of(STORED[0][1])))


def syncs_its_folder(keep):
    """The folder of the file behind a link is synced before the file is locked, at each opening, and a fault of it is told."""
    os.mkdir(keep.path("far"))
    os.symlink("far/store", keep.path("store"))
    told, folder = keep.path("told"), os.path.realpath(keep.path("far"))
    for _ in range(2):
        wants(keep.run(SEQUENCE, before=["strace", "-f", "-y", "-qq", "-o", told, "-e", "trace=fsync,flock,link"]), keep.done(SEQUENCE))
        calls = [re.search(r"(\w+)\((?:\d+<([^>]*)>|\")", line) for line in keep.whole("told").decode().splitlines()]
        before = [(call[1], call[2]) for call in calls if call]
        at = [name for name, _ in before].index("flock")
        wants(before[at - 1], ("fsync", folder))
    for number in range(1, 5):
        status, _, message = keep.run(SEQUENCE, before=keep.injected("fsync", "error=EIO", number))
        if status == 0:
            wants(number, 4)
            break
        wants((status, message), (11, b"keep: cannot open the store: %s: Input/output error (os error 5)\n" % keep.path().encode()))


def no_report(keep):
    """Where the report cannot be written all calls are stored."""
    with open("/dev/full", "wb") as full:
        wants(keep.run(SEQUENCE, to=full), (4, None, b"keep: cannot write\n"))
    wants(keep.read(), image(payloads_of(STORED[0][1])))


CHECKS = [is_stored, goes_on, grows, names_are_not_stored, is_damaged, words, no_text, refused_file, no_store, no_report, other_files, beginnings, is_made, links,
          is_too_long, is_too_long_a_file, little_memory, older, folder_without_reading]
# These have strace stop a run, or fail one of its calls.
TRACED = [stops_while_made, failing_calls, fails, interrupted, syncs_its_folder]


def tried(command, player):
    """Makes each check: its name, and what differs."""
    traced = ["strace", "-qq", "-o", "/dev/null", *command]
    has_strace = shutil.which("strace") is not None and subprocess.run(traced, capture_output=True).returncode == 2
    if not has_strace:
        print("not tried keeps, %s: there is no strace that can trace" % ", ".join(check.__name__ for check in TRACED), flush=True)
    for check in CHECKS + (TRACED if has_strace else []):
        with tempfile.TemporaryDirectory(prefix="acceptance-") as folder:
            try:
                check(Keep(command, player, folder))
                yield "keeps, " + check.__name__, None
            except Differs as why:
                yield "keeps, " + check.__name__, str(why)
