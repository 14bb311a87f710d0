"""What the scripts of this folder ask the programs: `adept` about a process file, and the server about what it holds.

Both answer the same: which line of a file is refused, what its report is, and how cases stand before a line. A store is asked
by a talk with `./serve`, or with the server that tools/share lets several programs talk to.
"""
import functools
import os
import re
import stat
import subprocess
import tempfile

import commands
import talks
from processes import Report

HELD, TRIES = 10, 5
REFUSED = re.compile(rb"no (\d+) (.*)$")


class Unanswered(Exception):
    """Why there is no answer, and the status with which a program ended, if it did."""

    def __init__(self, why, status=None):
        super().__init__(why)
        self.status = status


def text_of(data):
    return data.decode("utf-8", "surrogateescape")


class Adept:
    """`adept`, which is asked about a process file. `most` is how much may be declared."""

    most = {"types": 64, "actors": 32, "cases": 4096}
    larger = "Divide the file into several."
    MOST_PLAYED = 60

    def __init__(self, command):
        self.command = command

    def refusal(self, data):
        """Which line of a file is refused, from 0, and why; None where none is."""
        done = subprocess.run([*self.command, "check"], input=data, stdout=subprocess.PIPE, stderr=subprocess.PIPE)
        said = re.match(r"adept: line (\d+): (.*)\n", done.stderr.decode())
        if done.returncode == 1 and said:
            return int(said.group(1)) - 1, said.group(2)
        if done.returncode:
            raise Unanswered(done.stderr.decode().strip() or "the program ended with status %d" % done.returncode)
        return None

    def report(self, data):
        return text_of(subprocess.run([*self.command, "play"], input=data, stdout=subprocess.PIPE).stdout)

    def cells(self, data, wanted):
        """Cases as they stand before lines of a file, by pairs of the line's number and a name; of many those that come first."""
        rows, found = data.split(b"\n"), {}
        for number in sorted({number for number, _ in wanted})[:self.MOST_PLAYED]:
            report = Report(self.report(b"".join(row + b"\n" for row in rows[:number - 1])))
            found.update(((number, name), report.cases[name]) for before, name in wanted if before == number)
        return found


class Server:
    """The server, which is asked about lines by a talk over a store of their own."""

    most = {"types": 65536, "actors": 65536, "cases": 1048576}
    larger = "Begin another store."

    def __init__(self, named=None):
        self.named = named

    @functools.cached_property
    def command(self):
        """The program that is named, or that of tools/program, which is looked for where it is needed."""
        return commands.program(self.named, "serve_main")

    def answers(self, talk):
        with tempfile.TemporaryDirectory(prefix="asking-") as folder:
            return answers([*self.command, os.path.join(folder, "store")], talk)

    def refusal(self, data):
        items, rest = talks.items(data)
        place = 0
        for item, answer in zip([*items, rest], self.answers(data)):
            said = [at for at, line in enumerate(item.split(b"\n")[:-1]) if not talks.is_skipped(talks.words_of(line))]
            refused = REFUSED.match(answer[-1])
            if refused:
                number = int(refused[1]) - 1
                return place + (said[number] if number < len(said) else item.count(b"\n")), text_of(refused[2])
            place += item.count(b"\n")
        return None

    def report(self, data):
        return text_of(b"".join(line + b"\n" for line in self.answers(data + b"? report\n")[-1][:-1]))

    def cells(self, data, wanted):
        rows = data.split(b"\n")
        asked = sorted(wanted)
        for number, name in reversed(asked):
            rows.insert(number - 1, b"? case " + name.encode())
        talk = b"\n".join(rows)
        told = [answer for item, answer in zip(talks.items(talk)[0], self.answers(talk)) if talks.is_question(item)]
        return {pair: Report.of_case([text_of(line) for line in answer[:-1]]) for pair, answer in zip(asked, told)}


def answers(command, talk):
    """The answers to the items of a talk, each as its lines without line feeds."""
    done = subprocess.run(command, input=talk, stdout=subprocess.PIPE, stderr=subprocess.PIPE)
    if done.returncode:
        raise Unanswered(text_of(done.stderr).strip() or "the program ended with status %d" % done.returncode, done.returncode)
    found, lines = [], []
    for line in done.stdout.split(b"\n")[:-1]:
        lines.append(line)
        if talks.ends_answer(line):
            found.append(lines)
            lines = []
    return found


# What a store holds.

def is_socket(path):
    try:
        return stat.S_ISSOCK(os.stat(path).st_mode)
    except OSError:
        return False


def command_of(path, server):
    """The command that answers a talk about what stands at a path: a store, or the socket of a server that is shared."""
    return [os.path.join(commands.HERE, "share"), "--to", path] if is_socket(path) else [*server.command, path]


def asked(path, server, talk):
    """The answers of the server over a store; where that is in use, of the one at the socket beside it."""
    try:
        return answers(command_of(path, server), talk)
    except Unanswered as why:
        if why.status != HELD:
            raise
    if not is_socket(path + ".socket"):
        raise Unanswered("the store is in use, and there is no socket %s.socket: name that of tools/share in its place, or take the file "
                         "that tools/lines prints" % path)
    return answers(command_of(path + ".socket", server), talk)


def held_by(ask):
    """The process file that a server holds, and its report, both of one moment; `ask` gives its answers to a talk."""
    for _ in range(TRIES):
        lines, report = ask(b"? lines\n? report\n")
        if lines[-1] == report[-1] and report[-1].startswith(b"ok "):
            break
    else:
        raise Unanswered("the server answered %s, and then %s" % (text_of(lines[-1]), text_of(report[-1])))
    return b"adept 3\n" + b"".join(line[2:] + b"\n" for line in lines[:-1]), text_of(b"".join(line + b"\n" for line in report[:-1]))


def held(path, server):
    """The process file that a store holds, and its report."""
    if not is_socket(path) and not os.path.isfile(path):
        raise Unanswered("cannot read %s" % path)
    return held_by(lambda talk: asked(path, server, talk))
