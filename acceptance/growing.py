#!/usr/bin/env python3
"""acceptance/growing.py PROGRAM AUDIT [N [SEED]]

Makes N process files of format 3, 500 where nothing is said, from a seed that is printed: declarations, phases and names of
roles stand at every place.  `play` and `run` work each; the auditor and judge.py have to say that both reports are legal, and
the auditor has to say of each report in which one entry is another that it is wrong from that line on.  With the same seed
the files are the same.
"""
import concurrent.futures
import functools
import os
import random
import re
import subprocess
import sys

import audits
import judge

FILES = 500
# Without proof.
FEW = 25
SECONDS = 60
ENTRY = re.compile(rb"^\d+ \S+ .* -> .*$", re.M)
ROLES = ["nurse", "doctor", "role", "after", "with", "start", "A", "7", "0", "2147483647"]
NODES = ["A", "B", "C", "D", "x-ray", "nurse", "role"]
NAMES = ["case", "type", "phase", "actor", "create", "t", "end", "nurse"]


class Maker:
    """A process file while it is made. Lines have a right form; what cases answer to them is left to chance."""

    def __init__(self, chance):
        self.chance = chance
        self.lines, self.types, self.actors, self.cases = ["adept 3"], [], [], {}

    def role(self):
        return " role " + self.chance.choice(ROLES) if self.chance.random() < 0.4 else ""

    def new_name(self, taken, reserved=()):
        free = [name for name in NAMES if name not in taken and name not in reserved]
        return self.chance.choice(free) if free and self.chance.random() < 0.3 else "%s%d" % (self.chance.choice("abc"), len(taken))

    def declare_type(self):
        name = self.new_name(self.types)
        self.types.append(name)
        nodes = self.chance.sample(NODES, 4)
        self.lines.append("type " + name)
        body = ["act %s%s" % (node, self.role()) for node in nodes[:self.chance.randint(1, 4)]]
        if self.chance.random() < 0.3:
            body = ["xor s j" + self.role(), "branch 0", *body[1:], "branch 1", "done", body[0]]
        elif self.chance.random() < 0.3:
            body = ["loop l e" + self.role(), *body, "done"]
        elif self.chance.random() < 0.3:
            body = ["and p q", "branch 0", *body[1:], "branch 1", "done", body[0]]
        self.lines += [*body, "end"]

    def declare_actor(self):
        name = self.new_name(self.actors, ("case", "type", "phase", "actor"))
        self.actors.append(name)
        roles = [self.chance.choice(ROLES) for _ in range(self.chance.randint(0, 3))]
        self.lines.append(" ".join(["actor", name, *(["roles", *roles] if roles else [])]))

    def declare_case(self):
        if self.types:
            name = self.new_name(self.cases)
            self.cases[name] = self.chance.choice(self.types)
            self.lines.append("case %s %s" % (name, self.cases[name]))

    def operation(self):
        node, other = self.chance.sample(NODES, 2)
        return self.chance.choice([
            "insert %s%s after %s" % (node, self.role(), other), "delete " + node, "role %s %s" % (node, self.chance.choice(ROLES)),
            "parallel %s%s with p1 q1 around %s" % (node, self.role(), other), "move %s after %s" % (node, other),
            "conditional %s%s with s1 j1 after %s" % (node, self.role(), other), "sync %s %s" % (node, other)])

    def group(self):
        return [self.operation() for _ in range(self.chance.randint(0, 2))] + ["end"]

    def script_line(self):
        if not self.actors or not self.types:
            return
        actor, verb = self.chance.choice(self.actors), self.chance.choice(
            ["create"] * 3 + ["start"] * 6 + ["end"] * 5 + ["withdraw", "change", "install", "migrate", "migrate"])
        if verb in ("install", "migrate"):
            self.lines += ["%s %s %s" % (actor, verb, self.chance.choice(self.types)), *(self.group() if verb == "install" else [])]
        elif self.cases:
            words = [actor, verb, self.chance.choice(list(self.cases))]
            if verb in ("start", "end", "withdraw"):
                words.append(self.chance.choice([*NODES, "s", "e"]))
            if verb == "end" and words[3] in ("s", "e"):
                words += ["choice", self.chance.choice("01")]
            self.lines += [" ".join(words), *(self.group() if verb == "change" else [])]

    def made(self):
        for _ in range(self.chance.randint(0, 60)):
            many = [self.declare_type, self.declare_actor, self.declare_case, lambda: self.lines.append("phase")]
            weights = [1 if len(self.types) < 4 else 0.1, 1 if len(self.actors) < 4 else 0.1, 1, 0.7]
            self.chance.choices([*many, self.script_line], [*weights, 9])[0]()
        return "".join(line + "\n" for line in self.lines).encode()


def changed(chance, report):
    """The report with one entry that is another, or None where it has no entry."""
    entries = list(ENTRY.finditer(report))
    if not entries:
        return None
    entry = chance.choice(entries)
    number, caller, rest = entry[0].split(b" ", 2)
    event, reply = rest.split(b" -> ", 1)
    ways = [b"%s %s %s -> %s x" % (number, caller, event, reply), b"%s %s %s x -> %s" % (number, caller, event, reply),
            b"%s %s_ %s -> %s" % (number, caller, event, reply), b"%s0 %s %s -> %s" % (number, caller, event, reply),
            b"%s %s %s -> %s" % (number, caller, event, b"ended" if reply != b"ended" else b"started")]
    return report[:entry.start()] + chance.choice(ways) + report[entry.end():]


def worked(program, command, given):
    """The status with which the program ends, and what it writes."""
    done = subprocess.run([*program, command], input=given, timeout=SECONDS, stdout=subprocess.PIPE, stderr=subprocess.PIPE)
    return done.returncode, done.stdout


def what_differs(program, auditor, given, chance):
    """What is wrong with what becomes of a file that is taken, or None."""
    for command in ("play", "run"):
        status, report = worked(program, command, given)
        if status:
            return "%s ends with %d" % (command, status)
        why = judge.what_is_wrong(program, given.decode(), report.decode()) or audits.what_is_wrong(auditor, given, report)
        if why:
            return "%s: %s" % (command, why)
        other = changed(chance, report)
        if other:
            why = audits.what_differs(auditor, audits.together(given, other), audits.wrong(audits.first_other(report, other)))
            if why:
                return "%s, one entry changed: %s" % (command, why)
    return None


def what_is_refused(program, given):
    """What differs where a file is refused: a type of it may be unsound, and then each command refuses it."""
    ends = [worked(program, command, given) for command in ("check", "play", "run")]
    return None if ends == [(1, b"")] * 3 else "it ends with %s" % ends


def judged(program, auditor, seed, number):
    """Whether the program takes a file of the seed, and what differs."""
    chance = random.Random("%d %d" % (seed, number))
    given = Maker(chance).made()
    is_taken = worked(program, "check", given)[0] == 0
    return is_taken, what_differs(program, auditor, given, chance) if is_taken else what_is_refused(program, given)


def tried(program, auditor, count=FILES, seed=None):
    """For each of so many files its name and what differs."""
    seed = random.SystemRandom().randrange(10 ** 9) if seed is None else seed
    print("files of format 3 from the seed %d" % seed, flush=True)
    taken = 0
    with concurrent.futures.ThreadPoolExecutor(os.cpu_count()) as pool:
        for number, (is_taken, why) in enumerate(pool.map(functools.partial(judged, program, auditor, seed), range(count))):
            taken += is_taken
            yield "file %d of the seed %d" % (number, seed), why
    yield "that most files are taken", None if taken * 4 > count * 3 else "%d of %d" % (taken, count)


def main(program, auditor, count=str(FILES), seed=None):
    wrong = 0
    for name, why in tried([program], [auditor], int(count), None if seed is None else int(seed)):
        if why:
            wrong += 1
            print("%s: %s" % (name, why), flush=True)
    print("%d wrong" % wrong)
    return 1 if wrong else 0


if __name__ == "__main__":
    sys.path.insert(0, os.path.join(os.path.dirname(os.path.dirname(os.path.realpath(__file__))), "tools"))
    if not 3 <= len(sys.argv) <= 5:
        sys.exit(__doc__)
    sys.exit(main(*sys.argv[1:]))
