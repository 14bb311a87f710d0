#!/usr/bin/env python3
"""acceptance/chatter.py PROGRAM PLAYER [N [SEED]]

Makes N talks from a seed that is printed: files of format 3 (growing.py) with questions, comments, lines that are none and
lines that come twice at every place.  The server answers each at once, line by line, and cut at random places where it is
stopped and opened again; a second reading (answering.py), which asks PLAYER, says what is wanted.  With the same seed the
talks are the same.
"""
import concurrent.futures
import os
import random
import sys
import tempfile

import answering
import growing
import serves

TALKS = 60
# Without proof.
FEW = 20
NOISE = [b"", b" \t ", b"# a comment", b"#", b"\r", b"?", b"? ?", b"? count", b"? last", b"? lines", b"? items", b"? report", b"? cases", b"? types",
         b"? actors", b"? count more", b"? case c", b"? case", b"? type t", b"? cases t", b"? items nobody", b"? report\r", b"\xff", b"? \xff", b"# \xff",
         b"adept 3", b"phase", b"phase more", b"end", b"a", b"ann change", b"type", b"type \"x", b"case a a", b"actor actor", b"fly \"a b",
         b"?count", b"? \"count\"", b"ann start", b"\x00", b"actor \xc3\xa9", b"? count # not a comment", b"? if", b"? if ? count", b"? if # no unit",
         b"? if adept 3", b"? if phase", b"? if fly \xff", b"? if actor zoe", b"? move a \xff", b"? move", b"? move a a a"]


def asked_first(lines, chance):
    """Lines, of which some units are tried before they come; of an install also what would move."""
    found, rest = serves.talks.items(b"".join(line + b"\n" for line in lines))
    for data in found:
        words = data.split()
        if words[1:2] == [b"install"] and chance.random() < 0.5:
            yield b"? move %s %s\n" % (words[0], words[2]) + data.split(b"\n", 1)[1]
        if chance.random() < 0.2:
            yield b"? if " + data
        yield data
    yield rest


def made(chance):
    """A talk."""
    lines = b"".join(asked_first(growing.Maker(chance).made().split(b"\n")[:-1], chance)).split(b"\n")[:-1]
    lines = lines[chance.randint(0, 1):]
    names = [words[1] for words in (line.split() for line in lines) if len(words) > 1 and words[0] in (b"actor", b"case", b"type")]
    noise = [*NOISE, *(b"? items " + name for name in names), *(b"? case " + name for name in names), *(b"? cases " + name for name in names),
             *(b"? type " + name for name in names)]
    found = []
    for line in lines:
        # few inside a group, where they spoil it
        while chance.random() < 0.12:
            found.append(chance.choice(noise))
        found.append(line + chance.choice([b""] * 9 + [b"\r", b"  "]))
        if chance.random() < 0.03:
            found.append(line)
    found += [b"? report", b"? items", b"? lines", b"? last", b"? types", b"? actors", b"? cases"]
    rest = chance.choice([b""] * 4 + [b"actor", b"# rest", b" ", b"type u\nact A\n", b"? count"])
    return b"".join(line + b"\n" for line in found) + rest


def cut(program, talk, chance):
    """What the server answers where it is stopped and opened again between items."""
    found, rest = serves.talks.items(talk)
    said, parts = b"", [[]]
    for data in found:
        parts[-1].append(data)
        # a header is one only at the beginning of what is said
        if chance.random() < 0.1:
            parts.append([])
    parts[-1].append(rest)
    with tempfile.TemporaryDirectory(prefix="acceptance-") as folder:
        serve = serves.Serve(program, folder)
        for part in parts:
            status, output, _ = serve.run(b"".join(part))
            if status:
                return b"status %d\n" % status
            said += output
        return said


def what_differs(program, player, seed, number):
    chance = random.Random("%d %d" % (seed, number))
    talk = made(chance)
    answers, _ = answering.answers(player, talk)
    difference = serves.what_differs(program, talk, answers)
    if difference:
        return difference
    plain = talk.replace(b"adept 3", b"adept 4")
    wanted, _ = answering.answers(player, plain)
    got = cut(program, plain, chance)
    return None if got == wanted else "opened again: " + serves.shown((wanted, got))


def tried(program, player, count=TALKS, seed=None):
    """For each of so many talks its name and what differs."""
    seed = random.SystemRandom().randrange(10 ** 9) if seed is None else seed
    print("talks from the seed %d" % seed, flush=True)
    with concurrent.futures.ThreadPoolExecutor(os.cpu_count()) as pool:
        differences = pool.map(lambda number: what_differs(program, player, seed, number), range(count))
        for number, difference in enumerate(differences):
            yield "talk %d of the seed %d" % (number, seed), difference


def main(words):
    failed = 0
    for name, difference in tried(words[0], [words[1]], *map(int, words[2:])):
        if difference:
            failed += 1
            print("differs %s: %s" % (name, difference), flush=True)
    print("%d wrong" % failed)
    sys.exit(1 if failed else 0)


if __name__ == "__main__":
    main(sys.argv[1:])
