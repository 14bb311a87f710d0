#!/usr/bin/env python3
"""acceptance/made_file.py N: prints the process file that `adept load N` makes, as docs/FILE_FORMAT.md says."""
import os
import sys

sys.dont_write_bytecode = True
sys.path.insert(0, os.path.join(os.path.dirname(os.path.dirname(os.path.realpath(__file__))), "tools"))
import commands

HEAD = """adept 1
type order
element total int
act enter
act pack
act send
write enter total
read pack total
end
type claim
act enquire
and s j
branch 0
act assess
branch 1
act visit
done
loop l e
act decide
done
act pay
end
actor w1
actor w2
actor w3
actor w4
actor w5
actor w6
actor w7
actor w8
actor boss
"""
MIDDLE = """phase
boss install order
insert check after enter
end
boss install claim
sync assess visit
end
boss migrate order
boss migrate claim
boss install order
insert bill after pack
end
boss migrate order
"""
# What becomes of a case, by the last digit of its number: a node is done, and what is no node is a line of its own.
FIRST = {1: "", 3: "enter", 5: "enter start:pack", 7: "enter pack send", 9: "change:insert_extra_after_enter",
         0: "enquire", 2: "enquire assess visit", 4: "enquire visit assess",
         6: "enquire assess visit decide start:e end:e_choice_1", 8: "change:sync_visit_assess"}
LAST = {3: "check", 5: "end:pack"}


def lines(case, steps):
    worker = "w%d" % ((case - 1) % 8 + 1)
    for step in steps.split():
        verb, _, rest = step.rpartition(":")
        rest = rest.replace("_", " ")
        if verb == "change":
            yield "%s change c%d\n%s\nend\n" % (worker, case, rest)
        elif verb:
            yield "%s %s c%d %s\n" % (worker, verb, case, rest)
        else:
            values = " total=%d" % case if rest == "enter" else ""
            yield "%s start c%d %s\n%s end c%d %s%s\n" % (worker, case, rest, worker, case, rest, values)


def made(count):
    yield HEAD
    cases = range(1, count + 1)
    for case in cases:
        yield "case c%d %s\n" % (case, "order" if case % 2 else "claim")
    yield "phase\n"
    for case in cases:
        yield "w%d create c%d\n" % ((case - 1) % 8 + 1, case)
        yield from lines(case, FIRST[case % 10])
    yield MIDDLE + "phase\n"
    for case in cases:
        yield from lines(case, LAST.get(case % 10, ""))


def main(words):
    if len(words) != 1 or not words[0].isdigit():
        commands.usage(__doc__)
    sys.stdout.writelines(made(int(words[0])))


commands.run(main, __doc__)
