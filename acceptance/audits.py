"""Tries the program that judges reports.

A case is a folder of auditing/ with `stdin`, a process file and a report directly behind it, and `stdout` and `status`, as
with the other cases; nothing stands on standard error.

Where a file has one legal run, a report that is another one is wrong from the first line on that is another.  So each
report of an example is judged with each line changed, left out and repeated, and one with each byte changed.
"""
import glob
import os
import subprocess

import judge

HERE = os.path.dirname(os.path.abspath(__file__))
TOP = os.path.dirname(HERE)
SECONDS = 300
LEGAL = (0, b"legal\n", b"")
REFUSED = (1, b"", b"")


def content(path, otherwise=b""):
    if not os.path.exists(path):
        return otherwise
    with open(path, "rb") as file:
        return file.read()


def wrong(line):
    return 7, b"wrong line %d\n" % line, b""


def what_differs(command, given, wanted):
    """None where the program ends so on this input."""
    try:
        done = subprocess.run(command, input=given, timeout=SECONDS, stdout=subprocess.PIPE, stderr=subprocess.PIPE)
    except subprocess.TimeoutExpired:
        return "no end within %d seconds" % SECONDS
    got = (done.returncode, done.stdout, done.stderr)
    return None if got == wanted else "wanted %s, got %s" % (wanted, got)


def together(given, report):
    """The file and the report as one input."""
    return given + (b"" if given.endswith(b"\n") else b"\n") + report


def what_is_wrong(command, given, report):
    """None where the report is judged legal."""
    difference = what_differs(command, together(given, report), LEGAL)
    return None if difference is None else "audit: " + difference


def first_other(report, changed):
    """The first line of the changed report that is not the report's."""
    pairs = zip(report.splitlines(True), changed.splitlines(True))
    for number, (left, right) in enumerate(pairs, 1):
        if left != right:
            return number
    return 1 + min(len(report.splitlines()), len(changed.splitlines()))


def wanted_of(report, changed):
    """How the judge ends. Where the first line is another one no report begins, and all is a file that is refused."""
    line = first_other(report, changed)
    return wrong(line) if line > 1 else REFUSED


def changed_lines(report):
    """The report with one line changed, left out or repeated, and with bytes behind its end."""
    lines = report.splitlines(True)
    for number, line in enumerate(lines, 1):
        before, behind = b"".join(lines[:number - 1]), b"".join(lines[number:])
        yield "line %d changed" % number, before + line[:-1] + b"x\n" + behind
        yield "line %d left out" % number, before + behind
        yield "line %d twice" % number, before + line + line + behind
        yield "line %d without its line feed" % number, before + line[:-1] + behind
    yield "a byte behind it", report + b"x"
    yield "a line behind it", report + b"\n"


def changed_bytes(report):
    for place, byte in enumerate(report):
        other = b"x" if byte != ord("x") else b"y"
        yield "byte %d changed" % place, report[:place] + other + report[place + 1:]


def settled():
    """The examples with one legal run: the file and its report."""
    for path in sorted(glob.glob(os.path.join(TOP, "examples", "*.adept"))):
        given, report = content(path), content(path[:-len("adept")] + "report")
        if judge.File(given.decode()).is_settled():
            yield os.path.relpath(path, TOP), given, report


def tried(command):
    """Runs all cases: for each its name and what differs."""
    for folder in sorted(glob.glob(os.path.join(HERE, "auditing", "*"))):
        paths = [os.path.join(folder, name) for name in ("stdin", "stdout", "status")]
        given, output, status = content(paths[0]), content(paths[1]), int(content(paths[2], b"0"))
        yield os.path.relpath(folder, HERE), what_differs(command, given, (status, output, b""))
    changes = changed_bytes
    for name, given, report in settled():
        yield name + ", audited", what_is_wrong(command, given, report)
        for title, changed in [*changed_lines(report), *changes(report)]:
            if changed != report:
                yield "%s, %s" % (name, title), what_differs(command, together(given, changed), wanted_of(report, changed))
        changes = lambda report: []
