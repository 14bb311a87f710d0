"""Tries tools/eventlog on exports of event logs, and the fit of the logs that it makes of them.

A folder of exporting/ has `export`, and where it is not refused `log`, the log that is wanted, with `table`, what `fit` says of
it on version 1 of the type `claim` of `process`, there or in exporting/. `options` are further words, one a line; each line of `said` stands on
standard error, in that order, as a part of a line.
"""
import glob
import os
import subprocess

HERE = os.path.dirname(os.path.realpath(__file__))
FOLDER = os.path.join(HERE, "exporting")
EVENTLOG = os.path.join(os.path.dirname(HERE), "tools", "eventlog")


def content(folder, name, otherwise=b""):
    path = os.path.join(folder, name)
    if not os.path.exists(path):
        return otherwise
    with open(path, "rb") as file:
        return file.read()


def lacks(wanted, found):
    """The first line that stands in no line of what was found, behind those before it."""
    left = iter(found)
    return next((line for line in wanted if not any(line in other for other in left)), None)


def what_differs(folder, fit, command):
    words, log = ["--program", command[0], *content(folder, "options").decode().splitlines()], content(folder, "log", None)
    done = subprocess.run([EVENTLOG, *words], input=content(folder, "export"), cwd=folder, stdout=subprocess.PIPE, stderr=subprocess.PIPE)
    if (done.returncode, done.stdout) != (int(log is None), log or b""):
        return "status %d, %r, %r" % (done.returncode, done.stdout, done.stderr)
    missing = lacks(content(folder, "said").decode().splitlines(), done.stderr.decode().splitlines())
    if missing:
        return "wanted %r in %r" % (missing, done.stderr)
    table = content(folder, "table")
    if fit and table:
        given = (content(folder, "process") or content(FOLDER, "process")) + b"log\n" + log
        found = subprocess.run([fit, "claim", "1"], input=given, stdout=subprocess.PIPE).stdout
        return None if found == table else "wanted the table %r, got %r" % (table, found)
    return None


def tried(fit, command):
    """The name of each case with what differs, or None."""
    for folder in sorted(glob.glob(os.path.join(FOLDER, "*", ""))):
        yield os.path.relpath(folder, HERE), what_differs(folder, fit, command)
