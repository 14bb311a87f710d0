"""Stamps: the comments in front of units that say when a unit came, from whom, and under which number.

    # 2026-11-30T07:45:00Z ann          of ./serve at a terminal
    # 2026-11-30T07:45:00Z ann 1017     of tools/share
    # 1017                              of tools/share --no-stamp
"""
import datetime
import pwd
import re

TIME = re.compile(r"\d{4}-\d\d-\d\dT\d\d:\d\d:\d\dZ")
TIMED = re.compile(rb"[ \t]*#[ \t]*(\d{4}-\d\d-\d\dT\d\d:\d\d:\d\dZ)(?:[ \t\r]|$)")
NUMBERED = re.compile(rb"# (?:\d{4}-\d\d-\d\dT\d\d:\d\d:\d\dZ \S+ )?(\d{1,18})\n")
NAME = re.compile(r"[A-Za-z0-9_][A-Za-z0-9_.@+$-]*")


def now():
    """The time as a stamp has it."""
    return datetime.datetime.now(datetime.timezone.utc).strftime("%Y-%m-%dT%H:%M:%SZ")


def name_of(user):
    """The name of a user whose number the system tells."""
    try:
        name = pwd.getpwuid(user).pw_name
    except KeyError:
        name = ""
    return name if NAME.fullmatch(name) else "uid-%d" % user


def stamp(*words):
    """The comment with these words."""
    return "".join(["#", *(" %s" % word for word in words), "\n"]).encode(errors="surrogateescape")


def time_of(line):
    """The time that a comment has, as bytes; None where it has none."""
    found = TIMED.match(line)
    return found and found[1]


def number_of(unit):
    """The number in the first line of a unit; 0 where it has none."""
    found = NUMBERED.match(unit)
    return int(found[1]) if found else 0
