"""Terminals for the checks of this folder: what a person would see there."""
import os
import pty
import re
import subprocess


def read_all(pipe):
    """What comes from a terminal until nobody writes to it any more."""
    shown = b""
    while True:
        try:
            piece = os.read(pipe, 4096)
        except OSError:
            return shown
        if not piece:
            return shown
        shown += piece


def at_a_terminal(command, folder, environment):
    """Runs a command whose output and messages go to a terminal: its status, and what stands there."""
    ours, theirs = pty.openpty()
    started = subprocess.Popen(command, cwd=folder, env=environment, stdin=subprocess.DEVNULL, stdout=theirs, stderr=theirs)
    os.close(theirs)
    shown = read_all(ours)
    os.close(ours)
    return started.wait(), shown.decode().replace("\r\n", "\n")


def typed(command, lines, folder, environment):
    """Runs a command at a terminal where lines are typed, each behind a prompt, and then Ctrl-D, until it ends: its status, and what stands there."""
    ours, theirs = pty.openpty()
    started = subprocess.Popen(command, cwd=folder, env=environment, stdin=theirs, stdout=theirs, stderr=theirs, start_new_session=True)
    os.close(theirs)
    shown = b""
    for line in [*(line.encode() + b"\n" for line in lines), b"\x04"]:
        try:
            while not shown.endswith((b"> ", b"\n  ")):
                shown += os.read(ours, 4096)
            os.write(ours, line)
            shown += os.read(ours, 4096)
        except OSError:
            # the command has ended
            break
    shown += read_all(ours)
    os.close(ours)
    return started.wait(), re.sub(r"\x1b\[\?2004[hl]", "", shown.decode().replace("\r\n", "\n"))
