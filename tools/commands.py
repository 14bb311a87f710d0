"""What the scripts of this folder share as commands: help, version, the program that is asked, a file that is read."""
import os
import subprocess
import sys

HERE = os.path.dirname(os.path.realpath(__file__))


def version():
    """What the repository is: a commit, where there is one, and the kit that it is proved with."""
    return subprocess.run([os.path.join(HERE, "version")], stdout=subprocess.PIPE, check=True).stdout.decode()


def say(message):
    """Writes a message to standard error; where that fails there is nobody to tell."""
    try:
        print(message, file=sys.stderr, flush=True)
    except OSError:
        os.dup2(os.open(os.devnull, os.O_WRONLY), 2)


def fail(status, message):
    say(message)
    sys.exit(status)


def usage(doc):
    """The words were none: the usage goes to standard error."""
    fail(2, doc.strip())


def option(words, name):
    """What stands behind an option, which is taken from the words with it; None where it is not there."""
    if name not in words[:-1]:
        return None
    at = words.index(name)
    value = words[at + 1]
    del words[at:at + 2]
    return value


def flag(words, name):
    """Whether the word is there, which is taken from the words."""
    is_there = name in words
    if is_there:
        words.remove(name)
    return is_there


def program(named, name="adept_main"):
    """The program that is asked, as the first word of a command: the one that is named, or that of tools/program."""
    if named:
        return [named]
    named = subprocess.run([os.path.join(HERE, "program"), name], stdout=subprocess.PIPE)
    if named.returncode:
        sys.exit(127)
    return [named.stdout.decode().rstrip("\n")]


def shell_status(status):
    """The status of a program as a shell tells it, where it was killed too."""
    return status if status >= 0 else 128 - status


def read(words, doc):
    """The bytes of the one file that the words name, or of standard input, where there is none or -."""
    if len(words) > 1:
        usage(doc)
    if not words or words[0] == "-":
        return sys.stdin.buffer.read()
    try:
        with open(words[0], "rb") as file:
            return file.read()
    except OSError:
        return fail(3, "%s: cannot read %s" % (os.path.basename(sys.argv[0]), words[0]))


def hold_streams():
    """A standard stream that is closed is one that fails, and no file is ever opened in its place; messages then go nowhere."""
    for number, name, mode, held in (0, "stdin", "r", os.O_WRONLY), (1, "stdout", "w", os.O_RDONLY), (2, "stderr", "w", os.O_WRONLY):
        if getattr(sys, name) is None:
            # the lowest number that is free
            opened = os.open(os.devnull, held)
            if opened != number:
                os.dup2(opened, number)
                os.close(opened)
            setattr(sys, name, open(number, mode, encoding="utf-8"))


def unwritten():
    """What is left for standard output must go somewhere."""
    os.dup2(os.open(os.devnull, os.O_WRONLY), 1)


def run(main, doc):
    """Runs a script on its words; --help and --version are answered here."""
    hold_streams()
    words = sys.argv[1:]
    try:
        if words in (["-h"], ["--help"]):
            print(doc.strip())
        elif words == ["--version"]:
            print(version(), end="")
        else:
            main(words)
        sys.stdout.flush()
    except BrokenPipeError:
        # whoever reads has seen enough
        unwritten()
    except KeyboardInterrupt:
        sys.exit(130)
