"""The answers to the units that a store holds, told by the program: it works what tools/lines prints of it over a new store."""
import os
import subprocess
import tempfile

import stores
import talks

HERE = os.path.dirname(os.path.realpath(__file__))
IN_USE = 10


class Unsure(Exception):
    """What a store holds is not told; the status of the program that does not tell it."""


def held(program, store):
    """How many units a store holds: the program opens it, so that what it holds is on the medium.  None where it is in use."""
    done = subprocess.run([program, store], input=b"? count\n", stdout=subprocess.PIPE, stderr=subprocess.PIPE, check=False)
    if done.returncode == IN_USE:
        return None
    if done.returncode:
        os.write(2, done.stderr)
        raise Unsure(done.returncode)
    return int(done.stdout.split()[1])


def whole_answers(stream):
    """The answers that come out of a stream, each whole."""
    answers, answer = talks.Answers(), bytearray()
    while True:
        data = stream.read1(1 << 18)
        if not data:
            return
        for piece, is_end in answers.take(data):
            answer += piece
            if is_end:
                yield bytes(answer)
                answer = bytearray()


def of(program, store):
    """Each unit that a store holds, with its answer."""
    many = held(program, store)
    with tempfile.TemporaryDirectory(prefix="rushowa-") as folder:
        lines = subprocess.Popen([os.path.join(HERE, "lines"), store], stdout=subprocess.PIPE)
        server = subprocess.Popen([program, os.path.join(folder, "store")], stdin=lines.stdout, stdout=subprocess.PIPE)
        lines.stdout.close()
        try:
            told = whole_answers(server.stdout)
            next(told, None)
            for number, found in enumerate(zip(stores.units(store), told)):
                if number == many:
                    break
                yield found
            else:
                if server.wait():
                    raise Unsure(server.returncode)
        finally:
            lines.kill()
            server.kill()
            lines.wait()
            server.wait()
