"""How a script ends by the model, and by the program."""
import os
import random
import subprocess

from preloaded import PROGRAM
from program import LIMIT, Ended, started

from . import session, tables
from .model import Sheet


def option(script, name, default):
    """The number of an option of the script."""
    return int(script.words[script.words.index(name) + 1]) if name in script.words else default


def by_model(script, kind=Sheet):
    """How the script ends by the model, on a sheet of this kind."""
    if script.words[0] == "table":
        return tables.ended(script.given(), kind)
    return Ended(0, session.written(script.given(), option(script, "--replica", 1), kind))


def pieces_of(given, greatest):
    """The bytes cut into pieces of up to so many bytes."""
    chance = random.Random(greatest)
    while given:
        length = chance.randint(1, greatest)
        yield given[:length]
        given = given[length:]


def file_of(content=b""):
    """A file in memory with these bytes."""
    file = os.fdopen(os.memfd_create("hunt"), "w+b", buffering=0)
    file.write(content)
    file.seek(0)
    return file


def feed(writes, pieces):
    """Writes the pieces, and each is read by itself; a program that has ended reads no more of them."""
    try:
        for piece in pieces:
            os.write(writes, piece)
    except BrokenPipeError:
        pass
    finally:
        os.close(writes)


def at_once(script, program, output):
    """Gives the program the whole script, and returns its exit status and what it wrote on standard error."""
    with file_of(script.given()) as given:
        with started(*script.words, program=program, stdin=given, stdout=output) as session:
            _, error = session.communicate(timeout=LIMIT)
            return session.returncode, error


def in_pieces(script, program, output):
    """Gives the program the script piece by piece, and returns the same."""
    # what is written at once into a pipe of this kind is read by itself
    reads, writes = os.pipe2(os.O_DIRECT | os.O_CLOEXEC)
    with started(*script.words, program=program, stdin=reads, stdout=output) as session:
        os.close(reads)
        feed(writes, pieces_of(script.given(), script.piece))
        _, error = session.communicate(timeout=LIMIT)
        return session.returncode, error


def by_program(script, program=None):
    """How the program ends that is given the script, or what stands in for it."""
    program = program or PROGRAM
    with file_of() as output:
        try:
            status, error = (in_pieces if script.piece else at_once)(script, program, output)
        except subprocess.TimeoutExpired:
            status, error = None, b"it didn't end"
        output.seek(0)
        return Ended(status, output.read(), error)
