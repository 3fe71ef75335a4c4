"""Runs of the built program: what each is given, and how it has to end by the model of conformance/."""
import os
import subprocess
from collections import namedtuple

import model
from model import Invalid, Message, NoMessage

USAGE = b"usage: capnp_ls list [--packed] [--lenient] | pack [--lenient] | unpack [--lenient] | canon [--packed]\n"
HERE = os.path.dirname(os.path.abspath(__file__))
LIBRARIES = {name: os.path.join(HERE, name + ".c") for name in ("devices", "malloc")}
COMMANDS = ["list", "list --lenient", "list --packed", "list --packed --lenient", "list --lenient --packed", "pack", "pack --lenient",
            "unpack", "unpack --lenient", "canon", "canon --packed"]
PRINTED = {
    "list": lambda index, segments: model.line_of(index, segments).encode(),
    "pack": lambda _, segments: model.packed_message(segments),
    "unpack": lambda _, segments: model.frame(segments),
    "canon": lambda _, segments: model.frame([model.canonical_form(Message(segments))]),
}

# The status, standard output, standard error, and how many bytes of standard input stay unread, or None
# where that is not known.
Ended = namedtuple("Ended", "status printed said left")


def whole(printed=b"", left=0):
    """A run that prints this, and stops nowhere."""
    return Ended(0, printed, b"", left)


def stopped(message, error, printed=b"", left=0, failures=()):
    """A run that stops after a given number of messages by an error, which is its number and its text; the failures are the
    streams that failed, each with its reason."""
    lines = ["message %d: error %s" % (message, error), *failures]
    return Ended(1, printed, b"".join(b"capnp_ls: %s\n" % line.encode() for line in lines), left)


def usage(given):
    """A run whose words are no command: it reads nothing."""
    return Ended(2, b"", USAGE, len(given))


def ended_of(words, given):
    """How a run of a command has to end over these bytes."""
    name, source, printed = words.split()[0], bytearray(given), []
    is_packed = name == "unpack" or "--packed" in words
    while True:
        try:
            segments = model.read_message(source, model.unpack if is_packed else model.take, "--lenient" in words)
            printed.append(PRINTED[name](len(printed), segments))
        except NoMessage:
            return whole(b"".join(printed))
        except Invalid as error:
            # After packed bytes that end, or go on where they may not, it isn't said what is unread.
            left = None if is_packed and error.number in (1, 10, 11) else len(source)
            return stopped(len(printed), "%d %s" % (error.number, error.text), b"".join(printed), left)


class Program:
    """The built program, and how many of its runs there were, and did something else."""

    def __init__(self, path, folder):
        self.path, self.folder, self.tried, self.wrong = path, folder, 0, 0
        for name, source in LIBRARIES.items():
            subprocess.run(["cc", "-shared", "-fPIC", "-O2", "-fno-builtin", "-o", self.library(name), source], check=True)

    def file(self, name):
        return os.path.join(self.folder, name)

    def library(self, name):
        """What is preloaded into a run."""
        return self.file(name + ".so")

    def run(self, words, given, output=None, **environment):
        """Runs it over a file of these bytes, with standard output in a file, or on the device `output`."""
        with open(self.file("given"), "wb") as file:
            file.write(given)
        with (open(self.file("given"), "rb", buffering=0) as source, open(output or self.file("printed"), "wb") as sink,
              open(self.file("said"), "wb") as diagnostics):
            ran = subprocess.run([self.path, *words], stdin=source, stdout=sink, stderr=diagnostics, timeout=60,
                                 env={**os.environ, **environment})
            left = len(given) - os.lseek(source.fileno(), 0, os.SEEK_CUR)
        return Ended(ran.returncode, b"" if output else self.read("printed"), self.read("said"), left)

    def read(self, name):
        with open(self.file(name), "rb") as file:
            return file.read()

    def compare(self, wanted, ended, name):
        """Counts a run, which has to have ended so. Its name tells it from others."""
        self.tried += 1
        if ended._replace(left=wanted.left) != wanted or wanted.left not in (None, ended.left):
            self.wrong += 1
            print("try-program: capnp_ls %s\n  ended as %s\n  wanted   %s" % (name, shown(ended), shown(wanted)))

    def expect(self, words, given=b"", wanted=None):
        """Runs it with a byte a read, which shows what it leaves unread; by the model where nothing else is wanted."""
        words = words.split() if isinstance(words, str) else words
        wanted = wanted or ended_of(" ".join(words), given)
        self.compare(wanted, self.slow(words, given), name_of(words, given))

    def slow(self, words, given, **failures):
        return self.run(words, given, **{"LD_PRELOAD": self.library("devices"), "READ_MOST": "1", **failures})


def name_of(words, given):
    return "%s < %s" % (" ".join(map(repr, words)), short(given))


def short(text):
    return repr(text) if len(text) <= 200 else "%r.. (%d bytes)" % (text[:200], len(text))


def shown(ended):
    return "status %s, printed %s, said %r, left %s" % (ended.status, short(ended.printed), ended.said, ended.left)
