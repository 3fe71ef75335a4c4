"""The flags that stand in place of a command, and print what the program is; and the manual page of what they print."""
import os
import re

from failures import FULL
from rendered import wrongs_of
from runs import USAGE, stopped, usage, whole
from streams import STREAM

VERSION = os.path.join(os.path.dirname(os.path.abspath(__file__)), "../../VERSION")

# The terms of the manual page, by its sections.
TERMS = {
    "COMMANDS": ["list [--packed] [--lenient]", "pack [--lenient]", "unpack [--lenient]", "canon [--packed]", "help"],
    "OPTIONS": ["--packed", "--lenient", "-h, --help", "-V, --version"],
    "EXIT STATUS": ["0", "1", "2"],
}


def try_page(program):
    """Each line of the help that goes on with a text does so on the page."""
    wrongs = wrongs_of("capnp_ls", program.path, TERMS)
    if wrongs is None:
        print("try-program: the manual page is left out: man is not installed")
        return
    program.tried += 1
    program.wrong += 1 if wrongs else 0
    for wrong in wrongs:
        print("try-program: the manual page of capnp_ls: " + wrong)


def try_flags(program):
    # Nothing is read, and the version is that of the file VERSION.
    with open(VERSION, "rb") as file:
        version = b"capnp_ls " + file.read()
    for words in "--version", "-V":
        program.expect(words, STREAM, whole(version, len(STREAM)))
    text = program.run(["--help"], STREAM).printed
    for words in "--help", "-h", "help":
        program.expect(words, STREAM, whole(text, len(STREAM)))
    # A line has each command with its options, as the usage line has it, and a line has each option.
    wanted = [form.strip() for form in USAGE.decode().split("capnp_ls")[1].split("|")]
    wanted += sorted(set(re.findall(r"--\w+", USAGE.decode()))) + ["help", "-h, --help", "-V, --version"]
    lines = [line.strip() for line in text.decode().splitlines()]
    for words in wanted:
        found = any(line.startswith(words + "  ") for line in lines)
        program.compare(whole(words.encode()), whole(words.encode() if found else b"no line of it"), "--help")
    # Beside other words they are none of the program's.
    for words in ("--help list", "list --help", "-h -h", "help list", "list help", "help help", "--version --version",
                  "-V -V", "-V list", "list -V", "-v", "version", "Help", "--help="):
        program.expect(words, STREAM, usage(STREAM))
    wanted = stopped(0, "13 DeviceFailed", left=None, failures=FULL)
    for words in "--help", "help", "--version", "-V":
        program.compare(wanted, program.run([words], STREAM, "/dev/full"), words + " > /dev/full")
    try_page(program)
