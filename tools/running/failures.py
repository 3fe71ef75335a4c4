"""Devices that move little at a time, are interrupted, or fail, and allocations that fail."""
import itertools
import os
import re
import subprocess

from runs import Ended, ended_of, name_of, stopped, usage, whole
from streams import EMPTY, HELLO, LINES, STREAM, inputs

FAILED = "13 DeviceFailed"
OUT_OF_MEMORY = re.compile(rb"capnp_ls: message (\d+): error 12 OutOfMemory\n")
UNREAD = ["standard input: Input/output error (os error 5)"]
FULL = ["standard output: No space left on device (os error 28)"]

# The device fails at its nth read of at most 8 bytes, one of the 8 that the stream and its end take: the
# message there.
READS = [(1, 0), (2, 0), (3, 0), (4, 1), (5, 2), (6, 2), (7, 2), (8, 3)]


def try_reads(program):
    for fails, message in READS:
        ended = program.slow(["list"], STREAM, READ_MOST="8", READ_FAILS=str(fails))
        wanted = stopped(message, FAILED, b"".join(LINES[:message]), None, UNREAD)
        program.compare(wanted, ended, "list, read %d fails" % fails)
    program.compare(whole(b"".join(LINES)), program.slow(["list"], STREAM, READ_MOST="8"), "list, 8 bytes a read")
    # Reads and writes of two bytes, of which the first are interrupted, lose nothing.
    for interrupted in "3", "5000":
        ended = program.slow(["list"], STREAM, READ_MOST="2", READ_INTERRUPTED=interrupted, WRITE_MOST="2",
                             WRITE_INTERRUPTED=interrupted)
        program.compare(whole(b"".join(LINES)), ended, "list, %s interruptions" % interrupted)


def try_writes(program):
    # Two canonical messages whose segments pass the program's buffer: it writes each table and each segment.
    large = b"\0\0\0\0\x02\x10\0\0\x01\0\0\0\x42\0\x04\0" + 32767 * b"x" + bytes(9)
    for fails, message, taken in (1, 0, 0), (2, 0, 8), (3, 1, len(large)), (4, 1, len(large) + 8):
        ended = program.slow(["canon"], 2 * large, READ_MOST="100000", WRITE_FAILS=str(fails))
        wanted = stopped(message, FAILED, (2 * large)[:taken], None, FULL)
        program.compare(wanted, ended, "canon, write %d fails" % fails)
    # Lines that fill the buffer, which is written before the line that doesn't fit.
    lines = [b"%d 1 0 0\n" % index for index in range(3500)]
    message = next(count for count in range(3500) if sum(map(len, lines[:count + 1])) > 32768)
    ended = program.slow(["list"], 3500 * EMPTY, READ_MOST="100000", WRITE_FAILS="1")
    program.compare(stopped(message, FAILED, left=None, failures=FULL), ended, "list, write 1 fails")


def try_devices(program):
    # A device that can't be read, and one that can't be written: then the last flush fails. Nothing is known of
    # what it took.
    folder = os.open(program.folder, os.O_RDONLY)
    ran = subprocess.run([program.path, "list"], stdin=folder, capture_output=True)
    os.close(folder)
    ended = Ended(ran.returncode, ran.stdout, ran.stderr, None)
    wanted = stopped(0, FAILED, left=None, failures=["standard input: Is a directory (os error 21)"])
    program.compare(wanted, ended, "list of a folder")
    for words, given in ("list", EMPTY), ("pack", EMPTY), ("canon", HELLO):
        wanted = stopped(0, FAILED, left=None, failures=FULL)
        program.compare(wanted, program.run([words], given, "/dev/full"), words + " > /dev/full")
    # A stop is reported before a failed flush, whose reason comes after it.
    stop = ended_of("list", bytes(12))
    wanted = stop._replace(printed=b"", said=stop.said + b"capnp_ls: %s\n" % FULL[0].encode(), left=None)
    program.compare(wanted, program.run(["list"], bytes(12), "/dev/full"), "list of 12 bytes > /dev/full")


def try_diagnostics(program):
    """The line of a stop is added to what is there, and where it can't be written the status is the same."""
    for given, words, wanted in ((bytes(12), ["list"], ended_of("list", bytes(12))), (EMPTY, ["lst"], usage(EMPTY))):
        with open(program.file("before"), "w+b") as diagnostics:
            diagnostics.write(b"before\n")
            diagnostics.flush()
            ran = subprocess.run([program.path, *words], input=given, stdout=subprocess.PIPE, stderr=diagnostics)
        ended = Ended(ran.returncode, ran.stdout, program.read("before"), wanted.left)
        program.compare(wanted._replace(said=b"before\n" + wanted.said), ended, name_of(words, given) + " 2>> before")
        with open("/dev/full", "wb") as full:
            ran = subprocess.run([program.path, *words], input=given, stdout=subprocess.PIPE, stderr=full)
        ended = Ended(ran.returncode, ran.stdout, b"", wanted.left)
        program.compare(wanted._replace(said=b""), ended, name_of(words, given) + " 2> /dev/full")


def try_allocations(program, runs=(("list", STREAM),)):
    """One allocation fails, and each in turn up to the 60th: a run ends as it should, though the line of a stop may have no room, or
    stops by 12 with a front of its output, which has each message that the line of the stop counts."""
    counted, stops = program.file("counted"), 0
    for words, given in runs:
        wanted, number, allocations = ended_of(words, given), 0, 1
        while number < min(allocations, 60):
            number += 1
            ended = program.run(words.split(), given, LD_PRELOAD=program.library("malloc"), FAILED=str(number), COUNTED=counted)
            allocations = max(allocations, int(program.read("counted").split()[0]))
            stop = OUT_OF_MEMORY.fullmatch(ended.said)
            has_lines = stop and (not words.startswith("list") or ended.printed.count(b"\n") == int(stop[1]))
            stops += bool(stop)
            if has_lines and wanted.printed.startswith(ended.printed):
                wanted_now = stopped(int(stop[1]), "12 OutOfMemory", ended.printed, None)
            else:
                wanted_now = wanted._replace(said=ended.said and wanted.said, left=None)
            program.compare(wanted_now, ended, "%s, failed allocation %d" % (name_of([words], given), number))
    if not stops:
        program.wrong += 1
        print("try-program: no failed allocation stops the program")


def try_each_allocation(program):
    """The same with each command, over the streams of conformance/ and all messages in them."""
    framed, packed = ([b"".join(segments) for word, segments in inputs() if word == kind] for kind in ("framed", "packed"))
    all_framed, all_packed = (b"".join(ended_of(words, given).printed for given in streams) for words, streams in (("unpack", packed), ("pack", framed)))
    try_allocations(program, itertools.product(("list", "pack", "canon"), [*framed, all_framed]))
    try_allocations(program, itertools.product(("list --packed", "unpack", "canon --packed"), [*packed, all_packed]))


def try_failures(program):
    for part in try_reads, try_writes, try_devices, try_diagnostics, try_allocations:
        part(program)
