"""Runs of capnp_show over pipes, devices, a growing log and a gigabyte, and whose reads give a byte at a time, are interrupted or
fail; what is told of the format of an input, and when; and runs over thousands of messages."""
import os
import subprocess
import time

from model import frame, packed_message
from nodes import shown_of
from runs import (
    INTERRUPTED, begin, count, end, error_line, expect, expect_shown, expect_unwritten, give, is_there, next_line, run, run_slowly, write,
)
from samples import FAR, HELLO, zeros

SHIM = os.path.join(os.path.dirname(os.path.abspath(__file__)), "../running/devices.c")
HELLO_BYTES, HELLO_PACKED = frame(HELLO), packed_message(HELLO)
MANY = 11000
# 273 packed messages of a word and one of 255, all zero. As framed bytes they are a table of 273 segments, of which
# only the last has more words than the limit allows.
LATE, LATE_COUNT = 273 * b"\x10\x01\0\0" + b"\x10\xff\0\xfe", 274
# Inputs that begin a framed message and end too early: in the table, and in the segments. The last but one has a table of as
# many words as the limit allows, and the last is a packed message of a null pointer, which could be the front of a table of
# 273 segments.
CUT = [*(HELLO_BYTES[:size] for size in (1, 4, 7, 8, 9, 20, 31)), *(frame(FAR)[:size] for size in (12, 15, 16, 47)),
       b"\xfe\x01\0\0", b"\0\0\0\0\0\0\x80\0", b"\x10\x01\0\0"]
# Inputs that begin none: of 512 segments, and with one word more than the limit allows, which are four packed messages.
PACKED = [HELLO_PACKED, b"\xff\x01\0\0", b"\0\0\0\0\x01\0\x80\0"]


def seen(name):
    return f"capnp_show: standard input: {name}\n"


def expect_detected(what, args, content, name, slowly=None):
    """Compares a run that tells the format of some bytes, with devices that do what variables say where these are given."""
    out, err = shown_of([*args, "--packed"] if name == "packed" else args, "standard input", content)
    result = run(["--detect", *args], content) if slowly is None else run_slowly(["--detect", *args], content, **slowly)
    expect(f"detected: {what}", result, 1 if err else 0, out, seen(name) + err)


def try_telling(content, length, is_known):
    """Whether the format is told by a given number of bytes; of these alone nothing else is said."""
    process = begin("--detect", "--count")
    process.stdin.write(content[:length])
    found = is_there(process.stderr, 10 if is_known else 0.3)
    process.stdin.write(content[length:])
    result = end(process, b"", b"" if found == is_known else f"told by {length} bytes: {found}".encode())
    expect(f"detected by {length} bytes", result, 0, "1\n", seen("framed"))


def try_detected():
    """What is said of the first bytes of an input, and when, however many reads that takes, and whether they are interrupted."""
    for content in [b"", HELLO_BYTES, HELLO_BYTES + HELLO_BYTES[:9], *CUT]:
        expect_detected(content.hex(), [], content, "framed")
    for content in PACKED:
        expect_detected(content.hex(), [], content, "packed")
    # What has more words than --words allows begins no framed message within the limit.
    expect_detected("three words within three", ["--words", "3"], HELLO_BYTES, "framed")
    expect_detected("three words within two", ["--words", "2"], HELLO_BYTES, "packed")
    for slowly in {"READ_MOST": "1"}, {"READ_MOST": "1", **INTERRUPTED}:
        result = run_slowly(["--detect", "--count"], LATE, **slowly)
        expect(f"detected by 1,096 bytes {slowly}", result, 0, f"{LATE_COUNT}\n", seen("packed"))
        expect_detected(f"framed {slowly}", [], HELLO_BYTES, "framed", slowly)
        expect_detected(f"packed {slowly}", [], HELLO_PACKED, "packed", slowly)
    long = zeros(600)
    for content, length, is_known in ((HELLO_BYTES, 9, False), (HELLO_BYTES, 32, True), (long, 4095, False), (long, 4096, True)):
        try_telling(content, length, is_known)


def try_outputs():
    """Devices that can't be written, and pipes whose bytes come one by one: a message is shown as soon as it is there."""
    write("hello", HELLO_BYTES)
    with open("/dev/full", "wb") as full:
        expect_unwritten("a full device", ["hello"], full)
    closed, pipe = os.pipe()
    os.close(closed)
    expect_unwritten("a closed pipe", ["hello"], pipe)
    os.close(pipe)
    for args, err in (([], ""), (["--detect"], seen("framed"))):
        process = begin(*args)
        for byte in HELLO_BYTES:
            process.stdin.write(bytes([byte]))
        expect(f"a slow pipe {args}", end(process, next_line(process)), 0, shown_of([], "standard input", HELLO_BYTES)[0], err)


def try_growing_log():
    """`tail -f` of a log that grows: a message's line is there within a second of its bytes."""
    content = HELLO_BYTES + frame(FAR)
    with open("growing", "wb", buffering=0) as log:
        log.write(HELLO_BYTES)
        tail = subprocess.Popen(["tail", "-c", "+1", "-s", "0.1", "-f", "growing"], stdout=subprocess.PIPE)
        process = begin(stdin=tail.stdout)
        tail.stdout.close()
        shown = next_line(process)
        log.write(content[len(HELLO_BYTES):])
        begun = time.monotonic()
        shown += next_line(process)
        late = time.monotonic() - begun
    tail.terminate()
    tail.wait()
    shown += process.stdout.read()
    said = process.stderr.read() + (b"" if late < 1 else f"{late:.1f} s late".encode())
    result = subprocess.CompletedProcess([], process.wait(), shown, said)
    expect("a growing log", result, 0, shown_of([], "growing", content)[0])


def counted_memory(message, messages):
    """Counts messages of a pipe; the result, and the KiB that the program had at most."""
    process = begin("--count")
    try:
        for _ in range(messages):
            give(process.stdin, message)
    except BrokenPipeError:
        pass
    process.stdin.close()
    shown, said = process.stdout.read(), process.stderr.read()
    _, status, usage = os.wait4(process.pid, 0)
    process.returncode = os.waitstatus_to_exitcode(status)
    return subprocess.CompletedProcess([], process.returncode, shown, said), usage.ru_maxrss


def try_gigabyte():
    """1 GiB of messages of 1 MiB through a pipe takes the memory that two of them take."""
    message = frame([bytes(1 << 20)])
    result, few = counted_memory(message, 2)
    expect("two large messages", result, 0, "2\n")
    result, many = counted_memory(message, 1024)
    result.stderr += b"" if many < few + 1024 else f"{few} KiB grew to {many} KiB".encode()
    expect("a gigabyte", result, 0, "1024\n")


def try_failing():
    """A device that fails: the system's reason comes after the message, which fails by it."""
    line = shown_of([], "standard input", HELLO_BYTES)[0]
    first, second = (error_line("standard input", *place, "DeviceFailed") for place in ((0, 0), (1, 32)))
    reason = "capnp_show: standard input: Input/output error (os error 5)\n"
    for what, args, fails, out, err in (
        ("the second read", [], 2, line, second + reason),
        ("the second read, detected", ["--detect"], 2, line, seen("framed") + second + reason),
        ("the first read, detected", ["--detect"], 1, "", seen("framed") + first + reason),
    ):
        result = run_slowly(args, 2 * HELLO_BYTES, READ_MOST="40", READ_FAILS=str(fails))
        expect(f"reads: {what} fails", result, 1, out, err)
    # An interruption is no reason, and where nothing fails none is given.
    content = HELLO_BYTES + HELLO_BYTES[:8]
    expect("reads: a cut message, interrupted", run_slowly([], content, **INTERRUPTED), 1, *shown_of([], "standard input", content))


def try_many():
    """As many messages are shown as there are."""
    content, packed = MANY * HELLO_BYTES, MANY * HELLO_PACKED
    for args in [], ["--count"], ["--first", str(MANY - 1)], ["--json"], ["--tree"]:
        expect_shown("many messages", args, content)
    expect("many messages, interrupted", run_slowly([], content, **INTERRUPTED), 0, shown_of([], "standard input", content)[0])
    expect("many messages, packed", run(["--pack"], content), 0, packed)
    expect("many messages, framed", run(["--unpack"], packed), 0, content)
    sections = run(["--html"], content).stdout.count(b"<section")
    count("many messages, drawn", [] if sections == MANY else [f"{sections} sections, wanted {MANY}"])


def try_devices():
    subprocess.run(["cc", "-shared", "-fPIC", "-O2", "-o", "devices.so", SHIM], check=True)
    for part in try_outputs, try_detected, try_failing, try_many, try_growing_log, try_gigabyte:
        part()
