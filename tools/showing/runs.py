"""Runs of capnp_show: what each is to do, and how many did something else."""
import os
import select
import subprocess
import sys

from nodes import sentence, shown_of

PROGRAM = sys.argv[1]
DEVICES = os.path.abspath("devices.so")
INTERRUPTED = {"READ_INTERRUPTED": "5000", "WRITE_INTERRUPTED": "5000"}


class Counts:
    """How many runs there were, how many of them wrong, and how many were left out."""

    tried, wrong, left_out = 0, 0, 0


def run(args, stdin=b"", **more):
    return subprocess.run([PROGRAM, *args], input=stdin, capture_output=True, timeout=60, **more)


def run_slowly(args, text, **variables):
    """Runs it with devices that do what the variables of tools/running/devices.c say."""
    return run(args, text, env={**os.environ, "LD_PRELOAD": DEVICES, **variables})


def begin(*args, stdin=subprocess.PIPE):
    """Begins a run, whose streams are pipes."""
    return subprocess.Popen([PROGRAM, *args], bufsize=0, stdin=stdin, stdout=subprocess.PIPE, stderr=subprocess.PIPE)


def next_line(process):
    """The next line of a run, or nothing where none comes within ten seconds."""
    return process.stdout.readline() if is_there(process.stdout, 10) else b""


def is_there(pipe, seconds):
    return bool(select.select([pipe], [], [], seconds)[0])


def end(process, shown, said=b""):
    """Ends a run whose outputs were read so far, and have to end there."""
    process.stdin.close()
    shown, said = shown + process.stdout.read(), said + process.stderr.read()
    return subprocess.CompletedProcess([], process.wait(), shown, said)


def give(pipe, content):
    """Writes to a pipe that may take a part at a time."""
    rest = memoryview(content)
    while rest:
        rest = rest[pipe.write(rest):]


def write(name, content):
    with open(name, "wb") as file:
        file.write(content)


def expect(what, result, status, out, err=""):
    """Compares a run; `out` and `err` are texts, or bytes."""
    got = (result.returncode, result.stdout if isinstance(out, bytes) else result.stdout.decode(), result.stderr.decode())
    count(what, [f"{name}:\n{is_it!s:.2000}\nwanted:\n{was!s:.2000}"
                 for name, is_it, was in zip(("status", "output", "diagnostics"), got, (status, out, err)) if is_it != was])


def expect_shown(what, args, text, name=None):
    """Compares a run over some bytes, or over a file of these, with what the model says."""
    out, err = shown_of(args, name or "standard input", text)
    if name:
        write(name, text)
    expect(f"{what} {' '.join(args)}", run([*args, name] if name else args, b"" if name else text), 1 if err else 0, out, err)


def expect_parts(what, args, text, parts):
    """Looks whether each of these parts is in the output of a run that says nothing else."""
    result = run(args, text)
    shown = result.stdout.decode()
    wrongs = [f"{part}\nis not in\n{shown}" for part in parts if part not in shown]
    if result.returncode or result.stderr:
        wrongs.append(f"status {result.returncode}, diagnostics:\n{result.stderr.decode()}")
    count(what, wrongs)


def expect_unwritten(what, args, output):
    """Compares a run whose output can't be written."""
    result = subprocess.run([PROGRAM, *args], stdout=output, stderr=subprocess.PIPE, timeout=60)
    result.stdout = b""
    expect(what, result, 1, "", "capnp_show: standard output can't be written\n")


def count(what, wrongs):
    """Counts a run, of which this is wrong."""
    Counts.tried += 1
    Counts.wrong += 1 if wrongs else 0
    for wrong in wrongs:
        print(f"try-show: {what}: {wrong}", file=sys.stderr)


def leave_out(what, why):
    """Counts a run that this machine can't make."""
    Counts.left_out += 1
    print(f"try-show: {what} is left out: {why}", file=sys.stderr)


def error_line(name, index, offset, kind):
    """The line of an error, which is given with its numbers."""
    return f"capnp_show: {name}: message {index} at byte {offset}: {sentence(kind)}\n"
