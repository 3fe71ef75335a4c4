"""Runs a command that takes long, and says on standard error how far it is: watch.py WHAT FILE COMMAND..

WHAT is in front of what it says, as `install: capnp_c`. What the command prints, on both streams, goes to FILE. The lines
by which `rt` says how far a proof is are passed on. Where nothing was said for ten seconds at a terminal, or for a minute elsewhere,
a line has the seconds so far. The status is the command's.
"""
import os
import re
import select
import signal
import subprocess
import sys
import time

PASSED_ON = re.compile(rb"rt: |so far: |logic=|\w+: (begins with|another copy) ")


def say(text):
    print(text, file=sys.stderr, flush=True)


def watch(what, file, running, silence):
    """Keeps what the command prints, until it ends."""
    begun = said = time.monotonic()
    rest = b""
    while True:
        ready, _, _ = select.select([running.stdout], [], [], max(0, said + silence - time.monotonic()))
        printed = os.read(running.stdout.fileno(), 65536) if ready else b""
        if ready and not printed:
            return
        file.write(printed)
        *lines, rest = (rest + printed).split(b"\n")
        for line in lines:
            if PASSED_ON.match(line):
                say(line.decode(errors="replace"))
                said = time.monotonic()
        if time.monotonic() >= said + silence:
            said = time.monotonic()
            say(f"{what}: {said - begun:.0f} s")


def main():
    what, path, *command = sys.argv[1:]
    signal.signal(signal.SIGINT, signal.SIG_DFL)
    with open(path, "wb") as file:
        running = subprocess.Popen(command, stdin=subprocess.DEVNULL, stdout=subprocess.PIPE, stderr=subprocess.STDOUT)
        watch(what, file, running, 10 if sys.stderr.isatty() else 60)
    status = running.wait()
    sys.exit(status if status >= 0 else 128 - status)


main()
