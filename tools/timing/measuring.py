"""What the parts of tools/time share: processor time, what valgrind counts, and the rows in which programs are compared.

Instructions and requests for memory are the same on a machine that is busy.
"""
import functools
import os
import re
import shutil
import subprocess
import sys

ROUNDS = int(os.environ.get("RUNS", "5"))
PROCESSORS = sorted(os.sched_getaffinity(0))[:4]


def run(command, source=None, processor=None, stdout=subprocess.PIPE):
    """What a program prints of a file, or of nothing, and the seconds of processor time that it takes."""
    settle = (lambda: os.sched_setaffinity(0, {processor})) if processor is not None else None
    with open(source or os.devnull, "rb") as stdin:
        child = subprocess.Popen(command, stdin=stdin, stdout=stdout, preexec_fn=settle)
        printed = child.stdout.read() if child.stdout else b""
        _, status, used = os.wait4(child.pid, 0)
        child.returncode = status
    if status:
        sys.exit("time: %s: status %d" % (" ".join(map(str, command)), status))
    return printed, used.ru_utime + used.ru_stime


def expect_same(found, what):
    """Ends the tool where programs differ in what they print, make or say."""
    if len(set(found)) != 1:
        sys.exit("time: %s: the programs differ: %s" % (what, " ".join(str(each)[:80] for each in found)))


def seconds(calls, few, many, source=None):
    """For one time of each call, a function from how many times to a command: what a run of many takes above one of few.

    Of both it takes the least of all rounds on each of up to four processors: on a machine that is shared some processors are slower
    than others for as long as a run takes.
    """
    least = {}
    for processor in PROCESSORS * ROUNDS:
        for at, call in enumerate(calls):
            for times in few, many:
                took = run(call(times), source, processor)[1]
                least[at, times] = min(took, least.get((at, times), took))
    return [(least[at, many] - least[at, few]) / (many - few) for at in range(len(calls))]


@functools.cache
def has_valgrind():
    """Whether it is installed; where it isn't, a line on standard error says so."""
    if not shutil.which("valgrind"):
        print("time: valgrind isn't installed, and what it counts is left out", file=sys.stderr)
    return bool(shutil.which("valgrind"))


def counted(options, pattern, command, source):
    with open(source or os.devnull, "rb") as stdin:
        done = subprocess.run(["valgrind", *options, *command], stdin=stdin, stdout=subprocess.DEVNULL, stderr=subprocess.PIPE)
    said = done.stderr.decode()
    found = re.search(pattern, said)
    if done.returncode or not found:
        sys.exit("valgrind %s: status %d\n%s" % (" ".join(map(str, command)), done.returncode, said[-2000:]))
    return int(found[1].replace(",", ""))


def instructions(command, source=None):
    return counted(["--tool=callgrind", "--callgrind-out-file=/dev/null"], r"Collected : (\d+)", command, source)


def requests_for_memory(command, source=None):
    return counted([], r"heap usage: ([\d,]+) allocs", command, source)


def of_one_more(count, call, few, many, source=None):
    """What one time more takes of what is counted: neither the program's start nor what it does once."""
    return (count(call(many), source) - count(call(few), source)) / (many - few)


def print_head(names, ours=1):
    print("| | %s |%s" % (" | ".join(names), "".join(" the better over %s |" % name for name in names[:ours])))
    print("|---|" + "---|" * (len(names) + ours))


def print_row(what, names, values, form, compares=True, ours=1):
    """The values by the names of programs, and the better peer's over each of ours, which are the first of these names."""
    peers = [values[name] for name in names[ours:] if name in values]
    ratios = ["%.2f" % (min(peers) / values[name]) if peers and compares and name in values else "" for name in names[:ours]]
    cells = [form % values[name] if name in values else "" for name in names]
    print("| %s |" % " | ".join([what, *cells, *ratios]), flush=True)
