"""Runs of capnp_show over large inputs, whose messages end on both sides of a threshold: what it says of its progress after each
64 MB, and offsets past 32 bits."""
import os
import pty
import subprocess

from model import frame
from runs import PROGRAM, begin, count, expect, give, run
from samples import HELLO, zeros

# Where the messages of each file end, and the lines of progress. Packed files have messages of zeros that are packed as two
# bytes for each word, framed ones take little room on the disk.
FRAMED = {
    "large": (range(1_000_000, 200_000_001, 1_000_000), "64 MB of 200 MB, 64 messages", "128 MB of 200 MB, 128 messages", "192 MB of 200 MB, 192 messages"),
    "least": (range(1_000_000, 65_000_001, 1_000_000), "64 MB of 65 MB, 64 messages"),
    "small": (range(1_000_000, 64_000_001, 1_000_000),),
    "uneven": (range(50_000_000, 250_000_001, 50_000_000), "100 MB of 250 MB, 2 messages", "150 MB of 250 MB, 3 messages",
               "200 MB of 250 MB, 4 messages"),
}
NAMED = [20_000_000, 40_000_000, 64_000_000, 104_000_000, 127_999_992, 199_999_992, 200_000_000]
PACKED = {
    "before": ([16_000_000, 32_000_000, 48_000_000, 63_999_482, 63_999_999, 70_000_001], "70 MB of 70 MB, 6 messages"),
    "at": ([16_000_000, 32_000_000, 48_000_000, 64_000_000, 80_000_000, 96_000_000, 112_000_000, 127_999_482, 127_999_999,
            143_999_999, 159_999_999, 175_999_999, 191_999_999, 199_999_999, 200_000_003],
           "64 MB of 200 MB, 4 messages", "143 MB of 200 MB, 10 messages", "199 MB of 200 MB, 14 messages"),
    "exactly": ([16_000_000, 32_000_000, 48_000_000, 64_000_000],),
    "further": ([16_000_000, 32_000_000, 48_000_000, 64_000_000, 80_000_000, 96_000_000, 112_000_000, 128_000_000],
                "64 MB of 128 MB, 4 messages", "128 MB of 128 MB, 8 messages"),
}
# The messages about 2^32 bytes; before them are 63 of 64 MiB, each of as many words as the limit allows, less one.
LARGE_WORDS = (1 << 23) - 1
LARGE_ROWS = [(63, 4227858432, 67108856, 1, 8388606), (64, 4294967288, 8, 1, 0), (65, 4294967296, 32, 1, 3)]
LARGE_LINE = "message %d: offset %d, bytes %d, segments %d, words %d\n"
LARGE_JSON = '{"file":"standard input","index":%d,"offset":%d,"bytes":%d,"segments":%d,"words":%d}\n'


def packed_table(size):
    """The packed table of a message of one segment, whose words are packed as two zero bytes each, in all of `size` bytes."""
    for tagged in range(1, 5):
        words, rest = divmod(size - 1 - tagged, 2)
        kept = words.to_bytes(4, "little")
        if rest == 0 and 4 - kept.count(0) == tagged:
            return bytes([sum(1 << 4 + i for i in range(4) if kept[i])]) + kept.replace(b"\0", b"")
    raise ValueError(f"no message of zeros is packed as {size} bytes")


def framed_table(size):
    """The table of a message of one segment, in all of `size` bytes."""
    return bytes(4) + (size // 8 - 1).to_bytes(4, "little")


def write_tables(name, ends, table_of):
    """Writes messages of zeros that end there, which take little room on the disk."""
    with open(name, "wb") as file:
        start = 0
        for end in ends:
            file.seek(start)
            file.write(table_of(end - start))
            start = end
        file.truncate(ends[-1])


def lines_of(name, lines):
    return "".join(f"capnp_show: {name}: {line}\n" for line in lines)


def read_terminal(terminal):
    """What a program writes to a terminal until it ends."""
    shown = b""
    while True:
        try:
            part = os.read(terminal, 4096)
        except OSError:
            part = b""
        if not part:
            return shown.replace(b"\r\n", b"\n")
        shown += part


def run_counting(args, piped, on_terminal):
    """Counts messages of a file, or of a pipe that gives that file's bytes."""
    feeder = subprocess.Popen(["cat", piped], stdout=subprocess.PIPE) if piped else None
    terminal, other = pty.openpty() if on_terminal else (None, subprocess.PIPE)
    given = feeder.stdout if feeder else subprocess.DEVNULL
    process = subprocess.Popen([PROGRAM, "--count", *args], stdin=given, stdout=subprocess.PIPE, stderr=other)
    if on_terminal:
        os.close(other)
        said = read_terminal(terminal)
        os.close(terminal)
        shown = process.communicate(timeout=60)[0]
    else:
        shown, said = process.communicate(timeout=60)
    if feeder:
        feeder.stdout.close()
        feeder.wait()
    return subprocess.CompletedProcess([], process.returncode, shown, said)


def try_lines():
    """A line is due once 64 MB are read, and then after each further 64 MB, to the byte, where it is asked for, or the
    diagnostics go to a terminal."""
    for name, (ends, *lines) in FRAMED.items():
        write_tables(name, ends, framed_table)
        expect(f"progress: {name}", run_counting(["--progress", name], None, False), 0, f"{len(ends)}\n", lines_of(name, lines))
    large = lines_of("large", FRAMED["large"][1:])
    piped = large.replace("large:", "standard input:").replace(" of 200 MB", "")
    # whether the diagnostics go to a terminal, the words, the file that is piped, and the lines of progress
    for on_terminal, args, pipe, lines in (
        (False, ["large"], None, ""), (False, ["--progress"], "large", piped), (False, [], "large", ""), (True, ["large"], None, large),
        (True, ["--progress", "large"], None, large), (True, ["small"], None, ""), (True, [], "large", ""),
        (True, ["--progress"], "large", piped),
    ):
        what = f"progress {args}{', piped' if pipe else ''}{', on a terminal' if on_terminal else ''}"
        expect(what, run_counting(args, pipe, on_terminal), 0, f"{len(FRAMED[pipe or args[-1]][0])}\n", lines)
    for name, (ends, *lines) in PACKED.items():
        write_tables(name, ends, packed_table)
        expect(f"progress: {name}", run(["--packed", "--count", "--progress", name]), 0, f"{len(ends)}\n", lines_of(name, lines))
    write_tables("a\nb", NAMED, framed_table)
    result = run(["--count", "--progress", "--words", "10000000", "a\nb"])
    expect("progress: a name in two lines", result, 0, "7\n", lines_of("a\\nb", ["64 MB of 200 MB, 3 messages", "199 MB of 200 MB, 6 messages"]))


def try_without_size():
    """Of a named pipe no size is known."""
    write_tables("three", NAMED[:3], framed_table)
    os.mkfifo("pipe")
    feeder = subprocess.Popen(["sh", "-c", "cat three > pipe"])
    expect("progress: a named pipe", run(["--count", "--progress", "pipe"]), 0, "3\n", "capnp_show: pipe: 64 MB, 3 messages\n")
    # A run that does not open the pipe leaves the feeder waiting for it.
    feeder.kill()
    feeder.wait()


def try_offsets():
    """Offsets on both sides of 2^32."""
    large = zeros(LARGE_WORDS)
    for args, line in (([], LARGE_LINE), (["--json"], LARGE_JSON)):
        process = begin(*args)
        for part in [*(63 * [large]), zeros(LARGE_WORDS - 1), frame([b""]), frame(HELLO)]:
            give(process.stdin, part)
        shown, said = process.communicate(timeout=60)
        found = "".join(shown.decode().splitlines(keepends=True)[-3:]), said.decode(), process.returncode
        wanted = "".join(line % row for row in LARGE_ROWS), "", 0
        count(f"offsets of 4 GiB {args}", [] if found == wanted else [f"{found}\nwanted:\n{wanted}"])


def try_progress():
    try_lines()
    try_without_size()
    try_offsets()
