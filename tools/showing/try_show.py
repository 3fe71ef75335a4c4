"""Runs capnp_show, and compares each run with what the model says, or with what is written out: try_show.py PROGRAM, in an
empty folder."""
import os
import re
import shutil
import subprocess
import sys
import time

from model import frame, packed_message
from nodes import shown_of
from rendered import wrongs_of
from runs import PROGRAM, Counts, count, error_line, expect, expect_shown, expect_unwritten, leave_out, run, write
from samples import CYCLE, DOUBLINGS, ESCAPES, FAR, HELLO, MESSAGES, random_messages, words, zeros
from try_devices import try_devices
from try_drawn import try_drawn
from try_page import try_pages
from try_progress import try_progress
from try_written import try_written

ROOT = os.path.dirname(os.path.dirname(os.path.dirname(os.path.abspath(__file__))))
# One word more than the limit allows; packed, the table is four zero bytes, and 1, 0, 128, 0.
LARGE_WORDS = (1 << 23) + 1
LARGE = zeros(LARGE_WORDS), bytes([0b01010000, 1, 128]) + 32768 * b"\0\xff" + b"\0\0"
# The terms of the manual page, by its sections, but for its examples.
TERMS = {"ARGUMENTS": ["[FILE]..."], "OPTIONS": [
    "--packed", "--detect", "--hash", "--tree", "--json", "--count", "--html", "--pack", "--unpack", "--first <N>", "--words <N>",
    "--nesting <N>", "--progress", "-h, --help", "-V, --version"]}
# Each example of the help, and the bytes that its files have.
EXAMPLES = {
    "capnp_show log": frame(HELLO) + frame(FAR),
    "capnp_show --packed --tree < log": packed_message(HELLO) + packed_message(FAR),
    "capnp_show --hash a b": frame(HELLO),
    "capnp_show --json --first 1 log": frame(HELLO) + frame(FAR),
    "capnp_show --html log > log.html": frame(HELLO) + frame(FAR),
    "capnp_show --pack --words 99999999 log > log.packed": frame(HELLO) + frame(FAR),
}


def try_forms():
    for flag, bytes_of in (([], frame), (["--packed"], packed_message)):
        for what, messages, args in (
            ("messages", MESSAGES + [ESCAPES], []), ("random messages", random_messages(300), []), ("nesting", MESSAGES, ["--nesting", "1"]),
            ("words", [CYCLE, FAR], ["--words", "9"]), ("doublings", [DOUBLINGS], ["--words", "999"]),
        ):
            content = b"".join(map(bytes_of, messages))
            for form in [], ["--json"]:
                expect_shown(what, ["--tree", *form, *flag, *args], content)
        content = b"".join(map(bytes_of, MESSAGES))
        for args in ["--count"], ["--first", "2"], ["--count", "--first", "1"], ["--hash"], ["--hash", "--json", "--nesting", "1"]:
            expect_shown("messages", [*args, *flag], content)
        seen = f"capnp_show: standard input: {'packed' if flag else 'framed'}\n"
        expect(f"detected {flag}", run(["--detect", "--count"], content), 0, f"{len(MESSAGES)}\n", seen)
    expect_shown("no message", ["--count"], b"")


def try_errors():
    """Inputs that end with an error, piped and as a file."""
    hello = frame(HELLO)
    padded = words(1, 0x09090909_00000000)
    for name, content, args in (
        ("empty", b"", []), ("cut", hello + hello[:30], []), ("packed", packed_message(HELLO), []), ("padded", hello + padded, []),
        ("large", hello, ["--words", "2"]), ("cut-packed", packed_message(HELLO)[:9], ["--packed"]), ("three", hello, ["--words", "3"]),
        ("many", b"\xff\x01\0\0\0\0\0\0", []), ("largest", b"\xfe\x01\0\0" + 511 * b"\xff\xff\xff\xff", []), ("long-run", b"\0\1\0", ["--packed"]),
    ):
        expect_shown(name, args, content)
        expect_shown(name, [*args, "--tree"], content, name)
    os.mkdir("folder")
    os.mkdir("a\nfolder")
    for args, name, seen in ((["folder"], "folder", ""), (["--detect", "folder"], "folder", "framed"), (["a\nfolder"], "a\\nfolder", "")):
        said = f"capnp_show: {name}: {seen}\n" if seen else ""
        reason = f"capnp_show: {name}: Is a directory (os error 21)\n"
        expect(f"a folder {args}", run(args), 1, "", said + error_line(name, 0, 0, "DeviceFailed") + reason)
    several = run(["cut", "missing", "empty", "cut"])
    several.stderr = re.sub(rb"(missing: the file can't be opened: ).*", rb"\1..", several.stderr)
    line, why = shown_of([], "cut", hello + hello[:30], True)
    expect("several files", several, 1, 2 * line, f"{why}capnp_show: missing: the file can't be opened: ..\n{why}")


def try_converted():
    """What is written of messages in the other format, also of one that is larger than the limit of words."""
    framed, packed = (b"".join(map(of, [*MESSAGES, ESCAPES, *random_messages(300)])) for of in (frame, packed_message))
    for way, content, out in (("--pack", framed, packed), ("--unpack", packed, framed), ("--pack", b"", b"")):
        expect(f"{len(content)} bytes {way}", run([way], content), 0, out)
    hello, hello_packed = frame(HELLO), packed_message(HELLO)
    expect("the first of two, packed", run(["--pack", "--first", "1"], hello + frame(FAR)), 0, hello_packed)
    expect("a cut message, packed", run(["--pack"], hello + hello[:9]), 1, hello_packed,
           error_line("standard input", 1, len(hello), "FailedToFillTheWholeBuffer"))
    write("hello", hello)
    expect("two files, packed", run(["--pack", "hello", "hello"]), 0, 2 * hello_packed)
    with open("/dev/full", "wb") as full:
        expect_unwritten("packed on a full device", ["--pack", "hello"], full)
    said = error_line("standard input", 0, 0, f"MessageTooLarge({LARGE_WORDS})")
    for way, content, out in (("--pack", *LARGE), ("--unpack", *LARGE[::-1])):
        expect(f"{way}, 64 MiB and a word", run([way], content), 1, b"", said)
        expect(f"{way} --words {LARGE_WORDS}", run([way, "--words", str(LARGE_WORDS)], content), 0, out)


def try_help():
    """The help and the version, and each example of the help, run by a shell."""
    help_text = run(["--help"]).stdout.decode()
    with open(os.path.join(ROOT, "VERSION")) as file:
        version = f"capnp_show {file.read()}"
    for word in "--version", "-V":
        expect(word, run([word]), 0, version)
    examples = [line.strip().split("   ")[0] for line in help_text.partition("Examples:\n")[2].splitlines()]
    count("the examples of the help", [] if examples == list(EXAMPLES) else [str(examples)])
    environment = {"PATH": f"{os.path.dirname(PROGRAM)}:{os.environ['PATH']}"}
    for example, content in EXAMPLES.items():
        for name in "log", "a", "b":
            write(name, content)
        result = subprocess.run(["sh", "-c", example], capture_output=True, timeout=60, env=environment)
        args, files = example.split(" > ")[0].split()[1:], [name for name in ("a", "b") if f" {name}" in example]
        out = "" if " > " in example else "".join(
            shown_of(args, name, content, len(files) > 1)[0] for name in files or ["standard input" if "<" in example else "log"])
        expect(example, result, 0, out)
        if " > " in example:
            with open(example.split(" > ")[1], "rb") as made:
                wanted = run(["--html", "log"]).stdout if "--html" in args else packed_message(HELLO) + packed_message(FAR)
                count(f"{example}: its file", [] if made.read() == wanted else ["it is another one"])
    wrongs = wrongs_of("capnp_show", PROGRAM, {**TERMS, "EXAMPLES": list(EXAMPLES)})
    if wrongs is None:
        leave_out("the manual page", "man is not installed")
    else:
        count("the manual page", wrongs)


def try_words():
    """Words that can't be given, or not with others."""
    pages = [["--html", other] for other in ("--tree", "--json", "--count")]
    others = ("--packed", "--detect", "--hash", "--tree", "--json", "--count", "--html")
    ways = [[way, other] for way in ("--pack", "--unpack") for other in others] + [["--pack", "--unpack"]]
    for args in (["--bogus"], ["--packed", "--detect"], ["--words", "x"], ["--nesting", "-1"], *pages, *ways):
        result = run(args)
        result.stderr = result.stderr[:7]
        expect(" ".join(args), result, 2, "", "error: ")


def main():
    begun = time.monotonic()
    for part in (try_forms, try_errors, try_converted, try_words, try_help, try_written, try_devices, try_progress, try_pages, try_drawn):
        part()
    left_out = f", {Counts.left_out} left out" if Counts.left_out else ""
    print(f"try-show: {Counts.tried} runs, {Counts.wrong} of them wrong{left_out}, {time.monotonic() - begun:.1f} s")
    return 1 if Counts.wrong else 0


if __name__ == "__main__":
    sys.exit(main())
