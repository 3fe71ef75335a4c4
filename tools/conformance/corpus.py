"""The cases of conformance/, and which results differ from those of a case."""
import re
from dataclasses import dataclass

import model
from drivers import ROOT, copy_of_crates, run_ours  # the last two for tools/try-edits


@dataclass
class Case:
    """A case, with the request and the results of each that is asked."""
    file: str
    name: str
    by: list
    requests: dict
    results: dict


def files():
    """The files of cases."""
    return sorted((ROOT / "conformance").glob("[a-z]*.txt"))


def text():
    """All files, one after another."""
    return "".join(path.read_text() for path in files())


def cases():
    """All cases."""
    for path in files():
        for lines in map(str.splitlines, re.split("^(?=case )", path.read_text(), flags=re.M)[1:]):
            by = [part.strip() for line in lines if line.startswith("# by:") for part in line[5:].split(" | ")]
            requests = model.requests_of([line for line in lines if line[:1] not in ("", "#", ">")])
            case = Case(path.stem, lines[0][5:], by, requests, {who: [] for who in requests})
            for line in (line[2:] for line in lines if line.startswith(">")):
                names, _, result = line.partition(": ")
                is_named = requests.keys() >= set(names.split(", "))
                for who in names.split(", ") if is_named else requests:
                    case.results[who].append(result if is_named else line)
            yield case


def is_rejected(result):
    return result.startswith("error ")


def unread(result):
    """What a result says of unread bytes."""
    return result.partition("; ")[2]


def number_of(result, by_number):
    return result.split()[1] if by_number else ""


def differences(wanted, found, by_number=False):
    """Who gives other results than are wanted of each, with the first of them; errors are compared by their numbers, or by
    whether both reject."""
    for who, results in found.items():
        for index in range(max(len(wanted[who]), len(results))):
            here, there = (of[index] if index < len(of) else "nothing" for of in (wanted[who], results))
            if is_rejected(here) and is_rejected(there) and number_of(here, by_number) == number_of(there, by_number):
                if unread(here) != unread(there) or index + 1 == len(results):
                    break  # What is unread after an error differs or isn't known, and so may what comes next.
            elif here != there:
                yield who, here, there
                break
