"""What the C++ library 0.9.2 finds otherwise, by cause: the model with its rules."""
import model
from model import Message


class OneSegment(Message):
    """Where the second segment has no words, the first one is the only one."""

    def __init__(self, segments, *limits):
        super().__init__(segments if any(segments[1:2]) else segments[:1], *limits)


class Loose(Message):
    """An object of no words may be outside its segment, the first word of a landing pad of two words may be any far pointer, and
    of the number of elements in a tag 29 bits count; but an empty segment is taken for none."""
    LANDING_PAD_BITS, TAG_COUNT = 3, 2**29 - 1

    def has(self, segment):
        return super().has(segment) and (segment == 0 or bool(self.segments[segment]))

    def holds(self, found, words):
        return words == 0 or super().holds(found, words)


class Counted(Message):
    """An eighth of the traversal limit, less a word."""

    def __init__(self, segments, limit, *nesting):
        super().__init__(segments, limit // 8 - 1, *nesting)


def result_of(lines, who, kind):
    """The last result of one who is asked, where messages are of a kind."""
    model.Message = kind
    try:
        return model.results(model.requests_of(lines)[who])[-1]
    finally:
        model.Message = Message


def cause_of(lines, who, here, there):
    """Why a result may be another one, or None."""
    they_reject, call = there.startswith("error "), lines[-1].partition(" ")[0]
    if here.startswith("error 5 InvalidNumberOfSegments(0)"):
        return "C++ reads a count of 0 segments"
    if call == "flat":
        return "C++ takes bytes that end within a table for no segments, and has no limit for a message in memory"
    if they_reject and (who == "null" or " set" in here):
        return "C++ follows a pointer before it says whether it is null"
    if call == "write" and here.startswith("error 5 "):
        return "C++ writes more segments than its readers take"
    if who == "size" and here.startswith("error 21 "):
        return "C++ counts no words of a capability"
    if call == "list" and "deeply-nested" in there:
        return "C++ counts otherwise against its limits"
    if call not in ("pointer", "list", "field", "canonical"):
        return None
    if who == "test":
        otherwise = result_of(lines, who, OneSegment)
        if they_reject and here == "no" or otherwise.startswith("error ") or otherwise == there:
            return "C++ tests objects in another order, or takes an empty segment for none"
    loosely = result_of(lines, who, Loose)
    if not they_reject and (here[:8] in ("error 19", "error 20") or loosely[:8] in ("error 19", "error 20")):
        return "C++ counts otherwise against its limits"
    if call == "list" and "error 22" in (here[:8], loosely[:8]):
        return "C++ reads a list of other elements where we fail with 22"
    if loosely == there or they_reject and loosely.startswith("error "):
        return "C++ finds an object where we fail, takes an empty segment for none, or reads 29 bits of a tag"
    if they_reject and result_of(lines, who, Counted).startswith("error 20"):
        return "C++ counts otherwise against its limits"
    return None
