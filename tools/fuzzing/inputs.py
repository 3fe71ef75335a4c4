"""Inputs from a seed: messages, valid and corrupt, and streams of them in both formats, by many packers and with many faults; and
the calls of conformance/ that are made of each."""
import model

NUMBERS = ["1", "8", "16", "32", "64", "i8", "i16", "i32", "i64", "f32", "f64"]
MOST_WORDS = 3000
MOST_WORDS_OF_STREAMS = 1790  # for which the drivers have room
LISTS = ["void", "bool", "8", "16", "32", "64", "i8", "i16", "i32", "i64", "f32", "f64", "pointers", "structs"]


def one_in(random, bound):
    return random.randrange(bound) == 0


def some_word(random):
    kind, word = random.randrange(5), random.getrandbits(64)
    if kind == 3:  # one byte or two are zero
        for _ in range(random.randrange(3)):
            word &= ~(0xff << 8 * random.randrange(8))
    return [0, word & 0xff, word & random.getrandbits(64) & random.getrandbits(64), word, word | 0x0101010101010101][kind]


def some_pointer(random, words, segments):
    """A pointer word that means something, or nearly."""
    low = (random.randrange(2 * words + 3) - words - 1) % 2**30 << 2
    size = lambda: random.randrange(65536 if one_in(random, 8) else 4)
    kind = random.randrange(7)
    if kind == 0:
        return low | size() << 32 | size() << 48
    if kind in (1, 2):
        count = random.randrange(2**29 if one_in(random, 12) else 12)
        return low | 1 | random.randrange(8) << 32 | count << 35
    if kind in (3, 4):
        return 2 | random.randrange(2) << 2 | random.randrange(words + 3) << 3 | random.randrange(segments + 1) << 32
    if kind == 5:
        return low | 3 if one_in(random, 4) else 0xfffffffc if one_in(random, 2) else low
    return some_word(random)


class Layout:
    """A message with a tree of objects, in one segment in preorder or spread over several."""

    def __init__(self, random):
        self.random, self.is_spread = random, one_in(random, 2)
        most = 60 if one_in(random, 4) else 4
        self.segments = [[] for _ in range(1 + random.randrange(most) if self.is_spread else 1)]
        self.budget, self.places = random.randrange(120), []
        self.segments[0].append(0)
        self.object(0, 0, 70 if one_in(random, 9) else 1 + random.randrange(6))

    def chance(self, bound):
        return self.is_spread and one_in(self.random, bound)

    def grow(self, segment, words):
        """The first of a given number of new words of a segment."""
        if self.chance(6):
            self.segments[segment].append(some_word(self.random))
        self.segments[segment] += words * [0]
        self.budget -= words
        return len(self.segments[segment]) - words

    def fill(self, segment, start, words):
        self.segments[segment][start:start + words] = [some_word(self.random) for _ in range(words)]

    def join(self, segment, at, target, start, word):
        """Makes the word at a place a pointer to an object of this word at its start."""
        near = lambda place: word | (start - place - 1) % 2**30 << 2
        is_double = self.chance(6)
        if segment == target and not is_double:
            self.segments[segment][at] = near(at)
        elif not is_double:
            landing = self.grow(target, 1)
            self.segments[target][landing] = near(landing)
            self.segments[segment][at] = 2 | landing << 3 | target << 32
        else:
            other = self.random.randrange(len(self.segments))
            landing = self.grow(other, 2)
            tag = near(self.random.randrange(9)) if one_in(self.random, 3) else word
            self.segments[other][landing:landing + 2] = [2 | start << 3 | target << 32, tag]
            self.segments[segment][at] = 6 | landing << 3 | other << 32

    def object(self, segment, at, depth):
        random = self.random
        self.places.append((segment, at))
        if depth == 0 or self.budget <= 0 or one_in(random, 7):
            return
        if self.chance(8):  # shared, or nearly
            other, place = random.choice(self.places)
            word = self.segments[other][place]
            if other == segment and word & 3 < 2:
                word = word & ~0xfffffffc | word + 4 * (place - at) & 0xfffffffc
            self.segments[segment][at] = word
            return
        target = random.randrange(len(self.segments)) if self.chance(3) else segment
        if one_in(random, 2):
            self.struct(segment, at, target, depth)
        elif one_in(random, 8):
            self.structs(segment, at, target, depth)
        else:
            self.list(segment, at, target, depth)

    def pointers(self, segment, start, count, depth):
        for index in range(count):
            self.object(segment, start + index, depth - 1)

    def struct(self, segment, at, target, depth):
        data, pointers = self.random.randrange(4), self.random.randrange(4)
        start = self.grow(target, data + pointers)
        self.fill(target, start, data)
        if data and not one_in(self.random, 4):
            self.segments[target][start + data - 1] |= 1
        if data + pointers:
            self.join(segment, at, target, start, data << 32 | pointers << 48)
        else:
            self.segments[segment][at] = 0xfffffffc
        self.pointers(target, start + data, pointers, depth)

    def list(self, segment, at, target, depth):
        random, code = self.random, self.random.randrange(7)
        count = random.randrange(300 if one_in(random, 20) else 4 if code == 6 else 20)
        if code == 0 and one_in(random, 3):
            count = random.randrange(2**24)  # half of them too many
        bits = count * model.BITS_OF_ELEMENTS[code]
        start = self.grow(target, -(-bits // 64))
        if code == 6:
            self.pointers(target, start, count, depth)
        else:
            self.fill(target, start, -(-bits // 64))
            if bits % 64 and not one_in(random, 4):
                self.segments[target][start + bits // 64] &= 2**(bits % 64) - 1
        self.join(segment, at, target, start, 1 | code << 32 | count << 35)

    def structs(self, segment, at, target, depth):
        random = self.random
        data, pointers, count = random.randrange(3), random.randrange(3), random.randrange(5)
        step = data + pointers
        words = count * step + (random.randrange(3) if self.chance(4) else 0)
        start = self.grow(target, 1 + words)
        tag = count << 2 | data << 32 | pointers << 48
        if step == 0 and one_in(random, 3):
            tag |= random.randrange(2**24) << 2
        self.segments[target][start] = tag | (1 + random.randrange(3) if self.chance(30) else 0)
        self.join(segment, at, target, start, 1 | 7 << 32 | words << 35)
        for first in range(start + 1, start + 1 + count * step, step or 1):
            self.fill(target, first, data)
            self.pointers(target, first + data, pointers, depth)


def some_words(random):
    """Words of no meaning, and runs of words that are alike."""
    segments = [[] for _ in range(1 + random.randrange(520 if one_in(random, 40) else 9 if one_in(random, 3) else 2))]
    for segment in segments:
        most = 3 if len(segments) > 100 else 600 if one_in(random, 30) else 12
        segment += [some_pointer(random, 12, len(segments)) if one_in(random, 4) else some_word(random) for _ in range(random.randrange(most))]
    if one_in(random, 9):
        random.choice(segments).extend(random.randrange(600) * [some_word(random)])
    return segments


def corrupt_words(random, segments):
    """Changes some words."""
    for _ in range(1 + random.randrange(3)):
        segment = random.choice(segments)
        if not segment:
            continue
        at, kind = random.randrange(len(segment)), random.randrange(7)
        if kind == 5:
            del segment[random.randrange(len(segment) + 1):]
        elif kind == 6:
            segment.append(some_word(random))
        else:
            segment[at] = [segment[at] ^ 1 << random.randrange(64), some_pointer(random, len(segment), len(segments)),
                           random.choice(segment), segment[at] + (random.randrange(9) << random.choice([2, 35])) & 2**64 - 1,
                           random.choice([0, 2**64 - 1])][kind]


def some_message(random, is_corrupt):
    """Segments of bytes."""
    segments = some_words(random) if one_in(random, 3) else Layout(random).segments
    if is_corrupt:
        corrupt_words(random, segments)
    return [b"".join(word.to_bytes(8, "little") for word in segment) for segment in segments]


def corrupt_bytes(random, content):
    """Changes some bytes."""
    for _ in range(1 + random.randrange(3) if content else 0):
        at = random.randrange(len(content) if one_in(random, 2) else min(len(content), 20)) if content else 0
        some = 1 + random.randrange(40 if one_in(random, 3) else 4)
        part = [bytes([content[at] ^ 1 << random.randrange(8)]), bytes([random.randrange(256)]), b"", b"",
                some * bytes([0 if one_in(random, 2) else random.randrange(256)]), content[random.randrange(len(content)):][:some],
                bytes([random.choice(b"\0\1\2\3\xff\xfe\x7f\x80")])] if content else [b""]
        kind = random.randrange(len(part))
        content[at:len(content) if kind == 2 else at + (some if kind == 3 else 0 if kind in (4, 5) else 1)] = part[kind]


def pack_otherwise(random, chunk):
    """A packing by other rules: zero bytes may be marked, and runs may be shorter, or literal."""
    packed, at = bytearray(), 0
    while at < len(chunk):
        word, at = chunk[at:at + 8], at + 8
        tag = sum(1 << bit for bit in range(8) if word[bit] or one_in(random, 9))
        tag = 255 if one_in(random, 12) else tag
        packed += bytes([tag]) + bytes(word[bit] for bit in range(8) if tag >> bit & 1)
        if tag not in (0, 255):
            continue
        run, words = 0, (len(chunk) - at) // 8
        while run < min(words, 255) and (not one_in(random, 5) if tag else not any(chunk[at + 8 * run:at + 8 * run + 8])):
            run += 1
        run = random.randrange(run + 1) if one_in(random, 5) else run
        packed.append((run + 1 + random.randrange(4) if one_in(random, 60) else run) % 256)
        packed += chunk[at:at + 8 * run] if tag else b""
        at += 8 * run
    return bytes(packed)


def framed_otherwise(random, segments):
    """The framed message; in one of three that have a padding, this isn't zero."""
    whole = bytearray(number_table(segments) + b"".join(segments))
    if len(segments) % 2 == 0 and one_in(random, 3):
        end = 8 * (len(segments) // 2 + 1)
        whole[end - 4:end] = random.choice([bytes(4), *(4 * [b""])]) or bytes(random.choice([0, 1, 127, 128, 255]) for _ in range(4))
    return bytes(whole)


def number_table(segments):
    """A table of any number of segments."""
    fields = [len(segments) - 1, *(len(segment) // 8 for segment in segments)]
    return b"".join(field.to_bytes(4, "little") for field in fields).ljust(model.table_size(len(segments)), b"\0")


def some_stream(random, is_packed):
    """The bytes of a stream of a few messages."""
    content, is_corrupt = bytearray(), not one_in(random, 3)
    for _ in range(0 if one_in(random, 50) else 1 + random.randrange(4 if one_in(random, 3) else 1)):
        segments = some_message(random, is_corrupt and one_in(random, 2))
        whole, table = framed_otherwise(random, segments), model.table_size(len(segments))
        if not is_packed:
            content += whole
        elif one_in(random, 20):
            content += pack_otherwise(random, whole)
        else:
            chunks = whole[:8], whole[8:table], *segments
            content += b"".join(map(model.pack, chunks) if one_in(random, 3) else (pack_otherwise(random, chunk) for chunk in chunks))
    if is_corrupt and one_in(random, 2):
        corrupt_bytes(random, content)
    return bytes(content)


def options_of(random, of_objects):
    """The options of a case: those of streams, or of objects."""
    if of_objects:  # a limit keeps walks over shared objects short
        limit = [f"limit {1 + random.randrange(random.choice([60, MOST_WORDS])) if one_in(random, 4) else MOST_WORDS}"]
        nesting = [f"nesting {random.randrange(5)}"] if one_in(random, 8) else []
        path = [] if one_in(random, 3) else ["at " + " ".join(str(random.randrange(3)) for _ in range(1 + random.randrange(3)))]
        return limit + nesting + path
    if one_in(random, 3):
        return [f"buffer {random.randrange(random.choice([64, 1000, 4096]))}"]
    return [f"limit {random.randrange(60) if one_in(random, 8) else MOST_WORDS_OF_STREAMS}"]


def some_case(random):
    """The lines of the options of a case, and those of its calls."""
    kind = random.randrange(4)
    if kind < 2:
        content = some_stream(random, kind)
        calls = ["packed", f"unpack {8 * random.randrange(40)}"] if kind else ["framed", "flat"]
        return options_of(random, False), [f"{call} {model.show([content])}" for call in calls]
    segments = some_message(random, not one_in(random, 3))
    if kind == 2:
        chunks = model.show(segments)
        return options_of(random, True)[:1], [f"canonical {chunks}", f"pack {chunks}", f"write {chunks}"]
    number = random.choice(NUMBERS)
    field = f"field {number} {random.choice([0, 1, 2, 3, 7, 8, 63, 64, 200])} {random.getrandbits(int(number.lstrip('if'))) if one_in(random, 2) else 0:x}"
    calls = ["pointer", field, *(f"list {elements}" for elements in random.sample(LISTS, 4))]
    return options_of(random, True), [f"{call} {model.show(segments)}" for call in calls]
