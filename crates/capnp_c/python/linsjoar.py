"""Messages of Cap'n Proto by the names of their schema, over the library for C.

    schema = linsjoar.load("addressbook.capnp")
    data = schema.AddressBook.new(people=[{"name": "Alice"}]).to_bytes()
    for person in schema.AddressBook.read(data).people:
        print(person.name, person.employment.which)

docs/GUIDE.md ("Python") says what there is, and the header of the library what each of its calls does.
"""
import collections.abc
import ctypes
import functools
import io
import keyword
import os
import struct
import subprocess
import threading
from ctypes import byref, c_size_t, c_uint8, c_uint16, c_uint32, c_uint64, c_void_p

ERRORS = """FailedToFillTheWholeBuffer BufferNotLargeEnough EmptyBuffer EmptySlice InvalidNumberOfSegments
MessageEndsPrematurely MessageSizeOverflow MessageTooLarge PrematureEndOfFile PrematureEndOfPackedInput
PackedInputDidNotEndCleanlyOnASegmentBoundary OutOfMemory DeviceFailed NotWholeWords AllocationTooLarge SegmentTaken
PointerOutOfBounds InvalidSegmentId NestingLimitExceeded ReadLimitExceeded CapabilityRefused WrongPointerKind
TextNotTerminated CanonicalTooLarge NotOneSegment NonZeroPadding InvalidArgument""".split()
BUFFER_NOT_LARGE_ENOUGH, PREMATURE_END_OF_FILE = 2, 9
CUT = (1, 6, PREMATURE_END_OF_FILE, 10)  # the errors of bytes that end before their message
NO_LIMIT, POINTERS, STRUCTS, NO_MEMBER = c_size_t(-1).value, 6, 7, 0xffff


class Error(Exception):
    """A call of the library failed: `number` and `name` are the error's, `path` the field's, as `people[3].name`."""
    def __init__(self, number, path=""):
        self.number, self.name, self.path = number, ERRORS[number - 1], path
        super().__init__(f"{path}: {self.name}" if path else self.name)


def _path(where):
    """The path of a place. The root is None, and what a field's name or an index finds at a place (place, step)."""
    place, step = where or (None, "")
    return f"{_path(place)}[{step}]" if isinstance(step, int) else f"{_path(place)}.{step}" if place else step


def _check(number, where=None):
    if number:
        raise Error(number, _path(where))


# The calls of the library, and of each what it takes: `b` a block and its length, `p` the address of what is read or
# written, `n` a number as large as a length, a digit a number of so many bytes.
_MESSAGE_CALLS = """message:bp segment:b4p next_message:bp message_size:bpp pack_message:bbp unpack_message:bbpp
unpacked_size:bp canonical_size:bp canonical:bbp open:bp""".split()
_OBJECT_CALLS = """pack:bbp unpack:bbp unpack_part:bbppp root:bpp kind:bpppp struct:bppp struct_pointer:p2p text:bpppp data:bpppp list:bpp1p
list_number:bp4p list_struct:p4p list_pointer:p4p begin:pb set_root:pb8 finish:pbp add_text:pbbp add_data:pbbp
add_numbers:pb1nbp add_struct:pbpnpnp add_pointers:pbpnp add_structs:pbpnn22p add_copy:pbbppp""".split()
_MESSAGE_CALLS += [call.replace(":b", "_with_options:bp") for call in _MESSAGE_CALLS]
_TAKEN = {"b": [c_void_p, c_size_t], "p": [c_void_p], "n": [c_size_t], "1": [c_uint8], "2": [c_uint16], "4": [c_uint32],
          "8": [c_uint64]}
# The library that LINSJOAR_LIBRARY names, or in the folder of this file, or in the one above.
_PATHS = [os.path.join(os.path.dirname(os.path.abspath(__file__)), at, "liblinsjoar.so") for at in (".", "..")]
_PATH = os.path.abspath(os.environ.get("LINSJOAR_LIBRARY") or next(filter(os.path.exists, _PATHS), _PATHS[-1]))
# Other threads go on during a call of CDLL. One of PyDLL doesn't let them, and takes half the time for one object.
_calls = {}
for _library, _names in ((ctypes.CDLL(_PATH), _MESSAGE_CALLS), (ctypes.PyDLL(_PATH), _OBJECT_CALLS)):
    for _name, _takes in (_call.split(":") for _call in _names):
        _calls[_name] = _library["linsjoar_" + _name]
        _calls[_name].argtypes, _calls[_name].restype = [kind for letter in _takes for kind in _TAKEN[letter]], c_uint32
_kind, _struct, _text, _data, _list = (_calls[name] for name in ("kind", "struct", "text", "data", "list"))
# A place, a struct and a list of the library. One call of `struct` packs or unpacks all numbers of one, in a tenth of
# the time that the attributes of a ctypes.Structure take.
_PLACE = struct.Struct("@NIIB0N")
_pack_place, _unpack_struct = _PLACE.pack_into, struct.Struct("@NNNIIB0NH").unpack_from
_unpack_list, _unpack_pair = struct.Struct("@NNIIB0NIIIHB").unpack_from, struct.Struct("@NN").unpack_from


class _Memory(threading.local):
    """Each thread's own memory: for the place that a call takes, and after it for what the call writes."""
    def __init__(self):
        place, found = (c_uint64 * 3)(), (c_uint64 * 9)()
        self.parts = place, ctypes.addressof(place), found, ctypes.addressof(found)


_memory = _Memory()


def _options(traversal_limit_in_words=8388608, nesting_limit=64):
    return struct.pack("@Ni0N", NO_LIMIT if traversal_limit_in_words is None else traversal_limit_in_words, nesting_limit)


class _Message:
    """A framed message that is read, and what each call takes first. `reader` has its length, the words left, and more."""
    def __init__(self, data, options):
        self.data = data if type(data) is bytes else bytes(memoryview(data))
        self.view, self.options, self.reader = memoryview(self.data), options, (c_size_t * 35)()
        self.taken = self.data, len(self.data), ctypes.addressof(self.reader)
        _check(_calls["open_with_options"](self.data, len(self.data), options, self.reader))

    def root(self, layout):
        place, address, _, _ = _memory.parts
        _check(_calls["root"](*self.taken, address))
        return layout.load(self, *_PLACE.unpack_from(place), None)


# The numbers of types are those of the union in Type (/capnp/schema.capnp); a group has one more.
VOID, BOOL, FLOAT32, FLOAT64, TEXT, DATA, LIST, ENUM, STRUCT, INTERFACE, ANY, GROUP = 0, 1, *range(10, 20)
NAMES = "Void Bool Int8 Int16 Int32 Int64 UInt8 UInt16 UInt32 UInt64 Float32 Float64 Text Data".split()
LETTERS = {**dict(zip(range(2, 12), "bhiqBHIQfd")), ENUM: "H"}
ESCAPES = {code: "\\%03o" % code for code in (*range(32), *range(127, 256))}
ESCAPES.update({ord(character): "\\" + letter for character, letter in zip("\a\b\f\n\r\t\v\"'\\", "abfnrtv\"'\\")})
TEXT_ESCAPES = {code: escape for code, escape in ESCAPES.items() if code < 128}


class _Type:
    """A type. `getter` makes the function that reads a field, once for each class: to read a number is then one call of
    `unpack_from`, and a pointer one of the library. `coerce` makes a value as it is kept until `put` writes it."""
    def __init__(self, tag, name="", element=None, names=()):
        self.tag, self.element, self.names, self.made = tag, element, names, None
        self.name = f"List({element.name})" if element else name
        self.is_pointer, self.is_float = tag in (TEXT, DATA, LIST, STRUCT, INTERFACE, ANY), tag in (FLOAT32, FLOAT64)
        self.number = struct.Struct("<" + LETTERS.get(tag, "B"))
        self.bits, self.size = struct.Struct({FLOAT32: "<I", FLOAT64: "<Q"}.get(tag, self.number.format)), self.number.size
        self.code = tag if tag <= BOOL else STRUCTS if tag == STRUCT else POINTERS if self.is_pointer else self.size.bit_length() + 1
        self.given = {VOID: type(None), BOOL: bool, TEXT: str, DATA: (bytes, bytearray, memoryview), LIST: collections.abc.Iterable,
                      ANY: (str, bytes, _Root, List, AnyPointer), INTERFACE: AnyPointer}.get(tag, object)
        self.value_index = 0 if self.is_pointer else 16 if tag == BOOL else max(1, 2 // self.size)

    def number_getter(self, index, form=None):
        at, size, unpack, zero = index * self.size, self.size, (form or self.bits).unpack_from, 0.0 if form and self.is_float else 0

        def get(fields):
            start = fields._start + at
            return unpack(fields._data, start)[0] if start + size <= fields._end else zero
        return get

    def getter(self, name, index, mask):
        """The number of a field is XORed with that of the default; `mask` is that, or what returns a pointer's default."""
        if self.is_pointer:
            load = self.load
            get = lambda fields: load(fields._message, fields._word + index, fields._segment, fields._nesting,
                                      index < fields._pointers, (fields._where, name))
            return (lambda fields: mask() if fields._is_null(index) else get(fields)) if mask else get
        if self.tag == GROUP:
            return lambda fields: self.cls(fields._message, fields._start, fields._end, fields._word, fields._segment,
                                           fields._nesting, fields._pointers, (fields._where, name))
        if self.tag == VOID:
            return lambda fields: None
        get, bit = self.number_getter(index if self.tag != BOOL else index // 8), index % 8
        if self.tag == BOOL:
            return lambda fields: bool(get(fields) >> bit & 1) != mask
        if mask or self.tag == ENUM:
            return lambda fields: self.value_of(get(fields) ^ mask)
        return self.number_getter(index, self.number)

    def value_of(self, bits):
        if self.tag == ENUM:
            return self.names[bits] if bits < len(self.names) else bits
        return self.number.unpack(self.bits.pack(bits))[0]

    def bits_of(self, value):
        return self.names.index(value) if value in self.names else self.bits.unpack(self.number.pack(value))[0]

    def constant(self, value):
        return self.getter("", self.value_index, None if self.is_pointer else 0)(value)

    def mask_of(self, value):
        if self.is_pointer:
            return None if value._is_null(0) else functools.cache(lambda: self.constant(value))
        return self.bits_of(self.constant(value)) if self.tag > BOOL else bool(self.constant(value))

    def load(self, message, word, segment, nesting, is_there, where):
        """Reads what the pointer at a place points to."""
        if self.tag in (INTERFACE, ANY):
            return AnyPointer(message, (word, segment, nesting, is_there), where)
        place, address, found, result = _memory.parts
        _pack_place(place, 0, word, segment, nesting, is_there)
        if self.tag == STRUCT:
            _check(_struct(*message.taken, address, result), where)
            start, length, word, segment, nesting, _, pointers = _unpack_struct(found)
            return (self.made or self.cls)(message, start, start + length, word, segment, nesting, pointers, where)
        if self.tag == LIST:
            _check(_list(*message.taken, address, self.element.code, result), where)
            return List(self.element, message, _unpack_list(found), where)
        _check((_text if self.tag == TEXT else _data)(*message.taken, address, result, result + 8), where)
        start, length = _unpack_pair(found)
        data = message.data[start:start + length]
        try:
            return data.decode() if self.tag == TEXT else data
        except UnicodeDecodeError as error:
            raise UnicodeDecodeError("utf-8", data, error.start, error.end, f"{error.reason}: {_path(where)}") from None

    def coerce(self, value, where):
        """TypeError or ValueError where a value can't be of this type."""
        if not isinstance(value, self.given) or self.tag == LIST and isinstance(value, (str, collections.abc.Mapping)):
            raise TypeError(f"{_path(where)}: {value!r} is no {self.name}")
        if self.tag == LIST:
            return [self.element.coerce(element, (where, index)) for index, element in enumerate(value)]
        if self.is_pointer or self.tag <= BOOL:
            return bytes(value) if self.tag == DATA else value
        try:
            return value if value in self.names else self.value_of(self.bits.unpack(self.number.pack(value))[0])
        except (struct.error, OverflowError):
            wanted = str if self.tag == ENUM else (int, float) if self.is_float else int
            raise (ValueError if isinstance(value, wanted) else TypeError)(f"{_path(where)}: {value!r} is no {self.name}") from None

    def put(self, builder, data, orphans, field, value):
        if self.tag == GROUP:
            self.put_fields(builder, data, orphans, value)
        elif self.is_pointer:
            orphans[field.index] = 0 if value is None else self.add(builder, value, (None, field.name))
        elif self.tag == BOOL:
            data[field.index // 8] |= (value != field.mask) << field.index % 8
        elif self.tag != VOID:
            self.bits.pack_into(data, field.index * self.size, self.bits_of(value) ^ field.mask)

    def add(self, builder, value, where):
        if isinstance(value, AnyPointer):
            return builder.copy(value._message, value._at, value._where)
        if self.tag == LIST or isinstance(value, List):
            element = self.element or value._element
            return element.add_list(builder, [element.coerce(item, (where, index)) for index, item in enumerate(value)])
        if isinstance(value, _Root):
            return value._type.add(builder, value, where)
        data = value.encode() if isinstance(value, str) else value
        return builder.add("add_text" if isinstance(value, str) else "add_data", data)

    def add_list(self, builder, values):
        if self.is_pointer:
            return builder.add("add_pointers", [self.add(builder, value, None) for value in values])
        if self.tag == BOOL:
            data = int("0" + "".join("01"[value] for value in reversed(values)), 2).to_bytes(-(-len(values) // 8), "little")
        else:
            numbers = () if self.tag == VOID else map(self.bits_of, values) if self.names else values
            data = b"".join(map(self.number.pack, numbers))
        return builder.add("add_numbers", self.code, len(values), data)

    def plain(self, value):
        """A value as `to_dict` has it."""
        return list(map(self.element.plain, value)) if self.tag == LIST else value.to_dict() if isinstance(value, Struct) else value

    def show(self, value):
        """A value as `capnp decode --short` prints it."""
        if self.tag == LIST:
            return f"[{', '.join(map(self.element.show, value))}]"
        if self.tag in (TEXT, DATA):
            return '"%s"' % (value.translate(TEXT_ESCAPES) if self.tag == TEXT else value.decode("latin-1").translate(ESCAPES))
        if self.is_float:
            few, more = (6, 8) if self.size == 4 else (15, 17)
            shown, is_subnormal = f"{value:.{few}g}", self.size == 4 and 0 < abs(value) < 2.0**-126
            if value == value and (is_subnormal or self.coerce(float(shown), None) != value):
                shown = f"{value:.{more}g}"
            return shown.replace("e+", "e")
        if self.tag == ENUM:
            return value if value in self.names else f"({value})"
        if self.tag == BOOL:
            return "true" if value else "false"
        return {VOID: "void", INTERFACE: "<external capability>", ANY: "<opaque pointer>"}.get(self.tag) or str(value)


class _Layout(_Type):
    """A struct or a group. `brand` has what is known of parameters: pairs of a scope's number and its types."""
    def __init__(self, schema, tag, number, brand):
        self.schema, self.node, self.brand = schema, schema._nodes[number], brand
        super().__init__(tag, self.node.name[self.node.prefix:])

    @property
    def cls(self):
        """The class of what is read. It is made when it is first asked for, since a struct may have fields of itself."""
        if not self.made:
            self.union_number = UINT16.number_getter(self.node.union_offset)
            self.fields = {item.name: _Field(self, item) for item in self.node.members}
            self.members = {field.member: name for name, field in self.fields.items() if field.member != NO_MEMBER}
            read = {_attribute(name): property(field.get, doc=field.what) for name, field in self.fields.items()}
            built = {_attribute(name): property(field.get_draft, field.assign, doc=field.what) for name, field in self.fields.items()}
            if self.members:
                member_of = lambda number: self.members.get(number, number)
                read["which"] = property(lambda fields: member_of(self.union_number(fields)), doc="the member that is set")
                built["which"] = property(lambda draft: member_of(draft._number), Draft._select, doc="the member that is set")
            self.made = type(self.name, (Struct,), {"__slots__": (), "__doc__": self.node.name, "_type": self, **read})
            self.draft = type(self.name, (Draft,), {"__slots__": (), "__doc__": self.node.name, "_type": self, **built})
            for name, value in self.schema._nested(self.node, self.brand):
                setattr(self.made, name, value)
        return self.made

    def coerce(self, value, where):
        if self.tag == GROUP and isinstance(value, Struct):
            value = value.to_dict()
        if isinstance(value, _Root) and value._type.node is self.node:
            return value
        if not isinstance(value, collections.abc.Mapping):
            raise TypeError(f"{_path(where)}: {value!r} is no {self.name}")
        return self.cls._type.draft(value, where)

    def put_fields(self, builder, data, orphans, value):
        if self.members:
            struct.pack_into("<H", data, 2 * self.node.union_offset, value._number)
        for name, member in self.fields.items():
            if name in value._values and member.member in (NO_MEMBER, value._number):
                member.type.put(builder, data, orphans, member, value._values[name])

    def sections(self, builder, value):
        """The data words of a struct, and its pointers, whose objects are added before it."""
        if isinstance(value, Struct):
            data = value._data[value._start:value._end]
            places = [(value._word + index, value._segment, value._nesting, 1) for index in range(value._pointers)]
            data, orphans = data + bytes(-len(data) % 8), [builder.copy(value._message, at, value._where) for at in places]
        else:
            data, orphans = bytearray(8 * self.node.data_words), [0] * self.node.pointers
            self.put_fields(builder, data, orphans, value)
        return [*struct.unpack(f"<{len(data) // 8}Q", data)], orphans

    def add(self, builder, value, where):
        return builder.add("add_struct", *self.sections(builder, value))

    def add_list(self, builder, values):
        # What a newer writer wrote may have larger sections than other elements.
        sections = [([0] * self.node.data_words, [0] * self.node.pointers), *(self.sections(builder, value) for value in values)]
        sizes = [max(map(len, parts)) for parts in zip(*sections)]
        words = [word for section in sections[1:] for part, size in zip(section, sizes) for word in part + [0] * (size - len(part))]
        return builder.add("add_structs", words, len(values), *sizes)


class _Field:
    """A field or a group of a struct: its type, where it is, its default, and its number if it is a member of the union."""
    def __init__(self, layout, item):
        self.layout, self.name, self.index, self.member, schema = layout, item.name, item.index, item.member, layout.schema
        self.type = _Layout(schema, GROUP, item.group, layout.brand) if item.is_group else schema._type(item.type, layout.brand)
        self.mask, self.what = None if item.is_group else self.type.mask_of(item.default), f"{self.name} :{self.type.name}"
        self.read = self.type.getter(self.name, self.index, self.mask)
        self.get = self.read if self.member == NO_MEMBER else self.read_member

    def read_member(self, fields):
        if self.layout.union_number(fields) != self.member:
            raise AttributeError(f"{_path((fields._where, self.name))}: the union has {fields.which}")
        return self.read(fields)

    def get_draft(self, draft):
        if self.member not in (NO_MEMBER, draft._number):
            raise AttributeError(f"{self.name}: the union has {draft.which}")
        if draft._values.get(self.name) is None:
            value = self.read(EMPTY)
            if not isinstance(value, (Struct, List)):
                return value
            draft._values[self.name] = self.type.coerce(self.type.plain(value), None)
        return draft._values[self.name]

    def assign(self, draft, value, place=None):
        value = None if value is None and self.type.is_pointer else self.type.coerce(value, (place, self.name))
        if self.member != NO_MEMBER:
            draft._select(self.name)
        draft._values[self.name] = value


class _Root:
    """What a struct that is read and one that is built have alike."""
    __slots__ = ()
    def to_bytes(self):
        """The framed message of which this is the root. What is built is written from the leaves up."""
        is_read = isinstance(self, Struct) and self._where is None
        return self._data[:self._message.reader[0]] if is_read else _Builder().message(self)

    def to_packed(self):
        """The packed message of which this is the root."""
        framed, size = self.to_bytes(), c_size_t()
        block = ctypes.create_string_buffer(10 * len(framed))
        _check(_calls["pack_message_with_options"](framed, len(framed), _options(None), block, len(block), byref(size)))
        return block[:size.value]

    def canonical(self):
        """The canonical form, as `capnp convert binary:canonical` writes it."""
        framed, options, words = self.to_bytes(), self._message.options if isinstance(self, Struct) else _options(None), c_size_t()
        _check(_calls["canonical_size_with_options"](framed, len(framed), options, byref(words)))
        block = ctypes.create_string_buffer(8 * words.value)
        _check(_calls["canonical_with_options"](framed, len(framed), options, block, len(block), byref(words)))
        return block.raw

    def _shown(self, hidden):
        """The values of fields that are set; the number among the members says which null pointers are hidden."""
        layout, read = self._type, self if isinstance(self, Struct) else _Message(self.to_bytes(), _options(None)).root(self._type)
        for name, field in layout.fields.items():
            if field.member in (NO_MEMBER, layout.union_number(read)):
                is_null = field.type.is_pointer and read._is_null(field.index)
                if not (is_null and field.member in hidden):
                    yield name, field, is_null, field.read(read)

    def to_dict(self):
        """The fields by the schema's names. Null pointers are left out; a member of a union that is one is None."""
        found = {name: None if is_null else field.type.plain(value) for name, field, is_null, value in self._shown((NO_MEMBER,))}
        is_unknown = self._type.members and "which" not in self._type.fields and not isinstance(self.which, str)
        return {"which": self.which, **found} if is_unknown else found

    def __str__(self):
        """The text that `capnp decode --short` prints."""
        return f"({', '.join(f'{name} = {field.type.show(value)}' for name, field, _, value in self._shown((NO_MEMBER, 0)))})"

    def __repr__(self):
        return f"<{self._type.name} {self}>"


class Struct(_Root):
    """A struct that is read. Its fields are attributes, which can't be assigned."""
    __slots__ = "_message", "_data", "_start", "_end", "_word", "_segment", "_nesting", "_pointers", "_where"
    def __init__(self, message, start, end, word, segment, nesting, pointers, where):
        self._message, self._data, self._start, self._end = message, message.data, start, end
        self._word, self._segment, self._nesting, self._pointers, self._where = word, segment, nesting, pointers, where

    @classmethod
    def read(cls, data, **limits):
        """The root of a framed message. `limits` are `traversal_limit_in_words`, where None is no limit, and `nesting_limit`."""
        return _Message(data, _options(**limits)).root(cls._type)

    @classmethod
    def read_packed(cls, data, **limits):
        """The root of a packed message."""
        return next(cls.read_all_packed(io.BytesIO(data), **limits), None) or _check(PREMATURE_END_OF_FILE)

    @classmethod
    def read_all(cls, file, **limits):
        """The roots of the framed messages of a binary file, each as soon as it is there."""
        return cls._read_all(file, _options(**limits), False)

    @classmethod
    def read_all_packed(cls, file, **limits):
        """The roots of the packed messages of a binary file, each as soon as it is there."""
        return cls._read_all(file, _options(**limits), True)

    @classmethod
    def _read_all(cls, file, options, is_packed):
        read, data, length, taken = getattr(file, "read1", file.read), bytearray(), c_size_t(), c_size_t()
        block, call = ctypes.create_string_buffer(1 << 16), _calls[f"{'unpack' if is_packed else 'next'}_message_with_options"]
        while True:
            room = [block, len(block), byref(length)] if is_packed else []
            number = call(ctypes.addressof(c_uint8.from_buffer(data)) if data else b"", len(data), options, *room, byref(taken))
            if taken.value:
                yield _Message(block[:length.value] if is_packed else bytes(data[:taken.value]), options).root(cls._type)
                del data[:taken.value]
            elif number == BUFFER_NOT_LARGE_ENOUGH:
                block = ctypes.create_string_buffer(2 * len(block))
            elif number in (0, *CUT) and (more := read(max(1 << 16, len(data)))):
                data += more
            elif data:
                raise Error(number)
            else:
                return

    @classmethod
    def new(cls, /, **values):
        """A struct that is built, with these fields."""
        return cls._type.draft(values, None)

    def renew(self):
        """Sets how many words of the message may still be read to its limit again."""
        self._message.reader[1] = struct.unpack_from("@N", self._message.options)[0]

    def _is_null(self, index):
        place, address, found, result = _memory.parts
        _pack_place(place, 0, self._word + index, self._segment, self._nesting, index < self._pointers)
        return _kind(*self._message.taken, address, result, result + 1) == 0 and found[0] & 255 == 0


class List(collections.abc.Sequence):
    """A list that is read, whose elements are read when they are asked for."""
    def __init__(self, element, message, found, where):
        start, word, segment, nesting, is_there, count, step, length, pointers, _ = found
        self._element, self._count, self._numbers = element, count, None
        data, words = message.data, step // 64
        if element.tag == STRUCT:
            made, size = element.made or element.cls, step // 8
            self._get = lambda index: made(message, start + index * size, start + index * size + length, word + index * words,
                                           segment, nesting, pointers, (where, index))
        elif element.is_pointer:
            self._get = lambda index: element.load(message, word + index * words, segment, nesting, is_there, (where, index))
        elif element.tag <= BOOL:
            self._get = lambda index: bool(data[start + index // 8] >> index % 8 & 1) if element.tag == BOOL else None
        else:
            # A view is a sequence of the numbers where they are, so that no call reads one by one.
            size, unpack = element.size, element.number.unpack_from
            numbers = (message.view[start:start + count * size].cast(element.number.format[1]) if step == 8 * size
                       else [unpack(data, start + index * (step // 8))[0] for index in range(count)])
            self._numbers = None if element.names else numbers
            self._get = (lambda index: element.value_of(numbers[index])) if element.names else numbers.__getitem__

    def __len__(self):
        return self._count

    def __iter__(self):
        return map(self._get, range(self._count)) if self._numbers is None else iter(self._numbers)

    def __getitem__(self, index):
        found = range(self._count)[index]
        return [self._get(at) for at in found] if isinstance(index, slice) else self._get(found)

    def __eq__(self, other):
        return isinstance(other, collections.abc.Sequence) and list(self) == list(other)

    def __repr__(self):
        return repr(list(self))


class AnyPointer:
    """A pointer to an object whose type the schema doesn't say. It is false where it is null."""
    def __init__(self, message, at, where):
        self._message, self._at, self._where = message, at, where

    def __bool__(self):
        return self._at[3] != 0 and not Struct(self._message, 0, 0, *self._at[:3], 1, None)._is_null(0)

    def as_struct(self, kind):
        return kind._type.load(self._message, *self._at, self._where)

    def as_text(self):
        return NUMBERS[TEXT].load(self._message, *self._at, self._where)

    def as_data(self):
        return NUMBERS[DATA].load(self._message, *self._at, self._where)

    def as_list(self, element):
        """The list that it points to, of a struct or an enum of a schema, or of a type by its name, as "UInt32"."""
        element = NUMBERS[NAMES.index(element)] if isinstance(element, str) else getattr(element, "_type", element)
        return _Type(LIST, "", element).load(self._message, *self._at, self._where)


class Draft(_Root):
    """A struct that is built. Its fields can be assigned; a struct, a group or a list that isn't set is made when asked for."""
    __slots__ = "_values", "_number"
    def __init__(self, values, where):
        self._values, self._number, layout = {}, 0, self._type
        if len({*layout.members.values()} & {*values}) > 1:
            raise ValueError(f"{_path((where, layout.name))}: two members of a union")
        for name, value in values.items():
            if name == "which" and name not in layout.fields and layout.members:
                self.which = value
            elif name in layout.fields:
                layout.fields[name].assign(self, value, where)
            else:
                raise KeyError(_path((where, name)))

    def _select(self, member):
        numbers = {name: number for number, name in self._type.members.items()}
        self._number = numbers[member] if isinstance(member, str) else UINT16.coerce(member, (None, "which"))
        for name in numbers:
            self._values.pop(name, None)


class _Builder:
    """A message that is built in memory that grows. `add` and `copy` return the orphan of what they add."""
    def __init__(self):
        self.used, self.region = c_size_t(), ctypes.create_string_buffer(1024)
        _check(_calls["begin"](byref(self.used), self.region, len(self.region)))

    def add(self, name, *given, where=None):
        orphan, taken = c_uint64(), []
        for part in given:
            block = (c_uint64 * len(part))(*part) if isinstance(part, list) else part
            taken += [block, len(part)] if isinstance(part, (list, bytes)) else [part]
        while number := _calls[name](byref(self.used), self.region, len(self.region), *taken, byref(orphan)):
            if number != BUFFER_NOT_LARGE_ENOUGH:
                raise Error(number, _path(where))
            self.region = ctypes.create_string_buffer(self.region.raw, 2 * len(self.region))
        return orphan.value

    def copy(self, message, at, where):
        return self.add("add_copy", message.data, message.taken[2], ctypes.create_string_buffer(_PLACE.pack(*at)), where=where)

    def message(self, value):
        root, length = value._type.add(self, value, None), c_size_t()
        _check(_calls["set_root"](byref(self.used), self.region, len(self.region), root))
        _check(_calls["finish"](byref(self.used), self.region, len(self.region), byref(length)))
        return self.region[:length.value]


def _attribute(name):
    """The attribute of a field or a declaration: its name, with _ where Python or this module has the name."""
    return name + "_" if keyword.iskeyword(name) or name == "which" or hasattr(Struct, name) else name


NUMBERS = [_Type(tag, name) for tag, name in enumerate(NAMES)]  # and Text and Data
UINT16, UINT32, UINT64, ANY_POINTER, CAPABILITY = *NUMBERS[7:10], _Type(ANY, "AnyPointer"), _Type(INTERFACE, "Capability")


def _known(**fields):
    """A struct of /capnp/schema.capnp, by which schemas are read: of each field the type and the offset, and a mask."""
    layout, getters = _Type(STRUCT), {name: kind.getter(name, *(*at, 0)[:2]) for name, (kind, *at) in fields.items()}
    layout.made = type("Known", (Struct,), {"__slots__": (), "_type": layout, **{name: property(get) for name, get in getters.items()}})
    return layout


TYPE = _known(tag=(UINT16, 0), id=(UINT64, 1), any=(UINT16, 4), scope=(UINT64, 2), parameter=(UINT16, 5))
BINDING = _known(is_bound=(UINT16, 0), type=(TYPE, 0))
SCOPE = _known(id=(UINT64, 0), is_inherited=(UINT16, 4), bindings=(_Type(LIST, "", BINDING), 0))
BRAND = _known(scopes=(_Type(LIST, "", SCOPE), 0))
TYPE.made.element, TYPE.made.brand = property(TYPE.getter("element", 0, None)), property(BRAND.getter("brand", 0, None))
NAME, VALUE = (NUMBERS[TEXT], 0), _known()
NAMED = _known(name=NAME, id=(UINT64, 0))
FIELD = _known(name=NAME, member=(UINT16, 1, NO_MEMBER), is_group=(UINT16, 4), index=(UINT32, 1), type=(TYPE, 2),
               default=(VALUE, 3), group=(UINT64, 2))
NODE = _known(id=(UINT64, 0), name=NAME, prefix=(UINT32, 2), tag=(UINT16, 6), data_words=(UINT16, 7), pointers=(UINT16, 12),
              union_offset=(UINT32, 8), nested=(_Type(LIST, "", NAMED), 1), members=(_Type(LIST, "", FIELD), 3), type=(TYPE, 3),
              value=(VALUE, 4))
REQUEST = _known(nodes=(_Type(LIST, "", NODE), 0), files=(_Type(LIST, "", NAMED), 1))
EMPTY = Struct(_Message(bytes((0, 0, 0, 0, 1)).ljust(16, b"\0"), _options(None)), 0, 0, 0, 0, 0, 0, None)


class Schema:
    """What is declared in the files of a CodeGeneratorRequest, the bytes that `capnp compile -o-` writes: structs, enums
    and constants are attributes."""
    def __init__(self, data):
        message = _Message(data, _options())
        request = message.root(REQUEST)
        self._nodes, self._made = {node.id: node for node in request.nodes}, functools.cache(lambda kind, *given: kind(*given))
        for file in request.files:
            self.__dict__.update(self._nested(self._nodes[file.id], ()))
        message.reader[1] = NO_LIMIT  # since defaults are read whenever they are asked for

    def _nested(self, node, brand):
        for item in node.nested:
            found = self._nodes.get(item.id)
            tag, name = found.tag if found else None, _attribute(item.name)
            if tag == 1:
                yield name, self._made(_Layout, self, STRUCT, item.id, brand).cls
            elif tag in (2, 4):
                yield name, self._enum(found) if tag == 2 else self._type(found.type, brand).constant(found.value)

    def _enum(self, node):
        return self._made(_Type, ENUM, node.name[node.prefix:], None, tuple(item.name for item in node.members))

    def _type(self, item, brand):
        if item.tag == LIST:
            return self._made(_Type, LIST, "", self._type(item.element, brand))
        if item.tag == ENUM:
            return self._enum(self._nodes[item.id])
        if item.tag == STRUCT:
            of = lambda binding: self._type(binding.type, brand) if binding.is_bound else ANY_POINTER
            scopes = tuple((scope.id, dict(brand).get(scope.id, ()) if scope.is_inherited else tuple(map(of, scope.bindings)))
                           for scope in item.brand.scopes)
            return self._made(_Layout, self, STRUCT, item.id, scopes)
        if item.tag == ANY and item.any == 1:
            bound = dict(brand).get(item.scope, ())
            return bound[item.parameter] if item.parameter < len(bound) else ANY_POINTER
        return NUMBERS[item.tag] if item.tag < LIST else CAPABILITY if item.tag == INTERFACE else ANY_POINTER


load_request = Schema


def load(path, import_paths=()):
    """The schema of a file, by the C++ tool `capnp`."""
    done = subprocess.run(["capnp", "compile", *(f"-I{folder}" for folder in import_paths), "-o-", path], capture_output=True)
    if done.returncode:
        raise ValueError(done.stderr.decode())
    return load_request(done.stdout)
