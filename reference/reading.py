"""What bytes mean as a value of a type, or why they are refused: AMQP 1.0, part 1, read once more, by itself.

An item is a tuple of its kind and its value. A type has one call, `read`, which answers the item of the value that it
reads, as that value is written. Nothing here is taken from the crates, which are compared with it.
"""

KINDS = {
    "null": {0x40: 0},
    "boolean": {0x56: 1, 0x41: 0, 0x42: 0},
    "ubyte": {0x50: 1},
    "ushort": {0x60: 2},
    "uint": {0x70: 4, 0x52: 1, 0x43: 0},
    "ulong": {0x80: 8, 0x53: 1, 0x44: 0},
    "byte": {0x51: 1},
    "short": {0x61: 2},
    "int": {0x71: 4, 0x54: 1},
    "long": {0x81: 8, 0x55: 1},
    "float": {0x72: 4},
    "double": {0x82: 8},
    "decimal32": {0x74: 4},
    "decimal64": {0x84: 8},
    "decimal128": {0x94: 16},
    "char": {0x73: 4},
    "timestamp": {0x83: 8},
    "uuid": {0x98: 16},
    "binary": {0xA0: 1, 0xB0: 4},
    "string": {0xA1: 1, 0xB1: 4},
    "symbol": {0xA3: 1, 0xB3: 4},
    "list": {0x45: 0, 0xC0: 1, 0xD0: 4},
    "map": {0xC1: 1, 0xD1: 4},
    "array": {0xE0: 1, 0xF0: 4},
    "described": {0x00: 0},
}
KIND = {code: kind for kind, codes in KINDS.items() for code in codes}
# The bytes of data behind a code, or of each size, count and length there (section 1.6).
WIDTH = {code: width for codes in KINDS.values() for code, width in codes.items()}

UNSIGNED = {"ubyte", "ushort", "uint", "ulong"}
SIGNED = {"byte", "short", "int", "long", "timestamp"}
TEXTS = {"string", "symbol"}
PAYLOADS = {"binary"} | TEXTS
PARTED = {"list", "map", "array", "described"}
MOST_PARTS = 65_536

MISSING = "Io(UnexpectedEof)"
CODE = "InvalidFormatCode"
VALUE = "InvalidValue"
UTF8 = "InvalidUtf8Encoding"
COUNT = "SequenceLengthMismatch"
LENGTH = "InvalidLength"
MESSAGE = "Message"


class Refused(Exception):
    """The name of a refusal."""


class Reader:
    """Bytes, how many of them were consumed, and the constructor that elements of an array inherit: None outside arrays, a
    code, or a descriptor and a code."""

    def __init__(self, text):
        self.text, self.at, self.inherited = text, 0, None

    def take(self, count):
        if self.at + count > len(self.text):
            raise Refused(MISSING)
        self.at += count
        return self.text[self.at - count : self.at]

    def number(self, width, signed=False):
        return int.from_bytes(self.take(width), "big", signed=signed)

    def own_code(self):
        """The code that the next byte is."""
        if self.at == len(self.text):
            raise Refused(MISSING)
        if self.text[self.at] not in KIND:
            raise Refused(CODE)
        return self.text[self.at]

    def code(self):
        """The code of the next item, which stays."""
        if self.inherited is None:
            return self.own_code()
        return 0x00 if isinstance(self.inherited, tuple) else self.inherited

    def kind(self):
        return KIND[self.code()]

    def begin(self, *kinds):
        """Takes the code of an item of one of these kinds."""
        code = self.code()
        if KIND[code] not in kinds:
            raise Refused(CODE)
        if self.inherited is None:
            self.at += 1
        return code

    def inside(self, constructor, parts):
        """Reads parts under a constructor of their own; behind them the outer one stands again."""
        outer, self.inherited = self.inherited, constructor
        result = parts()
        self.inherited = outer
        return result


def utf8(text):
    try:
        text.decode("utf-8")
    except UnicodeDecodeError:
        raise Refused(UTF8) from None
    return text


def payload(reader, kind, code):
    text = reader.take(reader.number(WIDTH[code]))
    return utf8(text) if kind in TEXTS else text


def header(reader, code, parts=None):
    """The count of a list or a map (sections 1.6.22, 1.6.23); `parts` refuses another count than is wanted."""
    count = 0
    if code != 0x45:
        width = WIDTH[code]
        size, count = reader.number(width), reader.number(width)
        if count > MOST_PARTS:
            raise Refused(VALUE)
        if size < width or (KIND[code] == "map" and count % 2):
            raise Refused(LENGTH)
    if parts:
        parts(code, count)
    return count


def array_header(reader, code):
    """The count of an array (section 1.6.24), the bytes that it has for its elements, and their constructor."""
    width = WIDTH[code]
    size, count = reader.number(width), reader.number(width)
    if count > MOST_PARTS or count > size:
        raise Refused(VALUE)
    if count == 0:
        reader.take(max(size - width, 0))
        return 0, 0, None
    if size < width + 1:
        raise Refused(LENGTH)
    start = reader.at
    constructor = reader.own_code()
    reader.at += 1
    if constructor == 0x00:
        descriptor = read_descriptor(reader, MESSAGE)
        inner = reader.own_code()
        if inner == 0x00:
            raise Refused(CODE)
        reader.at += 1
        constructor = (descriptor, inner)
    room = size - width - (reader.at - start)
    if room < 0:
        raise Refused(LENGTH)
    return count, room, constructor


def read_descriptor(reader, another):
    """A descriptor out of its own bytes: a symbol or an ulong, and `another` is what any other kind is refused as."""
    code = reader.own_code()
    kind = KIND[code]
    if kind not in ("symbol", "ulong"):
        raise Refused(another)
    reader.at += 1
    return (kind, reader.number(WIDTH[code])) if kind == "ulong" else (kind, payload(reader, kind, code))


def begin_described(reader, another=MESSAGE):
    """Takes 0x00 and a descriptor. Answers it, and what the item inherited; what stands behind inherits the code alone."""
    outer = reader.inherited
    reader.begin("described")
    if outer is None:
        return read_descriptor(reader, another), None
    descriptor, reader.inherited = outer
    return descriptor, outer


def look_descriptor(reader):
    """The descriptor of the described item that stands there, all of which stays."""
    if reader.inherited is not None:
        return reader.inherited[0]
    start = reader.at
    try:
        reader.at += 1
        return read_descriptor(reader, CODE)
    finally:
        reader.at = start


def read_row(reader, types):
    """A list of just so many parts, each of its type."""

    def just(_code, count):
        if count != len(types):
            raise Refused(COUNT)

    header(reader, reader.begin("list"), just)
    return reader.inside(None, lambda: [it.read(reader) for it in types])


def read_elements(reader, element, *kinds):
    """The elements of a list or an array."""
    code = reader.begin(*kinds)
    if KIND[code] == "list":
        count = header(reader, code)
        return reader.inside(None, lambda: [element.read(reader) for _ in range(count)])
    count, room, constructor = array_header(reader, code)
    start, elements, outer = reader.at, [], reader.inherited
    for _ in range(count):
        reader.inherited = constructor
        elements.append(element.read(reader))
        if reader.at - start > room:
            raise Refused(VALUE)
    reader.inherited = outer
    return elements


def read_named(reader, fields):
    """The fields of a struct out of a map from just their names, each once."""
    count = header(reader, reader.begin("map"))

    def pairs():
        found = {}
        for _ in range(count // 2):
            name = Primitive("string").read(reader)[1].decode()
            if name in found or name not in fields:
                raise Refused(MESSAGE)
            found[name] = fields[name].read(reader)
        if len(found) < len(fields):
            raise Refused(MESSAGE)
        return [found[name] for name in fields]

    return reader.inside(None, pairs)


class Primitive:
    """A value without parts."""

    def __init__(self, kind):
        self.kind = kind

    def read(self, reader):
        kind, code = self.kind, reader.code()
        if kind.startswith("decimal") and KIND[code] != kind and KIND[code].startswith("decimal"):
            raise Refused(MESSAGE)
        reader.begin(kind)
        width = WIDTH[code]
        if kind == "null":
            return (kind, None)
        if kind == "boolean":
            value = reader.number(1) if width else int(code == 0x41)
            if value > 1:
                raise Refused(VALUE)
            return (kind, value)
        if kind == "char":
            value = reader.number(4)
            if value > 0x10FFFF or 0xD800 <= value < 0xE000:
                raise Refused(VALUE)
            return (kind, value)
        if kind in UNSIGNED or kind in SIGNED:
            return (kind, reader.number(width, kind in SIGNED))
        return (kind, payload(reader, kind, code) if kind in PAYLOADS else reader.take(width))


class Lent:
    """A text that is lent: out of a symbol or a string."""

    def read(self, reader):
        kind = reader.kind()
        if kind not in TEXTS:
            raise Refused(CODE)
        return ("symbol", Primitive(kind).read(reader)[1])


class Maybe:
    """An option."""

    def __init__(self, inner):
        self.inner = inner

    def read(self, reader):
        return (Primitive("null") if reader.code() == 0x40 else self.inner).read(reader)


class List:
    """A list, out of a list or an array."""

    def __init__(self, element):
        self.element = element

    def read(self, reader):
        return ("list", read_elements(reader, self.element, "list", "array"))


class Array:
    """An array; any other item is its only element."""

    def __init__(self, element):
        self.element = element

    def read(self, reader):
        if reader.kind() == "array":
            return ("array", read_elements(reader, self.element, "array"))
        return ("array", [self.element.read(reader)])


class Tuple:
    """A tuple, or a struct that is a list alone."""

    def __init__(self, *types):
        self.types = types

    def read(self, reader):
        return ("list", read_row(reader, self.types))


class Map:
    """A map: of a repeated key the first place, and the last value."""

    def __init__(self, key, value, is_sorted=False):
        self.key, self.value, self.is_sorted = key, value, is_sorted

    def read(self, reader):
        count = header(reader, reader.begin("map"))

        def pairs():
            found = {}
            for _ in range(count // 2):
                key = self.key.read(reader)
                found[key] = self.value.read(reader)
            return list(found.items())

        found = reader.inside(None, pairs)
        return ("map", sorted(found, key=lambda pair: pair[0]) if self.is_sorted else found)


class Described:
    """A value behind a descriptor: any one, or one of these, of which the first is written."""

    def __init__(self, value, wanted=()):
        self.value, self.wanted = value, wanted

    def read(self, reader):
        descriptor, outer = begin_described(reader)
        if self.wanted and descriptor not in self.wanted:
            raise Refused(MESSAGE)
        value = self.value.read(reader)
        reader.inherited = outer
        return ("described", (self.wanted[0] if self.wanted else descriptor, value))


class Told:
    """An enum that is told by descriptor: of each variant a value behind a descriptor of its own."""

    def __init__(self, *variants):
        self.variants = variants

    def read(self, reader):
        if reader.kind() != "described":
            raise Refused(CODE)
        descriptor = look_descriptor(reader)
        for it in self.variants:
            if descriptor in it.wanted:
                return it.read(reader)
        raise Refused(MESSAGE)


class Fields:
    """Fields by their names, in order."""

    def __init__(self, **fields):
        self.fields = fields


class Struct(Fields):
    """A struct, out of the list of its fields or a map from their names."""

    def read(self, reader):
        if reader.kind() == "map":
            return ("list", read_named(reader, self.fields))
        return ("list", read_row(reader, list(self.fields.values())))


class Leading(Fields):
    """What stands behind a struct's descriptor: the list of its fields, of which the last may be left out."""

    def read(self, reader):
        if reader.kind() != "list":
            raise Refused(MESSAGE)
        types = list(self.fields.values())

        def some(_code, count):
            if count > len(types):
                raise Refused(COUNT)

        count = header(reader, reader.begin("list"), some)
        found = reader.inside(None, lambda: [it.read(reader) for it in types[:count]])
        nulls = Reader(b"")
        nulls.inherited = 0x40
        return ("list", found + [it.read(nulls) for it in types[count:]])


class Named(Fields):
    """What stands behind a struct's descriptor: the map from the names of its fields."""

    def read(self, reader):
        if reader.kind() != "map":
            raise Refused(MESSAGE)
        found = read_named(reader, self.fields)
        return ("map", [(("string", name.encode()), value) for name, value in zip(self.fields, found)])


class Chosen:
    """A type that has some of the values of another."""

    def __init__(self, inner, values):
        self.inner, self.values = inner, values

    def read(self, reader):
        item = self.inner.read(reader)
        if item[1] not in self.values:
            raise Refused(VALUE)
        return item


class Enum:
    """An enum: of each variant its name, and the type of what it holds, or None."""

    def __init__(self, **variants):
        self.variants = variants

    def key(self, reader):
        """The index of the variant that stands there by its index or its name."""
        kind = reader.kind()
        if kind not in ("uint", "ulong", "string", "symbol"):
            raise Refused(CODE)
        key = Primitive(kind).read(reader)[1]
        names = [name.encode() for name in self.variants]
        if kind in TEXTS and key in names:
            return names.index(key)
        if kind in UNSIGNED and key < len(names):
            return key
        raise Refused(MESSAGE)

    def pair(self, reader):
        """A variant that holds a value: its key and the value, as a map of one pair or a list of the two."""

        def two(code, count):
            if count != 2:
                raise Refused(CODE if code == 0x45 else LENGTH)

        header(reader, reader.begin("list", "map"), two)

        def parts():
            index = self.key(reader)
            held = list(self.variants.values())[index]
            if held is None:
                raise Refused(COUNT)
            return ("map", [(("uint", index), held.read(reader))])

        return reader.inside(None, parts)

    def read(self, reader):
        kind = reader.kind()
        if kind in ("list", "map"):
            return self.pair(reader)
        if kind == "described":
            look_descriptor(reader)
            raise Refused(MESSAGE)
        index = self.key(reader)
        if list(self.variants.values())[index] is not None:
            raise Refused(CODE)
        return ("uint", index)
