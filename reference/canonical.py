"""The canonical text of an item: the shortest code of its kind, save that a payload or body of 255 bytes has four of size."""
from reading import KINDS, PAYLOADS, SIGNED, UNSIGNED, VALUE, WIDTH, Refused

# The code under which elements of an array stand: the widest of their kind.
WIDEST = {kind: max(codes, key=lambda code: (WIDTH[code], code)) for kind, codes in KINDS.items()}
SHORT_SIZE = 254


def constructor(item):
    """What elements like this stand under in an array: a code, or a descriptor and a code; None where they can't."""
    kind, value = item
    if kind == "null":
        return None
    if kind != "described":
        return WIDEST[kind]
    descriptor, inner = value
    code = None if inner[0] == "described" else constructor(inner)
    return None if code is None else (descriptor, code)


def parts(item):
    kind, value = item
    return [part for pair in value for part in pair] if kind == "map" else value


def elements(item):
    """The constructor of an array's elements, and their data."""
    if not item[1]:
        return b""
    first = constructor(item[1][0])
    if first is None or any(constructor(element) != first for element in item[1]):
        raise Refused(VALUE)
    front = b"\0" + text(first[0]) + bytes([first[1]]) if isinstance(first, tuple) else bytes([first])
    return front + b"".join(data(element) for element in item[1])


def number(value, width, kind):
    return value.to_bytes(width, "big", signed=kind in SIGNED)


def sized(body, count, width):
    return number(len(body) + width, width, "uint") + number(count, width, "uint") + body


def data(item):
    """The data of an item under the widest code of its kind."""
    kind, value = item
    if kind == "described":
        return data(value[1])
    if kind in UNSIGNED | SIGNED | {"char", "boolean"}:
        return number(value, WIDTH[WIDEST[kind]], kind)
    if kind in PAYLOADS:
        return number(len(value), 4, "uint") + value
    if kind == "array":
        return sized(elements(item), len(value), 4)
    if kind in ("list", "map"):
        return sized(b"".join(text(part) for part in parts(item)), len(parts(item)), 4)
    return value


def short(item):
    """The text under a short code of its kind; None where it has no such text."""
    kind, value = item
    if kind == "boolean":
        return b"\x41" if value else b"\x42"
    if kind in ("uint", "ulong") and value < 256:
        zero, small = (0x43, 0x52) if kind == "uint" else (0x44, 0x53)
        return bytes([small, value]) if value else bytes([zero])
    if kind in ("int", "long") and -128 <= value < 128:
        return bytes([0x54 if kind == "int" else 0x55]) + number(value, 1, kind)
    if kind in PAYLOADS and len(value) <= SHORT_SIZE:
        return bytes([WIDEST[kind] - 0x10, len(value)]) + value
    if kind in ("list", "map", "array"):
        body = elements(item) if kind == "array" else b"".join(text(part) for part in parts(item))
        if kind == "list" and not body:
            return b"\x45"
        if len(body) <= SHORT_SIZE:
            return bytes([WIDEST[kind] - 0x10]) + sized(body, len(parts(item)), 1)
    return None


def text(item):
    kind, value = item
    if kind == "null":
        return b"\x40"
    if kind == "described":
        return b"\0" + text(value[0]) + text(value[1])
    return short(item) or bytes([WIDEST[kind]]) + data(item)
