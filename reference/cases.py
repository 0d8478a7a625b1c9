"""Random bytes of types, and what this codec is to answer for them."""
import random

from canonical import text
from kinds import TYPES
from randoms import Maker
from reading import Reader, Refused


def answer(kind, given):
    """What is answered for bytes of a type: the canonical text of the value and how many bytes are left, or the refusal."""
    reader = Reader(given)
    try:
        item = kind.read(reader)
        return f"ok {text(item).hex()} rest {len(given) - reader.at}"
    except Refused as why:
        return f"refused {why}"


def cases(seed, count, names):
    """So many bytes of each of these types, behind its name."""
    maker = Maker(random.Random(seed))
    return [(name, maker.case(TYPES[name])) for name in names for _ in range(count)]
