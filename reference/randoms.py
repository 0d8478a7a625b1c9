"""Random bytes for a type: a text of some value in some form, short or wide, mostly as it should be, and then changed or not."""
from reading import (
    KIND, KINDS, PAYLOADS, TEXTS, UNSIGNED, WIDTH, Array, Chosen, Described, Enum, Leading, Lent, List, Map, Maybe, Named,
    Primitive, Struct, Told, Tuple,
)

WORDS = [b"", b"a", b"b", b"ab", b"amqp", b"bar", b"is_fool", b"id", b"order", "é".encode(), b"UnitVariant", b"On"]
CODES = sorted(KIND)
PLAIN = [code for code in CODES if KIND[code] not in ("list", "map", "array", "described")]
LISTS, MAPS, ARRAYS = [0xC0, 0xD0], [0xC1, 0xD1], [0xE0, 0xF0]
LONGEST = 400


class TooLong(Exception):
    """A size or a count above 255 behind a short code."""


class Maker:
    """Makes bytes by the chances of one generator of random numbers. A text is made as its constructor and its data."""

    def __init__(self, random):
        self.random = random

    def chance(self, part):
        return self.random.random() < part

    def one(self, of):
        return self.random.choice(of)

    def case(self, wanted):
        """Bytes for a type."""
        while True:
            try:
                text = self.changed(b"".join(self.text(wanted)))
            except TooLong:
                continue
            if len(text) <= LONGEST:
                return text

    def changed(self, text):
        """The text with some bytes cut off, left out, put in or changed."""
        text = bytearray(text)
        for _ in range(self.one([0, 0, 0, 1, 1, 1, 2, 3])):
            at = self.random.randrange(len(text) + 1)
            way = self.one(["cut", "set", "set", "drop", "insert", "append", "near"])
            if way == "cut":
                del text[at:]
            elif way == "insert":
                text.insert(at, self.one(CODES + [1, 2]))
            elif way == "append":
                text += self.random.randbytes(2)
            elif at < len(text):
                if way == "drop":
                    del text[at]
                elif way == "set":
                    text[at] = self.one(CODES + [0, 1, 2, 3, 4, 5, 8, 255, self.random.randrange(256)])
                else:
                    text[at] = min(255, max(0, text[at] + self.one([-1, 1, 2])))
        return bytes(text)

    def data(self, code, word=None):
        """The data of a value without parts."""
        kind, width = KIND[code], WIDTH[code]
        if kind in PAYLOADS:
            word = word if word is not None else self.one(WORDS + ([b"\xff"] if self.chance(0.2) else []))
            return len(word).to_bytes(width, "big") + word
        if kind == "char":
            return self.one([0x61, 0x1F600, 0xE9] + ([0xD800] if self.chance(0.2) else [])).to_bytes(4, "big")
        if width and self.chance(0.6):
            return self.random.randrange(5).to_bytes(width, "big")
        return self.random.randbytes(width)

    def sized(self, code, count, elements, constructor=b""):
        """The data of a list, map or array: now and then with another size or count."""
        width = WIDTH[code]
        size = len(elements) + len(constructor) + width
        size += self.one([1, -1, 2, 5, -3]) if self.chance(0.06) else 0
        count += self.one([1, -1, 2]) if self.chance(0.04) else 0
        if max(size, count) >= 256**width:
            raise TooLong
        return max(size, 0).to_bytes(width, "big") + max(count, 0).to_bytes(width, "big") + constructor + elements

    def parts(self, code, texts):
        """A list or a map of these texts."""
        return bytes([code]), self.sized(code, len(texts), b"".join(texts))

    def whole(self, wanted):
        return b"".join(self.text(wanted))

    def descriptor(self, wanted):
        """A descriptor with its own constructor, mostly the wanted one."""
        if wanted and self.chance(0.9):
            kind, content = self.one(wanted)
            if kind == "symbol":
                return self.one([b"\xa3" + bytes([len(content)]), b"\xb3" + len(content).to_bytes(4, "big")]) + content
            return self.one([b"\x53" + bytes([content]), b"\x80" + content.to_bytes(8, "big")])
        odd = [b"\x40", b"\xa1\x01a", b"\x00", b"\xa3\x01\xff"] if self.chance(0.2) else []
        return self.one([b"\x53\x13", b"\x44", b"\xa3\x01a", b"\x80" + bytes(7) + b"\x10", b"\xb3\0\0\0\x01a"] + odd)

    def anything(self, depth=2):
        """Some item, whole."""
        if depth == 0 or self.chance(0.6):
            code = self.one(PLAIN)
            return bytes([code]) + self.data(code)
        if self.chance(0.25):
            return b"\0" + self.descriptor(None) + self.anything(depth - 1)
        texts = [self.anything(depth - 1) for _ in range(self.one([0, 1, 2, 2, 4]))]
        return b"".join(self.parts(self.one(LISTS + MAPS), texts))

    def text(self, wanted, code=None):
        """A constructor and data for a type; under a code, where one is given, as the type allows."""
        if code is None and self.chance(0.02):
            item = self.anything()
            return item[:1], item[1:]
        if isinstance(wanted, Chosen):
            return self.text(wanted.inner, code)
        if isinstance(wanted, Told):
            return self.text(self.one(wanted.variants), code)
        if isinstance(wanted, Maybe):
            return (b"\x40", b"") if code is None and self.chance(0.3) else self.text(wanted.inner, code)
        return getattr(self, f"text_of_{type(wanted).__name__.lower()}")(wanted, code)

    def text_of_primitive(self, wanted, code):
        code = self.one(list(KINDS[wanted.kind])) if code is None else code
        return bytes([code]), self.data(code)

    def text_of_lent(self, _wanted, code):
        return self.text_of_primitive(Primitive(self.one(sorted(TEXTS))), code)

    def text_of_list(self, wanted, code):
        code = self.one([0x45] + LISTS * 3 + ARRAYS * 2) if code is None else code
        return self.list_or_array(wanted, code)

    def text_of_array(self, wanted, code):
        if code is None and self.chance(0.1):
            return self.text(wanted.element)
        return self.list_or_array(wanted, self.one(ARRAYS) if code is None else code)

    def list_or_array(self, wanted, code):
        count = self.one([0, 1, 1, 2, 2, 3, 5])
        if code == 0x45:
            return b"\x45", b""
        if KIND[code] != "array":
            return self.parts(code, [self.whole(wanted.element) for _ in range(count)])
        if count == 0:
            return bytes([code]), self.sized(code, 0, b"\x40" * self.one([0, 0, 1, 2]))
        constructor, datas = self.elements(wanted.element, count)
        return bytes([code]), self.sized(code, count, b"".join(datas), constructor)

    def elements(self, wanted, count):
        """An element constructor, and the data of so many elements under it."""
        if isinstance(wanted, Described):
            constructor, datas = self.elements(wanted.value, count)
            return b"\0" + self.descriptor(wanted.wanted) + constructor, datas
        constructor = self.text(wanted)[0]
        if len(constructor) != 1 or constructor == b"\0":
            return b"\x40", [b""] * count
        datas = []
        for _ in range(count):
            tried = (self.text(wanted, constructor[0]) for _ in range(20) if constructor != b"\x40")
            datas.append(next((data for front, data in tried if front == constructor), b""))
        return constructor, datas

    def row(self, types, code):
        code = self.one(LISTS if types else [0x45, 0xC0]) if code is None else code
        return (b"\x45", b"") if code == 0x45 else self.parts(code, [self.whole(it) for it in types])

    def text_of_tuple(self, wanted, code):
        return self.row(wanted.types, code)

    def text_of_leading(self, wanted, code):
        types = list(wanted.fields.values())
        return self.row(types[: self.random.randrange(len(types) + 1)] if self.chance(0.5) else types, code)

    def text_of_struct(self, wanted, code):
        if (self.chance(0.5) if code is None else KIND[code] == "map"):
            return self.text_of_named(wanted, code)
        return self.row(list(wanted.fields.values()), code)

    def text_of_named(self, wanted, code):
        """A map from the names of fields in some order, now and then with one too few or too many."""
        names = self.random.sample(list(wanted.fields), len(wanted.fields))
        if self.chance(0.08):
            names.pop()
        if names and self.chance(0.06):
            names.append(self.one(names))
        texts = []
        for name in names:
            key = self.one([0xA1, 0xA1, 0xA1, 0xB1] + ([0xA3] if self.chance(0.05) else []))
            word = name if self.chance(0.97) else "other"
            texts += [bytes([key]) + self.data(key, word.encode()), self.whole(wanted.fields[name])]
        return self.parts(self.one(MAPS) if code is None else code, texts)

    def text_of_map(self, wanted, code):
        texts = [self.whole(it) for _ in range(self.one([0, 1, 2, 3])) for it in (wanted.key, wanted.value)]
        return self.parts(self.one(MAPS) if code is None else code, texts)

    def text_of_described(self, wanted, _code):
        return b"\0" + self.descriptor(wanted.wanted) + self.whole(wanted.value), b""

    def text_of_enum(self, wanted, code):
        """A variant by its index or its name, alone or with what it holds, now and then with something else."""
        variants = list(wanted.variants.items()) + ([("Other", None)] if self.chance(0.1) else [])
        index = self.random.randrange(len(variants))
        name, held = variants[index]
        is_pair = (held is not None) != self.chance(0.08)
        if code is None and self.chance(0.06):
            return b"\0" + self.descriptor(None) + self.anything(0), b""
        if not (is_pair if code is None else KIND[code] in ("list", "map")):
            return self.key(index, name, code)
        value = self.whole(held) if held is not None else self.anything(0)
        return self.parts(self.one(LISTS + MAPS) if code is None else code, [b"".join(self.key(index, name, None)), value])

    def key(self, index, name, code):
        zero = [0x43, 0x44] if index == 0 else []
        code = self.one([0x52, 0x70, 0x53, 0x80, 0xA1, 0xA3, 0xB1, 0xB3] + zero) if code is None else code
        if KIND[code] in UNSIGNED:
            return bytes([code]), index.to_bytes(WIDTH[code], "big") if WIDTH[code] else b""
        return bytes([code]), self.data(code, name.encode())
