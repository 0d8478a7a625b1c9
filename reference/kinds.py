"""The types that a line of `crates/codec_cases` can name."""
from reading import Array, Chosen, Described, Enum, Leading, Lent, List, Map, Maybe, Named, Primitive, Struct, Told, Tuple

PRIMITIVES = {
    name: Primitive(kind)
    for name, kind in (word.split(":") for word in """null:null bool:boolean u8:ubyte u16:ushort u32:uint u64:ulong i8:byte i16:short
        i32:int i64:long char:char f32:float f64:double dec32:decimal32 dec64:decimal64 dec128:decimal128 timestamp:timestamp
        uuid:uuid string:string symbol:symbol binary:binary""".split())
}
NULL, BOOL, U8, U16, U32, U64, _I8, _I16, I32 = list(PRIMITIVES.values())[:9]
STRING, SYMBOL, BINARY = (PRIMITIVES[name] for name in ("string", "symbol", "binary"))
TIMESTAMP, UUID = PRIMITIVES["timestamp"], PRIMITIVES["uuid"]
TEXT = Lent()


def behind(code, value, name=None):
    """A value behind a code, or behind the name that may stand in its place."""
    return Described(value, [("ulong", code)] + ([("symbol", name.encode())] if name else []))


MEASUREMENT = Tuple(U32, STRING)
SENSOR = Struct(id=U32, readings=List(I32), unit=Maybe(SYMBOL))
OPEN = behind(0x10, Leading(container_id=STRING, hostname=Maybe(STRING), max_frame_size=Maybe(U32), channel_max=Maybe(U16)), "amqp:open:list")
DATA = behind(0x75, BINARY, "amqp:data:binary")
RECEIVED = behind(0x23, Leading(section_number=U32, section_offset=U64), "amqp:received:list")
ACCEPTED = behind(0x24, Leading(), "amqp:accepted:list")
ENUMERATION = Enum(UnitVariant=None, NewTypeVariant=U32, TupleVariant=Tuple(BOOL, U64, STRING), StructVariant=Tuple(U32, BOOL))
SWITCH = Enum(Off=None, On=None)

TYPES = PRIMITIVES | {
    "option-i32": Maybe(I32),
    "option-null": Maybe(NULL),
    "tuple-u32": Tuple(U32),
    "tuple-i32": Tuple(I32),
    "tuple-u32-bool": Tuple(U32, BOOL),
    "tuple-bool-u64-string": Tuple(BOOL, U64, STRING),
    "tuple-option-i32-option-bool": Tuple(Maybe(I32), Maybe(BOOL)),
    "tuple-u32-tuple-i32-null-bool": Tuple(U32, Tuple(I32, NULL), BOOL),
    "tuple-null-bool-bool-u32": Tuple(NULL, BOOL, BOOL, U32),
    "list-i32": List(I32),
    "list-u32": List(U32),
    "list-null": List(NULL),
    "list-symbol": List(SYMBOL),
    "list-option-u32": List(Maybe(U32)),
    "list-list-i32": List(List(I32)),
    "list-list-u32": List(List(U32)),
    "list-list-list-u32": List(List(List(U32))),
    "list-list-string": List(List(STRING)),
    "list-array-i32": List(Array(I32)),
    "array-list-i32": Array(List(I32)),
    "array-array-i32": Array(Array(I32)),
    "array-map-i32-i32": Array(Map(I32, I32)),
    "array-map-u32-bool": Array(Map(U32, BOOL)),
    "array-tuple-u32-bool": Array(Tuple(U32, BOOL)),
    "map-string-u32": Map(STRING, U32),
    "map-u32-u32": Map(U32, U32),
    "map-u32-bool": Map(U32, BOOL),
    "map-u32-array-i32": Map(U32, Array(I32)),
    "map-timestamp-string": Map(TIMESTAMP, STRING),
    "map-u64-string": Map(U64, STRING),
    "sorted-u32-u32": Map(U32, U32, is_sorted=True),
    "sorted-string-i32": Map(STRING, I32, is_sorted=True),
    "described-null": Described(NULL),
    "described-described-null": Described(Described(NULL)),
    "described-tuple-bool-i32": Described(Tuple(BOOL, I32)),
    "described-list-i32": Described(List(I32)),
    "list-described-null": List(Described(NULL)),
    "list-described-u32": List(Described(U32)),
    "array-described-i32": Array(Described(I32)),
    "array-described-u32": Array(Described(U32)),
    "array-described-array-i32": Array(Described(Array(I32))),
    "symbol-ref": TEXT,
    "binary-ref": BINARY,
    "option-symbol-ref": Maybe(TEXT),
    "list-symbol-ref": List(TEXT),
    "list-option-binary-ref": List(Maybe(BINARY)),
    "array-symbol-ref": Array(TEXT),
    "tuple-symbol-ref-binary-ref": Tuple(TEXT, BINARY),
    "map-symbol-ref-binary-ref": Map(TEXT, BINARY),
    "sorted-symbol-ref-u32": Map(TEXT, U32, is_sorted=True),
    "described-symbol-ref": Described(TEXT),
    "array-described-symbol-ref": Array(Described(TEXT)),
    "foo": Struct(bar=U32, is_fool=BOOL),
    "note": Struct(text=STRING, number=Maybe(U32)),
    "tags": List(STRING),
    "celsius": I32,
    "colour": Tuple(U8, U8, U8),
    "measurement": MEASUREMENT,
    "pair": Tuple(Tuple(U32, I32), List(MEASUREMENT)),
    "list-tuple-celsius-bool-string": List(Tuple(I32, BOOL, STRING)),
    "sensor": SENSOR,
    "reply": Struct(question=U64, found=Maybe(SENSOR)),
    "station": Struct(
        heights=List(I32), names=List(STRING), region=Maybe(SYMBOL), counts=Map(STRING, U32),
        visits=Map(U32, U64, is_sorted=True), **{"main-sensor": SENSOR}, sensors=List(SENSOR),
    ),
    "delivery": Struct(
        delivery_number=U32, delivery_tag=BINARY, message_format=U32, message_number=Maybe(U64), is_settled=BOOL,
        more_follows=BOOL, creation_time=TIMESTAMP, expiry_time=Maybe(TIMESTAMP), user_name=STRING, content_type=SYMBOL,
        correlation=Maybe(UUID), traced_nodes=List(STRING),
    ),
    "offer": Struct(channels=Array(U32), capabilities=Array(SYMBOL), limits=List(I32)),
    "priority": Chosen(U8, range(3)),
    "array-sensor": Array(SENSOR),
    "array-celsius": Array(I32),
    "open": OPEN,
    "array-open": Array(OPEN),
    "properties": behind(0x73, Leading(
        message_id=Maybe(U64), user_id=Maybe(BINARY), to=Maybe(STRING), subject=Maybe(STRING), reply_to=Maybe(STRING),
        correlation_id=Maybe(U64), content_type=Maybe(SYMBOL), content_encoding=Maybe(SYMBOL),
        absolute_expiry_time=Maybe(TIMESTAMP), creation_time=Maybe(TIMESTAMP), group_id=Maybe(STRING),
        group_sequence=Maybe(U32), reply_to_group_id=Maybe(STRING),
    )),
    "accepted": ACCEPTED,
    "array-accepted": Array(ACCEPTED),
    "delivery-state": Told(RECEIVED, ACCEPTED),
    "sasl-init": behind(0x41, Leading(mechanism=TEXT, initial_response=Maybe(BINARY), hostname=Maybe(STRING))),
    "shipment": behind(0x74, Named(**{"order-number": U64}, carrier=STRING, fragile=BOOL, note=Maybe(STRING)), "amqp:application-properties:map"),
    "data": DATA,
    "selector": Described(STRING, [("symbol", b"apache.org:selector-filter:string")]),
    "array-data": Array(DATA),
    "enumeration": ENUMERATION,
    "switch": SWITCH,
    "array-enumeration": Array(ENUMERATION),
    "array-switch": Array(SWITCH),
    "list-option-enumeration": List(Maybe(ENUMERATION)),
}
TYPES |= {f"array-{name}": Array(it) for name, it in PRIMITIVES.items() if name != "null"}
TYPES |= {
    f"whole-{name}": TYPES[name]
    for name in """string symbol binary list-i32 list-list-string array-string tuple-bool-u64-string map-string-u32 sorted-u32-u32
        described-list-i32""".split()
}
