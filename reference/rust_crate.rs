//! Reads lines `TYPE BYTES` by the Rust crate, from memory and from a source, and prints what each of both answers:
//! `ok`, the text that it writes for the value and, of a source, how many bytes are left; or the refusal.

use serde::{Deserialize, Serialize, de::DeserializeOwned};
use serde_amqp::described::Described;
use serde_amqp::primitives::{Array, Dec32, Dec64, Dec128, OrderedMap, Symbol, Timestamp, Uuid};
use serde_amqp::{Error, from_reader, from_slice, to_vec};
use serde_bytes::ByteBuf;
use std::collections::BTreeMap;
use std::io::BufRead;
use std::panic::catch_unwind;
use std::process::exit;
use std::sync::atomic::{AtomicUsize, Ordering};
use std::thread::{sleep, spawn};
use std::time::Duration;

#[derive(Serialize, Deserialize)]
struct Foo {
    bar: u32,
    is_fool: bool,
}

#[derive(Serialize, Deserialize)]
struct Note {
    text: String,
    number: Option<u32>,
}

#[derive(Serialize, Deserialize)]
struct Sensor {
    id: u32,
    readings: Vec<i32>,
    unit: Option<Symbol>,
}

#[derive(Serialize, Deserialize)]
struct Reply {
    question: u64,
    found: Option<Sensor>,
}

#[derive(Serialize, Deserialize)]
struct Offer {
    channels: Array<u32>,
    capabilities: Array<Symbol>,
    limits: Vec<i32>,
}

#[derive(Serialize, Deserialize)]
struct Celsius(i32);

#[derive(Serialize, Deserialize)]
struct Colour(u8, u8, u8);

#[derive(Serialize, Deserialize)]
struct Measurement(u32, String);

#[derive(Serialize, Deserialize)]
enum Enumeration {
    UnitVariant,
    NewTypeVariant(u32),
    TupleVariant(bool, u64, String),
    StructVariant { id: u32, is_true: bool },
}

#[derive(Serialize, Deserialize)]
enum Switch {
    Off,
    On,
}

/// What reads bytes as a type.
type Asks = fn(&[u8]) -> String;

macro_rules! types {
    ($($name:literal: $type:ty),* $(,)?) => {
        &[$(($name, asked::<$type> as Asks)),*]
    };
}

/// The types of `kinds.py` that the crate and serde's derive know.
const TYPES: &[(&str, Asks)] = types![
    "null": (), "bool": bool, "char": char, "string": String, "symbol": Symbol, "binary": ByteBuf,
    "u8": u8, "u16": u16, "u32": u32, "u64": u64, "i8": i8, "i16": i16, "i32": i32, "i64": i64,
    "f32": f32, "f64": f64, "dec32": Dec32, "dec64": Dec64, "dec128": Dec128,
    "timestamp": Timestamp, "uuid": Uuid,
    "option-i32": Option<i32>, "option-null": Option<()>,
    "tuple-u32": (u32,), "tuple-i32": (i32,), "tuple-u32-bool": (u32, bool),
    "tuple-bool-u64-string": (bool, u64, String),
    "tuple-option-i32-option-bool": (Option<i32>, Option<bool>),
    "tuple-u32-tuple-i32-null-bool": (u32, (i32, ()), bool),
    "tuple-null-bool-bool-u32": ((), bool, bool, u32),
    "list-i32": Vec<i32>, "list-u32": Vec<u32>, "list-null": Vec<()>, "list-symbol": Vec<Symbol>,
    "list-option-u32": Vec<Option<u32>>, "list-list-i32": Vec<Vec<i32>>,
    "list-list-u32": Vec<Vec<u32>>, "list-list-list-u32": Vec<Vec<Vec<u32>>>,
    "list-list-string": Vec<Vec<String>>, "list-array-i32": Vec<Array<i32>>,
    "list-described-null": Vec<Described<()>>, "list-described-u32": Vec<Described<u32>>,
    "list-option-enumeration": Vec<Option<Enumeration>>,
    "map-string-u32": OrderedMap<String, u32>, "map-u32-u32": OrderedMap<u32, u32>,
    "map-u32-bool": OrderedMap<u32, bool>, "map-u32-array-i32": OrderedMap<u32, Array<i32>>,
    "map-timestamp-string": OrderedMap<Timestamp, String>, "sorted-u32-u32": BTreeMap<u32, u32>,
    "described-null": Described<()>, "described-described-null": Described<Described<()>>,
    "described-tuple-bool-i32": Described<(bool, i32)>, "described-list-i32": Described<Vec<i32>>,
    "foo": Foo, "note": Note, "sensor": Sensor, "reply": Reply, "offer": Offer,
    "tags": Vec<String>, "celsius": Celsius, "colour": Colour, "measurement": Measurement,
    "enumeration": Enumeration, "switch": Switch,
    "array-bool": Array<bool>, "array-char": Array<char>, "array-string": Array<String>,
    "array-symbol": Array<Symbol>, "array-binary": Array<ByteBuf>,
    "array-u8": Array<u8>, "array-u16": Array<u16>, "array-u32": Array<u32>,
    "array-u64": Array<u64>, "array-i8": Array<i8>, "array-i16": Array<i16>,
    "array-i32": Array<i32>, "array-i64": Array<i64>, "array-f32": Array<f32>,
    "array-f64": Array<f64>, "array-dec32": Array<Dec32>, "array-dec64": Array<Dec64>,
    "array-dec128": Array<Dec128>, "array-timestamp": Array<Timestamp>, "array-uuid": Array<Uuid>,
    "array-list-i32": Array<Vec<i32>>, "array-array-i32": Array<Array<i32>>,
    "array-map-i32-i32": Array<OrderedMap<i32, i32>>,
    "array-map-u32-bool": Array<OrderedMap<u32, bool>>, "array-tuple-u32-bool": Array<(u32, bool)>,
    "array-described-i32": Array<Described<i32>>, "array-described-u32": Array<Described<u32>>,
    "array-described-array-i32": Array<Described<Array<i32>>>, "array-sensor": Array<Sensor>,
    "array-celsius": Array<Celsius>, "array-enumeration": Array<Enumeration>,
    "array-switch": Array<Switch>,
];

fn name(refusal: &Error) -> String {
    match refusal {
        Error::Message(_) => "Message".into(),
        Error::Io(e) => format!("Io({:?})", e.kind()),
        e => format!("{e:?}"),
    }
}

/// What is printed for a value that was read, and is written again.
fn answer<T: Serialize>(read: Result<T, Error>) -> String {
    match read.map(|value| to_vec(&value)) {
        Ok(Ok(text)) => format!("ok {}", text.iter().map(|b| format!("{b:02x}")).collect::<String>()),
        Ok(Err(refusal)) => format!("unwritten {}", name(&refusal)),
        Err(refusal) => format!("refused {}", name(&refusal)),
    }
}

fn asked<T: DeserializeOwned + Serialize>(bytes: &[u8]) -> String {
    let from_memory = answer(from_slice::<T>(bytes));
    let mut left = bytes;
    let from_source = answer(from_reader::<T>(&mut left));
    let rest = if from_source.starts_with("ok") { format!(" rest {}", left.len()) } else { String::new() };
    format!("{from_memory}\t{from_source}{rest}")
}

/// How many answers were begun and ended.
static STEPS: AtomicUsize = AtomicUsize::new(0);

/// Ends the program where an answer takes more than five seconds.
fn watch() {
    let (mut seen, mut seconds) = (0, 0);
    loop {
        sleep(Duration::from_secs(1));
        let now = STEPS.load(Ordering::SeqCst);
        seconds = if now == seen && now % 2 == 1 { seconds + 1 } else { 0 };
        seen = now;
        if seconds > 5 {
            println!("endless\tendless");
            exit(3);
        }
    }
}

fn main() {
    // `rust_crate types` prints the types' names
    if std::env::args().nth(1).is_some() {
        TYPES.iter().for_each(|(name, _)| println!("{name}"));
        return;
    }
    std::panic::set_hook(Box::new(|_| {}));
    spawn(watch);
    for line in std::io::stdin().lock().lines().map_while(Result::ok) {
        let (kind, digits) = line.split_once(' ').expect("a line is a type and bytes");
        let byte = |at| u8::from_str_radix(&digits[at..at + 2], 16).expect("bytes are in hexadecimal");
        let bytes: Vec<u8> = (0..digits.len()).step_by(2).map(byte).collect();
        let (_, asks) = TYPES.iter().find(|(name, _)| *name == kind).expect("the type is known");
        STEPS.fetch_add(1, Ordering::SeqCst);
        let said = catch_unwind(|| asks(&bytes)).unwrap_or_else(|_| "panic\tpanic".into());
        STEPS.fetch_add(1, Ordering::SeqCst);
        println!("{said}");
    }
}
