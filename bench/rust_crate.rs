//! Runs the cases on the Rust crate serde_amqp itself, and prints a line for each way, as main.rs does of ours.

mod numbers;

use numbers::Numbers;
use serde::de::{Deserialize, DeserializeOwned, Deserializer, Error as _, SeqAccess, Visitor};
use serde::ser::{Serialize, SerializeStruct, Serializer};
use serde_amqp::descriptor::Descriptor;
use serde_amqp::primitives::{Array, Binary, OrderedMap, Symbol};
use serde_amqp::{from_reader, from_slice, to_vec};
use std::hint::black_box;
use std::io::{self, Read};
use std::time::Instant;

const ROUNDS: usize = 300;
/// A run takes about so many ns.
const RUN: u128 = 500_000;
/// Bytes a read, of a source that gives them in pieces.
const PIECE: usize = 4_096;

/// As the crate's own macro reads and writes a struct behind a descriptor: the code of the descriptor, then the fields.
macro_rules! described {
    ($code:literal, $name:ident { $first:ident: $kind:ty, $($field:ident: $of:ty),+ }) => {
        #[derive(PartialEq)]
        struct $name { $first: $kind, $($field: Option<$of>),+ }

        impl Serialize for $name {
            fn serialize<S: Serializer>(&self, to: S) -> Result<S::Ok, S::Error> {
                let count = 2 $(+ { let _ = stringify!($field); 1 })+;
                let mut fields = to.serialize_struct("AMQP1.0_DESCRIBED_LIST", count)?;
                fields.serialize_field("AMQP1.0_DESCRIPTOR", &Descriptor::Code($code))?;
                fields.serialize_field(stringify!($first), &self.$first)?;
                // what is left out is written as null only where a field stands behind it
                let mut missing = 0;
                $(if self.$field.is_some() {
                    for _ in 0..missing {
                        fields.serialize_field("", &())?;
                    }
                    missing = 0;
                    fields.serialize_field(stringify!($field), &self.$field)?;
                } else {
                    missing += 1;
                })+
                let _ = missing;
                fields.end()
            }
        }

        impl<'de> Deserialize<'de> for $name {
            fn deserialize<D: Deserializer<'de>>(from: D) -> Result<$name, D::Error> {
                struct Fields;
                impl<'de> Visitor<'de> for Fields {
                    type Value = $name;
                    fn expecting(&self, to: &mut std::fmt::Formatter) -> std::fmt::Result {
                        to.write_str(stringify!($name))
                    }
                    fn visit_seq<A: SeqAccess<'de>>(self, mut fields: A) -> Result<$name, A::Error> {
                        match fields.next_element()? {
                            Some(Descriptor::Code($code)) => {}
                            _ => return Err(A::Error::custom("another descriptor")),
                        }
                        let Some($first) = fields.next_element()? else {
                            return Err(A::Error::missing_field(stringify!($first)));
                        };
                        $(let $field = fields.next_element()?.flatten();)+
                        Ok($name { $first, $($field),+ })
                    }
                }
                const NAMES: &[&str] = &["AMQP1.0_DESCRIPTOR", stringify!($first), $(stringify!($field)),+];
                from.deserialize_struct("AMQP1.0_DESCRIBED_LIST", NAMES, Fields)
            }
        }
    };
}

described!(0x10, Open {
    container_id: String,
    hostname: String,
    max_frame_size: u32,
    channel_max: u16,
    idle_time_out: u32,
    outgoing_locales: Symbol,
    incoming_locales: Symbol,
    offered_capabilities: Symbol
});

#[derive(serde::Serialize, serde::Deserialize, PartialEq)]
struct Record {
    id: u64,
    name: String,
    active: bool,
    level: i32,
    number: Option<u32>,
}

fn some_record(n: &mut Numbers) -> Record {
    Record {
        id: n.long(),
        name: n.text(12),
        active: n.next() % 2 == 0,
        level: n.next() as i32 >> (n.next() % 32),
        number: (n.next() % 2 == 0).then(|| n.long() as u32),
    }
}

struct Pieces<'a>(&'a [u8]);

impl Read for Pieces<'_> {
    #[inline(never)]
    fn read(&mut self, out: &mut [u8]) -> io::Result<usize> {
        let most = out.len().min(PIECE);
        self.0.read(&mut out[..most])
    }
}

#[inline(never)]
fn written<T: Serialize>(value: &T) -> Vec<u8> {
    to_vec(value).unwrap()
}

#[inline(never)]
fn found<T: DeserializeOwned>(text: &[u8]) -> T {
    from_slice(text).unwrap()
}

#[inline(never)]
fn taken<T: DeserializeOwned>(source: impl Read) -> T {
    from_reader(source).unwrap()
}

/// The least ns of a call.
fn least(call: impl Fn()) -> f64 {
    let run = |times: u32| {
        let start = Instant::now();
        for _ in 0..times {
            call();
        }
        start.elapsed().as_nanos()
    };
    let mut times = 1;
    while run(times) < RUN && times < 1 << 20 {
        times *= 2;
    }
    let took = (0..ROUNDS).map(|_| run(times)).min().unwrap();
    took as f64 / f64::from(times)
}

fn print<T: Serialize + DeserializeOwned + PartialEq>(name: &str, value: T) {
    let text = written(&value);
    assert!(found::<T>(&text) == value, "{name}");
    let line = |way, ns: f64| println!("{name:32} {way:6} {ns:10.1} {:8}", text.len());
    line("encode", least(|| drop(black_box(written(black_box(&value))))));
    line("decode", least(|| drop(black_box(found::<T>(black_box(&text))))));
    line("source", least(|| drop(black_box(taken::<T>(black_box(&text[..]))))));
    line("pieces", least(|| drop(black_box(taken::<T>(Pieces(black_box(&text)))))));
}

/// The heap is to keep its memory, as in main.rs.
fn keep_memory() {
    unsafe extern "C" {
        fn mallopt(parameter: i32, value: i32) -> i32;
    }
    unsafe {
        mallopt(-1, 1 << 30);
        mallopt(-3, 1 << 30);
    }
}

fn main() {
    keep_memory();
    // The values of main.rs, in its order. Arrays of described structs are left out: the crate can't read its own.
    let mut n = Numbers(0x2545_f491_4f6c_dd1d);
    print("vec of 10000 i32", n.ints(10_000));
    print("vec of 1000 strings of 20", (0..1_000).map(|_| n.text(20)).collect::<Vec<_>>());
    let longs = |n: &mut Numbers, count| (0..count).map(|_| n.long()).collect::<Vec<u64>>();
    let rows: Vec<Vec<Vec<u64>>> = (0..20).map(|_| (0..20).map(|_| longs(&mut n, 20)).collect()).collect();
    print("u64, 20 by 20 by 20", rows);
    print("binary of 1 MiB", Binary::from((0..1 << 20).map(|_| n.next() as u8).collect::<Vec<_>>()));
    print("vec of 10000 u64", longs(&mut n, 10_000));
    print("string of 12", n.text(12));
    print("tuple bool, u64, string", (true, n.long(), n.text(12)));
    let mut map = OrderedMap::new();
    for _ in 0..1_000 {
        map.insert(n.text(20), n.long() as u32);
    }
    print("map of 1000 strings", map);
    print("vec of 10 i32", n.ints(10));
    print("struct of 5", some_record(&mut n));
    print("vec of 1000 structs of 5", (0..1_000).map(|_| some_record(&mut n)).collect::<Vec<_>>());
    let tuples = (0..1_000).map(|_| some_record(&mut n)).map(|it| (it.id, it.name, it.active, it.level));
    print("vec of 1000 tuples of 4", tuples.collect::<Vec<_>>());
    let depth_1 = longs(&mut n, 4_096);
    print("4096 u64 at depth 6", vec![vec![vec![vec![vec![depth_1.clone()]]]]]);
    print("4096 u64 at depth 1", depth_1);
    print("array of 10000 i32", Array(n.ints(10_000)));
    print("array of 10000 u32", Array((0..10_000).map(|_| n.long() as u32).collect()));
    let open = Open {
        container_id: n.text(12),
        hostname: Some(n.text(20)),
        max_frame_size: Some(65_536),
        channel_max: Some(2_047),
        idle_time_out: None,
        outgoing_locales: Some(Symbol::from("en-US")),
        incoming_locales: None,
        offered_capabilities: Some(Symbol::from(n.text(16))),
    };
    print("open performative", open);
}
