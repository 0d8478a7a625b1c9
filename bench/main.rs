//! Runs each case on the proved codec and on the one of codec.rs, in turn, and prints a line for each way.

mod codec;
#[cfg(counting)]
mod counting;
#[cfg(not(counting))]
mod instructions;
mod numbers;
mod plain;
#[cfg(not(counting))]
mod timing;

use codec::{Array, Binary, Open, OrderedMap, Record, Small, Symbol};
use numbers::Numbers;

type OursEncode = unsafe extern "C" fn(*const u8, usize, u32, *mut u8, usize) -> usize;
type OursDecode = unsafe extern "C" fn(*const u8, usize, u32) -> usize;
type OursStream = unsafe extern "C" fn(*const u8, usize, u32, usize) -> usize;

/// Bytes a read, of a source that gives them in pieces.
const PIECE: usize = 4_096;

unsafe extern "C" {
    fn amqp_bench_encode_ints(text: *const u8, len: usize, times: u32, out: *mut u8, room: usize) -> usize;
    fn amqp_bench_decode_ints(text: *const u8, len: usize, times: u32) -> usize;
    fn amqp_bench_stream_ints(text: *const u8, len: usize, times: u32, piece: usize) -> usize;
    fn amqp_bench_encode_array_of_ints(text: *const u8, len: usize, times: u32, out: *mut u8, room: usize) -> usize;
    fn amqp_bench_decode_array_of_ints(text: *const u8, len: usize, times: u32) -> usize;
    fn amqp_bench_stream_array_of_ints(text: *const u8, len: usize, times: u32, piece: usize) -> usize;
    fn amqp_bench_encode_array_of_uints(text: *const u8, len: usize, times: u32, out: *mut u8, room: usize) -> usize;
    fn amqp_bench_decode_array_of_uints(text: *const u8, len: usize, times: u32) -> usize;
    fn amqp_bench_stream_array_of_uints(text: *const u8, len: usize, times: u32, piece: usize) -> usize;
    fn amqp_bench_encode_strings(text: *const u8, len: usize, times: u32, out: *mut u8, room: usize) -> usize;
    fn amqp_bench_decode_strings(text: *const u8, len: usize, times: u32) -> usize;
    fn amqp_bench_stream_strings(text: *const u8, len: usize, times: u32, piece: usize) -> usize;
    fn amqp_bench_encode_nested(text: *const u8, len: usize, times: u32, out: *mut u8, room: usize) -> usize;
    fn amqp_bench_decode_nested(text: *const u8, len: usize, times: u32) -> usize;
    fn amqp_bench_stream_nested(text: *const u8, len: usize, times: u32, piece: usize) -> usize;
    fn amqp_bench_encode_binary(text: *const u8, len: usize, times: u32, out: *mut u8, room: usize) -> usize;
    fn amqp_bench_decode_binary(text: *const u8, len: usize, times: u32) -> usize;
    fn amqp_bench_stream_binary(text: *const u8, len: usize, times: u32, piece: usize) -> usize;
    fn amqp_bench_encode_longs(text: *const u8, len: usize, times: u32, out: *mut u8, room: usize) -> usize;
    fn amqp_bench_decode_longs(text: *const u8, len: usize, times: u32) -> usize;
    fn amqp_bench_stream_longs(text: *const u8, len: usize, times: u32, piece: usize) -> usize;
    fn amqp_bench_encode_string(text: *const u8, len: usize, times: u32, out: *mut u8, room: usize) -> usize;
    fn amqp_bench_decode_string(text: *const u8, len: usize, times: u32) -> usize;
    fn amqp_bench_stream_string(text: *const u8, len: usize, times: u32, piece: usize) -> usize;
    fn amqp_bench_encode_tuple(text: *const u8, len: usize, times: u32, out: *mut u8, room: usize) -> usize;
    fn amqp_bench_decode_tuple(text: *const u8, len: usize, times: u32) -> usize;
    fn amqp_bench_stream_tuple(text: *const u8, len: usize, times: u32, piece: usize) -> usize;
    fn amqp_bench_encode_map(text: *const u8, len: usize, times: u32, out: *mut u8, room: usize) -> usize;
    fn amqp_bench_decode_map(text: *const u8, len: usize, times: u32) -> usize;
    fn amqp_bench_stream_map(text: *const u8, len: usize, times: u32, piece: usize) -> usize;
    fn amqp_bench_encode_record(text: *const u8, len: usize, times: u32, out: *mut u8, room: usize) -> usize;
    fn amqp_bench_decode_record(text: *const u8, len: usize, times: u32) -> usize;
    fn amqp_bench_stream_record(text: *const u8, len: usize, times: u32, piece: usize) -> usize;
    fn amqp_bench_encode_records(text: *const u8, len: usize, times: u32, out: *mut u8, room: usize) -> usize;
    fn amqp_bench_decode_records(text: *const u8, len: usize, times: u32) -> usize;
    fn amqp_bench_stream_records(text: *const u8, len: usize, times: u32, piece: usize) -> usize;
    fn amqp_bench_encode_tuples(text: *const u8, len: usize, times: u32, out: *mut u8, room: usize) -> usize;
    fn amqp_bench_decode_tuples(text: *const u8, len: usize, times: u32) -> usize;
    fn amqp_bench_stream_tuples(text: *const u8, len: usize, times: u32, piece: usize) -> usize;
    fn amqp_bench_encode_depth_2(text: *const u8, len: usize, times: u32, out: *mut u8, room: usize) -> usize;
    fn amqp_bench_decode_depth_2(text: *const u8, len: usize, times: u32) -> usize;
    fn amqp_bench_stream_depth_2(text: *const u8, len: usize, times: u32, piece: usize) -> usize;
    fn amqp_bench_encode_depth_4(text: *const u8, len: usize, times: u32, out: *mut u8, room: usize) -> usize;
    fn amqp_bench_decode_depth_4(text: *const u8, len: usize, times: u32) -> usize;
    fn amqp_bench_stream_depth_4(text: *const u8, len: usize, times: u32, piece: usize) -> usize;
    fn amqp_bench_encode_depth_5(text: *const u8, len: usize, times: u32, out: *mut u8, room: usize) -> usize;
    fn amqp_bench_decode_depth_5(text: *const u8, len: usize, times: u32) -> usize;
    fn amqp_bench_stream_depth_5(text: *const u8, len: usize, times: u32, piece: usize) -> usize;
    fn amqp_bench_encode_depth_6(text: *const u8, len: usize, times: u32, out: *mut u8, room: usize) -> usize;
    fn amqp_bench_decode_depth_6(text: *const u8, len: usize, times: u32) -> usize;
    fn amqp_bench_stream_depth_6(text: *const u8, len: usize, times: u32, piece: usize) -> usize;
    fn amqp_bench_encode_open(text: *const u8, len: usize, times: u32, out: *mut u8, room: usize) -> usize;
    fn amqp_bench_decode_open(text: *const u8, len: usize, times: u32) -> usize;
    fn amqp_bench_stream_open(text: *const u8, len: usize, times: u32, piece: usize) -> usize;
    fn amqp_bench_encode_array_of_described(text: *const u8, len: usize, times: u32, out: *mut u8, room: usize) -> usize;
    fn amqp_bench_decode_array_of_described(text: *const u8, len: usize, times: u32) -> usize;
    fn amqp_bench_stream_array_of_described(text: *const u8, len: usize, times: u32, piece: usize) -> usize;
}

/// A value by its text, and the calls for its type.
struct Case {
    name: &'static str,
    text: Vec<u8>,
    ours_encode: OursEncode,
    ours_decode: OursDecode,
    ours_stream: OursStream,
    plain_encode: fn(&[u8], u32, &mut [u8]) -> usize,
    plain_decode: fn(&[u8], u32) -> usize,
}

impl Case {
    fn new<T: codec::Encode + codec::Decode>(
        name: &'static str,
        value: T,
        ours_encode: OursEncode,
        ours_decode: OursDecode,
        ours_stream: OursStream,
    ) -> Case {
        Case {
            name,
            text: codec::to_vec(&value).unwrap(),
            ours_encode,
            ours_decode,
            ours_stream,
            plain_encode: plain::encode::<T>,
            plain_decode: plain::decode::<T>,
        }
    }

    /// What begins the line of one way.
    fn key(&self, way: &str) -> String {
        format!("{:32} {way}", self.name)
    }

    fn ours_encode(&self, times: u32, out: &mut [u8]) -> usize {
        unsafe { (self.ours_encode)(self.text.as_ptr(), self.text.len(), times, out.as_mut_ptr(), out.len()) }
    }

    fn ours_decode(&self, times: u32) -> usize {
        unsafe { (self.ours_decode)(self.text.as_ptr(), self.text.len(), times) }
    }

    /// From a source over the text, which gives so many bytes a read at most, or where `piece` is 0 all that is asked for.
    fn ours_stream(&self, times: u32, piece: usize) -> usize {
        unsafe { (self.ours_stream)(self.text.as_ptr(), self.text.len(), times, piece) }
    }

    fn plain_encode(&self, times: u32, out: &mut [u8]) -> usize {
        (self.plain_encode)(&self.text, times, out)
    }

    fn plain_decode(&self, times: u32) -> usize {
        (self.plain_decode)(&self.text, times)
    }

    /// Both read the text to a value that they write as the very same text.
    fn check(&self) {
        let len = self.text.len();
        let mut out = vec![0; len];
        assert_eq!(self.ours_encode(1, &mut out), len, "{}: ours", self.name);
        assert!(out == self.text, "{}: ours writes other bytes", self.name);
        out.fill(0);
        assert_eq!(self.plain_encode(1, &mut out), len, "{}: plain", self.name);
        assert!(out == self.text, "{}: plain writes other bytes", self.name);
        assert_eq!(self.ours_decode(3), 3, "{}: ours", self.name);
        assert_eq!(self.ours_stream(3, 0), 3, "{}: ours, from a source", self.name);
        assert_eq!(self.ours_stream(3, PIECE), 3, "{}: ours, in pieces", self.name);
        assert_eq!(self.plain_decode(3), 3, "{}: plain", self.name);
        assert_ne!(unsafe { (self.ours_decode)(self.text.as_ptr(), len - 1, 1) }, 1, "{}: ours takes a part", self.name);
        assert_ne!((self.plain_decode)(&self.text[..len - 1], 1), 1, "{}: plain takes a part", self.name);
    }
}

fn some_record(n: &mut Numbers) -> Record {
    Record {
        id: n.long(),
        name: n.text(12),
        active: n.next() % 2 == 0,
        level: n.next() as i32 >> (n.next() % 32),
        number: (n.next() % 2 == 0).then(|| n.long() as u32),
    }
}

fn cases() -> Vec<Case> {
    let mut n = Numbers(0x2545_f491_4f6c_dd1d);
    let ints = n.ints(10_000);
    let strings: Vec<String> = (0..1_000).map(|_| n.text(20)).collect();
    let nested: Vec<Vec<Vec<u64>>> =
        (0..20).map(|_| (0..20).map(|_| (0..20).map(|_| n.long()).collect()).collect()).collect();
    let binary = Binary((0..1 << 20).map(|_| n.next() as u8).collect());
    let longs: Vec<u64> = (0..10_000).map(|_| n.long()).collect();
    let string = n.text(12);
    let tuple = (true, n.long(), n.text(12));
    let mut map = OrderedMap::default();
    for _ in 0..1_000 {
        let key = n.text(20);
        map.insert(key, n.long() as u32);
    }
    let few = n.ints(10);
    let record = some_record(&mut n);
    let records: Vec<Record> = (0..1_000).map(|_| some_record(&mut n)).collect();
    let tuples: Vec<(u64, String, bool, i32)> = (0..1_000)
        .map(|_| some_record(&mut n))
        .map(|it| (it.id, it.name, it.active, it.level))
        .collect();
    // The same numbers in a list alone, and in lists around it that have one element each.
    let depth_1: Vec<u64> = (0..4_096).map(|_| n.long()).collect();
    let depth_2 = vec![depth_1.clone()];
    let depth_3 = vec![depth_2.clone()];
    let depth_4 = vec![depth_3.clone()];
    let depth_5 = vec![depth_4.clone()];
    let depth_6 = vec![depth_5.clone()];
    let array_of_ints = Array(n.ints(10_000));
    let array_of_uints: Array<u32> = Array((0..10_000).map(|_| n.long() as u32).collect());
    let open = Open {
        container_id: n.text(12),
        hostname: Some(n.text(20)),
        max_frame_size: Some(65_536),
        channel_max: Some(2_047),
        idle_time_out: None,
        outgoing_locales: Some(Symbol("en-US".to_owned())),
        incoming_locales: None,
        offered_capabilities: Some(Symbol(n.text(16))),
    };
    let array_of_described =
        Array((0..1_000).map(|_| Small { number: n.long() as u32, flag: n.next() % 2 == 0 }).collect());
    vec![
        Case::new("vec of 10000 i32", ints, amqp_bench_encode_ints, amqp_bench_decode_ints, amqp_bench_stream_ints),
        Case::new("vec of 1000 strings of 20", strings, amqp_bench_encode_strings, amqp_bench_decode_strings, amqp_bench_stream_strings),
        Case::new("u64, 20 by 20 by 20", nested, amqp_bench_encode_nested, amqp_bench_decode_nested, amqp_bench_stream_nested),
        Case::new("binary of 1 MiB", binary, amqp_bench_encode_binary, amqp_bench_decode_binary, amqp_bench_stream_binary),
        Case::new("vec of 10000 u64", longs, amqp_bench_encode_longs, amqp_bench_decode_longs, amqp_bench_stream_longs),
        Case::new("string of 12", string, amqp_bench_encode_string, amqp_bench_decode_string, amqp_bench_stream_string),
        Case::new("tuple bool, u64, string", tuple, amqp_bench_encode_tuple, amqp_bench_decode_tuple, amqp_bench_stream_tuple),
        Case::new("map of 1000 strings", map, amqp_bench_encode_map, amqp_bench_decode_map, amqp_bench_stream_map),
        Case::new("vec of 10 i32", few, amqp_bench_encode_ints, amqp_bench_decode_ints, amqp_bench_stream_ints),
        Case::new("struct of 5", record, amqp_bench_encode_record, amqp_bench_decode_record, amqp_bench_stream_record),
        Case::new("vec of 1000 structs of 5", records, amqp_bench_encode_records, amqp_bench_decode_records, amqp_bench_stream_records),
        Case::new("vec of 1000 tuples of 4", tuples, amqp_bench_encode_tuples, amqp_bench_decode_tuples, amqp_bench_stream_tuples),
        Case::new("array of 10000 i32", array_of_ints, amqp_bench_encode_array_of_ints, amqp_bench_decode_array_of_ints, amqp_bench_stream_array_of_ints),
        Case::new("array of 10000 u32", array_of_uints, amqp_bench_encode_array_of_uints, amqp_bench_decode_array_of_uints, amqp_bench_stream_array_of_uints),
        Case::new("4096 u64 at depth 1", depth_1, amqp_bench_encode_longs, amqp_bench_decode_longs, amqp_bench_stream_longs),
        Case::new("4096 u64 at depth 2", depth_2, amqp_bench_encode_depth_2, amqp_bench_decode_depth_2, amqp_bench_stream_depth_2),
        Case::new("4096 u64 at depth 3", depth_3, amqp_bench_encode_nested, amqp_bench_decode_nested, amqp_bench_stream_nested),
        Case::new("4096 u64 at depth 4", depth_4, amqp_bench_encode_depth_4, amqp_bench_decode_depth_4, amqp_bench_stream_depth_4),
        Case::new("4096 u64 at depth 5", depth_5, amqp_bench_encode_depth_5, amqp_bench_decode_depth_5, amqp_bench_stream_depth_5),
        Case::new("4096 u64 at depth 6", depth_6, amqp_bench_encode_depth_6, amqp_bench_decode_depth_6, amqp_bench_stream_depth_6),
        Case::new("open performative", open, amqp_bench_encode_open, amqp_bench_decode_open, amqp_bench_stream_open),
        Case::new(
            "array of 1000 described structs",
            array_of_described,
            amqp_bench_encode_array_of_described,
            amqp_bench_decode_array_of_described,
            amqp_bench_stream_array_of_described,
        ),
    ]
}

/// The heap is to keep its memory, so that neither side's calls pay for pages of the system's.
fn keep_memory() {
    unsafe extern "C" {
        fn mallopt(parameter: i32, value: i32) -> i32;
    }
    const TRIM_THRESHOLD: i32 = -1;
    const MMAP_THRESHOLD: i32 = -3;
    unsafe {
        mallopt(TRIM_THRESHOLD, 1 << 30);
        mallopt(MMAP_THRESHOLD, 1 << 30);
    }
}

fn main() {
    keep_memory();
    let cases = cases();
    for case in &cases {
        case.check();
    }
    #[cfg(counting)]
    counting::run(&cases);
    #[cfg(not(counting))]
    match std::env::args().nth(1) {
        None => instructions::run(&cases),
        Some(counts) => timing::run(&cases, &std::fs::read_to_string(counts).unwrap()),
    }
}
