//! The calls of amqp_bench.rt.txt once more, over codec.rs.

use crate::codec::{Decode, Encode, Error, from_slice, to_vec};
use std::hint::black_box;

#[cold]
fn refused(error: Error) -> usize {
    !format!("{error:?}").len()
}

#[inline(never)]
fn written<T: Encode>(value: &T) -> Result<Vec<u8>, Error> {
    to_vec(value)
}

#[inline(never)]
fn found<T: Decode>(text: &[u8]) -> Result<T, Error> {
    from_slice(text)
}

pub fn encode<T: Encode + Decode>(text: &[u8], times: u32, out: &mut [u8]) -> usize {
    let value: T = match found(text) {
        Ok(value) => value,
        Err(error) => return refused(error),
    };
    let mut len = 0;
    for _ in 0..times {
        match written(black_box(&value)) {
            Ok(bytes) => {
                len = bytes.len();
                if len == out.len() {
                    out.copy_from_slice(&bytes);
                }
                black_box(&bytes);
            }
            Err(error) => return refused(error),
        }
    }
    len
}

pub fn decode<T: Decode>(text: &[u8], times: u32) -> usize {
    for _ in 0..times {
        let value: Result<T, Error> = found(black_box(text));
        match value {
            Ok(value) => {
                black_box(&value);
            }
            Err(error) => return refused(error),
        }
    }
    times as usize
}
