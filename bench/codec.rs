//! A plain codec for the same jobs, written by hand: vectors, slices, and every check of a code, a size and a text.
//! It writes the same canonical bytes.

use std::collections::HashMap;
use std::collections::hash_map::Entry;

#[derive(Debug)]
pub enum Error {
    End,
    Code,
    Count,
    Size,
    Left,
    Utf8,
    Value,
    Name,
    Descriptor,
    TooLong,
}

/// No list has more elements.
const MOST: usize = 65_536;
/// The longest payload or body behind a size of one byte.
const NARROW: usize = 254;

#[derive(Debug, PartialEq)]
pub struct Binary(pub Vec<u8>);

#[derive(Debug, PartialEq)]
pub struct Symbol(pub String);

/// Numbers, or structs behind a descriptor, that are written as an array.
#[derive(Debug, PartialEq)]
pub struct Array<T>(pub Vec<T>);

/// A struct, which is written as a list of its fields.
#[derive(Debug, PartialEq)]
pub struct Record {
    pub id: u64,
    pub name: String,
    pub active: bool,
    pub level: i32,
    pub number: Option<u32>,
}

/// A struct that is written as a list of its fields behind a descriptor.
#[derive(Debug, PartialEq)]
pub struct Open {
    pub container_id: String,
    pub hostname: Option<String>,
    pub max_frame_size: Option<u32>,
    pub channel_max: Option<u16>,
    pub idle_time_out: Option<u32>,
    pub outgoing_locales: Option<Symbol>,
    pub incoming_locales: Option<Symbol>,
    pub offered_capabilities: Option<Symbol>,
}

impl Open {
    const DESCRIPTOR: u8 = 0x10;
}

/// As `Open`: an element of an array.
#[derive(Debug, PartialEq)]
pub struct Small {
    pub number: u32,
    pub flag: bool,
}

impl Small {
    const DESCRIPTOR: u8 = 0x24;
}

/// A map that keeps the order in which its keys came.
#[derive(Debug, Default, PartialEq)]
pub struct OrderedMap {
    pub keys: Vec<String>,
    pub values: HashMap<String, u32>,
}

impl OrderedMap {
    /// A key that is there keeps its place and gets the value.
    #[inline]
    pub fn insert(&mut self, key: String, value: u32) {
        match self.values.entry(key) {
            Entry::Occupied(mut there) => {
                there.insert(value);
            }
            Entry::Vacant(room) => {
                self.keys.push(room.key().clone());
                room.insert(value);
            }
        }
    }
}

pub trait Encode {
    fn encode(&self, out: &mut Vec<u8>) -> Result<(), Error>;
}

pub trait Decode: Sized {
    fn decode(input: &mut &[u8]) -> Result<Self, Error>;
}

pub fn to_vec<T: Encode>(value: &T) -> Result<Vec<u8>, Error> {
    let mut out = Vec::new();
    value.encode(&mut out)?;
    Ok(out)
}

/// The value at the front of the text; what stands behind it is ignored.
pub fn from_slice<T: Decode>(mut text: &[u8]) -> Result<T, Error> {
    T::decode(&mut text)
}

/// What an array has: its data behind a constructor that all share.
pub trait Element: Sized {
    /// The code of the widest data, behind the descriptor where there is one.
    const WIDEST: &'static [u8];

    fn put(&self, out: &mut Vec<u8>) -> Result<(), Error>;

    /// So many elements under the constructor, whose first byte is the code.
    fn get(code: u8, count: usize, body: &mut &[u8]) -> Result<Vec<Self>, Error>;
}

impl Encode for bool {
    #[inline]
    fn encode(&self, out: &mut Vec<u8>) -> Result<(), Error> {
        out.push(if *self { 0x41 } else { 0x42 });
        Ok(())
    }
}

impl Encode for u16 {
    #[inline]
    fn encode(&self, out: &mut Vec<u8>) -> Result<(), Error> {
        let [a, b] = self.to_be_bytes();
        out.extend_from_slice(&[0x60, a, b]);
        Ok(())
    }
}

impl Encode for u32 {
    #[inline]
    fn encode(&self, out: &mut Vec<u8>) -> Result<(), Error> {
        match *self {
            0 => out.push(0x43),
            v @ 1..=255 => out.extend_from_slice(&[0x52, v as u8]),
            v => {
                let [a, b, c, d] = v.to_be_bytes();
                out.extend_from_slice(&[0x70, a, b, c, d]);
            }
        }
        Ok(())
    }
}

impl Encode for u64 {
    #[inline]
    fn encode(&self, out: &mut Vec<u8>) -> Result<(), Error> {
        match *self {
            0 => out.push(0x44),
            v @ 1..=255 => out.extend_from_slice(&[0x53, v as u8]),
            v => {
                let [a, b, c, d, e, f, g, h] = v.to_be_bytes();
                out.extend_from_slice(&[0x80, a, b, c, d, e, f, g, h]);
            }
        }
        Ok(())
    }
}

impl Encode for i32 {
    #[inline]
    fn encode(&self, out: &mut Vec<u8>) -> Result<(), Error> {
        match i8::try_from(*self) {
            Ok(v) => out.extend_from_slice(&[0x54, v as u8]),
            Err(_) => {
                let [a, b, c, d] = self.to_be_bytes();
                out.extend_from_slice(&[0x71, a, b, c, d]);
            }
        }
        Ok(())
    }
}

impl<T: Encode> Encode for Option<T> {
    #[inline]
    fn encode(&self, out: &mut Vec<u8>) -> Result<(), Error> {
        match self {
            Some(value) => value.encode(out),
            None => {
                out.push(0x40);
                Ok(())
            }
        }
    }
}

#[inline]
fn payload(narrow: u8, wide: u8, bytes: &[u8], out: &mut Vec<u8>) -> Result<(), Error> {
    let len = bytes.len();
    if len <= NARROW {
        out.extend_from_slice(&[narrow, len as u8]);
    } else {
        let [a, b, c, d] = u32::try_from(len).map_err(|_| Error::TooLong)?.to_be_bytes();
        out.extend_from_slice(&[wide, a, b, c, d]);
    }
    out.extend_from_slice(bytes);
    Ok(())
}

impl Encode for String {
    #[inline]
    fn encode(&self, out: &mut Vec<u8>) -> Result<(), Error> {
        payload(0xa1, 0xb1, self.as_bytes(), out)
    }
}

impl Encode for Symbol {
    #[inline]
    fn encode(&self, out: &mut Vec<u8>) -> Result<(), Error> {
        payload(0xa3, 0xb3, self.0.as_bytes(), out)
    }
}

impl Encode for Binary {
    #[inline]
    fn encode(&self, out: &mut Vec<u8>) -> Result<(), Error> {
        payload(0xa0, 0xb0, &self.0, out)
    }
}

/// Room is left for the wide header; where the narrow one serves, the body is moved down.
#[inline]
fn compound(
    narrow: u8,
    wide: u8,
    count: usize,
    out: &mut Vec<u8>,
    parts: impl FnOnce(&mut Vec<u8>) -> Result<(), Error>,
) -> Result<(), Error> {
    let start = out.len();
    out.extend_from_slice(&[wide, 0, 0, 0, 0, 0, 0, 0, 0]);
    parts(out)?;
    let body = start + 9;
    let len = out.len() - body;
    if len <= NARROW {
        out[start..start + 3].copy_from_slice(&[narrow, len as u8 + 1, count as u8]);
        out.copy_within(body.., start + 3);
        out.truncate(start + 3 + len);
    } else {
        let size = u32::try_from(len + 4).map_err(|_| Error::TooLong)?;
        let count = u32::try_from(count).map_err(|_| Error::TooLong)?;
        out[start + 1..start + 5].copy_from_slice(&size.to_be_bytes());
        out[start + 5..body].copy_from_slice(&count.to_be_bytes());
    }
    Ok(())
}

impl<T: Encode> Encode for Vec<T> {
    fn encode(&self, out: &mut Vec<u8>) -> Result<(), Error> {
        if self.is_empty() {
            out.push(0x45);
            return Ok(());
        }
        compound(0xc0, 0xd0, self.len(), out, |out| {
            for item in self {
                item.encode(out)?;
            }
            Ok(())
        })
    }
}

impl Element for u32 {
    const WIDEST: &'static [u8] = &[0x70];

    #[inline]
    fn put(&self, out: &mut Vec<u8>) -> Result<(), Error> {
        out.extend_from_slice(&self.to_be_bytes());
        Ok(())
    }

    #[inline]
    fn get(code: u8, count: usize, body: &mut &[u8]) -> Result<Vec<u32>, Error> {
        match code {
            0x43 => Ok(vec![0; count]),
            0x52 => each(count, body, |[v]| u32::from(v)),
            0x70 => each(count, body, u32::from_be_bytes),
            _ => Err(Error::Code),
        }
    }
}

impl Element for i32 {
    const WIDEST: &'static [u8] = &[0x71];

    #[inline]
    fn put(&self, out: &mut Vec<u8>) -> Result<(), Error> {
        out.extend_from_slice(&self.to_be_bytes());
        Ok(())
    }

    #[inline]
    fn get(code: u8, count: usize, body: &mut &[u8]) -> Result<Vec<i32>, Error> {
        match code {
            0x54 => each(count, body, |[v]| i32::from(v as i8)),
            0x71 => each(count, body, i32::from_be_bytes),
            _ => Err(Error::Code),
        }
    }
}

impl Small {
    #[inline]
    fn put_fields(&self, out: &mut Vec<u8>) -> Result<(), Error> {
        self.number.encode(out)?;
        self.flag.encode(out)
    }

    #[inline]
    fn fields(count: usize, mut body: &[u8]) -> Result<Small, Error> {
        let mut left = at_most(2, count)?;
        let small = Small { number: field(&mut left, &mut body)?, flag: field(&mut left, &mut body)? };
        ended(body, small)
    }
}

impl Element for Small {
    const WIDEST: &'static [u8] = &[0x00, 0x53, Small::DESCRIPTOR, 0xd0];

    #[inline]
    fn put(&self, out: &mut Vec<u8>) -> Result<(), Error> {
        let start = out.len();
        out.extend_from_slice(&[0, 0, 0, 0, 0, 0, 0, 2]);
        self.put_fields(out)?;
        let size = u32::try_from(out.len() - (start + 4)).map_err(|_| Error::TooLong)?;
        out[start..start + 4].copy_from_slice(&size.to_be_bytes());
        Ok(())
    }

    fn get(code: u8, count: usize, body: &mut &[u8]) -> Result<Vec<Small>, Error> {
        if code != 0 {
            return Err(Error::Code);
        }
        descriptor(Small::DESCRIPTOR, body)?;
        let code = byte(body)?;
        let mut items = Vec::with_capacity(count.min(body.len()));
        for _ in 0..count {
            let (count, data) = list_data(code, body)?;
            items.push(Small::fields(count, data)?);
        }
        Ok(items)
    }
}

impl<T: Element> Encode for Array<T> {
    fn encode(&self, out: &mut Vec<u8>) -> Result<(), Error> {
        if self.0.is_empty() {
            out.extend_from_slice(&[0xe0, 1, 0]);
            return Ok(());
        }
        compound(0xe0, 0xf0, self.0.len(), out, |out| {
            out.extend_from_slice(T::WIDEST);
            for item in &self.0 {
                item.put(out)?;
            }
            Ok(())
        })
    }
}

impl<A: Encode, B: Encode, C: Encode> Encode for (A, B, C) {
    fn encode(&self, out: &mut Vec<u8>) -> Result<(), Error> {
        compound(0xc0, 0xd0, 3, out, |out| {
            self.0.encode(out)?;
            self.1.encode(out)?;
            self.2.encode(out)
        })
    }
}

impl<A: Encode, B: Encode, C: Encode, D: Encode> Encode for (A, B, C, D) {
    fn encode(&self, out: &mut Vec<u8>) -> Result<(), Error> {
        compound(0xc0, 0xd0, 4, out, |out| {
            self.0.encode(out)?;
            self.1.encode(out)?;
            self.2.encode(out)?;
            self.3.encode(out)
        })
    }
}

impl Encode for Record {
    fn encode(&self, out: &mut Vec<u8>) -> Result<(), Error> {
        compound(0xc0, 0xd0, 5, out, |out| {
            self.id.encode(out)?;
            self.name.encode(out)?;
            self.active.encode(out)?;
            self.level.encode(out)?;
            self.number.encode(out)
        })
    }
}

impl Encode for Open {
    fn encode(&self, out: &mut Vec<u8>) -> Result<(), Error> {
        out.extend_from_slice(&[0x00, 0x53, Open::DESCRIPTOR]);
        compound(0xc0, 0xd0, 8, out, |out| {
            self.container_id.encode(out)?;
            self.hostname.encode(out)?;
            self.max_frame_size.encode(out)?;
            self.channel_max.encode(out)?;
            self.idle_time_out.encode(out)?;
            self.outgoing_locales.encode(out)?;
            self.incoming_locales.encode(out)?;
            self.offered_capabilities.encode(out)
        })
    }
}

impl Encode for OrderedMap {
    fn encode(&self, out: &mut Vec<u8>) -> Result<(), Error> {
        compound(0xc1, 0xd1, 2 * self.keys.len(), out, |out| {
            for key in &self.keys {
                key.encode(out)?;
                self.values[key].encode(out)?;
            }
            Ok(())
        })
    }
}

#[inline]
fn take<'a>(input: &mut &'a [u8], len: usize) -> Result<&'a [u8], Error> {
    let (front, rest) = input.split_at_checked(len).ok_or(Error::End)?;
    *input = rest;
    Ok(front)
}

#[inline]
fn array<const N: usize>(input: &mut &[u8]) -> Result<[u8; N], Error> {
    let (front, rest) = input.split_first_chunk::<N>().ok_or(Error::End)?;
    *input = rest;
    Ok(*front)
}

#[inline]
fn byte(input: &mut &[u8]) -> Result<u8, Error> {
    let (first, rest) = input.split_first().ok_or(Error::End)?;
    *input = rest;
    Ok(*first)
}

impl Decode for bool {
    #[inline]
    fn decode(input: &mut &[u8]) -> Result<bool, Error> {
        match byte(input)? {
            0x41 => Ok(true),
            0x42 => Ok(false),
            0x56 => match byte(input)? {
                0 => Ok(false),
                1 => Ok(true),
                _ => Err(Error::Value),
            },
            _ => Err(Error::Code),
        }
    }
}

impl Decode for u16 {
    #[inline]
    fn decode(input: &mut &[u8]) -> Result<u16, Error> {
        match byte(input)? {
            0x60 => Ok(u16::from_be_bytes(array(input)?)),
            _ => Err(Error::Code),
        }
    }
}

impl Decode for u32 {
    #[inline]
    fn decode(input: &mut &[u8]) -> Result<u32, Error> {
        match byte(input)? {
            0x43 => Ok(0),
            0x52 => Ok(u32::from(byte(input)?)),
            0x70 => Ok(u32::from_be_bytes(array(input)?)),
            _ => Err(Error::Code),
        }
    }
}

impl Decode for u64 {
    #[inline]
    fn decode(input: &mut &[u8]) -> Result<u64, Error> {
        match byte(input)? {
            0x44 => Ok(0),
            0x53 => Ok(u64::from(byte(input)?)),
            0x80 => Ok(u64::from_be_bytes(array(input)?)),
            _ => Err(Error::Code),
        }
    }
}

impl Decode for i32 {
    #[inline]
    fn decode(input: &mut &[u8]) -> Result<i32, Error> {
        match byte(input)? {
            0x54 => Ok(i32::from(byte(input)? as i8)),
            0x71 => Ok(i32::from_be_bytes(array(input)?)),
            _ => Err(Error::Code),
        }
    }
}

impl<T: Decode> Decode for Option<T> {
    #[inline]
    fn decode(input: &mut &[u8]) -> Result<Option<T>, Error> {
        if let Some((0x40, rest)) = input.split_first() {
            *input = rest;
            return Ok(None);
        }
        Ok(Some(T::decode(input)?))
    }
}

#[inline]
fn payload_of<'a>(narrow: u8, wide: u8, input: &mut &'a [u8]) -> Result<&'a [u8], Error> {
    let code = byte(input)?;
    let len = if code == narrow {
        usize::from(byte(input)?)
    } else if code == wide {
        u32::from_be_bytes(array(input)?) as usize
    } else {
        return Err(Error::Code);
    };
    take(input, len)
}

#[inline]
fn text(bytes: &[u8]) -> Result<String, Error> {
    match std::str::from_utf8(bytes) {
        Ok(text) => Ok(text.to_owned()),
        Err(_) => Err(Error::Utf8),
    }
}

impl Decode for String {
    #[inline]
    fn decode(input: &mut &[u8]) -> Result<String, Error> {
        text(payload_of(0xa1, 0xb1, input)?)
    }
}

impl Decode for Symbol {
    #[inline]
    fn decode(input: &mut &[u8]) -> Result<Symbol, Error> {
        Ok(Symbol(text(payload_of(0xa3, 0xb3, input)?)?))
    }
}

impl Decode for Binary {
    #[inline]
    fn decode(input: &mut &[u8]) -> Result<Binary, Error> {
        Ok(Binary(payload_of(0xa0, 0xb0, input)?.to_vec()))
    }
}

/// The count of a list, a map or an array, and its body, behind which the input stands.
#[inline]
fn body<'a>(narrow: u8, wide: u8, input: &mut &'a [u8]) -> Result<(usize, &'a [u8]), Error> {
    let code = byte(input)?;
    data(narrow, wide, code, input)
}

/// The same behind the code.
#[inline]
fn data<'a>(narrow: u8, wide: u8, code: u8, input: &mut &'a [u8]) -> Result<(usize, &'a [u8]), Error> {
    let (size, count, width) = if code == narrow {
        let [size, count] = array(input)?;
        (usize::from(size), usize::from(count), 1)
    } else if code == wide {
        let size = u32::from_be_bytes(array(input)?);
        let count = u32::from_be_bytes(array(input)?);
        (size as usize, count as usize, 4)
    } else {
        return Err(Error::Code);
    };
    if count > MOST {
        return Err(Error::Count);
    }
    let len = size.checked_sub(width).ok_or(Error::Size)?;
    Ok((count, take(input, len)?))
}

#[inline]
fn ended<T>(body: &[u8], value: T) -> Result<T, Error> {
    if !body.is_empty() {
        return Err(Error::Left);
    }
    Ok(value)
}

/// The data of a list behind its code; an empty one has none.
#[inline]
fn list_data<'a>(code: u8, input: &mut &'a [u8]) -> Result<(usize, &'a [u8]), Error> {
    if code == 0x45 {
        return Ok((0, &[]));
    }
    data(0xc0, 0xd0, code, input)
}

/// The descriptor behind its 00 is this one, as a number.
#[inline]
fn descriptor(wanted: u8, input: &mut &[u8]) -> Result<(), Error> {
    match input.first() {
        Some(0xa3 | 0xb3) => {
            Symbol::decode(input)?;
            Err(Error::Descriptor)
        }
        _ if u64::decode(input)? == u64::from(wanted) => Ok(()),
        _ => Err(Error::Descriptor),
    }
}

/// So many of the fields of a struct that a list has, which may end before the last.
#[inline]
fn at_most(fields: usize, count: usize) -> Result<usize, Error> {
    if count > fields { Err(Error::Count) } else { Ok(count) }
}

/// The next field; where none is left, what its type reads from null.
#[inline]
fn field<T: Decode>(left: &mut usize, body: &mut &[u8]) -> Result<T, Error> {
    if *left == 0 {
        return T::decode(&mut &[0x40][..]);
    }
    *left -= 1;
    T::decode(body)
}

impl<T: Decode> Decode for Vec<T> {
    fn decode(input: &mut &[u8]) -> Result<Vec<T>, Error> {
        if let Some((0x45, rest)) = input.split_first() {
            *input = rest;
            return Ok(Vec::new());
        }
        let (count, mut body) = body(0xc0, 0xd0, input)?;
        // Each element is a byte at least, so a stranger's count asks for no more than that.
        let mut items = Vec::with_capacity(count.min(body.len()));
        for _ in 0..count {
            items.push(T::decode(&mut body)?);
        }
        ended(body, items)
    }
}

/// So many elements of N bytes each.
#[inline]
fn each<T, const N: usize>(count: usize, body: &mut &[u8], value: impl Fn([u8; N]) -> T) -> Result<Vec<T>, Error> {
    let mut items = Vec::with_capacity(count.min(body.len() / N));
    for _ in 0..count {
        items.push(value(array(body)?));
    }
    Ok(items)
}

impl<T: Element> Decode for Array<T> {
    fn decode(input: &mut &[u8]) -> Result<Array<T>, Error> {
        let (count, mut body) = body(0xe0, 0xf0, input)?;
        if count == 0 {
            return Ok(Array(Vec::new()));
        }
        let code = byte(&mut body)?;
        let items = T::get(code, count, &mut body)?;
        ended(body, Array(items))
    }
}

impl<A: Decode, B: Decode, C: Decode> Decode for (A, B, C) {
    fn decode(input: &mut &[u8]) -> Result<(A, B, C), Error> {
        let (count, mut body) = body(0xc0, 0xd0, input)?;
        if count != 3 {
            return Err(Error::Count);
        }
        let parts = (A::decode(&mut body)?, B::decode(&mut body)?, C::decode(&mut body)?);
        ended(body, parts)
    }
}

impl<A: Decode, B: Decode, C: Decode, D: Decode> Decode for (A, B, C, D) {
    fn decode(input: &mut &[u8]) -> Result<(A, B, C, D), Error> {
        let (count, mut body) = body(0xc0, 0xd0, input)?;
        if count != 4 {
            return Err(Error::Count);
        }
        let parts = (A::decode(&mut body)?, B::decode(&mut body)?, C::decode(&mut body)?, D::decode(&mut body)?);
        ended(body, parts)
    }
}

impl Decode for Record {
    fn decode(input: &mut &[u8]) -> Result<Record, Error> {
        if let Some(0xc1 | 0xd1) = input.first() {
            return named(input);
        }
        let (count, mut body) = body(0xc0, 0xd0, input)?;
        if count != 5 {
            return Err(Error::Count);
        }
        let record = Record {
            id: u64::decode(&mut body)?,
            name: String::decode(&mut body)?,
            active: bool::decode(&mut body)?,
            level: i32::decode(&mut body)?,
            number: Option::decode(&mut body)?,
        };
        ended(body, record)
    }
}

/// The record out of a map from its fields' names, each once, in any order.
#[cold]
fn named(input: &mut &[u8]) -> Result<Record, Error> {
    let (count, mut body) = body(0xc1, 0xd1, input)?;
    if count % 2 == 1 {
        return Err(Error::Count);
    }
    let (mut id, mut name, mut active, mut level, mut number) = (None, None, None, None, None);
    for _ in 0..count / 2 {
        match payload_of(0xa1, 0xb1, &mut body)? {
            b"id" if id.is_none() => id = Some(u64::decode(&mut body)?),
            b"name" if name.is_none() => name = Some(String::decode(&mut body)?),
            b"active" if active.is_none() => active = Some(bool::decode(&mut body)?),
            b"level" if level.is_none() => level = Some(i32::decode(&mut body)?),
            b"number" if number.is_none() => number = Some(Option::decode(&mut body)?),
            _ => return Err(Error::Name),
        }
    }
    match (id, name, active, level, number) {
        (Some(id), Some(name), Some(active), Some(level), Some(number)) => {
            ended(body, Record { id, name, active, level, number })
        }
        _ => Err(Error::Name),
    }
}

impl Decode for Open {
    fn decode(input: &mut &[u8]) -> Result<Open, Error> {
        if byte(input)? != 0 {
            return Err(Error::Code);
        }
        descriptor(Open::DESCRIPTOR, input)?;
        let code = byte(input)?;
        let (count, mut body) = list_data(code, input)?;
        let mut left = at_most(8, count)?;
        let open = Open {
            container_id: field(&mut left, &mut body)?,
            hostname: field(&mut left, &mut body)?,
            max_frame_size: field(&mut left, &mut body)?,
            channel_max: field(&mut left, &mut body)?,
            idle_time_out: field(&mut left, &mut body)?,
            outgoing_locales: field(&mut left, &mut body)?,
            incoming_locales: field(&mut left, &mut body)?,
            offered_capabilities: field(&mut left, &mut body)?,
        };
        ended(body, open)
    }
}

impl Decode for OrderedMap {
    fn decode(input: &mut &[u8]) -> Result<OrderedMap, Error> {
        let (count, mut body) = body(0xc1, 0xd1, input)?;
        if count % 2 == 1 {
            return Err(Error::Count);
        }
        let mut map = OrderedMap::default();
        for _ in 0..count / 2 {
            let key = String::decode(&mut body)?;
            let value = u32::decode(&mut body)?;
            map.insert(key, value);
        }
        ended(body, map)
    }
}
