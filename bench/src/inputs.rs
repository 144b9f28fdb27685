//! Bodies, values and streams that both sides get.
use crate::bodies::Part;
use crate::given::{Given, Layer};
use crate::parts::limit;
use crate::rust::Body;
use citp::protocol;

/// The elements of each string and of each list of a body.
#[derive(Clone, Copy)]
pub struct Size {
    pub string: usize,
    pub list: usize,
    pub block: usize,
    pub lamps: usize,
    pub feeds: usize,
    pub points: usize,
}

pub const SMALL: Size = Size { string: 0, list: 0, block: 0, lamps: 1, feeds: 0, points: 0 };
/// A venue of 100 lamps.
pub const TYPICAL: Size = Size { string: 12, list: 100, block: 512, lamps: 100, feeds: 4, points: 500 };
/// The most that a count holds; strings at their limits; a packet of 1,000 lamps.
const LARGEST: Size = Size { string: 65_535, list: 65_535, block: 65_535, lamps: 1_000, feeds: 255, points: 65_535 };

impl Size {
    /// Strings no longer than a kind allows.
    pub fn within<T: Body>(self) -> Size {
        Size { string: self.string.min(limit(T::NAME)), ..self }
    }
}

pub const SIZES: [(&str, Size); 3] = [("small", SMALL), ("typical", TYPICAL), ("largest", LARGEST)];

/// The first alone for a body of fixed length.
pub fn sizes(shape: &[Part]) -> impl Iterator<Item = (&'static str, Size)> {
    let fixed = shape.iter().all(|part| matches!(part, Part::Bytes(_)));
    SIZES.into_iter().take(if fixed { 1 } else { 3 })
}

/// `n` bytes without a zero.
pub fn letters(n: usize) -> Vec<u8> {
    (0..n).map(|i| (i % 255 + 1) as u8).collect()
}

pub fn units(n: usize) -> Vec<u16> {
    (0..n).map(|i| (i % 1000 + 1) as u16).collect()
}

fn ucs2(n: usize) -> Vec<u8> {
    units(n).iter().chain(&[0]).flat_map(|unit| unit.to_le_bytes()).collect()
}

fn cstring(n: usize) -> Vec<u8> {
    [letters(n), vec![0]].concat()
}

fn counted(n: usize, items: Vec<u8>) -> Vec<u8> {
    [(n as u16).to_le_bytes().to_vec(), items].concat()
}

/// A lamp with two identifiers and names of common lengths.
fn lamp(number: u32) -> Vec<u8> {
    let identifiers = [&[2, 16, 0][..], &letters(16), &[5, 2, 0], &letters(2)].concat();
    let names = [ucs2(8), ucs2(16), ucs2(10)].concat();
    let data = [vec![1, 0, 7, 0], ucs2(2), vec![9, 0], ucs2(2), ucs2(8), letters(24)].concat();
    [number.to_le_bytes().to_vec(), names, vec![20, 0, 0, 2], identifiers, data].concat()
}

pub fn body(shape: &[Part], size: Size) -> Vec<u8> {
    let part = |part: &Part| match *part {
        Part::Bytes(n) => letters(n),
        Part::Code(_) => vec![0],
        Part::CString => cstring(size.string),
        Part::Ucs2 => ucs2(size.string),
        Part::List(1) => counted(size.block, letters(size.block)),
        Part::List(5) => counted(size.points, letters(size.points * 5)),
        Part::List(width) => counted(size.list, letters(size.list * width)),
        Part::Fixtures => counted(size.lamps, (0..size.lamps as u32).flat_map(lamp).collect()),
        Part::Names => [vec![size.feeds as u8], ucs2(12).repeat(size.feeds)].concat(),
    };
    shape.iter().flat_map(part).collect()
}

pub fn value<T: Body>(body: &[u8]) -> T {
    T::read(body).expect("a good body")
}

pub fn header(layer: &[u8; 4], size: usize) -> protocol::Header {
    protocol::Header {
        cookie: u32::from_le_bytes(*b"CITP"),
        version_major: 1,
        version_minor: 0,
        kind: protocol::Kind { request_index: 7 },
        message_size: size as u32,
        message_part_count: 1,
        message_part: 0,
        content_type: u32::from_le_bytes(*layer),
    }
}

/// A packet of a body, so many times.
pub fn stream<T: Given + Body>(body: &[u8], times: usize) -> Vec<u8> {
    let packet = value::<T>(body).message(body.len(), 7, 0);
    assert_eq!(packet.len(), T::Layer::LENGTH + body.len());
    packet.repeat(times)
}
