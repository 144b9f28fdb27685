//! Bodies to read: every short one, good ones of every size class with every cut, and damaged copies.
use crate::random::Random;

/// What a body is made of, in wire order.
#[derive(Clone, Copy)]
pub enum Part {
    /// So many bytes of numbers.
    Bytes(usize),
    /// A type byte below this limit.
    Code(u8),
    CString,
    Ucs2,
    /// A u16 count and items of so many bytes.
    List(usize),
    Fixtures,
    /// A u8 count and so many Ucs2 strings.
    Names,
}

#[derive(Clone, Copy, PartialEq)]
pub enum Size {
    Small,
    Middle,
    /// Around 256 bytes, units or items.
    Large,
    /// Near 65,535.
    Long,
}

/// A length near a limit, one in sixteen past it.
fn near(limit: usize, random: &mut Random) -> usize {
    match random.below(16) {
        0 => random.between(limit + 1, limit + 16),
        _ => random.between(limit - 15, limit),
    }
}

impl Size {
    fn string(self, random: &mut Random) -> usize {
        match self {
            Size::Small => random.between(0, 8),
            Size::Middle => random.between(9, 70),
            Size::Large => near(255, random),
            Size::Long => near(65_535, random),
        }
    }

    fn items(self, random: &mut Random) -> usize {
        match self {
            Size::Small => random.between(0, 5),
            Size::Middle => random.between(6, 40),
            Size::Large => random.between(250, 260),
            Size::Long => random.between(65_530, 65_535),
        }
    }

    fn fixtures(self, random: &mut Random) -> usize {
        match self {
            Size::Small => random.between(0, 2),
            Size::Long => random.between(255, 257),
            _ => random.between(1, 4),
        }
    }

    fn identifiers(self, random: &mut Random) -> usize {
        match self {
            Size::Long if random.below(64) == 0 => random.between(250, 255),
            _ => random.below(4),
        }
    }

    fn names(self, random: &mut Random) -> usize {
        match self {
            Size::Small => random.between(0, 5),
            Size::Long => 255,
            _ => random.between(6, 16),
        }
    }

    fn block(self, random: &mut Random) -> usize {
        match (random.below(4), self) {
            (0, _) => 0,
            (1, _) => 2,
            (2, Size::Large) => random.between(250, 260),
            (2, Size::Long) if random.below(200) == 0 => random.between(65_530, 65_535),
            _ => 16,
        }
    }
}

fn bytes(n: usize, random: &mut Random, out: &mut Vec<u8>) {
    (0..n).for_each(|_| out.push(random.byte()));
}

fn cstring(n: usize, random: &mut Random, out: &mut Vec<u8>) {
    (0..n).for_each(|_| out.push(random.byte().max(1)));
    out.push(0);
}

/// Units with a zero byte in either half are likely.
fn ucs2(n: usize, random: &mut Random, out: &mut Vec<u8>) {
    for _ in 0..n {
        let (low, high) = (random.byte(), random.byte());
        out.extend_from_slice(&[if high == 0 { low.max(1) } else { low }, high]);
    }
    out.extend_from_slice(&[0, 0]);
}

/// Signalling and quiet NaNs, infinities, both zeros and others.
fn float(random: &mut Random, out: &mut Vec<u8>) {
    let bits = random.next() as u32;
    let bits = match random.below(5) {
        0 => 0x7F80_0001,
        1 => bits | 0x7F80_0000,
        2 => bits & 0x8000_0000,
        _ => bits,
    };
    out.extend_from_slice(&bits.to_le_bytes());
}

fn identifier(size: Size, random: &mut Random, out: &mut Vec<u8>) {
    out.push(random.below(6) as u8);
    let n = size.block(random);
    out.extend_from_slice(&(n as u16).to_le_bytes());
    bytes(n, random, out);
}

/// Whether a string of a list is of the list's own size class: one in sixteen; in long lists, where it is past its
/// limit, one in five thousand.
fn stands_out(size: Size, random: &mut Random) -> bool {
    random.below(if size == Size::Long { 5_000 } else { 16 }) == 0
}

fn fixture_string(size: Size, random: &mut Random, out: &mut Vec<u8>) {
    let short = size != Size::Middle && !stands_out(size, random);
    ucs2(if short { Size::Small } else { size }.string(random), random, out);
}

fn fixture(size: Size, random: &mut Random, out: &mut Vec<u8>) {
    bytes(4, random, out);
    (0..3).for_each(|_| fixture_string(size, random, out));
    bytes(3, random, out);
    let n = size.identifiers(random);
    out.push(n as u8);
    (0..n).for_each(|_| identifier(size, random, out));
    bytes(4, random, out);
    fixture_string(size, random, out);
    bytes(2, random, out);
    (0..2).for_each(|_| fixture_string(size, random, out));
    (0..6).for_each(|_| float(random, out));
}

fn feed_name(size: Size, random: &mut Random, out: &mut Vec<u8>) {
    let short = !stands_out(size, random);
    ucs2(if short { Size::Small } else { size }.string(random), random, out);
}

/// A body with all its parts.
pub fn good(shape: &[Part], size: Size, random: &mut Random) -> Vec<u8> {
    let mut out = Vec::new();
    for part in shape {
        match *part {
            Part::Bytes(n) => bytes(n, random, &mut out),
            Part::Code(limit) => out.push(random.below(limit as usize) as u8),
            Part::CString => cstring(size.string(random), random, &mut out),
            Part::Ucs2 => ucs2(size.string(random), random, &mut out),
            Part::List(width) => {
                let n = size.items(random);
                out.extend_from_slice(&(n as u16).to_le_bytes());
                bytes(n * width, random, &mut out);
            }
            Part::Fixtures => {
                let n = size.fixtures(random);
                out.extend_from_slice(&(n as u16).to_le_bytes());
                (0..n).for_each(|_| fixture(size, random, &mut out));
            }
            Part::Names => {
                let n = size.names(random);
                out.push(n as u8);
                (0..n).for_each(|_| feed_name(size, random, &mut out));
            }
        }
    }
    out
}

/// One to three changes: a byte set, a bit turned, a cut, a byte out, a byte in, bytes added.
pub fn damage(body: &mut Vec<u8>, random: &mut Random) {
    for _ in 0..random.between(1, 3) {
        let n = body.len();
        let at = random.below(n.max(1));
        match random.below(6) {
            0 if n > 0 => body[at] = random.byte(),
            1 if n > 0 => body[at] ^= 1 << random.below(8),
            2 => body.truncate(at),
            3 if n > 0 => {
                body.remove(at);
            }
            4 => body.insert(at, random.byte()),
            _ => bytes(random.below(5), random, body),
        }
    }
}

/// A good body, every cut of it (of a long one those near both ends and some between), and as many damaged copies.
pub fn round(shape: &[Part], size: Size, random: &mut Random, visit: &mut dyn FnMut(&[u8])) {
    let body = good(shape, size, random);
    let n = body.len();
    visit(&body);
    let mut copy = Vec::with_capacity(n + 16);
    let mut pair = |cut: usize, random: &mut Random| {
        visit(&body[..cut]);
        copy.clear();
        copy.extend_from_slice(&body);
        damage(&mut copy, random);
        visit(&copy);
    };
    if size != Size::Long || n <= 2_000 {
        (0..n).for_each(|cut| pair(cut, random));
    } else {
        (0..40).for_each(|k| pair(k, random));
        (1..41).for_each(|k| pair(n - k, random));
        (0..20).for_each(|_| pair(random.below(n), random));
    }
}

/// A long body and every cut of it.
pub fn cuts(shape: &[Part], random: &mut Random, visit: &mut dyn FnMut(&[u8])) {
    let body = good(shape, Size::Long, random);
    (0..=body.len()).for_each(|n| visit(&body[..n]));
}

const NUMBERS: [u8; 7] = [0x00, 0x01, 0x02, 0x03, 0x65, 0x80, 0xFF];
const STRINGS: [u8; 7] = [0x00, 0x01, 0x03, 0x41, 0x80, 0xD8, 0xFF];
const CODES: [u8; 7] = [0x00, 0x01, 0x02, 0x03, 0x06, 0x41, 0xFF];

fn alphabet(shape: &[Part]) -> [u8; 7] {
    let has = |sort: fn(&Part) -> bool| shape.iter().any(sort);
    match () {
        _ if has(|part| matches!(part, Part::Code(_))) => CODES,
        _ if has(|part| matches!(part, Part::CString | Part::Ucs2 | Part::Names)) => STRINGS,
        _ => NUMBERS,
    }
}

/// Every body of up to two bytes, then all of three to six bytes over the alphabet of the shape.
pub fn short(shape: &[Part], visit: &mut dyn FnMut(&[u8])) {
    let alphabet = alphabet(shape);
    visit(&[]);
    for a in 0..=255 {
        visit(&[a]);
        (0..=255).for_each(|b| visit(&[a, b]));
    }
    for n in 3..=6 {
        for number in 0..alphabet.len().pow(n) {
            let mut body = [0; 6];
            let mut rest = number;
            for byte in &mut body[..n as usize] {
                *byte = alphabet[rest % alphabet.len()];
                rest /= alphabet.len();
            }
            visit(&body[..n as usize]);
        }
    }
}
