//! The canonical bytes of a value, the same for the Rust's values and ours: fields in struct order, numbers and codes
//! little-endian in their own width, floats by their bits, a string or block as its length (u32) and its bytes or
//! units, a list as 01 and an item for each item, then 00.
use crate::kinds::kinds;
use citp::protocol::{caex, finf, fptc, fsel, pinf, sdmx, Header, Kind, Ucs2, WriteToBytes};
use std::borrow::Cow;
use std::ffi::CString;

pub trait Canon: Sized {
    fn canon(&self, out: &mut Vec<u8>);

    fn canon_list(items: &[Self], out: &mut Vec<u8>) {
        for item in items {
            out.push(1);
            item.canon(out);
        }
        out.push(0);
    }
}

pub fn block(bytes: &[u8], out: &mut Vec<u8>) {
    (bytes.len() as u32).canon(out);
    out.extend_from_slice(bytes);
}

pub fn units(units: &[u16], out: &mut Vec<u8>) {
    (units.len() as u32).canon(out);
    for unit in units {
        unit.canon(out);
    }
}

impl Canon for u8 {
    fn canon(&self, out: &mut Vec<u8>) {
        out.push(*self);
    }

    fn canon_list(items: &[u8], out: &mut Vec<u8>) {
        block(items, out);
    }
}

macro_rules! little_endian {
    ($($t:ty),*) => { $(impl Canon for $t {
        fn canon(&self, out: &mut Vec<u8>) {
            out.extend_from_slice(&self.to_le_bytes());
        }
    })* };
}
little_endian!(u16, u32);

impl Canon for f32 {
    fn canon(&self, out: &mut Vec<u8>) {
        self.to_bits().canon(out);
    }
}

impl Canon for [f32; 3] {
    fn canon(&self, out: &mut Vec<u8>) {
        self.iter().for_each(|x| x.canon(out));
    }
}

impl Canon for CString {
    fn canon(&self, out: &mut Vec<u8>) {
        block(self.as_bytes(), out);
    }
}

impl<T: Canon + Clone> Canon for Cow<'_, [T]> {
    fn canon(&self, out: &mut Vec<u8>) {
        T::canon_list(self, out);
    }
}

macro_rules! codes {
    ($($t:ty),*) => { $(impl Canon for $t {
        fn canon(&self, out: &mut Vec<u8>) {
            out.push(u8::from(*self));
        }
    })* };
}
codes!(caex::FixtureListMessageType, caex::IdentifierType);

/// The private units of a `Ucs2`, by way of the stand-in.
pub fn with_units<R>(string: &Ucs2, f: impl FnOnce(&[u16]) -> R) -> R {
    assert_eq!(string.to_string(), Err(ucs2::Error::Seen));
    ucs2::SEEN.with_borrow(|seen| f(seen))
}

/// A `Ucs2` of any units, a zero unit included.
pub fn ucs2_of(units: &[u16]) -> Ucs2 {
    ucs2::GIVEN.with_borrow_mut(|given| *given = units.to_vec());
    " ".repeat(units.len()).parse().expect("as long as GIVEN")
}

impl Canon for Ucs2 {
    fn canon(&self, out: &mut Vec<u8>) {
        with_units(self, |seen| units(seen, out));
    }
}

/// The bytes that a value of the Rust writes.
pub fn written<T: WriteToBytes>(value: &T) -> Vec<u8> {
    let mut out = Vec::with_capacity(128);
    value.write_to_bytes(&mut out).expect("a Vec takes every byte");
    out
}

/// The private fields of a `ChannelLevel`, from what it writes.
pub fn level_fields(level: &sdmx::ChannelLevel) -> (u8, u16, u8) {
    let mut bytes = [0; 4];
    level.write_to_bytes(&mut bytes[..]).expect("four bytes");
    (bytes[0], u16::from_le_bytes([bytes[1], bytes[2]]), bytes[3])
}

impl Canon for sdmx::ChannelLevel {
    fn canon(&self, out: &mut Vec<u8>) {
        let (universe_index, channel, channel_level) = level_fields(self);
        universe_index.canon(out);
        channel.canon(out);
        channel_level.canon(out);
    }
}

impl Canon for Kind {
    fn canon(&self, out: &mut Vec<u8>) {
        out.extend_from_slice(&written(self));
    }
}

/// Types with every field that they have.
macro_rules! structs {
    ($($t:ty { $($field:ident),* $(,)? })*) => { $(impl Canon for $t {
        fn canon(&self, out: &mut Vec<u8>) {
            let Self { $($field),* } = self;
            $($field.canon(out);)*
        }
    })* };
}
structs! {
    Header { cookie, version_major, version_minor, kind, message_size, message_part_count, message_part, content_type }
    caex::Fixture<'_> {
        fixture_identifier, manufacturer_name, fixture_name, mode_name, channel_count, is_dimmer, identifier_count,
        identifiers, data
    }
    caex::Identifier<'_> { identifier_type, data_size, data }
    caex::FixtureData { patched, universe, universe_channel, unit, channel, circuit, note, position, angles }
    caex::LaserPoint { x_low_byte, y_low_byte, xy_high_nibbles, color }
}

macro_rules! kind_structs {
    ($($t:ty, $kind:ident, $read:ident, $shape:tt {
        ($($number:ident),*), ($($field:ident: $reader:ident $ends:tt $(counted by $count:ident)?),*), $give:path, $size:path
    })*) => {
        structs! { $($t { $($number,)* $($($count,)? $field),* })* }
    };
}
kinds!(kind_structs);
