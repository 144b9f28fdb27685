//! Values of the Rust given to our writers, and the packets that both make of them.
use crate::canon::{level_fields, with_units, written};
use crate::kinds::kinds;
use crate::library;
use crate::pens::Pen;
use citp::protocol::{self, caex, finf, fptc, fsel, pinf, sdmx, SizeBytes, Ucs2, WriteToBytes};
use std::borrow::Cow;
use std::ffi::CString;
use std::ops::Deref;

/// A kind that is written.
pub trait Given: WriteToBytes + SizeBytes + Sized {
    const KIND: u8;
    /// The header of its layer.
    type Layer: Layer;

    fn content_type() -> u32;

    /// The value through our calls, up to the first refusal: its number.
    fn give<P: Pen>(&self, pen: &mut P) -> u8;

    /// Our size of the body, where there is a function for it.
    fn size(&self) -> Option<usize>;

    /// The Rust's packet of a body that takes so many bytes.
    fn message(&self, len: usize, request_index: u16, content_hint: u32) -> Vec<u8> {
        let size = Self::Layer::LENGTH + len;
        Self::Layer::message(self, Self::content_type(), size, request_index, content_hint)
    }
}

pub trait Layer {
    /// The length of the headers.
    const LENGTH: usize;

    fn message<T: WriteToBytes>(
        body: &T,
        content_type: u32,
        size: usize,
        request_index: u16,
        content_hint: u32,
    ) -> Vec<u8>;
}

fn units(string: &Ucs2) -> Vec<u16> {
    with_units(string, <[u16]>::to_vec)
}

/// A string or list of the Rust, as our calls take it.
trait Lent<T> {
    fn lent(&self) -> impl Deref<Target = [T]>;
}

impl Lent<u8> for CString {
    fn lent(&self) -> impl Deref<Target = [u8]> {
        self.as_bytes()
    }
}

impl Lent<u16> for Ucs2 {
    fn lent(&self) -> impl Deref<Target = [u16]> {
        units(self)
    }
}

impl<T: Clone> Lent<T> for Cow<'_, [T]> {
    fn lent(&self) -> impl Deref<Target = [T]> {
        &**self
    }
}

fn base_header(layer: &[u8; 4], size: usize, request_index: u16) -> protocol::Header {
    protocol::Header {
        cookie: u32::from_le_bytes(*b"CITP"),
        version_major: 1,
        version_minor: 0,
        kind: protocol::Kind { request_index },
        message_size: size as u32,
        message_part_count: 1,
        message_part: 0,
        content_type: u32::from_le_bytes(*layer),
    }
}

/// A content type, a number in CAEX and four letters elsewhere.
trait ContentType {
    fn code(self) -> u32;
}

impl ContentType for u32 {
    fn code(self) -> u32 {
        self
    }
}

impl ContentType for &[u8; 4] {
    fn code(self) -> u32 {
        u32::from_le_bytes(*self)
    }
}

macro_rules! layers {
    ($($layer:ident, $header:ident, $length:literal $(, $hint:ident)?;)*) => { $(impl Layer for $layer::Header {
        const LENGTH: usize = $length;

        #[allow(unused_variables)]
        fn message<T: WriteToBytes>(body: &T, content_type: u32, size: usize, request_index: u16, content_hint: u32) -> Vec<u8> {
            let citp_header = base_header($layer::Header::CONTENT_TYPE, size, request_index);
            let $header = $layer::Header { citp_header, content_type, $($hint: content_hint)? };
            written(&$layer::Message { $header, message: body })
        }
    })* };
}
layers! {
    caex, caex_header, 24;
    sdmx, sdmx_header, 24;
    fptc, fptc_header, 28, content_hint;
    fsel, fsel_header, 24;
    finf, finf_header, 24;
    pinf, pinf_header, 24;
}

/// Calls up to the first that is refused.
macro_rules! in_turn {
    ($first:expr $(, $next:expr)*) => {{
        let number = $first;
        $(let number = if number == 0 { $next } else { number };)*
        number
    }};
}

fn each<T>(items: &[T], mut give: impl FnMut(&T) -> u8) -> u8 {
    items.iter().map(&mut give).find(|&number| number != 0).unwrap_or(0)
}

fn give_fixture<P: Pen>(fixture: &caex::Fixture, pen: &mut P) -> u8 {
    let (manufacturer_name, fixture_name, mode_name) =
        (units(&fixture.manufacturer_name), units(&fixture.fixture_name), units(&fixture.mode_name));
    in_turn!(
        pen.fixture_head(
            fixture.fixture_identifier,
            &manufacturer_name,
            &fixture_name,
            &mode_name,
            fixture.channel_count,
            fixture.is_dimmer,
            fixture.identifiers.len()
        ),
        each(&fixture.identifiers, |identifier| pen.identifier(identifier.identifier_type.into(), &identifier.data)),
        give_fixture_data(&fixture.data, pen)
    )
}

fn give_fixture_data<P: Pen>(data: &caex::FixtureData, pen: &mut P) -> u8 {
    let [position_x, position_y, position_z] = data.position.map(f32::to_bits);
    let [angle_x, angle_y, angle_z] = data.angles.map(f32::to_bits);
    let numbers = library::FixtureData {
        patched: data.patched,
        universe: data.universe,
        universe_channel: data.universe_channel,
        channel: data.channel,
        position_x,
        position_y,
        position_z,
        angle_x,
        angle_y,
        angle_z,
    };
    pen.fixture_data(numbers, &units(&data.unit), &units(&data.circuit), &units(&data.note))
}

fn give_fixture_list<P: Pen>(
    pen: &mut P,
    message_type: caex::FixtureListMessageType,
    fixtures: &[caex::Fixture],
) -> u8 {
    in_turn!(
        pen.fixture_list_head(message_type.into(), fixtures.len()),
        each(fixtures, |fixture| give_fixture(fixture, pen))
    )
}

/// Our sizes of the parts of a fixture list for which there is a function, and the Rust's for the heads.
fn fixture_list_size(fixtures: &[caex::Fixture]) -> usize {
    let names = |x: &caex::Fixture| [&x.manufacturer_name, &x.fixture_name, &x.mode_name].map(Ucs2::size_bytes);
    let head = |x: &caex::Fixture| 8 + names(x).iter().sum::<usize>();
    let identifiers =
        |x: &caex::Fixture| x.identifiers.iter().map(|i| library::identifier_size(&i.data)).sum::<usize>();
    let data = |x: &caex::FixtureData| library::fixture_data_size(&units(&x.unit), &units(&x.circuit), &units(&x.note));
    3 + fixtures.iter().map(|x| head(x) + identifiers(x) + data(&x.data)).sum::<usize>()
}

/// Channel levels as our call takes them.
pub fn levels(list: &[sdmx::ChannelLevel]) -> Vec<library::ChannelLevel> {
    let record = |level| {
        let (universe_index, channel, channel_level) = level_fields(level);
        library::ChannelLevel { universe_index, channel, channel_level }
    };
    list.iter().map(record).collect()
}

fn give_chls<P: Pen>(pen: &mut P, list: &[sdmx::ChannelLevel]) -> u8 {
    pen.chls(&levels(list))
}

fn chls_size(list: &[sdmx::ChannelLevel]) -> usize {
    library::chls_size(list.len())
}

fn give_feed_list<P: Pen>(pen: &mut P, source_key: u32, feed_names: &[Ucs2]) -> u8 {
    in_turn!(
        pen.laser_feed_list_head(source_key, feed_names.len()),
        each(feed_names, |name| pen.feed_name(&units(name)))
    )
}

/// For a kind of whose size we have no function.
fn no_size<T>(_: &[T]) -> Option<usize> {
    None
}

fn give_frame<P: Pen>(
    pen: &mut P,
    source_key: u32,
    feed_index: u8,
    frame_sequence: u32,
    points: &[caex::LaserPoint],
) -> u8 {
    in_turn!(
        pen.laser_feed_frame_head(source_key, feed_index, frame_sequence, points.len()),
        each(points, |p| pen.laser_point(p.x_low_byte, p.y_low_byte, p.xy_high_nibbles, p.color))
    )
}

fn frame_size(points: &[caex::LaserPoint]) -> usize {
    11 + library::laser_point_size() * points.len()
}

macro_rules! given {
    ($($layer:ident::$name:ident $(<$life:lifetime>)?, $kind:ident, $read:ident, $shape:tt {
        ($($number:ident),*), ($($field:ident: $part:ident $ends:tt $(counted by $count:ident)?),*), $give:path, $size:path
    })*) => { $(
        impl Given for $layer::$name $(<$life>)? {
            const KIND: u8 = library::$kind;
            type Layer = $layer::Header;

            fn content_type() -> u32 {
                ContentType::code($layer::$name::CONTENT_TYPE)
            }

            fn give<P: Pen>(&self, pen: &mut P) -> u8 {
                $give(pen, $(self.$number,)* $(&self.$field.lent()),*)
            }

            fn size(&self) -> Option<usize> {
                $size($(&self.$field.lent()),*).into()
            }
        }
    )* };
}
kinds!(given);
