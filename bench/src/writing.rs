//! Packets written.
use crate::canon::{with_units, written};
use crate::given::{levels, Given, Layer};
use crate::inputs::{self, body, sizes, units, value, Size, SIZES};
use crate::kinds::kinds;
use crate::library;
use crate::measure::Row;
use crate::pens::{Packet, Pen};
use crate::rows::sized;
use crate::rust::Body;
use citp::protocol::{self, caex, finf, fptc, fsel, pinf, sdmx, WriteToBytes};
use std::hint::black_box;

#[inline(never)]
pub fn write<T: WriteToBytes>(value: &T, out: &mut [u8]) -> u64 {
    let len = out.len();
    let mut rest = out;
    value.write_to_bytes(&mut rest).expect("room");
    (len - rest.len()) as u64
}

/// A layer's packet written by the Rust.
pub trait Packets: Layer {
    const COOKIE: &'static [u8; 4];

    fn packet<T: WriteToBytes>(body: &T, content_type: u32, size: usize, out: &mut [u8]) -> u64;
}

macro_rules! layers {
    ($($layer:ident, $header:ident $(, $hint:ident)?;)*) => { $(impl Packets for $layer::Header {
        const COOKIE: &'static [u8; 4] = $layer::Header::CONTENT_TYPE;

        fn packet<T: WriteToBytes>(body: &T, content_type: u32, size: usize, out: &mut [u8]) -> u64 {
            let citp_header = inputs::header($layer::Header::CONTENT_TYPE, Self::LENGTH + size);
            write(&$layer::Message { $header: $layer::Header { citp_header, content_type, $($hint: 0)? }, message: body }, out)
        }
    })* };
}
layers! {
    caex, caex_header;
    sdmx, sdmx_header;
    fptc, fptc_header, content_hint;
    fsel, fsel_header;
    finf, finf_header;
    pinf, pinf_header;
}

/// The Rust's packet of a value, whose size is known to it before, and ours of the calls that give it.
fn packet<T: Given + 'static>(
    rows: &mut Vec<Row>,
    name: &str,
    sort: &'static str,
    value: T,
    give: impl Fn(&T, &mut Packet) -> u8 + 'static,
) where
    T::Layer: Packets,
{
    let value: &'static T = Box::leak(Box::new(value));
    let len = written(value).len();
    let size = T::Layer::LENGTH + len;
    let rust = move |out: &mut [u8]| T::Layer::packet(black_box(value), T::content_type(), len, out);
    let ours = move |out: &mut [u8]| {
        let mut pen = Packet::new(out);
        let numbers = [pen.open(T::KIND, 7, 0), give(black_box(value), &mut pen), pen.close()];
        assert_eq!(numbers, [0, 0, 0]);
        pen.state.at as u64
    };
    let (mut a, mut b) = (vec![0; size], vec![0; size]);
    assert_eq!((rust(&mut a), ours(&mut b)), (size as u64, size as u64), "{name}");
    assert!(a == b, "{name}");
    let (a, b) = (a.leak().as_mut_ptr(), b.leak().as_mut_ptr());
    let lent = move |out: *mut u8| unsafe { std::slice::from_raw_parts_mut(black_box(out), size) };
    sized(rows, "written", name, sort, move || rust(lent(a)), move || ours(lent(b)));
}

/// Kinds with Ucs2 strings or channel levels: what ours takes is made before, by `lent`.
const LENT: [u8; 4] = [library::ENTER_SHOW, library::FIXTURE_LIST, library::CHLS, library::LASER_FEED_LIST];

/// A kind whose values' strings and lists are lent to our calls as they are.
fn flat<T: Given + Body + 'static>(rows: &mut Vec<Row>, size: &'static str, elements: Size)
where
    T::Layer: Packets,
{
    if !LENT.contains(&T::KIND) && sizes(T::SHAPE).any(|(name, _)| name == size) {
        packet::<T>(rows, T::NAME, size, value(&body(T::SHAPE, elements.within::<T>())), |value, pen| value.give(pen));
    }
}

macro_rules! all_flat {
    ($($t:ty, $kind:ident, $read:ident, $shape:tt $rest:tt)*) => {
        fn all_flat(rows: &mut Vec<Row>, size: &'static str, elements: Size) {
            $(flat::<$t>(rows, size, elements);)*
        }
    };
}
kinds!(all_flat);

fn owned(string: &protocol::Ucs2) -> Vec<u16> {
    with_units(string, <[u16]>::to_vec)
}

/// A fixture's strings, as ours takes them.
struct Strings([Vec<u16>; 6]);

fn strings(x: &caex::Fixture) -> Strings {
    Strings(
        [&x.manufacturer_name, &x.fixture_name, &x.mode_name, &x.data.unit, &x.data.circuit, &x.data.note].map(owned),
    )
}

fn give_fixture(
    x: &caex::Fixture,
    Strings([manufacturer, name, mode, unit, circuit, note]): &Strings,
    pen: &mut Packet,
) -> u8 {
    let [position_x, position_y, position_z] = x.data.position.map(f32::to_bits);
    let [angle_x, angle_y, angle_z] = x.data.angles.map(f32::to_bits);
    let caex::FixtureData { patched, universe, universe_channel, channel, .. } = x.data;
    let data = library::FixtureData {
        patched,
        universe,
        universe_channel,
        channel,
        position_x,
        position_y,
        position_z,
        angle_x,
        angle_y,
        angle_z,
    };
    pen.fixture_head(x.fixture_identifier, manufacturer, name, mode, x.channel_count, x.is_dimmer, x.identifiers.len())
        + x.identifiers.iter().map(|i| pen.identifier(i.identifier_type.into(), &i.data)).sum::<u8>()
        + pen.fixture_data(data, unit, circuit, note)
}

/// The rows of `LENT`.
fn lent(rows: &mut Vec<Row>, size: &'static str, elements: Size) {
    let show = elements.within::<caex::EnterShow>();
    let name = units(show.string);
    packet(rows, "EnterShow", size, value::<caex::EnterShow>(&body(caex::EnterShow::SHAPE, show)), move |_, pen| {
        pen.enter_show(&name)
    });
    let list: caex::FixtureList = value(&body(caex::FixtureList::SHAPE, elements));
    let texts: Vec<Strings> = list.fixtures.iter().map(strings).collect();
    packet(rows, "FixtureList", size, list, move |list, pen| {
        let head = pen.fixture_list_head(0, list.fixtures.len());
        head + list.fixtures.iter().zip(&texts).map(|(x, texts)| give_fixture(x, texts, pen)).sum::<u8>()
    });
    let list: sdmx::ChLs = value(&body(sdmx::ChLs::SHAPE, elements));
    let levels = levels(&list.channel_levels);
    packet(rows, "ChLs", size, list, move |_, pen| pen.chls(&levels));
    let list: caex::LaserFeedList = value(&body(caex::LaserFeedList::SHAPE, elements));
    let names: Vec<Vec<u16>> = list.feed_names.iter().map(owned).collect();
    packet(rows, "LaserFeedList", size, list, move |list, pen| {
        pen.laser_feed_list_head(list.source_key, names.len())
            + names.iter().map(|name| pen.feed_name(name)).sum::<u8>()
    });
}

pub fn rows(rows: &mut Vec<Row>) {
    for (size, elements) in SIZES {
        all_flat(rows, size, elements);
        lent(rows, size, elements);
    }
}
