//! Laser feeds, which the Rust does not read: values written by both, and what it wrote read by ours; and sizes past the
//! largest packet.
use crate::canon::{ucs2_of, written};
use crate::compare::{due, Compared};
use crate::given::Given;
use crate::ours::Ours;
use crate::random::Random;
use crate::rust::Answer;
use crate::tally::Tally;
use crate::writing::compare_size;
use citp::protocol::caex::{EnterShow, LaserFeedFrame, LaserFeedList, LaserPoint};
use citp::protocol::pinf::{PLoc, PNam};
use std::borrow::Cow;
use std::ffi::CString;

const EACH: usize = 2_000;
/// Of each value, besides that of the last byte.
const CUTS: usize = 8;

fn count(limit: usize, random: &mut Random) -> usize {
    match random.below(100) {
        0 => random.between(limit - 2, limit),
        1..=9 => random.below(200),
        _ => random.below(6),
    }
}

fn unit(random: &mut Random) -> u16 {
    u16::from_le_bytes([random.byte(), random.byte()]).max(1)
}

fn list(names: usize, random: &mut Random) -> LaserFeedList<'static> {
    let names = (0..names).map(|_| {
        let units: Vec<u16> = (0..count(255, random)).map(|_| unit(random)).collect();
        ucs2_of(&units)
    });
    let feed_names: Vec<_> = names.collect();
    LaserFeedList {
        source_key: random.next() as u32,
        feed_count: feed_names.len() as u8,
        feed_names: Cow::Owned(feed_names),
    }
}

fn point(random: &mut Random) -> LaserPoint {
    LaserPoint {
        x_low_byte: random.byte(),
        y_low_byte: random.byte(),
        xy_high_nibbles: random.byte(),
        color: random.next() as u16,
    }
}

fn frame(points: usize, random: &mut Random) -> LaserFeedFrame<'static> {
    let points: Vec<_> = (0..points).map(|_| point(random)).collect();
    LaserFeedFrame {
        source_key: random.next() as u32,
        feed_index: random.byte(),
        frame_sequence: random.next() as u32,
        point_count: points.len() as u16,
        points: Cow::Owned(points),
    }
}

/// Our answer, counted: its number, the bytes taken and the canonical bytes.
fn answer<T: Ours>(body: &[u8], tally: &mut Tally) -> (u8, usize, Vec<u8>) {
    let mut fields = Vec::new();
    let answer = T::read_ours(body, &mut fields);
    tally.answered(answer.number);
    (answer.number, answer.taken, fields)
}

/// What the Rust wrote is read as the value given, whatever stands behind it; a cut of it is refused.
fn compare_reading<T: Compared>(
    value: &T,
    written: &[u8],
    random: &mut Random,
    tally: &mut Tally,
) -> Result<(), &'static str> {
    let mut fields = Vec::new();
    value.canon(&mut fields);
    let whole = (0, written.len(), fields);
    let added = [written, &[random.byte(), random.byte()]].concat();
    if answer::<T>(written, tally) != whole || answer::<T>(&added, tally) != whole {
        return Err("what the Rust wrote, read");
    }
    for end in (0..CUTS).map(|_| random.below(written.len())).chain([written.len() - 1]) {
        let cut = &written[..end];
        let (number, taken, fields) = answer::<T>(cut, tally);
        if due::<T>(&Answer::UnexpectedEof, cut) != Ok(number) || taken != 0 || !fields.is_empty() {
            return Err("a cut of what the Rust wrote");
        }
    }
    Ok(())
}

fn compare<T: Compared>(value: T, random: &mut Random, tally: &mut Tally) {
    tally.written += 1;
    let bytes = written(&value);
    if let Err(what) = value.compare_writing(&bytes).and_then(|()| compare_reading(&value, &bytes, random, tally)) {
        tally.differs(what, &bytes, || "the bytes that the Rust writes".to_string());
    }
}

/// No items, one and the most that a count says, then others.
pub fn laser_feeds(random: &mut Random, tally: &mut Tally) {
    for (names, points) in [(0, 0), (1, 1), (255, 65_535)] {
        compare(list(names, random), random, tally);
        compare(frame(points, random), random, tally);
    }
    for _ in 0..EACH {
        compare(list(count(255, random), random), random, tally);
        compare(frame(count(2_000, random), random), random, tally);
    }
}

fn compare_large<T: Given>(value: &T, tally: &mut Tally) {
    tally.sized += 1;
    if let Err(what) = compare_size(value, written(value).len()) {
        tally.differs(what, &[], || "a size at or past the largest packet's".to_string());
    }
}

/// Bodies around the largest packet's size and well past it: a size has no limit of a packet's.
pub fn large_sizes(tally: &mut Tally) {
    for len in [16_777_190, 16_777_215, 16_777_216, 16_777_217, 50_331_648] {
        let name = || CString::new(vec![b'A'; len]).expect("no zero");
        compare_large(&PNam { name: name() }, tally);
        compare_large(&PLoc { listening_tcp_port: 1, kind: name(), name: name(), state: name() }, tally);
        compare_large(&EnterShow { name: ucs2_of(&vec![0x41; len]) }, tally);
    }
}
