//! Faults planted between the archive and the comparison, which the run must find.
use crate::ours::Answer;
use std::sync::atomic::{AtomicU8, Ordering};

pub const FAULTS: [&str; 13] = [
    "UNam: an empty name takes a byte more",
    "FixtureList: 9 is answered as 7",
    "FixtureList: position_x: a NaN is made quiet",
    "FixtureRemove: the last of more than ten items is left out",
    "PLoc: the last byte written is changed",
    "Sele: a refused write changes a byte",
    "EnterShow: a name without its zero unit is read",
    "LaserFeedList: 8 is answered as 7",
    "LaserFeedList: the last of 255 names is left out",
    "LaserFeedFrame: the last of 65,535 points is left out",
    "PNam: a name of 256 bytes is read",
    "FixtureList: 19 on writing is answered as 13",
    "Ptch: 8 is answered as 7",
];

static PLANTED: AtomicU8 = AtomicU8::new(0);

pub fn set(fault: u8) {
    PLANTED.store(fault, Ordering::Relaxed);
}

pub fn on(fault: u8) -> bool {
    PLANTED.load(Ordering::Relaxed) == fault
}

pub fn answer(reader: &str, body: &[u8], answer: Answer) -> Answer {
    match reader {
        "unam_read" if on(1) && answer.taken == 2 => Answer { taken: 3, ..answer },
        "fixture_list_read" if on(2) && answer.number == 9 => Answer { number: 7, ..answer },
        "enter_show_read" if on(7) && answer.number == 8 => Answer { number: 0, ..answer },
        "laser_feed_list_read" if on(8) && answer.number == 8 => Answer { number: 7, ..answer },
        "pnam_read" if on(11) && answer.number == 19 && body.len() == 257 => Answer { number: 0, ..answer },
        "ptch_read" if on(13) && answer.number == 8 => Answer { number: 7, ..answer },
        _ => answer,
    }
}

/// Whether the steps of a list of so many items leave the last one out, by the type of a step.
pub fn loses_last(step: &str, items: u16) -> bool {
    (on(4) && items > 10 && step.ends_with("U32Next"))
        || (on(9) && items == 255 && step.ends_with("FeedNameNext"))
        || (on(10) && items == 65_535 && step.ends_with("LaserPointNext"))
}

pub fn float(bits: u32) -> u32 {
    if on(3) && f32::from_bits(bits).is_nan() {
        bits | 0x0040_0000
    } else {
        bits
    }
}
