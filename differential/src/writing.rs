//! A value written by both, compared: the body alone, the whole packet, sizes, outputs one byte short, and every byte
//! that must stay; of a value with a string past its limit the refusal with 19.
use crate::canon::written;
use crate::given::{Given, Layer};
use crate::library;
use crate::ours::is_copied;
use crate::parts::{self, Stop, Text};
use crate::pens::{Alone, At, Packet};
use crate::plant;
use crate::rust::Body;
use citp::protocol::Header;
use std::ops::RangeInclusive;

/// What the output holds before a call, and how far bodies are written from its ends.
pub fn blank(len: usize) -> Vec<u8> {
    (0..len).map(|i| (i * 37 + 11) as u8).collect()
}

const FRONT: usize = 5;
const BEHIND: usize = 7;
const REQUEST_INDEX: u16 = 0x0708;
const CONTENT_HINT: u32 = 0x0102_0304;

/// `out` is what it was, but for `bytes` from `at` on.
pub fn holds(out: &[u8], at: usize, bytes: &[u8]) -> bool {
    let end = at + bytes.len();
    let was = |range: std::ops::Range<usize>| range.into_iter().all(|i| out[i] == (i * 37 + 11) as u8);
    end <= out.len() && was(0..at) && &out[at..end] == bytes && was(end..out.len())
}

/// A kind whose values are written and compared.
pub trait Writes {
    /// With what the Rust writes.
    fn compare_writing(&self, due: &[u8]) -> Result<(), &'static str>;

    /// The Rust's packet, none of the base header.
    fn packet(&self) -> Option<Vec<u8>>;
}

/// The kinds whose `size_bytes` is not the length written (docs/DIFFERENCES.md 18, 19).
const OTHER_SIZES: [u8; 3] = [library::UPTC, library::SPTC, library::CHLS];

/// Our size beside the Rust's.
pub fn compare_size<T: Given>(value: &T, written: usize) -> Result<(), &'static str> {
    let due = if OTHER_SIZES.contains(&T::KIND) { written } else { value.size_bytes() };
    match value.size() {
        Some(size) if size != due => Err("size_bytes"),
        _ => Ok(()),
    }
}

fn compare_alone<T: Given>(value: &T, due: &[u8]) -> Result<(), &'static str> {
    let mut out = blank(FRONT + due.len() + BEHIND);
    let mut pen = Alone { out: &mut out, at: FRONT };
    let taken = value.give(&mut pen) == 0 && pen.at == FRONT + due.len();
    if plant::on(5) && T::KIND == library::PLOC {
        out[FRONT + due.len() - 1] ^= 1;
    }
    if taken && holds(&out, FRONT, due) {
        Ok(())
    } else {
        Err("body written")
    }
}

/// A refusal that is due: its number, and how many bytes of the body the calls before it may have written.
struct Refusal {
    number: u8,
    stands: RangeInclusive<usize>,
}

/// A call is refused: what the calls before it wrote stands, and nothing else.
fn alone_refused<T: Given>(value: &T, due: &[u8], room: usize, refusal: &Refusal) -> bool {
    let mut out = blank(FRONT + room);
    let mut pen = Alone { out: &mut out, at: FRONT };
    let mut number = value.give(&mut pen);
    let stands = pen.at - FRONT;
    if plant::on(6) && T::KIND == library::SELE {
        out[0] ^= 1;
    }
    if plant::on(12) && T::KIND == library::FIXTURE_LIST && number == 19 {
        number = 13;
    }
    number == refusal.number && refusal.stands.contains(&stands) && holds(&out, FRONT, &due[..stands])
}

fn compare_packet<T: Given>(value: &T, due: &[u8]) -> Result<(), &'static str> {
    let mut out = blank(due.len() + BEHIND);
    let mut packet = Packet::new(&mut out);
    let taken =
        packet.open(T::KIND, REQUEST_INDEX, CONTENT_HINT) == 0 && value.give(&mut packet) == 0 && packet.close() == 0;
    let at = packet.at();
    if taken && at == due.len() && holds(&out, 0, due) {
        Ok(())
    } else {
        Err("packet written")
    }
}

fn packet_refused<T: Given>(value: &T, due: &[u8], room: usize, refusal: &Refusal) -> bool {
    let mut out = blank(T::Layer::LENGTH + room);
    let mut packet = Packet::new(&mut out);
    let opened = packet.open(T::KIND, REQUEST_INDEX, CONTENT_HINT) == 0;
    let number = value.give(&mut packet);
    let stands = packet.at();
    // the size field is 0 until close
    let mut due = due.to_vec();
    due[8..12].fill(0);
    let at_its_call = stands.checked_sub(T::Layer::LENGTH).is_some_and(|of_body| refusal.stands.contains(&of_body));
    opened && number == refusal.number && at_its_call && holds(&out, 0, &due[..stands])
}

/// The last call is refused.
fn compare_short<T: Given>(value: &T, due: &[u8], packet: &[u8]) -> Result<(), &'static str> {
    let room = due.len() - 1;
    let refusal = Refusal { number: 13, stands: 0..=room };
    match () {
        _ if !alone_refused(value, due, room, &refusal) => Err("body into an output one byte short"),
        _ if !packet_refused(value, packet, room, &refusal) => Err("packet into an output one byte short"),
        _ => Ok(()),
    }
}

/// The call with the string is refused, whatever the room.
fn compare_past_limit<T: Given>(value: &T, due: &[u8], packet: &[u8], text: Text) -> Result<(), &'static str> {
    let refusal = Refusal { number: 19, stands: text.call..=text.call };
    let rooms = [due.len() - 1, due.len() + BEHIND];
    match () {
        _ if !rooms.iter().all(|&room| alone_refused(value, due, room, &refusal)) => Err("body past a limit, written"),
        _ if !rooms.iter().all(|&room| packet_refused(value, packet, room, &refusal)) => {
            Err("packet past a limit, written")
        }
        _ if !is_copied(due, text) => Err("string past its limit, copied out"),
        _ => Ok(()),
    }
}

/// The walk on the Rust's packet: a message of its kind, or the refusal with 19.
fn compare_walk<T: Given>(packet: &[u8], past_limit: bool) -> Result<(), &'static str> {
    let report = library::Step {
        request_index: REQUEST_INDEX,
        size: packet.len() as u32,
        next: packet.len(),
        ..Default::default()
    };
    let due = if past_limit {
        library::Step { report: library::REFUSED, number: 19, ..report }
    } else {
        library::Step {
            report: library::MESSAGE,
            kind: T::KIND,
            content_hint: if T::Layer::LENGTH == 28 { CONTENT_HINT } else { 0 },
            body_start: T::Layer::LENGTH,
            body_len: packet.len() - T::Layer::LENGTH,
            ..report
        }
    };
    if library::walk_step(packet, 0) == due {
        Ok(())
    } else {
        Err("walk over the packet")
    }
}

impl<T: Given + Body> Writes for T {
    fn compare_writing(&self, due: &[u8]) -> Result<(), &'static str> {
        compare_size(self, due.len())?;
        let packet = self.message(due.len(), REQUEST_INDEX, CONTENT_HINT);
        if let Err(Stop::PastLimit(text)) = parts::taken::<T>(due) {
            compare_past_limit(self, due, &packet, text)?;
            return compare_walk::<T>(&packet, true);
        }
        compare_alone(self, due)?;
        compare_packet(self, &packet)?;
        compare_walk::<T>(&packet, false)?;
        compare_short(self, due, &packet)
    }

    fn packet(&self) -> Option<Vec<u8>> {
        Some(self.message(written(self).len(), REQUEST_INDEX, CONTENT_HINT))
    }
}

impl Writes for Header {
    fn compare_writing(&self, due: &[u8]) -> Result<(), &'static str> {
        let request_index = u16::from_le_bytes([due[6], due[7]]);
        let write = |out: &mut [u8]| {
            let (major, minor) = (self.version_major, self.version_minor);
            let (size, parts, part) = (self.message_size, self.message_part_count, self.message_part);
            library::header_write(
                out,
                FRONT,
                self.cookie,
                major,
                minor,
                request_index,
                size,
                parts,
                part,
                self.content_type,
            )
        };
        let mut out = blank(FRONT + due.len() + BEHIND);
        if write(&mut out) != (library::Put { number: 0, at: FRONT + due.len() }) || !holds(&out, FRONT, due) {
            return Err("header written");
        }
        let mut out = blank(FRONT + due.len() - 1);
        if write(&mut out) != (library::Put { number: 13, at: FRONT }) || !holds(&out, FRONT, &[]) {
            return Err("header into an output one byte short");
        }
        Ok(())
    }

    fn packet(&self) -> Option<Vec<u8>> {
        None
    }
}
