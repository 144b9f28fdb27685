//! Stored samples of the Rust's answers, of laser feeds its stand-in's (rust.rs): records for crates/replay, packets for
//! examples/rewrite.c. A record: the length of what follows (u16), the kind's place in the list of kinds (u8), the
//! body's length (u16), the body, the refusal that is due (u8; 0: read) and, if it is to be read, the bytes
//! taken (u32) and the canonical bytes. Numbers are little-endian. The Rust writes each value read again as the bytes
//! taken.
use crate::bodies::{damage, good, Size};
use crate::canon::Canon;
use crate::compare::due;
use crate::compared::KINDS;
use crate::parts;
use crate::random::Random;
use crate::rust::{read, Answer, Body};
use crate::writing::Writes;
use std::collections::BTreeSet;
use std::io::Write;

const SEED: u64 = 0x2545_F491_4F6C_DD1D;
/// Bodies of each kind that are good, cut and damaged, of at most LONGEST bytes.
const EACH: usize = 60;
const LONGEST: usize = 400;

/// Short bodies with an outcome of their own, also those outside the comparison's domain.
const SHORT: [&[u8]; 14] = [
    &[],
    &[0],
    &[1],
    &[3],
    &[0x41],
    &[0, 0],
    &[0x41, 0],
    &[3, 0],
    &[0, 0, 0],
    &[3, 0, 0],
    &[0x41, 0, 0],
    &[2, 1, 0],
    &[0x41, 0, 0, 0],
    &[1, 0, 0x65, 0],
];

fn bodies<T: Body>() -> BTreeSet<Vec<u8>> {
    let mut random = Random::of(SEED, T::NAME, 0);
    let mut bodies: BTreeSet<Vec<u8>> = SHORT.iter().map(|body| body.to_vec()).collect();
    for i in 0..3 * EACH {
        let size = match i % 15 {
            0 => Size::Large,
            1..=3 => Size::Middle,
            _ => Size::Small,
        };
        let mut body = good(T::SHAPE, size, &mut random);
        match i % 3 {
            0 => {}
            1 => body.truncate(random.below(body.len().max(1))),
            _ => damage(&mut body, &mut random),
        }
        if body.len() <= LONGEST {
            bodies.insert(body);
        }
    }
    // of any length
    bodies.extend(parts::around::<T>(&[255, 256], &mut random).into_iter().map(|(body, _)| body));
    bodies
}

fn record<T: Body>(kind: u8, body: &[u8]) -> Vec<u8> {
    let mut record = vec![kind];
    (body.len() as u16).canon(&mut record);
    record.extend_from_slice(body);
    let answer = read::<T>(body);
    let due = due(&answer, body).expect("a rule for the answer");
    record.push(due);
    if let (Answer::Read(value, taken), 0) = (answer, due) {
        (taken as u32).canon(&mut record);
        value.canon(&mut record);
    }
    record
}

pub fn records<T: Body>(kind: u8) -> Vec<Vec<u8>> {
    bodies::<T>().iter().map(|body| record::<T>(kind, body)).collect()
}

/// Packets of each kind, at most.
const PACKETS: usize = 50;

/// The Rust's packets of values that were read.
pub fn packets<T: Body + Writes>() -> Vec<Vec<u8>> {
    let packet = |body: &Vec<u8>| match read::<T>(body) {
        answer @ Answer::Read(..) if due(&answer, body) != Ok(0) => None,
        Answer::Read(value, _) => value.packet(),
        _ => None,
    };
    let packets: Vec<Vec<u8>> = bodies::<T>().iter().filter_map(packet).collect();
    let step = packets.len().div_ceil(PACKETS).max(1);
    packets.into_iter().step_by(step).collect()
}

pub fn write_packets(out: &mut dyn Write) -> std::io::Result<()> {
    KINDS.iter().flat_map(|kind| (kind.packets)()).try_for_each(|packet| out.write_all(&packet))
}

pub fn write(out: &mut dyn Write) -> std::io::Result<()> {
    for (number, kind) in KINDS.iter().enumerate() {
        for record in (kind.records)(number as u8) {
            out.write_all(&(record.len() as u16).to_le_bytes())?;
            out.write_all(&record)?;
        }
    }
    Ok(())
}
