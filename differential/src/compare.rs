//! One body read by both and, where it is read, written by both.
use crate::bodies::{self, damage, Size};
use crate::canon::written;
use crate::ours::{self, Ours};
use crate::parts::{self, Stop, Text};
use crate::random::Random;
use crate::rust::{self, Answer, Body};
use crate::tally::{hex, Tally};
use crate::writing::Writes;

/// Everything that is compared of a type that is read.
pub trait Compared: Body + Ours + Writes {}

impl<T: Body + Ours + Writes> Compared for T {}

/// The number that is due, 0 where the body is to be read: that of its parts. The Rust must bear it out: it reads the
/// bytes that the parts take and writes them again, its `UnexpectedEof` is 7 or 8, its panic at a type byte 9 or 10. It
/// takes an `EnterShow` without a zero unit, and has no limit of a string: behind 19 it may make of a body what it will.
pub fn due<T: Body>(answer: &Answer<T>, body: &[u8]) -> Result<u8, String> {
    let by_parts = parts::taken::<T>(body);
    let number = by_parts.map_or_else(Stop::number, |_| 0);
    let rewritten = |value: &T, taken: usize| written(value) == body[..taken];
    let borne_out = match (answer, number) {
        (Answer::Read(value, taken), 0) => by_parts == Ok(*taken) && rewritten(value, *taken),
        (Answer::Read(value, taken), 19) => rewritten(value, *taken),
        (Answer::Read(..), 8) => T::NAME == "EnterShow",
        (Answer::UnexpectedEof, number) => matches!(number, 7 | 8 | 19),
        (Answer::Unreachable, number) => matches!(number, 9 | 10 | 19),
        _ => false,
    };
    if borne_out {
        Ok(number)
    } else {
        Err(format!("{number} by its parts"))
    }
}

/// Buffers for the canonical bytes, used again for each body.
#[derive(Default)]
pub struct Scratch {
    ours: Vec<u8>,
    rust: Vec<u8>,
}

/// What was seen of a body: our number, whether its value was written, and how the two differ.
struct Seen {
    number: u8,
    written: bool,
    difference: Option<&'static str>,
}

fn differ_in_fields<T: Body>(
    value: &T,
    taken: usize,
    ours: &ours::Answer,
    scratch: &mut Scratch,
) -> Option<&'static str> {
    scratch.rust.clear();
    value.canon(&mut scratch.rust);
    match () {
        _ if ours.number != 0 => Some("refused where the Rust reads"),
        _ if ours.taken != taken => Some("bytes taken"),
        _ if scratch.ours != scratch.rust => Some("fields"),
        _ => None,
    }
}

fn look<T: Compared>(body: &[u8], scratch: &mut Scratch) -> Seen {
    scratch.ours.clear();
    let ours = T::read_ours(body, &mut scratch.ours);
    let answer = rust::read::<T>(body);
    let mut written = false;
    let difference = match (due(&answer, body), &answer) {
        (Err(_), _) => Some("an answer of the Rust that no rule covers"),
        (Ok(0), Answer::Read(value, taken)) => differ_in_fields(value, *taken, &ours, scratch).or_else(|| {
            written = true;
            value.compare_writing(&body[..*taken]).err()
        }),
        (Ok(number), _) if number != ours.number => Some("refusal"),
        (Ok(_), _) if !scratch.ours.is_empty() => Some("fields of a refused answer"),
        (Ok(19), Answer::Read(value, taken)) => value.compare_writing(&body[..*taken]).err(),
        _ => None,
    };
    Seen { number: ours.number, written, difference }
}

pub fn body<T: Compared>(body: &[u8], scratch: &mut Scratch, tally: &mut Tally) {
    let seen = look::<T>(body, scratch);
    tally.bodies += 1;
    tally.answered(seen.number);
    tally.written += seen.written as u64;
    if let Some(what) = seen.difference {
        tally.differs(what, body, String::new);
    }
}

/// The longest body that is made smaller; the time that it takes goes by the square of its length.
const SHRINKABLE: usize = 10_000;

/// A body made smaller as long as it shows the same difference: one, two or four bytes left out, or a byte made zero.
pub fn shrink<T: Compared>(body: &[u8], what: &str) -> Vec<u8> {
    if body.len() > SHRINKABLE {
        return body.to_vec();
    }
    let shows = |body: &[u8]| look::<T>(body, &mut Scratch::default()).difference == Some(what);
    let smaller = |body: &[u8], at: usize| {
        let without = [4, 2, 1].map(|n| [&body[..at], body.get(at + n..).unwrap_or(&[])].concat());
        let zeroed = [&body[..at], &[0], &body[at + 1..]].concat();
        without.into_iter().chain([zeroed]).find(|smaller| smaller != body && shows(smaller))
    };
    let mut body = body.to_vec();
    for _ in 0..3 {
        for at in (0..body.len()).rev() {
            if at < body.len() {
                body = smaller(&body, at).unwrap_or(body);
            }
        }
    }
    body
}

/// Both answers as text.
pub fn answers<T: Compared>(body: &[u8]) -> String {
    let (mut ours_read, mut rust_read) = (Vec::new(), Vec::new());
    let ours = T::read_ours(body, &mut ours_read);
    let ours = match ours.number {
        0 => format!("read, {} taken, {}", ours.taken, hex(&ours_read)),
        number => number.to_string(),
    };
    let rust = match rust::read::<T>(body) {
        Answer::Read(value, taken) => {
            value.canon(&mut rust_read);
            format!("read, {taken} taken, {}, written again {}", hex(&rust_read), hex(&written(&value)))
        }
        Answer::UnexpectedEof => "UnexpectedEof".to_string(),
        Answer::Unreachable => "panic, unreachable".to_string(),
        Answer::Other(what) => what,
    };
    first_other_byte(&rust_read, &ours_read).unwrap_or(format!("Rust: {rust}; ours: {ours}"))
}

/// Where both were read, from where on the canonical bytes are not the same.
fn first_other_byte(rust: &[u8], ours: &[u8]) -> Option<String> {
    let at = rust.iter().zip(ours).position(|(rust, ours)| rust != ours)?;
    Some(format!("both read; canonical bytes from byte {at} on: Rust {}, ours {}", hex(&rust[at..]), hex(&ours[at..])))
}

/// All short bodies.
pub fn short<T: Compared>(tally: &mut Tally) {
    let mut scratch = Scratch::default();
    bodies::short(T::SHAPE, &mut |body_| body::<T>(body_, &mut scratch, tally));
}

/// Of a body with a string around the limits: that string without its end; eight cuts behind it, eight copies damaged
/// behind it and eight damaged anywhere.
fn broken(whole: &[u8], text: Text, random: &mut Random) -> Vec<Vec<u8>> {
    let (front, behind) = whole.split_at(text.end());
    let unended = (1..=text.width).map(|n| front[..front.len() - n].to_vec());
    let mut bodies: Vec<Vec<u8>> = unended.collect();
    for _ in 0..8 {
        bodies.push(whole[..random.between(text.end(), whole.len())].to_vec());
        let (mut anywhere, mut behind) = (whole.to_vec(), behind.to_vec());
        damage(&mut anywhere, random);
        damage(&mut behind, random);
        bodies.extend([anywhere, [front, &behind].concat()]);
    }
    bodies
}

/// Strings of the lengths around the limits: whole, without their end, and in cut and damaged bodies.
pub fn limits<T: Compared>(random: &mut Random, tally: &mut Tally) {
    let mut scratch = Scratch::default();
    for (whole, text) in parts::around::<T>(&parts::LENGTHS, random) {
        let others = broken(&whole, text, random);
        [whole].iter().chain(&others).for_each(|seen| body::<T>(seen, &mut scratch, tally));
    }
}

/// A long body and every cut of it.
pub fn cuts<T: Compared>(random: &mut Random, tally: &mut Tally) {
    let mut scratch = Scratch::default();
    bodies::cuts(T::SHAPE, random, &mut |body_| body::<T>(body_, &mut scratch, tally));
}

/// Rounds of good, cut and damaged bodies, at least so many, the first round of a long body.
pub fn rounds<T: Compared>(random: &mut Random, least: u64, tally: &mut Tally) {
    let mut scratch = Scratch::default();
    let mut size = Size::Long;
    while tally.bodies < least {
        bodies::round(T::SHAPE, size, random, &mut |body_| body::<T>(body_, &mut scratch, tally));
        size = match random.below(100) {
            0..=1 => Size::Large,
            2..=19 => Size::Middle,
            _ => Size::Small,
        };
    }
}
