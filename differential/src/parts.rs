//! A body gone through by its parts, apart from the Rust's readers and from ours: the number that is due, and bodies
//! with strings of the lengths around their limits (docs/DIFFERENCES.md 28).
use crate::bodies::{good, Part, Size};
use crate::random::Random;
use crate::rust::Body;

/// The most bytes or units of a string of this kind, its zero not counted.
pub fn limit(kind: &str) -> usize {
    match kind {
        "Fram" => 65_535,
        _ => 255,
    }
}

/// A string that has its end: where the bytes start that a writer's call with it writes, where it starts, its bytes or
/// units, and the bytes of each.
#[derive(Clone, Copy, PartialEq)]
pub struct Text {
    pub call: usize,
    pub start: usize,
    pub len: usize,
    pub width: usize,
}

impl Text {
    /// Behind its zero.
    pub fn end(self) -> usize {
        self.start + (self.len + 1) * self.width
    }
}

/// What a body stops at.
#[derive(Clone, Copy, PartialEq)]
pub enum Stop {
    /// The end of the body where a number or a byte is due, 7, or a string's end, 8; a type byte, 9 or 10.
    Unread(u8),
    /// A string past its limit.
    PastLimit(Text),
}

impl Stop {
    pub fn number(self) -> u8 {
        match self {
            Stop::Unread(number) => number,
            Stop::PastLimit(_) => 19,
        }
    }
}

/// A body, where the present call of a writer starts, how far it is gone through, and what judges each string.
struct Scan<'a, F> {
    body: &'a [u8],
    call: usize,
    at: usize,
    judge: F,
}

impl<F: FnMut(Text) -> Result<(), Stop>> Scan<'_, F> {
    fn skip(&mut self, n: usize) -> Result<(), Stop> {
        if n > self.body.len() - self.at {
            return Err(Stop::Unread(7));
        }
        self.at += n;
        Ok(())
    }

    /// A number of so many bytes.
    fn number(&mut self, width: usize) -> Result<usize, Stop> {
        let start = self.at;
        self.skip(width)?;
        Ok(self.body[start..self.at].iter().rev().fold(0, |number, &byte| 256 * number + byte as usize))
    }

    fn code(&mut self, limit: usize, refusal: u8) -> Result<(), Stop> {
        match self.number(1)? {
            code if code < limit => Ok(()),
            _ => Err(Stop::Unread(refusal)),
        }
    }

    fn string(&mut self, width: usize) -> Result<(), Stop> {
        let is_zero = |element: &[u8]| element.iter().all(|&byte| byte == 0);
        let len = self.body[self.at..].chunks_exact(width).position(is_zero).ok_or(Stop::Unread(8))?;
        let text = Text { call: self.call, start: self.at, len, width };
        self.at = text.end();
        (self.judge)(text)
    }

    fn identifier(&mut self) -> Result<(), Stop> {
        self.code(6, 10)?;
        let size = self.number(2)?;
        self.skip(size)
    }

    fn fixture(&mut self) -> Result<(), Stop> {
        self.call = self.at;
        self.skip(4)?;
        (0..3).try_for_each(|_| self.string(2))?;
        self.skip(3)?;
        let identifiers = self.number(1)?;
        (0..identifiers).try_for_each(|_| self.identifier())?;
        self.call = self.at;
        self.skip(4)?;
        self.string(2)?;
        self.skip(2)?;
        (0..2).try_for_each(|_| self.string(2))?;
        self.skip(24)
    }

    fn feed_name(&mut self) -> Result<(), Stop> {
        self.call = self.at;
        self.string(2)
    }

    fn part(&mut self, part: Part) -> Result<(), Stop> {
        match part {
            Part::Bytes(n) => self.skip(n),
            Part::Code(limit) => self.code(limit as usize, 9),
            Part::CString => self.string(1),
            Part::Ucs2 => self.string(2),
            Part::List(width) => {
                let items = self.number(2)?;
                self.skip(items * width)
            }
            Part::Fixtures => {
                let fixtures = self.number(2)?;
                (0..fixtures).try_for_each(|_| self.fixture())
            }
            Part::Names => {
                let names = self.number(1)?;
                (0..names).try_for_each(|_| self.feed_name())
            }
        }
    }
}

fn scan<T: Body>(body: &[u8], judge: impl FnMut(Text) -> Result<(), Stop>) -> Result<usize, Stop> {
    let mut scan = Scan { body, call: 0, at: 0, judge };
    T::SHAPE.iter().try_for_each(|&part| scan.part(part))?;
    Ok(scan.at)
}

/// The bytes that the parts of a body take, no string past its limit, or what stops.
pub fn taken<T: Body>(body: &[u8]) -> Result<usize, Stop> {
    scan::<T>(body, |text| if text.len > limit(T::NAME) { Err(Stop::PastLimit(text)) } else { Ok(()) })
}

// ---- bodies around the limits

/// The last length inside a limit and the first past it, of both limits.
pub const LENGTHS: [usize; 4] = [255, 256, 65_535, 65_536];
/// All strings of a fixture, and as many names of a feed list.
const STRINGS: usize = 6;

/// A string made so long. Units have zero bytes that are no zero unit, also at odd places.
fn lengthened(body: &[u8], text: Text, len: usize) -> (Vec<u8>, Text) {
    let letters: &[u8] = if text.width == 1 { &[0x41] } else { &[0x41, 0, 0, 0x41] };
    let string: Vec<u8> = letters.iter().copied().cycle().take(len * text.width).collect();
    let zero = text.end() - text.width;
    ([&body[..text.start], &string, &body[zero..]].concat(), Text { len, ..text })
}

/// For each string of a good body, and for each length, the body with that string made so long.
pub fn around<T: Body>(lengths: &[usize], random: &mut Random) -> Vec<(Vec<u8>, Text)> {
    let body = good(T::SHAPE, Size::Middle, random);
    let mut texts = Vec::new();
    let whole = scan::<T>(&body, |text| {
        texts.push(text);
        Ok(())
    });
    assert!(whole == Ok(body.len()));
    texts.truncate(STRINGS);
    texts
        .iter()
        .flat_map(|&text| lengths.iter().map(move |&len| (text, len)))
        .map(|(text, len)| lengthened(&body, text, len))
        .collect()
}
