//! Our readers: the canonical bytes of what the archive answers.
use crate::canon::{self, Canon};
use crate::kinds::kinds;
use crate::library;
use crate::parts::Text;
use crate::plant;
use citp::protocol::{caex, finf, fptc, fsel, pinf, sdmx, Header};

/// What a reader answered: its number (0: read) and the bytes taken.
pub struct Answer {
    pub number: u8,
    pub taken: usize,
}

pub trait Ours {
    /// Reads a body; the canonical bytes of what was read are put behind `out`.
    fn read_ours(body: &[u8], out: &mut Vec<u8>) -> Answer;
}

/// Stands for the canonical bytes of an answer that points outside its body or that a step or a copy contradicts.
const WRONG: &[u8] = b"wrong range, step or copy";

// ---- strings and blocks: ranges of the body

struct Block<'a>(&'a [u8], usize, usize);
struct CString<'a>(&'a [u8], usize, usize);
struct Ucs2<'a>(&'a [u8], usize, usize);

fn part(body: &[u8], start: usize, len: usize) -> Option<&[u8]> {
    body.get(start..)?.get(..len)
}

/// The elements of a string before the zero, or of a list: 13 into one element less, which stay as they were, then
/// copied into exactly so many.
fn copied<T: Copy + Default + PartialEq>(len: usize, copy: impl Fn(&mut [T]) -> library::Copied) -> Option<Vec<T>> {
    let mut out = vec![T::default(); len];
    if len > 0 {
        let refused = copy(&mut out[..len - 1]) == (library::Copied { number: 13, len: 0 });
        if !refused || out.iter().any(|&element| element != T::default()) {
            return None;
        }
    }
    let copied = copy(&mut out) == (library::Copied { number: 0, len });
    copied.then_some(out)
}

impl Canon for Block<'_> {
    fn canon(&self, out: &mut Vec<u8>) {
        canon::block(part(self.0, self.1, self.2).unwrap_or(WRONG), out);
    }
}

/// The bytes of a string, as they stand in the body and as they are copied out.
fn bytes_of(body: &[u8], start: usize, len: usize) -> Option<&[u8]> {
    let copy = copied(len, |out| library::copy_cstring(body, start, out))?;
    part(body, start, len).filter(|bytes| *bytes == copy)
}

/// The units of a string.
fn units_of(body: &[u8], start: usize, len: usize) -> Option<Vec<u16>> {
    let copy = copied(len, |out| library::copy_ucs2(body, start, out))?;
    let bytes = part(body, start, 2 * len)?;
    bytes.chunks(2).zip(&copy).all(|(two, unit)| two == unit.to_le_bytes()).then_some(copy)
}

/// Whether a string of any length is copied out, and refused with 8 without its end.
pub fn is_copied(body: &[u8], text: Text) -> bool {
    let Text { start, len, width, .. } = text;
    let unended = &body[..text.end() - 1];
    let (copied, refused) = match width {
        1 => (bytes_of(body, start, len).is_some(), library::copy_cstring(unended, start, &mut [])),
        _ => (units_of(body, start, len).is_some(), library::copy_ucs2(unended, start, &mut [])),
    };
    copied && refused == (library::Copied { number: 8, len: 0 })
}

impl Canon for CString<'_> {
    fn canon(&self, out: &mut Vec<u8>) {
        canon::block(bytes_of(self.0, self.1, self.2).unwrap_or(WRONG), out);
    }
}

impl Canon for Ucs2<'_> {
    fn canon(&self, out: &mut Vec<u8>) {
        match units_of(self.0, self.1, self.2) {
            Some(units) => canon::units(&units, out),
            None => canon::block(WRONG, out),
        }
    }
}

// ---- lists: cursors stepped through; those of numbers also copied whole

/// A body, the place of the next item, and the items left.
struct List<'a, N>(&'a [u8], usize, u16, fn(&[u8], usize, u16) -> N);

/// A step of a list: whether an item was given, its number, and the cursor behind it.
trait Next {
    fn step(&self) -> (bool, u8, usize, u16);
    fn item(&self, body: &[u8], out: &mut Vec<u8>);
}

impl<N: Next> Canon for List<'_, N> {
    fn canon(&self, out: &mut Vec<u8>) {
        let List(body, mut at, mut left, next) = *self;
        loop {
            let step = next(body, at, left);
            let (given, number, next_at, next_left) = step.step();
            if number != 0 {
                return out.extend_from_slice(WRONG);
            }
            if !given {
                return out.push(0);
            }
            out.push(1);
            step.item(body, out);
            (at, left) = (next_at, next_left);
            if left == 1 && plant::loses_last(std::any::type_name::<N>(), self.2) {
                left = 0;
            }
        }
    }
}

macro_rules! lists {
    ($($make:ident, $next:ident, $step:ident, |$m:ident, $body:ident| $($field:expr),*;)*) => { $(
        impl Next for library::$next {
            fn step(&self) -> (bool, u8, usize, u16) {
                (self.given == 1, self.number, self.at, self.left as u16)
            }

            fn item(&self, $body: &[u8], out: &mut Vec<u8>) {
                let $m = self;
                $($field.canon(out);)*
            }
        }

        fn $make(body: &[u8], at: usize, left: impl Into<u16>) -> List<'_, library::$next> {
            List(body, at, left.into(), |body, at, left| library::$step(body, at, left as _))
        }
    )* };
}
lists! {
    u16_steps, U16Next, u16_list_next, |m, _body| m.value;
    u32_steps, U32Next, u32_list_next, |m, _body| m.value;
    channel_levels, ChannelLevelNext, channel_levels_next, |m, _body|
        m.value.universe_index, m.value.channel, m.value.channel_level;
    identifiers, IdentifierNext, identifiers_next, |m, body|
        m.identifier_type, m.data_len as u16, Block(body, m.data_start, m.data_len);
    fixtures, FixtureNext, fixtures_next, |m, body|
        m.fixture_identifier,
        Ucs2(body, m.manufacturer_name_start, m.manufacturer_name_len),
        Ucs2(body, m.fixture_name_start, m.fixture_name_len),
        Ucs2(body, m.mode_name_start, m.mode_name_len),
        m.channel_count,
        m.is_dimmer,
        m.identifiers_left,
        identifiers(body, m.identifiers_at, m.identifiers_left),
        m.data.patched,
        m.data.universe,
        m.data.universe_channel,
        Ucs2(body, m.unit_start, m.unit_len),
        m.data.channel,
        Ucs2(body, m.circuit_start, m.circuit_len),
        Ucs2(body, m.note_start, m.note_len),
        plant::float(m.data.position_x),
        m.data.position_y,
        m.data.position_z,
        m.data.angle_x,
        m.data.angle_y,
        m.data.angle_z;
    feed_names, FeedNameNext, feed_names_next, |m, body| Ucs2(body, m.start, m.len);
    laser_points, LaserPointNext, laser_points_next, |m, _body|
        m.value.x_low_byte, m.value.y_low_byte, m.value.xy_high_nibbles, m.value.color;
}

/// A list of numbers, whose copy has what its steps give.
struct Numbers<'a, N, T>(List<'a, N>, fn(&[u8], usize, u16, &mut [T]) -> library::Copied);

impl<N: Next, T: Canon + Copy + Default + PartialEq> Canon for Numbers<'_, N, T> {
    fn canon(&self, out: &mut Vec<u8>) {
        let Numbers(List(body, at, left, _), copy) = *self;
        let (mut steps, mut whole) = (Vec::new(), Vec::new());
        self.0.canon(&mut steps);
        match copied(left as usize, |out| copy(body, at, left, out)) {
            Some(copy) => T::canon_list(&copy, &mut whole),
            None => whole.extend_from_slice(WRONG),
        }
        out.extend_from_slice(&steps);
        if steps != whole {
            out.extend_from_slice(&whole);
        }
    }
}

fn u16_list(body: &[u8], at: usize, left: u16) -> Numbers<'_, library::U16Next, u16> {
    Numbers(u16_steps(body, at, left), library::u16_list_copy)
}

fn u32_list(body: &[u8], at: usize, left: u16) -> Numbers<'_, library::U32Next, u32> {
    Numbers(u32_steps(body, at, left), library::u32_list_copy)
}

// ---- bodies

/// An answer of the same type, with nothing in it.
fn nothing<T: Default>(_: &T) -> T {
    T::default()
}

/// What a reader answers on a body; the block puts out the fields of a body that was read.
macro_rules! answer {
    ($read:ident, $body:ident, $out:ident, |$m:ident| $fields:block) => {{
        let $m = library::$read($body);
        let mut refused = nothing(&$m);
        refused.number = $m.number;
        if $m.number == 0 {
            $fields
        } else if $m != refused {
            $out.extend_from_slice(b"a refused answer holds more than its number");
        }
        plant::answer(stringify!($read), $body, Answer { number: $m.number, taken: $m.taken })
    }};
}

macro_rules! readers {
    ($($t:ty, $kind:ident, $read:ident, $shape:tt {
        ($($number:ident),*), ($($field:ident: $part:ident($at:ident, $len:ident) $(counted by $count:ident)?),*),
        $give:path, $size:path
    })*) => { $(impl Ours for $t {
        fn read_ours(body: &[u8], out: &mut Vec<u8>) -> Answer {
            answer!($read, body, out, |m| {
                $(m.$number.canon(out);)*
                $(
                    $(let $count = m.$len; $count.canon(out);)?
                    $part(body, m.$at, m.$len).canon(out);
                )*
            })
        }
    })* };
}
kinds!(readers);

impl Ours for Header {
    fn read_ours(body: &[u8], out: &mut Vec<u8>) -> Answer {
        answer!(header_read, body, out, |m| {
            m.cookie.canon(out);
            m.version_major.canon(out);
            m.version_minor.canon(out);
            m.request_index.canon(out);
            m.message_size.canon(out);
            m.message_part_count.canon(out);
            m.message_part.canon(out);
            m.content_type.canon(out);
        })
    }
}
