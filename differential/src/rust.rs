//! The kinds of the Rust, and what it answers on a body.
use crate::bodies::Part::{self, *};
use crate::canon::{ucs2_of, Canon};
use crate::kinds::kinds;
use citp::protocol::{self, caex, finf, fptc, fsel, pinf, sdmx};
use citp::protocol::{ReadBytesExt, ReadFromBytes, SizeBytes, Ucs2, WriteToBytes, LE};
use std::borrow::Cow;
use std::cell::Cell;
use std::io::{self, Cursor, ErrorKind};
use std::panic::{catch_unwind, AssertUnwindSafe};

/// A type that is read: its name, and what its bodies are made of.
pub trait Body: WriteToBytes + SizeBytes + Canon + Sized {
    const NAME: &'static str;
    const SHAPE: &'static [Part];

    /// By `ReadFromBytes`, else by `StandIn`: a type has one of the two.
    fn read<R: ReadBytesExt>(reader: R) -> io::Result<Self>;
}

macro_rules! bodies {
    ($($layer:ident::$name:ident $(<$life:lifetime>)?, $kind:ident, $read:ident, $shape:tt $rest:tt)*) => { $(
        impl Body for $layer::$name $(<$life>)? {
            const NAME: &'static str = stringify!($name);
            const SHAPE: &'static [Part] = &$shape;

            fn read<R: ReadBytesExt>(reader: R) -> io::Result<Self> {
                Self::read_from_bytes(reader)
            }
        }
    )* };
}
kinds!(bodies);

impl Body for protocol::Header {
    const NAME: &'static str = "Header";
    const SHAPE: &'static [Part] = &[Bytes(20)];

    fn read<R: ReadBytesExt>(reader: R) -> io::Result<Self> {
        Self::read_from_bytes(reader)
    }
}

/// Stands in for the reader of a kind that the Rust writes and does not read: the fields in the order in which it
/// writes them.
pub trait StandIn: Sized {
    fn read_from_bytes<R: ReadBytesExt>(reader: R) -> io::Result<Self>;
}

/// A name with its zero unit; the Rust's own reader, which is private, takes one without it.
fn name<R: ReadBytesExt>(reader: &mut R) -> io::Result<Ucs2> {
    let mut units = Vec::new();
    loop {
        match reader.read_u16::<LE>()? {
            0 => return Ok(ucs2_of(&units)),
            unit => units.push(unit),
        }
    }
}

impl StandIn for caex::LaserFeedList<'static> {
    fn read_from_bytes<R: ReadBytesExt>(mut reader: R) -> io::Result<Self> {
        let source_key = reader.read_u32::<LE>()?;
        let feed_count = reader.read_u8()?;
        let feed_names: io::Result<Vec<_>> = (0..feed_count).map(|_| name(&mut reader)).collect();
        Ok(caex::LaserFeedList { source_key, feed_count, feed_names: Cow::Owned(feed_names?) })
    }
}

fn point<R: ReadBytesExt>(reader: &mut R) -> io::Result<caex::LaserPoint> {
    let mut bytes = [0; 5];
    reader.read_exact(&mut bytes)?;
    let [x_low_byte, y_low_byte, xy_high_nibbles, low, high] = bytes;
    Ok(caex::LaserPoint { x_low_byte, y_low_byte, xy_high_nibbles, color: u16::from_le_bytes([low, high]) })
}

impl StandIn for caex::LaserFeedFrame<'static> {
    fn read_from_bytes<R: ReadBytesExt>(mut reader: R) -> io::Result<Self> {
        let source_key = reader.read_u32::<LE>()?;
        let feed_index = reader.read_u8()?;
        let frame_sequence = reader.read_u32::<LE>()?;
        let point_count = reader.read_u16::<LE>()?;
        let points: io::Result<Vec<_>> = (0..point_count).map(|_| point(&mut reader)).collect();
        let points = Cow::Owned(points?);
        Ok(caex::LaserFeedFrame { source_key, feed_index, frame_sequence, point_count, points })
    }
}

pub enum Answer<T> {
    /// The value, and the bytes taken.
    Read(T, usize),
    UnexpectedEof,
    /// The panic of `unreachable!`.
    Unreachable,
    /// What no rule covers.
    Other(String),
}

const UNREACHABLE: &str = "internal error: entered unreachable code";

thread_local! {
    static CAUGHT: Cell<bool> = const { Cell::new(false) };
}

/// Panics of the Rust are answers and not shown; others are.
pub fn hide_caught_panics() {
    let show = std::panic::take_hook();
    std::panic::set_hook(Box::new(move |panic| {
        if !CAUGHT.get() {
            show(panic);
        }
    }));
}

/// What a call of the Rust gives, or the message of its panic.
pub fn caught<R>(call: impl FnOnce() -> R) -> Result<R, String> {
    CAUGHT.set(true);
    let result = catch_unwind(AssertUnwindSafe(call));
    CAUGHT.set(false);
    result.map_err(|panic| match panic.downcast::<&str>() {
        Ok(message) => message.to_string(),
        Err(panic) => panic.downcast::<String>().map_or(String::new(), |message| *message),
    })
}

pub fn read<T: Body>(body: &[u8]) -> Answer<T> {
    let mut cursor = Cursor::new(body);
    match caught(|| T::read(&mut cursor)) {
        Ok(Ok(value)) => Answer::Read(value, cursor.position() as usize),
        Ok(Err(error)) if error.kind() == ErrorKind::UnexpectedEof => Answer::UnexpectedEof,
        Ok(Err(error)) => Answer::Other(format!("{:?}", error.kind())),
        Err(message) if message == UNREACHABLE => Answer::Unreachable,
        Err(message) => Answer::Other(format!("panic: {message}")),
    }
}
