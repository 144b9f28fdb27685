//! Bodies read.
use crate::bodies::Part;
use crate::given::Given;
use crate::inputs::{body, sizes};
use crate::kinds::kinds;
use crate::library;
use crate::measure::Row;
use crate::rows::{read, sized, writes};
use crate::rust::{Body, StandIn};
use crate::writing::Packets;
use citp::protocol::{caex, finf, fptc, fsel, pinf, sdmx, ReadFromBytes};
use std::hint::black_box;

/// What the Rust does beside our reader, and the table of its row: it reads the body.
trait Reads: ReadFromBytes {
    const GROUP: &'static str = "read";

    fn theirs(body: &'static [u8]) -> impl Fn() -> u64 {
        move || {
            let mut rest = black_box(body);
            Self::pass(&mut rest);
            (body.len() - rest.len()) as u64
        }
    }

    /// What its walk does with the body.
    fn pass(rest: &mut &[u8]) {
        black_box(&read::<Self>(rest));
    }
}

impl<T: ReadFromBytes> Reads for T {}

/// Of a kind that it does not read, it writes the body.
trait Written: StandIn + Body + 'static {
    const GROUP: &'static str = "read beside writing";

    fn theirs(body: &'static [u8]) -> impl Fn() -> u64 {
        writes::<Self>(body)
    }

    fn pass(_: &mut &[u8]) {}
}

impl<T: StandIn + Body + 'static> Written for T {}

macro_rules! readers {
    ($($t:ty, $kind:ident, $read:ident, $shape:tt $rest:tt)*) => {
        pub fn rows(rows: &mut Vec<Row>) {
            $(for (size, elements) in sizes(<$t>::SHAPE) {
                let body: &'static [u8] = body(<$t>::SHAPE, elements.within::<$t>()).leak();
                sized(rows, <$t>::GROUP, <$t>::NAME, size, <$t>::theirs(body), move || {
                    let body = black_box(body);
                    library::$read(body).taken as u64
                });
            })*
        }

        /// The kinds with a list, a block or fixtures.
        pub fn with_lists() -> Vec<&'static str> {
            let list = |part: &Part| matches!(part, Part::List(_) | Part::Fixtures);
            let mut names = Vec::new();
            $(if <$t>::SHAPE.iter().any(list) {
                names.push(<$t>::NAME);
            })*
            names
        }

        /// Reads a body as the Rust's guide says: by the content types of both headers, where it has a reader.
        pub fn read_body(layer: u32, content_type: u32, rest: &mut &[u8]) {
            let cookie = |letters: &[u8; 4]| u32::from_le_bytes(*letters);
            $(if layer == cookie(<$t as Given>::Layer::COOKIE) && content_type == <$t>::content_type() {
                return <$t>::pass(rest);
            })*
        }

        pub fn read_ours(kind: u8, body: &[u8]) {
            $(if kind == <$t>::KIND {
                black_box(&library::$read(body));
                return;
            })*
        }
    };
}
kinds!(readers);
