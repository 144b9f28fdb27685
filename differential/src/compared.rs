//! The types that are read, the kinds in the table's order and the base header, with all that is done with each.
use crate::compare::{self, Compared};
use crate::kinds::kinds;
use crate::random::Random;
use crate::sample;
use crate::tally::Tally;
use citp::protocol::{caex, finf, fptc, fsel, pinf, sdmx, Header};

pub struct Kind {
    pub name: &'static str,
    pub short: fn(&mut Tally),
    pub limits: fn(&mut Random, &mut Tally),
    pub cuts: fn(&mut Random, &mut Tally),
    pub rounds: fn(&mut Random, u64, &mut Tally),
    pub shrink: fn(&[u8], &str) -> Vec<u8>,
    pub answers: fn(&[u8]) -> String,
    pub records: fn(u8) -> Vec<Vec<u8>>,
    pub packets: fn() -> Vec<Vec<u8>>,
}

const fn kind<T: Compared>() -> Kind {
    Kind {
        name: T::NAME,
        short: compare::short::<T>,
        limits: compare::limits::<T>,
        cuts: compare::cuts::<T>,
        rounds: compare::rounds::<T>,
        shrink: compare::shrink::<T>,
        answers: compare::answers::<T>,
        records: sample::records::<T>,
        packets: sample::packets::<T>,
    }
}

macro_rules! list {
    ($($t:ty, $kind:ident, $read:ident, $shape:tt $rest:tt)*) => {
        pub const KINDS: &[Kind] = &[$(kind::<$t>(),)* kind::<Header>()];
    };
}
kinds!(list);
