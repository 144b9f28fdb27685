//! Stand-in for the crate `ucs2`, which Debian does not have. The Rust calls it in `Ucs2::to_string` and `FromStr for
//! Ucs2` alone, and text conversion is not ported: nothing is converted here. The two calls open the private units of
//! a `Ucs2`: `decode` is handed them and keeps a copy (SEEN), `encode` is handed the buffer that becomes them and
//! fills it from GIVEN.
use std::cell::RefCell;

#[derive(Debug, Clone, Copy, PartialEq, Eq)]
pub enum Error {
    /// What `decode` always answers.
    Seen,
    /// GIVEN is not as long as the buffer.
    NothingGiven,
}

thread_local! {
    pub static SEEN: RefCell<Vec<u16>> = const { RefCell::new(Vec::new()) };
    pub static GIVEN: RefCell<Vec<u16>> = const { RefCell::new(Vec::new()) };
}

pub fn decode(input: &[u16], _output: &mut [u8]) -> Result<usize, Error> {
    SEEN.with_borrow_mut(|seen| {
        seen.clear();
        seen.extend_from_slice(input);
    });
    Err(Error::Seen)
}

pub fn encode(_input: &str, buffer: &mut [u16]) -> Result<usize, Error> {
    GIVEN.with_borrow(|given| {
        if given.len() != buffer.len() {
            return Err(Error::NothingGiven);
        }
        buffer.copy_from_slice(given);
        Ok(given.len())
    })
}
