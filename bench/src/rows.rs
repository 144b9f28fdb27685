//! What the rows are made of.
use crate::inputs::value;
use crate::measure::Row;
use crate::rust::Body;
use crate::writing::write;
use citp::protocol::ReadFromBytes;
use std::cell::RefCell;
use std::hint::black_box;

/// A call that is not inlined, as one into the archive is not.
#[inline(never)]
pub fn read<T: ReadFromBytes>(rest: &mut &[u8]) -> T {
    T::read_from_bytes(rest).expect("a good body")
}

/// The Rust writes the value of a body; the bytes written.
pub fn writes<T: Body + 'static>(body: &[u8]) -> impl Fn() -> u64 {
    let (value, out) = (value::<T>(body), RefCell::new(vec![0; body.len()]));
    move || write(black_box(&value), black_box(&mut out.borrow_mut()))
}

pub fn sized(
    rows: &mut Vec<Row>,
    group: &'static str,
    name: &str,
    size: &'static str,
    theirs: impl Fn() -> u64 + 'static,
    ours: impl Fn() -> u64 + 'static,
) {
    rows.push(Row { group, name: name.to_string(), size, theirs: Box::new(theirs), ours: Box::new(ours) });
}

pub fn row(
    rows: &mut Vec<Row>,
    group: &'static str,
    name: &str,
    theirs: impl Fn() -> u64 + 'static,
    ours: impl Fn() -> u64 + 'static,
) {
    sized(rows, group, name, "", theirs, ours);
}

pub fn rows() -> Vec<Row> {
    let mut rows = Vec::new();
    crate::reading::rows(&mut rows);
    crate::stepping::rows(&mut rows);
    crate::walking::rows(&mut rows);
    crate::writing::rows(&mut rows);
    crate::ends::rows(&mut rows);
    rows
}
