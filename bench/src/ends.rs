//! A string's end.
use crate::inputs::letters;
use crate::library;
use crate::measure::Row;
use crate::parts::limit;
use crate::rows::row;
use std::hint::black_box;

extern "C" {
    fn memchr(s: *const u8, c: i32, n: usize) -> *const u8;
}

/// PNam's reader over the plain loop.
#[inline(never)]
extern "C" fn plain(body: *const u8, len: usize) -> library::StringBody {
    let body = unsafe { std::slice::from_raw_parts(body, len) };
    let mut i = 0;
    while i < body.len() {
        if body[i] == 0 {
            if i > limit("PNam") {
                return library::StringBody { number: 19, ..Default::default() };
            }
            return library::StringBody { number: 0, taken: i + 1, start: 0, len: i };
        }
        i += 1;
    }
    library::StringBody { number: 8, ..Default::default() }
}

pub fn rows(rows: &mut Vec<Row>) {
    // the names start at a multiple of 16, as an allocation does
    let padded: &'static [u8] = [vec![0; 16], letters(limit("Fram")), vec![0]].concat().leak();
    let (long, names) = (&padded[12..], &padded[16..]);
    row(
        rows,
        "memchr",
        "64 KiB",
        move || unsafe { memchr(black_box(names.as_ptr()), 0, names.len()) as u64 - names.as_ptr() as u64 },
        move || library::fram_read(black_box(long)).frame_names_len as u64,
    );
    for n in 0..=16 {
        let name: &'static [u8] = [letters(n), vec![0]].concat().leak();
        row(
            rows,
            "plain loop",
            &n.to_string(),
            move || {
                let name = black_box(name);
                let answer = plain(name.as_ptr(), name.len());
                black_box(&answer).len as u64
            },
            move || library::pnam_read(black_box(name)).len as u64,
        );
    }
}
