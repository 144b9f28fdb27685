//! book FILE: walks a stored stream, keeps its patch in a book and prints what it ends with: a line for each fixture, and for each universe
//! that has any how many channels are taken and the first free one; ahead of them a line for each patch message that is refused. The status
//! is 2 where FILE cannot be read, 3 where the lines cannot be written.
use std::io::{Result, Write};
use std::process::ExitCode;

use citp::{Booked, Entry};

mod common;

const ROOM: usize = 256;

fn print_fixtures(count: usize, entries: &[u64], out: &mut impl Write) -> Result<()> {
    for k in 0..citp::book_entries(count, entries) {
        let Entry { fixture_identifier, universe, channel, channel_count, .. } = citp::book_entry(count, entries, k);
        writeln!(
            out,
            "fixture {fixture_identifier}: universe {universe}, channel {channel}, channel count {channel_count}"
        )?;
    }
    Ok(())
}

fn print_universes(count: usize, entries: &[u64], out: &mut impl Write) -> Result<()> {
    for universe in 0..256 {
        let taken = citp::book_taken(count, entries, universe);
        match citp::book_first_free(count, entries, universe) {
            _ if taken == 0 => {}
            512 => writeln!(out, "universe {universe}: {taken} channels taken, none is free")?,
            first_free => writeln!(out, "universe {universe}: {taken} channels taken, the first free is {first_free}")?,
        }
    }
    Ok(())
}

fn book(stream: &[u8], out: &mut impl Write) -> Result<()> {
    let (mut count, mut entries) = (0, [0; ROOM]);
    let mut s = citp::walk_step(stream, 0);
    while s.report != citp::END {
        let body = &stream[s.body_start..][..s.body_len];
        let r = match (s.report, s.kind) {
            (citp::MESSAGE, citp::PTCH) => citp::book_patch(count, &mut entries, body),
            (citp::MESSAGE, citp::UPTC) => citp::book_unpatch(count, &mut entries, body),
            _ => Booked { number: 0, count },
        };
        if r.number != 0 {
            writeln!(out, "{} refused {}", s.offset, r.number)?;
        }
        count = r.count;
        s = citp::walk_step(stream, s.next);
    }
    print_fixtures(count, &entries, out)?;
    print_universes(count, &entries, out)
}

fn main() -> ExitCode {
    common::run("book", |stream, out| book(stream, out))
}
