//! walk FILE: walks a stored stream and prints a line a packet: its offset, its size and what it is. The status is 2 where
//! FILE cannot be read, 3 where the lines cannot be written.
use std::io::Write;
use std::process::ExitCode;

use citp::Step;

mod common;

fn what(s: &Step) -> String {
    match s.report {
        citp::MESSAGE if s.added == 0 => citp::KIND_NAMES[s.kind as usize].to_string(),
        citp::MESSAGE => format!("{}, {} bytes added", citp::KIND_NAMES[s.kind as usize], s.added),
        citp::UNKNOWN_LAYER => format!("unknown layer {:08X}", s.layer),
        citp::UNKNOWN_KIND => format!("unknown kind {:08X} in layer {:08X}", s.content_type, s.layer),
        citp::FRAGMENT => format!("fragment {} of {}", s.part, s.part_count),
        _ => format!("refused {}", s.number),
    }
}

fn walk(stream: &[u8], out: &mut impl Write) -> std::io::Result<()> {
    let mut s = citp::walk_step(stream, 0);
    while s.report != citp::END {
        writeln!(out, "{} {} {}", s.offset, s.size, what(&s))?;
        s = citp::walk_step(stream, s.next);
    }
    writeln!(out, "{} end {}", s.offset, s.number)
}

fn main() -> ExitCode {
    common::run("walk", |stream, out| walk(stream, out))
}
