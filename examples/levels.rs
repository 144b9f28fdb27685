//! levels FILE: walks a stored stream and keeps the levels of universe 0 as its channel blocks and channel lists set them: at the end a
//! line for each channel whose level is not 0; ahead of them a line for each message that is refused. The status is 2 where FILE cannot be
//! read, 3 where the lines cannot be written.
use std::io::{Result, Write};
use std::process::ExitCode;

mod common;

const UNIVERSE: u8 = 0;

fn levels(stream: &[u8], out: &mut impl Write) -> Result<()> {
    let mut levels = [0; 512];
    let mut s = citp::walk_step(stream, 0);
    while s.report != citp::END {
        let body = &stream[s.body_start..][..s.body_len];
        let number = match (s.report, s.kind) {
            (citp::MESSAGE, citp::CHBK) => citp::dimmer_chbk(UNIVERSE, &mut levels, body),
            (citp::MESSAGE, citp::CHLS) => citp::dimmer_chls(UNIVERSE, &mut levels, body),
            _ => 0,
        };
        if number != 0 {
            writeln!(out, "{} refused {number}", s.offset)?;
        }
        s = citp::walk_step(stream, s.next);
    }
    for (channel, level) in levels.iter().enumerate().filter(|(_, &level)| level != 0) {
        writeln!(out, "channel {channel}: {level}")?;
    }
    Ok(())
}

fn main() -> ExitCode {
    common::run("levels", |stream, out| levels(stream, out))
}
