//! Streams walked.
use crate::given::Given;
use crate::inputs::{body, stream, Size, SMALL, TYPICAL};
use crate::library;
use crate::measure::Row;
use crate::reading::{read_body, read_ours};
use crate::rows::{read, row};
use crate::rust::Body;
use citp::protocol::{self, caex, finf, fptc, fsel, pinf, sdmx, ReadBytesExt, LE};
use std::hint::black_box;

fn walk_rust(stream: &[u8]) -> u64 {
    let mut at = 0;
    let mut packets = 0;
    while at < stream.len() {
        let mut rest = black_box(&stream[at..]);
        let header = read::<protocol::Header>(&mut rest);
        let content_type = rest.read_u32::<LE>().expect("the layer's header");
        if header.content_type == u32::from_le_bytes(*b"FPTC") {
            rest.read_u32::<LE>().expect("the content hint");
        }
        read_body(header.content_type, content_type, &mut rest);
        at += header.message_size as usize;
        packets += 1;
    }
    packets
}

fn walk_ours(stream: &[u8], visit: impl Fn(&library::Step)) -> u64 {
    let stream = black_box(stream);
    let mut at = 0;
    let mut packets = 0;
    loop {
        let step = library::walk_step(stream, at);
        if step.report == library::END {
            return packets;
        }
        visit(&step);
        at = step.next;
        packets += 1;
    }
}

/// A hundred packets of one kind.
fn hundred<T: Given + Body>() -> &'static [u8] {
    stream::<T>(&body(T::SHAPE, TYPICAL), 100).leak()
}

pub fn rows(rows: &mut Vec<Row>) {
    let blocks =
        |levels, times| &*stream::<sdmx::ChBk>(&body(sdmx::ChBk::SHAPE, Size { block: levels, ..SMALL }), times).leak();
    let venue: &'static [u8] = std::fs::read("venues/small-rig.citp").expect("the venue").leak();
    let streams = [
        ("a channel block of 512", blocks(512, 1)),
        ("10 channel blocks", blocks(512, 10)),
        ("100 channel blocks", blocks(512, 100)),
        ("1,000 channel blocks", blocks(512, 1_000)),
        ("a channel block of 65,535", blocks(65_535, 1)),
        ("100 UPtc", hundred::<fptc::UPtc>()),
        ("100 Sele", hundred::<fsel::Sele>()),
        ("100 SFra", hundred::<finf::SFra>()),
        ("100 PNam", hundred::<pinf::PNam>()),
        ("100 FixtureRemove", hundred::<caex::FixtureRemove>()),
        ("the venue", venue),
    ];
    for (name, stream) in streams {
        row(
            rows,
            "walked",
            name,
            || walk_rust(stream),
            || {
                walk_ours(stream, |step| {
                    black_box(step);
                })
            },
        );
        let read = |step: &library::Step| read_ours(step.kind, &stream[step.body_start..][..step.body_len]);
        row(rows, "walked", &format!("{name}, bodies read"), || walk_rust(stream), move || walk_ours(stream, read));
    }
}
