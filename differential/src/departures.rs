//! Every entry of docs/DIFFERENCES.md that can be run: its input and both answers.
use crate::canon::{ucs2_of, written};
use crate::compare;
use crate::given::Given;
use crate::library;
use crate::ours::Ours;
use crate::pens::{Alone, Packet, Pen};
use crate::rust;
use crate::tally::hex;
use citp::protocol::{self, caex, finf, fptc, fsel, pinf, sdmx, ReadFromBytes, SizeBytes, WriteToBytes};
use std::borrow::Cow;
use std::ffi::CString;

fn entry(number: u8, title: &str) {
    println!("\n{number}. {title}");
}

fn show(input: &str, rust: impl std::fmt::Display, ours: impl std::fmt::Display) {
    println!("  {input}: Rust: {rust}; ours: {ours}");
}

fn show_read<T: compare::Compared>(bodies: &[&[u8]]) {
    for body in bodies {
        println!("  {} {}: {}", T::NAME, hex(body), compare::answers::<T>(body));
    }
}

/// What the Rust writes, or how it fails.
fn rust_writes<T: WriteToBytes>(value: &T) -> String {
    let mut out = Vec::new();
    match rust::caught(|| value.write_to_bytes(&mut out)) {
        Ok(Ok(())) => hex(&out),
        Ok(Err(error)) => format!("{:?} after {} bytes", error.kind(), out.len()),
        Err(message) => format!("panic ({message}) after {}", hex(&out)),
    }
}

/// What our calls write, or the number of the refusal.
fn ours_writes(give: impl FnOnce(&mut Alone) -> u8) -> String {
    let mut out = vec![0; 400_000];
    let mut pen = Alone { out: &mut out, at: 0 };
    match give(&mut pen) {
        0 => {
            let end = pen.at;
            hex(&out[..end])
        }
        number => number.to_string(),
    }
}

fn show_written<T: Given>(input: &str, value: &T) {
    show(input, rust_writes(value), ours_writes(|pen| value.give(pen)));
}

/// A value written, and what the Rust wrote read.
fn show_read_back<T: Given + compare::Compared>(input: &str, value: &T) {
    show_written(input, value);
    println!("    read back: {}", compare::answers::<T>(&written(value)));
}

fn walk(stream: &[u8]) -> String {
    let step = library::walk_step(stream, 0);
    match step.report {
        library::END => format!("the walk ends with {}", step.number),
        library::REFUSED => format!("refused {}", step.number),
        library::UNKNOWN_KIND => format!("unknown kind {:08X} of layer {:08X}", step.content_type, step.layer),
        library::UNKNOWN_LAYER => format!("unknown layer {:08X}", step.layer),
        _ => format!("a message of kind {}", step.kind),
    }
}

/// A packet of a four-letter layer and kind.
fn packet(layer: &[u8; 4], kind: &[u8; 4], body: &[u8]) -> Vec<u8> {
    let size = (24 + body.len()) as u32;
    [b"CITP\x01\x00\x00\x00", &size.to_le_bytes()[..], &[1, 0, 0, 0], layer, kind, body].concat()
}

/// Every type byte from the first that no kind has.
fn show_every_code(number: u8, first: u8, body: impl Fn(u8) -> Vec<u8>) {
    let (mut panics, mut refused) = (0, 0);
    for body in (first..=255).map(body) {
        panics += matches!(rust::read::<caex::FixtureList>(&body), rust::Answer::Unreachable) as u32;
        refused += (caex::FixtureList::read_ours(&body, &mut Vec::new()).number == number) as u32;
    }
    show(&format!("type bytes {first} to 255"), format!("{panics} panics"), format!("{refused} times {number}"));
}

fn reading() {
    entry(1, "A Ucs2 at the body's end without its zero unit");
    show_read::<caex::EnterShow>(&[&[], &[0x41], &[0x41, 0], &[0x41, 0, 0]]);
    entry(2, "FixtureListMessageType above 2");
    show_read::<caex::FixtureList>(&[&[3], &[255]]);
    show_every_code(9, 3, |code| vec![code]);
    entry(3, "IdentifierType above 5");
    let fixture_with = |code: u8| [&[0, 1, 0][..], &[0; 13], &[1, code]].concat();
    show_read::<caex::FixtureList>(&[&fixture_with(6), &fixture_with(255)]);
    show_every_code(10, 6, fixture_with);
    for body in [&[6u8][..], &[5, 0, 0]] {
        let rust = match rust::caught(|| caex::Identifier::read_from_bytes(body).map(|read| hex(&written(&read)))) {
            Ok(read) => format!("{read:?}"),
            Err(message) => format!("panic ({message})"),
        };
        let next = library::identifiers_next(body, 0, 1);
        show(&format!("Identifier {}", hex(body)), rust, format!("number {}, given {}", next.number, next.given));
    }
}

fn headers_and_ends() {
    entry(4, "The base header's values");
    let header =
        |major: u8, size: u32| [b"CITP", &[major, 0, 0, 0][..], &size.to_le_bytes(), &[1, 0, 0, 0], b"SDMX"].concat();
    for bytes in [
        vec![0; 20],
        header(2, 20),
        header(1, 19),
        header(1, 16_777_217),
        header(1, 21),
        header(1, 20)[..19].to_vec(),
        Vec::new(),
    ] {
        println!("  Header {}: {}; {}", hex(&bytes), compare::answers::<protocol::Header>(&bytes), walk(&bytes));
    }
    entry(5, "Where a body ends");
    for (kind, body, behind) in [(b"UNam", &[3, 0x41][..], &b"CITP\0"[..])] {
        let stream = [&packet(b"SDMX", kind, body)[..], behind].concat();
        let rust = sdmx::UNam::read_from_bytes(&stream[24..]).map(|read| read.universe_name);
        show(&format!("UNam {} with {} behind it", hex(body), hex(behind)), format!("{rust:?}"), walk(&stream));
    }
    let rust = caex::EnterShow::read_from_bytes(&b"A\0CITP"[..]).map(|read| hex(&written(&read)));
    show("EnterShow `41 00` with `43 49 54 50` behind it", format!("{rust:?}"), ours_enter_show(&[0x41, 0]));
    entry(6, "Kinds that are not read");
    let rust = sdmx::EnId::read_from_bytes(&b"A\0"[..]).map(|read| read.identifier);
    show("EnId `41 00`", format!("{rust:?}"), walk(&packet(b"SDMX", b"EnId", b"A\0")));
    let rust = sdmx::SXSr::read_from_bytes(&b"A\0"[..]).map(|read| read.connection_string);
    show("SXSr `41 00`", format!("{rust:?}"), walk(&packet(b"SDMX", b"SXSr", b"A\0")));
    entry(27, "Kinds that the Rust does not read");
    show_written_and_read("LaserFeedList of two empty names", &feeds(2, 2));
    show_written_and_read("LaserFeedFrame of one point", &frame(1, 1));
}

fn limits() {
    entry(28, "A string longer than its limit");
    for n in [255, 256] {
        show_read_back(&format!("PNam of {n} bytes 41"), &pinf::PNam { name: letters(n) });
        show_read_back(&format!("EnterShow of {n} units 41"), &caex::EnterShow { name: ucs2_of(&vec![0x41; n]) });
    }
    for n in [65_535, 65_536] {
        let (fixture_identifier, frame_filter_count, frame_gobo_count) = (1, 2, 3);
        let frame_names = letters(n);
        let frames = finf::Fram { fixture_identifier, frame_filter_count, frame_gobo_count, frame_names };
        show_read_back(&format!("Fram 1, 2, 3 of {n} bytes 41"), &frames);
    }
}

fn letters(n: usize) -> CString {
    CString::new(vec![0x41; n]).expect("no zero")
}

/// What the Rust writes, read by ours whole and without its last byte.
fn show_written_and_read<T: WriteToBytes + Ours>(input: &str, value: &T) {
    let (bytes, mut read) = (written(value), Vec::new());
    let ours = T::read_ours(&bytes, &mut read);
    let cut = T::read_ours(&bytes[..bytes.len() - 1], &mut Vec::new()).number;
    show(
        input,
        format!("writes {}, has no reader", hex(&bytes)),
        format!("read, {} taken, {}; {cut} without the last byte", ours.taken, hex(&read)),
    );
}

fn ours_enter_show(body: &[u8]) -> u8 {
    library::enter_show_read(body).number
}

fn u16s(n: usize) -> Cow<'static, [u16]> {
    Cow::Owned(vec![7; n])
}

fn level() -> sdmx::ChannelLevel {
    sdmx::ChannelLevel::read_from_bytes(&[1u8, 2, 0, 3][..]).expect("four bytes")
}

fn frame(points: usize, point_count: u16) -> caex::LaserFeedFrame<'static> {
    let point = caex::LaserPoint { x_low_byte: 1, y_low_byte: 2, xy_high_nibbles: 3, color: 4 };
    caex::LaserFeedFrame {
        source_key: 1,
        feed_index: 2,
        frame_sequence: 3,
        point_count,
        points: Cow::Owned(vec![point; points]),
    }
}

fn feeds(names: usize, feed_count: u8) -> caex::LaserFeedList<'static> {
    caex::LaserFeedList { source_key: 1, feed_count, feed_names: Cow::Owned(vec![ucs2_of(&[]); names]) }
}

fn counts_cut() {
    entry(8, "A u16 count cut to its field");
    for n in [65_535, 65_536, 65_537] {
        show_written(
            &format!("ChBk of {n}"),
            &sdmx::ChBk { blind: 1, universe_index: 2, first_channel: 3, channel_levels: Cow::Owned(vec![9; n]) },
        );
        show_written(&format!("ChLs of {n}"), &sdmx::ChLs { channel_levels: Cow::Owned(vec![level(); n]) });
        show_written(&format!("UPtc of {n}"), &fptc::UPtc { fixture_identifiers: u16s(n) });
        show_written(&format!("SPtc of {n}"), &fptc::SPtc { fixture_identifiers: u16s(n) });
        show_written(&format!("Sele of {n}"), &fsel::Sele { complete: 1, reserved: 2, fixture_identifiers: u16s(n) });
        show_written(&format!("DeSe of {n}"), &fsel::DeSe { fixture_identifiers: u16s(n) });
        show_written(&format!("SFra of {n}"), &finf::SFra { fixture_identifiers: u16s(n) });
        show_written(&format!("LaserFeedFrame of {n}"), &frame(n, 0));
    }
    let dese = written(&fsel::DeSe { fixture_identifiers: u16s(65_536) });
    show(
        "DeSe of 65536 read back",
        format!("{:?}", fsel::DeSe::read_from_bytes(&dese[..]).map(|read| read.fixture_identifiers.len())),
        "cannot be written",
    );
    entry(9, "A u8 count cut to its field");
    [255, 256].iter().for_each(|&n| show_written(&format!("LaserFeedList of {n} empty names"), &feeds(n, 0)));
    entry(10, "Capa checks its count");
    [65_535, 65_536].iter().for_each(|&n| show_written(&format!("Capa of {n}"), &sdmx::Capa { capabilities: u16s(n) }));
}

fn fixture(manufacturer_name: &[u16], fixture_name: &[u16], identifier_count: u8) -> caex::Fixture<'static> {
    caex::Fixture {
        fixture_identifier: 1,
        manufacturer_name: ucs2_of(manufacturer_name),
        fixture_name: ucs2_of(fixture_name),
        mode_name: ucs2_of(&[]),
        channel_count: 2,
        is_dimmer: 0,
        identifier_count,
        identifiers: Cow::Owned(Vec::new()),
        data: caex::FixtureData::read_from_bytes(&[0u8; 36][..]).expect("36 bytes"),
    }
}

fn fixtures(fixture_count: u16, fixtures: Vec<caex::Fixture<'static>>) -> caex::FixtureList<'static> {
    caex::FixtureList {
        message_type: caex::FixtureListMessageType::NewFixture,
        fixture_count,
        fixtures: Cow::Owned(fixtures),
    }
}

fn identifier(data_size: u16) -> caex::Identifier<'static> {
    caex::Identifier {
        identifier_type: caex::IdentifierType::RDMDeviceModelId,
        data_size,
        data: Cow::Owned(vec![0; data_size as usize]),
    }
}

/// Two fixtures without names, the first with 255 identifiers of 65,535 bytes, the second with one of so many.
fn large_list(last: u16) -> caex::FixtureList<'static> {
    let first = caex::Fixture { identifiers: Cow::Owned(vec![identifier(65_535); 255]), ..fixture(&[], &[], 255) };
    let second = caex::Fixture { identifiers: Cow::Owned(vec![identifier(last)]), ..fixture(&[], &[], 1) };
    fixtures(2, vec![first, second])
}

const CANNOT: &str = "cannot be expressed";

fn zero_in_strings() {
    entry(7, "A string that holds a zero");
    for units in [&[0][..], &[0x41, 0, 0x42]] {
        show_read_back(&format!("EnterShow of the units {units:X?}"), &caex::EnterShow { name: ucs2_of(units) });
    }
    show_read_back(
        "FixtureList of one fixture, manufacturer_name E9, 0 and fixture_name \"B\"",
        &fixtures(1, vec![fixture(&[0xE9, 0], &[0x42], 0)]),
    );
    show(
        "UNam of the bytes 41, 0",
        format!("{:?}", CString::new([0x41, 0]).map_err(|error| error.to_string())),
        ours_writes(|pen| pen.unam(3, &[0x41, 0])),
    );
}

fn count_fields() {
    entry(11, "Count fields that the Rust's writer ignores");
    show("LaserFeedList, feed_count 1, no names", rust_writes(&feeds(0, 1)), CANNOT);
    show("LaserFeedFrame, point_count 1, no points", rust_writes(&frame(0, 1)), CANNOT);
    entry(12, "Count fields that the Rust writes as given");
    for (input, list) in [
        ("fixture_count 1, no fixtures", fixtures(1, Vec::new())),
        ("fixture_count 0, one fixture", fixtures(0, vec![fixture(&[], &[], 0)])),
    ] {
        let bytes = written(&list);
        show(&format!("FixtureList, {input}"), hex(&bytes), CANNOT);
        println!("    read back: {}", compare::answers::<caex::FixtureList>(&bytes));
    }
    show(
        "FixtureRemove, fixture_count 1, no identifiers",
        rust_writes(&caex::FixtureRemove { fixture_count: 1, fixture_identifiers: Cow::Owned(Vec::new()) }),
        CANNOT,
    );
    let full = caex::Fixture { identifiers: Cow::Owned(vec![identifier(0); 256]), ..fixture(&[], &[], 0) };
    show(
        "Fixture, identifier_count 0, 256 identifiers without data",
        rust_writes(&full),
        "12 for 256 identifiers; other counts cannot be expressed",
    );
    show("Fixture, identifier_count 1, no identifiers", rust_writes(&fixture(&[], &[], 1)), CANNOT);
    entry(13, "data_size of an identifier");
    for (data_size, data) in [(0, vec![0xAA]), (1, Vec::new())] {
        let input = format!("Identifier of type 5, data_size {data_size}, data {}", hex(&data));
        let value = caex::Identifier {
            identifier_type: caex::IdentifierType::RDMManufacturerId,
            data_size,
            data: Cow::Owned(data),
        };
        show(&input, format!("{}, size_bytes {}", rust_writes(&value), value.size_bytes()), CANNOT);
    }
}

fn show_too_short<T: Given>(input: &str, value: &T, room: usize) {
    let (mut rust, mut ours) = (vec![0xEE; room], vec![0xEE; room]);
    let error = value.write_to_bytes(&mut rust[..]).map_err(|error| error.kind());
    let number = value.give(&mut Alone { out: &mut ours, at: 0 });
    show(input, format!("{error:?}, left {}", hex(&rust)), format!("{number}, left {}", hex(&ours)));
}

fn outputs_and_turns() {
    entry(14, "An output that is too short");
    let name = sdmx::UNam { universe_index: 3, universe_name: CString::default() };
    show_too_short("UNam 3, \"\" into one byte EE", &name, 1);
    show_too_short(
        "UPtc of 0102 into three bytes EE",
        &fptc::UPtc { fixture_identifiers: Cow::Owned(vec![0x0102]) },
        3,
    );
    entry(15, "A packet above 16,777,216 bytes");
    for last in [64_896, 64_897] {
        let list = large_list(last);
        let mut out = vec![0; 16_777_217];
        let mut packet = Packet::new(&mut out);
        let numbers = [packet.open(library::FIXTURE_LIST, 0, 0), list.give(&mut packet), packet.close()];
        show(
            &format!("FixtureList of two fixtures, 255 identifiers of 65535 bytes and one of {last}"),
            format!("a packet of {} bytes", list.message(written(&list).len(), 0, 0).len()),
            format!("open, the list's calls up to a refusal, close answer {numbers:?}"),
        );
    }
    entry(16, "Calls out of turn");
    let mut out = [0; 64];
    let mut packet = Packet::new(&mut out);
    let numbers = [packet.pnam(b"A"), packet.open(library::PNAM, 0, 0), packet.unam(1, b"A"), packet.close()];
    show("PNam's body, open for PNam, UNam's body, close", "has no turns", format!("{numbers:?}"));
    entry(17, "Headers of a whole packet");
    let citp_header = protocol::Header {
        cookie: 0,
        version_major: 9,
        version_minor: 9,
        kind: protocol::Kind { request_index: 0 },
        message_size: 0,
        message_part_count: 0,
        message_part: 9,
        content_type: 0,
    };
    let name = sdmx::UNam { universe_index: 3, universe_name: CString::new("A").expect("no zero") };
    let message = sdmx::Message { sdmx_header: sdmx::Header { citp_header, content_type: 0 }, message: name };
    show("Message of UNam 3, \"A\" with other header values", hex(&written(&message)), CANNOT);
}

fn show_size<T: Given>(input: &str, value: &T) {
    show(
        input,
        format!("writes {} bytes, size_bytes {}", written(value).len(), value.size_bytes()),
        value.size().map_or("no size".to_string(), |size| format!("size {size}")),
    );
}

fn sizes() {
    entry(18, "size_bytes of UPtc and SPtc");
    for n in [0, 1] {
        show_size(&format!("UPtc of {n}"), &fptc::UPtc { fixture_identifiers: u16s(n) });
        show_size(&format!("SPtc of {n}"), &fptc::SPtc { fixture_identifiers: u16s(n) });
    }
    entry(19, "size_bytes of ChLs");
    [0, 1].iter().for_each(|&n| {
        show_size(&format!("ChLs of {n}"), &sdmx::ChLs { channel_levels: Cow::Owned(vec![level(); n]) })
    });
    entry(20, "size_bytes of FixtureRemove");
    for (fixture_count, items) in [(1, 0), (0, 1)] {
        let value = caex::FixtureRemove { fixture_count, fixture_identifiers: Cow::Owned(vec![6; items]) };
        show(
            &format!("FixtureRemove, fixture_count {fixture_count}, {items} identifiers"),
            format!("writes {} bytes, size_bytes {}", written(&value).len(), value.size_bytes()),
            CANNOT,
        );
    }
}

fn codes() {
    entry(26, "Type codes given by number");
    show("FixtureList of type 3, no fixtures", "takes an enum", ours_writes(|pen| pen.fixture_list_head(3, 0)));
    show("Identifier of type 6 without data", "takes an enum", ours_writes(|pen| pen.identifier(6, &[])));
}

fn names_and_floats() {
    entry(21, "The capability MA-Net");
    show(
        "MA_NET_EXTERNAL_SOURCES, ETC_NET2_EXTERNAL_SOURCES",
        format!("{}, {}", sdmx::Capa::MA_NET_EXTERNAL_SOURCES, sdmx::Capa::ETC_NET2_EXTERNAL_SOURCES),
        "104, 103 (crates/sdmx, not run)",
    );
    entry(23, "Equality of floats");
    let data =
        |bits: u32| caex::FixtureData { position: [f32::from_bits(bits), 0.0, 0.0], ..fixture(&[], &[], 0).data };
    for (a, b) in [(0x7FC0_0000, 0x7FC0_0000), (0, 0x8000_0000)] {
        let rust = if data(a) == data(b) { "equal" } else { "unequal" };
        show(
            &format!("FixtureData with position {a:08X} and with {b:08X}"),
            rust,
            format!("bits {:08X} and {:08X}", position_of(a), position_of(b)),
        );
    }
    let kept =
        (0x7F80_0001..=0x7FFF_FFFFu32).flat_map(|bits| [bits, bits | 0x8000_0000]).filter(|&bits| kept(bits)).count();
    println!("  NaN patterns kept by both, read and written: {kept} of 16777214");
}

/// A list of one fixture with this position.
fn body_of(bits: u32) -> [u8; 53] {
    let mut body = [0; 53];
    body[1] = 1;
    body[29..33].copy_from_slice(&bits.to_le_bytes());
    body
}

/// The position that our reader gives.
fn position_of(bits: u32) -> u32 {
    let body = body_of(bits);
    library::fixtures_next(&body, 3, 1).data.position_x
}

/// Whether a position keeps its bits through both readers and both writers.
fn kept(bits: u32) -> bool {
    let body = body_of(bits);
    let Ok(list) = caex::FixtureList::read_from_bytes(&body[..]) else { return false };
    let mut out = [0; 53];
    let given = list.give(&mut Alone { out: &mut out, at: 0 });
    list.fixtures[0].data.position[0].to_bits() == bits
        && position_of(bits) == bits
        && written(&list) == body
        && given == 0
        && out == body
}

pub fn show_all() {
    println!(
        "docs/DIFFERENCES.md by its numbers: each input, what the Rust does, what ours does. Values are canonical bytes \
         (differential/src/canon.rs)."
    );
    reading();
    headers_and_ends();
    limits();
    zero_in_strings();
    counts_cut();
    count_fields();
    outputs_and_turns();
    sizes();
    names_and_floats();
    codes();
}
