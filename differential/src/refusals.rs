//! Calls that are to be refused: the number, and output and state as they were.
use crate::compared::KINDS;
use crate::library::{self, ChannelLevel, FixtureData};
use crate::parts;
use crate::pens::{Alone, At, Call, Packet, Pen, BODIES, ITEMS};
use crate::tally::Tally;
use crate::writing::{blank, holds};

/// Where a call is in turn: the kind that the packet is opened with, and the calls before it.
#[derive(Clone, Copy)]
struct Place(u8, &'static [Call]);

const LIST: Call = |pen| pen.fixture_list_head(0, 1);
const FIXTURE: Place = Place(library::FIXTURE_LIST, &[LIST]);
const IDENTIFIER: Place = Place(library::FIXTURE_LIST, &[LIST, |pen| pen.fixture_head(1, &[], &[], &[], 2, 3, 1)]);
const DATA: Place = Place(library::FIXTURE_LIST, &[LIST, |pen| pen.fixture_head(1, &[], &[], &[], 2, 3, 0)]);
const FEED_NAME: Place = Place(library::LASER_FEED_LIST, &[|pen| pen.laser_feed_list_head(1, 1)]);

const POINT: Place = Place(library::LASER_FEED_FRAME, &[|pen| pen.laser_feed_frame_head(1, 2, 3, 1)]);

/// A body or the head of one.
const fn body(kind: u8) -> Place {
    Place(kind, &[])
}

/// The first number that no kind has.
const NO_KIND: u8 = BODIES.len() as u8;
/// Bytes of the output.
const ROOM: usize = 4_096;
/// One more than a u16 count says.
const LONG: usize = 65_536;
/// The most that a packet has.
const LIMIT: usize = 16_777_216;

/// A string with a zero at its start, in its middle and at its end.
fn with_zeros<T: From<u8>>() -> [Vec<T>; 4] {
    [&[0u8][..], &[0, 0x41], &[0x41, 0, 0x42], &[0x41, 0]].map(|bytes| bytes.iter().map(|&b| T::from(b)).collect())
}

/// The limit of the strings of calls at this place.
fn limit_at(place: Place) -> usize {
    parts::limit(KINDS[place.0 as usize].name)
}

/// The strings of a call, empty but for those given by their numbers.
fn with<'a, T, const N: usize>(given: &[(usize, &'a [T])]) -> [&'a [T]; N] {
    let mut strings: [&[T]; N] = [&[]; N];
    given.iter().for_each(|&(i, string)| strings[i] = string);
    strings
}

/// A call by one of the pens, in a packet behind the calls of its place: what it gives, and whether the output is as before.
fn with_pen<R>(alone: bool, place: Place, call: &dyn Fn(&mut dyn Pen) -> R) -> (R, bool) {
    let mut out = blank(ROOM);
    if alone {
        let given = call(&mut Alone { out: &mut out, at: 9 });
        return (given, holds(&out, 0, &[]));
    }
    let mut packet = Packet::new(&mut out);
    assert_eq!(packet.open(place.0, 1, 2), 0);
    assert!(place.1.iter().all(|before| before(&mut packet) == 0));
    let was = packet.out.to_vec();
    let given = call(&mut packet);
    (given, *packet.out == was)
}

struct Calls<'a>(&'a mut Tally);

impl Calls<'_> {
    fn count(&mut self, what: &'static str, due: u8, number: u8, kept: bool) {
        self.0.numbers[due as usize] += 1;
        if number != due || !kept {
            let output = if kept { "kept" } else { "changed" };
            self.0.differs(what, &[], || format!("{number} for {due}, output {output}"));
        }
    }

    /// A call by both pens.
    fn refused(&mut self, what: &'static str, place: Place, due: u8, call: &dyn Fn(&mut dyn Pen) -> u8) {
        for alone in [true, false] {
            let (number, kept) = with_pen(alone, place, call);
            self.count(what, due, number, kept);
        }
    }

    fn in_packet(&mut self, what: &'static str, due: u8, packet: &mut Packet, call: impl Fn(&mut Packet) -> u8) {
        let was = packet.out.to_vec();
        let number = call(packet);
        self.count(what, due, number, *packet.out == was);
    }

    /// A call that ends at the largest packet's end (13, the output is shorter) and one that ends behind it (15).
    fn at_packet_limit(&mut self, what: &'static str, place: Place, call: &dyn Fn(&mut dyn Pen) -> u8) {
        for alone in [true, false] {
            let (size, _) = with_pen(alone, place, &|pen| {
                let start = pen.at();
                assert_eq!(call(pen), 0);
                pen.at() - start
            });
            for (at, due) in [(LIMIT - size, 13), (LIMIT - size + 1, 15), (LIMIT, 15), (usize::MAX, 15)] {
                let (number, kept) = with_pen(alone, place, &|pen| {
                    pen.set_at(at);
                    call(pen)
                });
                self.count(what, due, number, kept);
            }
        }
    }

    fn string<T: Clone + From<u8>>(
        &mut self,
        what: &'static str,
        place: Place,
        call: &dyn Fn(&mut dyn Pen, &[T]) -> u8,
    ) {
        let limit = limit_at(place);
        for string in with_zeros::<T>() {
            self.refused(what, place, 11, &|pen| call(pen, &string));
        }
        for len in [limit + 1, ROOM, LONG - 1, LONG, LIMIT] {
            let string = vec![T::from(0x41); len];
            self.refused(what, place, if len > limit { 19 } else { 13 }, &|pen| call(pen, &string));
        }
        for len in [0, 1, 70, 255] {
            let string = vec![T::from(0x41); len];
            self.at_packet_limit(what, place, &|pen| call(pen, &string));
        }
        self.past_string_limit(what, place, vec![T::from(0x41); limit + 1], call);
    }

    /// A string past its limit is 19 before 15 and 13, and 14 out of turn; with a zero at its end it is 11.
    fn past_string_limit<T: From<u8>>(
        &mut self,
        what: &'static str,
        place: Place,
        mut string: Vec<T>,
        call: &dyn Fn(&mut dyn Pen, &[T]) -> u8,
    ) {
        for at in [ROOM, LIMIT, usize::MAX] {
            self.refused(what, place, 19, &|pen| {
                pen.set_at(at);
                call(pen, &string)
            });
        }
        let mut out = blank(ROOM);
        self.in_packet(what, 14, &mut Packet::new(&mut out), |packet| call(packet, &string));
        string.push(T::from(0));
        self.refused(what, place, 11, &|pen| call(pen, &string));
    }

    /// Each string of a call, the others empty, and a zero in it beside another that is past its limit.
    fn strings<T: Clone + From<u8>, const N: usize>(
        &mut self,
        names: [&'static str; N],
        place: Place,
        call: &dyn Fn(&mut dyn Pen, [&[T]; N]) -> u8,
    ) {
        let (zero, long) = ([T::from(0)], vec![T::from(0x41); limit_at(place) + 1]);
        for (i, j) in (0..N).flat_map(|i| (0..N).map(move |j| (i, j))) {
            if i == j {
                self.string(names[i], place, &|pen, string| call(pen, with(&[(i, string)])));
            } else {
                self.refused(names[i], place, 11, &|pen| call(pen, with(&[(i, &zero), (j, &long)])));
            }
        }
    }

    fn list<T: Clone + Default>(&mut self, what: &'static str, place: Place, call: &dyn Fn(&mut dyn Pen, &[T]) -> u8) {
        for (items, due) in [(LONG, 12), (LONG + 1, 12), (LIMIT + 1, 12), (LONG - 1, 13)] {
            let list = vec![T::default(); items];
            self.refused(what, place, due, &|pen| call(pen, &list));
        }
        for items in [0, 1, 40] {
            let list = vec![T::default(); items];
            self.at_packet_limit(what, place, &|pen| call(pen, &list));
        }
    }
}

fn data() -> FixtureData {
    FixtureData::default()
}

fn strings(c: &mut Calls) {
    c.strings(["EnterShow name"], body(library::ENTER_SHOW), &|pen, [name]| pen.enter_show(name));
    c.strings(["manufacturer_name", "fixture_name", "mode_name"], FIXTURE, &|pen, [manufacturer, name, mode]| {
        pen.fixture_head(1, manufacturer, name, mode, 2, 3, 0)
    });
    c.strings(["unit", "circuit", "note"], DATA, &|pen, [unit, circuit, note]| {
        pen.fixture_data(data(), unit, circuit, note)
    });
    c.strings(["feed name"], FEED_NAME, &|pen, [name]| pen.feed_name(name));
    c.strings(["UNam universe_name"], body(library::UNAM), &|pen, [name]| pen.unam(1, name));
    c.strings(["Sxus connection_string"], body(library::SXUS), &|pen, [connection]| pen.sxus(1, connection));
    c.strings(["Ptch fixture_make", "Ptch fixture_name"], body(library::PTCH), &|pen, [make, name]| {
        pen.ptch(1, 2, 3, 4, 5, make, name)
    });
    c.strings(["Fram frame_names"], body(library::FRAM), &|pen, [names]| pen.fram(1, 2, 3, names));
    c.strings(["PNam name"], body(library::PNAM), &|pen, [name]| pen.pnam(name));
    c.strings(["PLoc kind", "PLoc name", "PLoc state"], body(library::PLOC), &|pen, [kind, name, state]| {
        pen.ploc(1, kind, name, state)
    });
}

/// A fixture's names beside a count that is too long for its field: 11 and 19 come before 12.
fn names_before_count(c: &mut Calls) {
    for (name, number) in (0..3).flat_map(|name| [(name, 11), (name, 19)]) {
        let string: &[u16] = if number == 11 { &[0] } else { &[0x41; 256] };
        c.refused("a name before identifier_count", FIXTURE, number, &|pen| {
            let [manufacturer, fixture, mode] = with(&[(name, string)]);
            pen.fixture_head(1, manufacturer, fixture, mode, 2, 3, 256)
        });
    }
}

fn lists(c: &mut Calls) {
    c.list("FixtureRemove", body(library::FIXTURE_REMOVE), &|pen, l: &[u32]| pen.fixture_remove(l));
    c.list("Capa", body(library::CAPA), &|pen, l: &[u16]| pen.capa(l));
    c.list("ChBk", body(library::CHBK), &|pen, l: &[u8]| pen.chbk(1, 2, 3, l));
    c.list("ChLs", body(library::CHLS), &|pen, l: &[ChannelLevel]| pen.chls(l));
    c.list("UPtc", body(library::UPTC), &|pen, l: &[u16]| pen.uptc(l));
    c.list("SPtc", body(library::SPTC), &|pen, l: &[u16]| pen.sptc(l));
    c.list("Sele", body(library::SELE), &|pen, l: &[u16]| pen.sele(1, 2, l));
    c.list("DeSe", body(library::DESE), &|pen, l: &[u16]| pen.dese(l));
    c.list("SFra", body(library::SFRA), &|pen, l: &[u16]| pen.sfra(l));
    c.list("identifier data", IDENTIFIER, &|pen, l: &[u8]| pen.identifier(5, l));
}

fn counts_and_codes(c: &mut Calls) {
    for n in [LONG, LONG + 1, usize::MAX] {
        c.refused("fixture_count", body(library::FIXTURE_LIST), 12, &|pen| pen.fixture_list_head(0, n));
        c.refused("point_count", body(library::LASER_FEED_FRAME), 12, &|pen| pen.laser_feed_frame_head(1, 2, 3, n));
    }
    for n in [256, 257, usize::MAX] {
        c.refused("identifier_count", FIXTURE, 12, &|pen| pen.fixture_head(1, &[], &[], &[], 2, 3, n));
        c.refused("feed_count", body(library::LASER_FEED_LIST), 12, &|pen| pen.laser_feed_list_head(1, n));
    }
    for code in 3..=255 {
        c.refused("message_type", body(library::FIXTURE_LIST), 9, &|pen| pen.fixture_list_head(code, 0));
    }
    for code in 6..=255 {
        c.refused("identifier_type", IDENTIFIER, 10, &|pen| pen.identifier(code, &[]));
    }
}

/// Every call on a fresh writer, in a packet of another kind, behind a whole body and in a closed packet.
fn out_of_turn(c: &mut Calls, kind: u8) {
    let mut out = blank(ROOM);
    let mut packet = Packet::new(&mut out);
    let give = BODIES[kind as usize];
    let all = || BODIES.iter().chain(ITEMS);
    all().for_each(|call| c.in_packet("a call on a fresh writer", 14, &mut packet, |packet| call(packet)));
    c.in_packet("close of a fresh writer", 14, &mut packet, |packet| packet.close());
    assert_eq!(packet.open(kind, 1, 2), 0);
    for (_, call) in BODIES.iter().enumerate().filter(|(other, _)| *other != kind as usize) {
        c.in_packet("a body of another kind", 14, &mut packet, |packet| call(packet));
    }
    c.in_packet("close before the body", 14, &mut packet, |packet| packet.close());
    assert_eq!(give(&mut packet), 0);
    all().for_each(|call| c.in_packet("a call behind the body", 14, &mut packet, |packet| call(packet)));
    c.in_packet("open in an open packet", 14, &mut packet, |packet| packet.open(kind, 1, 2));
    assert_eq!(packet.close(), 0);
    all().for_each(|call| c.in_packet("a call in a closed packet", 14, &mut packet, |packet| call(packet)));
}

/// States that no call answers: placed before the headers' end, behind the output or the limit, of no turn or kind.
fn made_up_states(c: &mut Calls, kind: u8) {
    let headers = headers_of(kind) as u32;
    let (room, limit) = (ROOM as u32, LIMIT as u32);
    let states = [
        (library::TURN_BODY, kind, 0),
        (library::TURN_BODY, kind, headers - 1),
        (library::TURN_BODY, NO_KIND, headers),
        (library::TURN_BODY, 255, headers),
        (4, kind, headers),
        (255, kind, headers),
    ];
    for (turn, kind_of, at) in states {
        let mut out = blank(ROOM);
        let state = library::Writer { turn, kind: kind_of, items: 0, identifiers: 0, at };
        let mut packet = Packet { out: &mut out, state };
        c.in_packet("a made-up state", 14, &mut packet, |packet| BODIES[kind as usize](packet));
        c.in_packet("close of a made-up state", 14, &mut packet, |packet| packet.close());
    }
    for (at, due) in [(headers - 1, 14), (room + 1, 13), (limit, 13), (limit + 1, 15), (u32::MAX, 15)] {
        let mut out = blank(ROOM);
        let state = library::Writer { turn: library::TURN_ITEMS, kind, items: 0, identifiers: 0, at };
        c.in_packet("close at a made-up place", due, &mut Packet { out: &mut out, state }, |packet| packet.close());
    }
}

/// The length of a kind's headers: where open leaves the writer.
fn headers_of(kind: u8) -> usize {
    let mut out = blank(ROOM);
    let mut packet = Packet::new(&mut out);
    assert_eq!(packet.open(kind, 1, 2), 0);
    packet.at()
}

/// Open into every output that is too short.
fn open_short(c: &mut Calls, kind: u8) {
    for room in 0..headers_of(kind) {
        let mut out = blank(room);
        c.in_packet("open into a short output", 13, &mut Packet::new(&mut out), |packet| packet.open(kind, 1, 2));
    }
}

fn kinds(c: &mut Calls) {
    for kind in 0..NO_KIND {
        out_of_turn(c, kind);
        made_up_states(c, kind);
        open_short(c, kind);
        c.at_packet_limit("a body at the limit", body(kind), &BODIES[kind as usize]);
    }
    c.at_packet_limit("a laser point at the limit", POINT, &|pen| pen.laser_point(1, 2, 3, 4));
    let mut out = blank(ROOM);
    c.in_packet("open for no kind", 14, &mut Packet::new(&mut out), |packet| packet.open(NO_KIND, 1, 2));
}

pub fn compare(tally: &mut Tally) {
    let calls = &mut Calls(tally);
    strings(calls);
    names_before_count(calls);
    lists(calls);
    counts_and_codes(calls);
    kinds(calls);
}
