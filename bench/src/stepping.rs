//! Lists read and stepped whole; those of numbers also copied whole.
use crate::bodies::Part;
use crate::inputs::{body, Size, SMALL};
use crate::library;
use crate::measure::Row;
use crate::rows::{read, row, writes};
use crate::rust::Body;
use citp::protocol::{caex, sdmx};
use std::cell::RefCell;
use std::hint::black_box;

macro_rules! steps {
    ($body:expr, $next:ident, $at:expr, $left:expr, $each:expr) => {{
        let (mut at, mut left, mut sum) = ($at, $left, 0);
        loop {
            let item = library::$next($body, at, left);
            if item.given == 0 {
                break sum;
            }
            sum += $each(&item);
            (at, left) = (item.at, item.left);
        }
    }};
}

fn fixtures_sum(body: &[u8]) -> u64 {
    let list = read::<caex::FixtureList>(&mut black_box(body));
    let identifiers = |x: &caex::Fixture| x.identifiers.iter().map(|i| u8::from(i.identifier_type) as u64).sum::<u64>();
    list.fixtures.iter().map(|x| x.fixture_identifier as u64 + x.data.channel as u64 + identifiers(x)).sum()
}

fn our_fixtures_sum(body: &[u8]) -> u64 {
    let body = black_box(body);
    let list = library::fixture_list_read(body);
    steps!(body, fixtures_next, list.fixtures_at, list.fixtures_left, |x: &library::FixtureNext| {
        let identifier_type = |i: &library::IdentifierNext| i.identifier_type as u64;
        let identifiers = steps!(body, identifiers_next, x.identifiers_at, x.identifiers_left, identifier_type);
        x.fixture_identifier as u64 + x.data.channel as u64 + identifiers
    })
}

/// The items that a copy puts into lent output.
fn copied<T>(out: &RefCell<Vec<T>>, copy: impl Fn(&mut [T]) -> library::Copied) -> u64 {
    let mut out = out.borrow_mut();
    let len = copy(&mut out).len;
    black_box(&out[..len]).len() as u64
}

/// The bytes of the names and of what stands before them.
fn feed_names_len(body: &[u8]) -> u64 {
    let body = black_box(body);
    let list = library::laser_feed_list_read(body);
    let len = |x: &library::FeedNameNext| 2 * x.len as u64 + 2;
    5 + steps!(body, feed_names_next, list.feed_names_at, list.feed_names_left, len)
}

/// The bytes of the points and of what stands before them.
fn laser_points_len(body: &[u8]) -> u64 {
    let body = black_box(body);
    let frame = library::laser_feed_frame_read(body);
    let len = |x: &library::LaserPointNext| {
        black_box(&x.value);
        5
    };
    11 + steps!(body, laser_points_next, frame.points_at, frame.points_left, len)
}

/// Laser feeds, which the Rust writes and does not read.
fn laser_feeds(rows: &mut Vec<Row>, feeds: usize, points: usize) {
    let size = Size { feeds, points, ..SMALL };
    let list: &'static [u8] = body(caex::LaserFeedList::SHAPE, size).leak();
    let frame: &'static [u8] = body(caex::LaserFeedFrame::SHAPE, size).leak();
    let group = "stepped beside writing";
    row(rows, group, &format!("feed names, {feeds}"), writes::<caex::LaserFeedList>(list), || feed_names_len(list));
    row(rows, group, &format!("points, {points}"), writes::<caex::LaserFeedFrame>(frame), || laser_points_len(frame));
}

pub fn rows(rows: &mut Vec<Row>) {
    let of = |list| Size { list, ..SMALL };
    for lamps in [1, 100, 1_000] {
        let body: &'static [u8] = body(caex::FixtureList::SHAPE, Size { lamps, ..SMALL }).leak();
        row(rows, "stepped", &format!("fixtures, {lamps}"), || fixtures_sum(body), || our_fixtures_sum(body));
    }
    laser_feeds(rows, 4, 500);
    laser_feeds(rows, 255, 65_535);
    for n in [100, 32_768] {
        let numbers: &'static [u8] = body(&[Part::List(2)], of(n)).leak();
        let wide: &'static [u8] = body(&[Part::List(4)], of(n)).leak();
        row(
            rows,
            "stepped",
            &format!("u16, {n}"),
            || read::<sdmx::Capa>(&mut black_box(numbers)).capabilities.iter().map(|&x| x as u64).sum(),
            move || {
                let body = black_box(numbers);
                let m = library::capa_read(body);
                steps!(body, u16_list_next, m.at, m.left, |x: &library::U16Next| x.value as u64)
            },
        );
        row(
            rows,
            "stepped",
            &format!("u32, {n}"),
            || read::<caex::FixtureRemove>(&mut black_box(wide)).fixture_identifiers.iter().map(|&x| x as u64).sum(),
            move || {
                let body = black_box(wide);
                let m = library::fixture_remove_read(body);
                steps!(body, u32_list_next, m.at, m.left, |x: &library::U32Next| x.value as u64)
            },
        );
        let out = RefCell::new(vec![0; n]);
        row(
            rows,
            "copied",
            &format!("u16, {n}"),
            || black_box(read::<sdmx::Capa>(&mut black_box(numbers)).capabilities).len() as u64,
            move || {
                let body = black_box(numbers);
                let m = library::capa_read(body);
                copied(&out, |out| library::u16_list_copy(body, m.at, m.left, out))
            },
        );
        let out = RefCell::new(vec![0; n]);
        row(
            rows,
            "copied",
            &format!("u32, {n}"),
            || black_box(read::<caex::FixtureRemove>(&mut black_box(wide)).fixture_identifiers).len() as u64,
            move || {
                let body = black_box(wide);
                let m = library::fixture_remove_read(body);
                copied(&out, |out| library::u32_list_copy(body, m.at, m.left, out))
            },
        );
        row(
            rows,
            "stepped",
            &format!("channel levels, {n}"),
            || read::<sdmx::ChLs>(&mut black_box(wide)).channel_levels.iter().map(black_box).count() as u64,
            move || {
                let body = black_box(wide);
                let m = library::chls_read(body);
                steps!(body, channel_levels_next, m.at, m.left, |x: &library::ChannelLevelNext| {
                    black_box(&x.value);
                    1
                })
            },
        );
    }
}
