//! Two sides of a row, timed by turns and counted by callgrind.
use std::collections::BTreeMap;
use std::hint::black_box;
use std::process::Command;
use std::time::Instant;

pub type Side = Box<dyn Fn() -> u64>;

/// The same work by the Rust (or another yardstick) and by ours; both answer the same number.
pub struct Row {
    pub group: &'static str,
    pub name: String,
    /// Its column in the group's table.
    pub size: &'static str,
    pub theirs: Side,
    pub ours: Side,
}

/// Of a row: nanoseconds and instructions of a call, theirs and ours.
#[derive(Clone, Copy, Default)]
pub struct Cost {
    pub time: [f64; 2],
    pub count: [u64; 2],
}

impl Cost {
    pub fn ratio(&self) -> f64 {
        self.time[0] / self.time[1]
    }
}

const ROUNDS: usize = 301;
const BATCH: f64 = 30_000.0;

fn nanoseconds(side: &Side, calls: usize) -> f64 {
    let start = Instant::now();
    for _ in 0..calls {
        black_box(side());
    }
    start.elapsed().as_nanos() as f64 / calls as f64
}

/// Medians of many rounds; in each every side has its turn, in a new order.
fn times(sides: &[&Side]) -> Vec<f64> {
    let calls: Vec<usize> =
        sides.iter().map(|side| (BATCH / nanoseconds(side, 10).max(1.0)).clamp(1.0, 4_000.0) as usize).collect();
    let mut taken = vec![Vec::with_capacity(ROUNDS); sides.len()];
    let mut order: Vec<usize> = (0..sides.len()).collect();
    let mut seed = 0x9E37_79B9_7F4A_7C15u64;
    for _ in 0..ROUNDS {
        for i in (1..order.len()).rev() {
            seed ^= seed << 13;
            seed ^= seed >> 7;
            seed ^= seed << 17;
            order.swap(i, (seed % (i as u64 + 1)) as usize);
        }
        for &k in &order {
            black_box(sides[k]());
            taken[k].push(nanoseconds(sides[k], calls[k]));
        }
    }
    taken.iter_mut().for_each(|t| t.sort_by(f64::total_cmp));
    taken.iter().map(|t| t[ROUNDS / 2]).collect()
}

/// callgrind counts from entry to return.
#[no_mangle]
#[inline(never)]
pub fn counted(side: &Side) -> u64 {
    black_box(side())
}

pub fn count_all(rows: &[Row]) {
    let nothing: Side = Box::new(|| 0);
    for side in std::iter::once(&nothing).chain(sides(rows)) {
        (0..3).for_each(|_| {
            black_box(side());
        });
        black_box(counted(side));
    }
}

fn sides(rows: &[Row]) -> impl Iterator<Item = &Side> {
    rows.iter().flat_map(|row| [&row.theirs, &row.ours])
}

/// Instructions of each side: this program under callgrind, with a file for each call of `counted`, less those of a side that does nothing.
fn counts(built: &str) -> Vec<u64> {
    let out = format!("{built}/counts");
    let _ = std::fs::remove_dir_all(&out);
    std::fs::create_dir_all(&out).expect("a folder for the counts");
    let this = std::env::current_exe().expect("this program");
    let file = format!("--callgrind-out-file={out}/count");
    let ran = Command::new("valgrind")
        .args(["-q", "--tool=callgrind", "--zero-before=counted", "--dump-after=counted", &file])
        .arg(this)
        .arg("count")
        .status();
    assert!(ran.expect("valgrind").success());
    let total = |path: std::path::PathBuf| {
        let text = std::fs::read_to_string(&path).expect("a count");
        let total = text.lines().find_map(|line| line.strip_prefix("totals: ")).expect("its total");
        total.trim().parse::<u64>().expect("a number")
    };
    let files = std::fs::read_dir(&out).expect("the counts").map(|entry| entry.expect("a count").path());
    let numbered = files.filter_map(|path| Some((path.extension()?.to_str()?.parse::<u32>().ok()?, path)));
    let in_order: BTreeMap<u32, u64> = numbered.map(|(number, path)| (number, total(path))).collect();
    let mut all = in_order.into_values();
    let nothing = all.next().expect("the side that does nothing");
    all.map(|count| count.saturating_sub(nothing)).collect()
}

pub fn measure(rows: &[Row], built: &str) -> Vec<Cost> {
    for row in rows {
        assert_eq!((row.theirs)(), (row.ours)(), "{} {} {}", row.group, row.name, row.size);
    }
    let times = times(&sides(rows).collect::<Vec<_>>());
    let counts = counts(built);
    assert!(counts.len() >= times.len());
    let cost = |k: usize| Cost { time: [times[2 * k], times[2 * k + 1]], count: [counts[2 * k], counts[2 * k + 1]] };
    (0..rows.len()).map(cost).collect()
}
