//! The table: ratios first.
use crate::measure::{Cost, Row};
use crate::reading::with_lists;

type Measured<'a> = [(&'a Row, Cost)];

fn ratio(ratio: f64) -> String {
    if ratio < 10.0 {
        format!("{ratio:.2}")
    } else {
        thousands(ratio as u64)
    }
}

fn thousands(n: u64) -> String {
    if n < 1_000 {
        n.to_string()
    } else {
        format!("{},{:03}", thousands(n / 1_000), n % 1_000)
    }
}

fn group<'a>(all: &'a Measured, name: &'a str) -> impl Iterator<Item = &'a (&'a Row, Cost)> {
    all.iter().filter(move |(row, _)| row.group == name)
}

/// A line for each name, a column for each size.
fn by_size(all: &Measured, name: &str, head: &str) {
    const SIZES: [&str; 3] = ["small", "typical", "largest"];
    println!("\n| {head} | small | typical | largest | instructions: small | typical | largest |\n|---|---|---|---|---|---|---|");
    for (first, _) in group(all, name).filter(|(row, _)| row.size == SIZES[0]) {
        let cell =
            |size| group(all, name).find(|(row, _)| row.name == first.name && row.size == size).map(|(_, cost)| cost);
        let ratios = SIZES.map(|size| cell(size).map_or(String::new(), |cost| ratio(cost.ratio())));
        let counts = SIZES.map(|size| {
            cell(size)
                .map_or(String::new(), |cost| format!("{} : {}", thousands(cost.count[1]), thousands(cost.count[0])))
        });
        println!("| {} | {} | {} |", first.name, ratios.join(" | "), counts.join(" | "));
    }
}

fn plain(all: &Measured, name: &str, head: &str) {
    println!("\n| {head} | ratio | instructions |\n|---|---|---|");
    for (row, cost) in group(all, name) {
        println!(
            "| {} | {} | {} : {} |",
            row.name,
            ratio(cost.ratio()),
            thousands(cost.count[1]),
            thousands(cost.count[0])
        );
    }
}

fn cost(all: &Measured, name: &str) -> Cost {
    all.iter().find(|(row, _)| row.name == name).expect("a row of that name").1
}

/// The row of a group with the least ratio.
fn least<'a>(all: &'a Measured<'a>, name: &'a str, counts: impl Fn(&Row) -> bool) -> (f64, String) {
    let (row, cost) = group(all, name)
        .filter(|(row, _)| counts(row))
        .min_by(|a, b| a.1.ratio().total_cmp(&b.1.ratio()))
        .expect("a row");
    (cost.ratio(), format!("{} {}", row.name, row.size))
}

fn target(what: &str, due: f64, (reached, row): (f64, String)) {
    let row = row.trim_end();
    println!("| {what} | at least {due} | {} ({row}) | {} |", ratio(reached), verdict(reached >= due));
}

fn targets(all: &Measured) {
    let lists = with_lists();
    let many = |row: &Row| row.size != "small" && lists.contains(&row.name.as_str());
    println!("\n| target, as a ratio of times | due | reached, at the row with the least | |\n|---|---|---|---|");
    // a hundredth is within what two runs differ by
    target("bodies read: not slower than the Rust", 0.99, least(all, "read", |_| true));
    target("packets written: not slower than the Rust", 0.99, least(all, "written", |_| true));
    target("streams walked: not slower than the Rust", 0.99, least(all, "walked", |_| true));
    target("lists stepped: not slower than the Rust", 0.99, least(all, "stepped", |_| true));
    target("lists of numbers copied: not slower than the Rust", 0.99, least(all, "copied", |_| true));
    target("lists, blocks and fixture lists read: 10 times faster", 10.0, least(all, "read", many));
    target(
        "fixture lists read and stepped: 10 times faster",
        10.0,
        least(all, "stepped", |row| row.name.starts_with("fixtures")),
    );
    target("a string's end in 64 KiB: within 1.5 times of memchr", 0.67, least(all, "memchr", |_| true));
    target("names of 0 to 16 bytes: not slower than the plain loop", 0.99, least(all, "plain loop", |_| true));
}

fn verdict(met: bool) -> &'static str {
    if met {
        "met"
    } else {
        "missed"
    }
}

/// What ten and a hundred times the stream costs, by one measure.
fn growth(what: &str, [ten, hundred, thousand]: [f64; 3]) {
    let (a, b) = (hundred / ten, thousand / ten);
    println!("| {what} | at most 10, 100 | {a:.1}, {b:.1} | {} |", verdict(a <= 10.0 && b <= 100.0));
}

fn walk(all: &Measured) {
    let streams = ["10 channel blocks", "100 channel blocks", "1,000 channel blocks"].map(|name| cost(all, name));
    let step = (streams[1].count[1] - streams[0].count[1]) / 90;
    let blocks = ["a channel block of 512", "a channel block of 65,535"].map(|name| cost(all, name).count[1]);
    println!("\n| the walk | due | reached | |\n|---|---|---|---|");
    println!(
        "| instructions of a step over a channel block of 512, with the caller's loop | at most 200 | {step} | {} |",
        verdict(step <= 200)
    );
    println!(
        "| its levels read | none | none: they lay in memory that may not be read; over 65,535 levels {} instructions more | {} |",
        blocks[1] - blocks[0],
        verdict(blocks[0] == blocks[1])
    );
    growth("time of a stream 10 and 100 times as long", streams.map(|cost| cost.time[1]));
    growth("its instructions", streams.map(|cost| cost.count[1] as f64));
}

pub fn print(rows: &[Row], costs: &[Cost]) {
    let all: Vec<(&Row, Cost)> = rows.iter().zip(costs.iter().copied()).collect();
    targets(&all);
    walk(&all);
    by_size(&all, "read", "body read");
    by_size(&all, "read beside writing", "body read, beside the Rust's writing of it");
    plain(&all, "stepped", "read and stepped whole");
    plain(&all, "stepped beside writing", "read and stepped whole, beside the Rust's writing of the body");
    plain(&all, "copied", "read and copied whole");
    plain(&all, "walked", "walked");
    by_size(&all, "written", "packet written");
    plain(&all, "memchr", "a string's end, beside memchr");
    plain(&all, "plain loop", "name of so many bytes, beside the plain loop");
}
