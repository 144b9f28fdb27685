//! The differential run: jobs with seeds of their own, taken by as many threads as there are cores.
use crate::compared::KINDS;
use crate::random::Random;
use crate::refusals;
use crate::tally::{hex, Tally};
use crate::values;
use std::sync::atomic::{AtomicUsize, Ordering};
use std::sync::Mutex;
use std::time::Instant;

pub const SEED: u64 = 0x9E37_79B9_7F4A_7C15;
/// Bodies of a job of rounds.
const JOB: u64 = 200_000;
/// From so many bodies on every cut of a long body of each kind is among them, which takes minutes.
const LONG_RUN: u64 = 100_000_000;
/// Bodies of up to two bytes, and of three to six over seven bytes.
const SHORT_BODIES: u64 = 1 + 256 + 65_536 + 343 + 2_401 + 16_807 + 117_649;

enum Job {
    Short(usize),
    Limits(usize),
    Cuts(usize),
    Rounds(usize, u64),
    Values(u64),
    Sizes,
    Refusals,
}

/// In a long run the cuts of a long body of every kind; the short bodies of every kind and those around the limits of its
/// strings; then for each kind in turn, and values of laser feeds, as many rounds as so many bodies need, at least one.
fn jobs(bodies: u64) -> Vec<Job> {
    let mut jobs = vec![Job::Refusals, Job::Sizes];
    if bodies >= LONG_RUN {
        jobs.extend((0..KINDS.len()).map(Job::Cuts));
    }
    jobs.extend((0..KINDS.len()).flat_map(|kind| [Job::Short(kind), Job::Limits(kind)]));
    let short = KINDS.len() as u64 * SHORT_BODIES;
    let rounds = bodies.saturating_sub(short).div_ceil(JOB * KINDS.len() as u64).max(1);
    for round in 0..rounds {
        jobs.extend((0..KINDS.len()).map(|kind| Job::Rounds(kind, round)));
        jobs.push(Job::Values(round));
    }
    jobs
}

struct Results {
    kinds: Vec<Tally>,
    values: Tally,
    refusals: Tally,
}

fn work(jobs: &[Job], next: &AtomicUsize, results: &Mutex<Results>) {
    while let Some(job) = jobs.get(next.fetch_add(1, Ordering::Relaxed)) {
        let mut tally = Tally::default();
        match *job {
            Job::Short(kind) => (KINDS[kind].short)(&mut tally),
            Job::Limits(kind) => {
                (KINDS[kind].limits)(&mut Random::of(SEED, KINDS[kind].name, u64::MAX - 1), &mut tally)
            }
            Job::Cuts(kind) => (KINDS[kind].cuts)(&mut Random::of(SEED, KINDS[kind].name, u64::MAX), &mut tally),
            Job::Rounds(kind, number) => {
                (KINDS[kind].rounds)(&mut Random::of(SEED, KINDS[kind].name, number), JOB, &mut tally)
            }
            Job::Values(number) => values::laser_feeds(&mut Random::of(SEED, "laser feeds", number), &mut tally),
            Job::Sizes => values::large_sizes(&mut tally),
            Job::Refusals => refusals::compare(&mut tally),
        }
        let mut results = results.lock().expect("no thread panics with the lock");
        match *job {
            Job::Short(kind) | Job::Limits(kind) | Job::Cuts(kind) | Job::Rounds(kind, _) => {
                results.kinds[kind].add(tally)
            }
            Job::Values(_) | Job::Sizes => results.values.add(tally),
            Job::Refusals => results.refusals.add(tally),
        }
    }
}

fn show_counts(results: &Results) {
    let values = &results.values;
    println!("{}", Tally::heading());
    for (kind, tally) in KINDS.iter().zip(&results.kinds) {
        println!("{}", tally.line(kind.name));
    }
    println!(
        "laser feeds: {} values written, {} bodies of them read, cuts refused with 7: {}, 8: {}; \
         sizes around the largest packet: {}; {} differ",
        values.written,
        values.numbers[0],
        values.numbers[7],
        values.numbers[8],
        values.sized,
        values.differ()
    );
    let refused = |number: usize| format!("{number}: {}", results.refusals.numbers[number]);
    let calls: Vec<String> = (9..16).chain([19]).map(refused).collect();
    println!("calls refused with {}; {} differ", calls.join(", "), results.refusals.differ());
}

fn show_differences(results: &Results) {
    for (kind, tally) in KINDS.iter().zip(&results.kinds) {
        for (what, found) in &tally.differences {
            let input = (kind.shrink)(&found.input, what);
            println!("DIFFERENCE {}: {what}, {} times; smallest input {}", kind.name, found.count, hex(&input));
            println!("    {}", (kind.answers)(&input));
        }
    }
    for (what, found) in results.values.differences.iter().chain(&results.refusals.differences) {
        println!("DIFFERENCE {what}, {} times: {} {}", found.count, found.detail, hex(&found.input));
    }
}

/// Runs at least so many bodies; whether there was no difference.
pub fn run(bodies: u64) -> bool {
    let start = Instant::now();
    let jobs = jobs(bodies);
    let results = Mutex::new(Results {
        kinds: KINDS.iter().map(|_| Tally::default()).collect(),
        values: Tally::default(),
        refusals: Tally::default(),
    });
    let next = AtomicUsize::new(0);
    let threads = std::thread::available_parallelism().map_or(1, |n| n.get());
    std::thread::scope(|scope| (0..threads).for_each(|_| drop(scope.spawn(|| work(&jobs, &next, &results)))));
    let results = results.into_inner().expect("no thread panics with the lock");
    show_counts(&results);
    show_differences(&results);
    let bodies: u64 = results.kinds.iter().map(|tally| tally.bodies).sum();
    let differ: u64 = results.kinds.iter().chain([&results.values, &results.refusals]).map(Tally::differ).sum();
    println!(
        "{bodies} bodies, {differ} differ; seed {SEED:#018X}, {threads} threads, {:.0} s",
        start.elapsed().as_secs_f64()
    );
    differ == 0
}
