//! The Rust and our archive on the same inputs, in one process.
mod bodies;
mod canon;
mod compare;
mod compared;
mod departures;
mod given;
mod kinds;
#[allow(dead_code)]
#[path = "../../bindings/rust/citp.rs"]
mod library;
mod ours;
mod parts;
mod pens;
mod plant;
mod random;
mod refusals;
mod run;
mod rust;
mod sample;
mod tally;
mod values;
mod writing;

use std::process::ExitCode;

const USAGE: &str = "differential run [MILLIONS OF BODIES] | plant FAULT [MILLIONS] | sample | packets | departures";
const SHORT_RUN: u64 = 13;

fn run(millions: Option<&&str>) -> ExitCode {
    let millions = millions.map_or(SHORT_RUN, |n| n.parse().expect(USAGE));
    if run::run(millions * 1_000_000) {
        ExitCode::SUCCESS
    } else {
        ExitCode::FAILURE
    }
}

fn main() -> ExitCode {
    rust::hide_caught_panics();
    let args: Vec<String> = std::env::args().skip(1).collect();
    let args: Vec<&str> = args.iter().map(String::as_str).collect();
    match args[..] {
        ["run", ref rest @ ..] => run(rest.first()),
        ["plant", fault, ref rest @ ..] => {
            let fault: u8 = fault.parse().expect(USAGE);
            println!("planted fault {fault}: {}", plant::FAULTS[fault as usize - 1]);
            plant::set(fault);
            run(rest.first())
        }
        ["sample"] => {
            sample::write(&mut std::io::stdout().lock()).expect("standard output");
            ExitCode::SUCCESS
        }
        ["packets"] => {
            sample::write_packets(&mut std::io::stdout().lock()).expect("standard output");
            ExitCode::SUCCESS
        }
        ["departures"] => {
            departures::show_all();
            ExitCode::SUCCESS
        }
        _ => {
            eprintln!("{USAGE}");
            ExitCode::FAILURE
        }
    }
}
