//! The Rust and our archive on the same inputs, in one process: times by turns, instructions by callgrind.
#[allow(dead_code)]
#[path = "../../differential/src/bodies.rs"]
mod bodies;
#[allow(dead_code)]
#[path = "../../differential/src/canon.rs"]
mod canon;
mod ends;
#[allow(dead_code)]
#[path = "../../differential/src/given.rs"]
mod given;
mod inputs;
#[path = "../../differential/src/kinds.rs"]
mod kinds;
#[allow(dead_code)]
#[path = "../../bindings/rust/citp.rs"]
mod library;
mod measure;
#[allow(dead_code)]
#[path = "../../differential/src/parts.rs"]
mod parts;
#[allow(dead_code)]
#[path = "../../differential/src/pens.rs"]
mod pens;
#[allow(dead_code)]
#[path = "../../differential/src/random.rs"]
mod random;
mod reading;
mod rows;
#[allow(dead_code)]
#[path = "../../differential/src/rust.rs"]
mod rust;
mod stepping;
mod table;
mod untouched;
mod walking;
mod writing;

fn main() {
    let rows = rows::rows();
    if std::env::args().any(|arg| arg == "count") {
        return measure::count_all(&rows);
    }
    untouched::walk();
    table::print(&rows, &measure::measure(&rows, "target/bench"));
}
