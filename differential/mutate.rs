//! mutate EXECUTABLE K OUT: a copy of the executable with one bit turned in the machine code of our archive: the lowest of
//! a constant operand, or of a jump's condition. K chooses the place. The disassembly (objdump -dF) comes from standard
//! input.
use std::io::Read;

/// The crates under the exported functions that the comparison calls; the patch book is not among them.
const CRATES: [&str; 18] = [
    "refusal", "search", "wire", "put", "floats", "header", "pinf", "sdmx", "fptc", "fsel", "finf", "fixture", "caex",
    "layers", "citp", "turns", "writer", "plain",
];

struct Place {
    offset: u64,
    function: String,
    instruction: String,
}

fn number(hex: &str) -> Option<u64> {
    u64::from_str_radix(hex.trim().trim_start_matches("0x"), 16).ok()
}

/// A function's address, name and place in the file, from its heading.
fn heading(line: &str) -> Option<(u64, &str, u64)> {
    let (address, rest) = line.split_once(" <")?;
    let (name, rest) = rest.split_once('>')?;
    let offset = rest.trim().strip_prefix("(File Offset: ")?.trim_end_matches("):");
    Some((number(address)?, name, number(offset)?))
}

/// Which byte of the instruction holds the lowest bit of its constant or of its condition.
fn byte_of(bytes: &[u8], text: &str) -> Option<usize> {
    match *bytes {
        [first, ..] if first >> 4 == 7 => return Some(0),
        [0x0F, second, ..] if second >> 4 == 8 => return Some(1),
        _ => {}
    }
    let constant = number(text.split_once("$0x")?.1.split(',').next()?)?;
    let n = bytes.len();
    match bytes {
        [.., last] if *last as u64 == constant && constant < 0x80 => Some(n - 1),
        [.., low, _, _, _] if n > 4 && *low as u64 == constant & 0xFF => Some(n - 4),
        _ => None,
    }
}

fn places(disassembly: &str) -> Vec<Place> {
    let mut places = Vec::new();
    let mut function = None;
    for line in disassembly.lines() {
        if let Some((address, name, offset)) = heading(line) {
            let ours =
                name.starts_with("citp_") || name.split_once("::").is_some_and(|(start, _)| CRATES.contains(&start));
            function = ours.then_some((address, name, offset));
        }
        let fields: Vec<&str> = line.split('\t').collect();
        let (Some((start, name, offset)), [at, bytes, text]) = (function, &fields[..]) else { continue };
        let bytes: Vec<u8> = bytes.split_whitespace().filter_map(|byte| Some(number(byte)? as u8)).collect();
        if let (Some(at), Some(byte)) = (number(at.trim_end_matches(':')), byte_of(&bytes, text)) {
            let instruction = text.split_whitespace().collect::<Vec<_>>().join(" ");
            places.push(Place { offset: offset + at - start + byte as u64, function: name.to_string(), instruction });
        }
    }
    places
}

fn main() {
    let args: Vec<String> = std::env::args().collect();
    let [_, executable, k, out] = &args[..] else { panic!("mutate EXECUTABLE K OUT") };
    let mut disassembly = String::new();
    std::io::stdin().read_to_string(&mut disassembly).expect("a disassembly");
    let places = places(&disassembly);
    let chosen = k.parse::<usize>().expect("a number").wrapping_mul(0x9E37_79B9_7F4A_7C15) >> 20;
    let place = &places[chosen % places.len()];
    let mut code = std::fs::read(executable).expect("the executable");
    code[place.offset as usize] ^= 1;
    std::fs::write(out, code).expect("the mutant");
    print!("mutant {k} of {}: {}: {}: ", places.len(), place.function, place.instruction);
}
