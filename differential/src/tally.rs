//! Counts per kind and outcome, and the differences with the smallest input of each.
use std::collections::BTreeMap;

pub struct Difference {
    pub count: u64,
    pub input: Vec<u8>,
    pub detail: String,
}

#[derive(Default)]
pub struct Tally {
    pub bodies: u64,
    /// Answers of our reader by number; 0 is read.
    pub numbers: [u64; 32],
    /// Values that were written by both.
    pub written: u64,
    /// Values of which only the sizes were compared.
    pub sized: u64,
    pub differences: BTreeMap<&'static str, Difference>,
}

fn smaller(a: &[u8], b: &[u8]) -> bool {
    (a.len(), a) < (b.len(), b)
}

/// Bytes as text, of long ones the first and their number.
pub fn hex(bytes: &[u8]) -> String {
    let digits: Vec<String> = bytes.iter().take(28).map(|byte| format!("{byte:02X}")).collect();
    let more = if bytes.len() > 28 { format!(" .. ({} bytes)", bytes.len()) } else { String::new() };
    format!("`{}{more}`", digits.join(" "))
}

impl Tally {
    /// An answer, by its number.
    pub fn answered(&mut self, number: u8) {
        self.numbers[number as usize & 31] += 1;
    }

    pub fn differs(&mut self, what: &'static str, input: &[u8], detail: impl FnOnce() -> String) {
        self.put(what, 1, input, detail);
    }

    fn put(&mut self, what: &'static str, count: u64, input: &[u8], detail: impl FnOnce() -> String) {
        match self.differences.get_mut(what) {
            Some(known) => {
                known.count += count;
                if smaller(input, &known.input) {
                    known.input = input.to_vec();
                    known.detail = detail();
                }
            }
            None => {
                self.differences.insert(what, Difference { count, input: input.to_vec(), detail: detail() });
            }
        }
    }

    pub fn add(&mut self, other: Tally) {
        self.bodies += other.bodies;
        self.written += other.written;
        self.sized += other.sized;
        self.numbers.iter_mut().zip(other.numbers).for_each(|(sum, n)| *sum += n);
        for (what, found) in other.differences {
            self.put(what, found.count, &found.input, || found.detail.clone());
        }
    }

    pub fn differ(&self) -> u64 {
        self.differences.values().map(|found| found.count).sum()
    }

    pub fn heading() -> String {
        format!(
            "{:<18}{:>14}{:>13}{:>13}{:>13}{:>11}{:>11}{:>11}{:>13}{:>9}",
            "", "bodies", "read", "7", "8", "9", "10", "19", "written", "differ"
        )
    }

    pub fn line(&self, name: &str) -> String {
        let [read, seven, eight, nine, ten, nineteen] = [0, 7, 8, 9, 10, 19].map(|number| self.numbers[number]);
        format!(
            "{name:<18}{:>14}{read:>13}{seven:>13}{eight:>13}{nine:>11}{ten:>11}{nineteen:>11}{:>13}{:>9}",
            self.bodies,
            self.written,
            self.differ()
        )
    }
}
