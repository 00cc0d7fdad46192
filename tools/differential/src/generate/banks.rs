//! Cases of the word `bank`.

use super::Generator;
use crate::spans;
use std::fmt::Write;

/// Small sources, in formats that no bank below has all of.
const SMALL: [&str; 6] = [
    "none;o/1/2",
    "none;k/2/1;o/1/1/3f800000",
    "none;o/1/3;k/1/2/3f800000,40000000",
    "7;o/2/2;o/2/2/40400000,40800000,40a00000",
    "none;k/3/1;k/3/3/40c00000,40e00000,41000000,41100000;o/1/1/41200000,41300000",
    "none;o/1/1;k/1/1/41400000;k/2/1/41500000,41600000",
];

const FORMATS: [(u64, u64); 4] = [(1, 1), (2, 1), (1, 2), (3, 3)];

/// All lists of n small sources.
fn all_lists(n: usize) -> Vec<Vec<&'static str>> {
    if n == 0 {
        return vec![Vec::new()];
    }
    let shorter = all_lists(n - 1);
    SMALL
        .iter()
        .flat_map(|first| shorter.iter().map(move |rest| [&[*first], rest.as_slice()].concat()))
        .collect()
}

pub fn written(sources: &[impl AsRef<str>]) -> String {
    if sources.is_empty() {
        return "-".to_string();
    }
    sources.iter().map(AsRef::as_ref).collect::<Vec<_>>().join("+")
}

/// Every list of up to three small sources, and one of each length up to eighteen, in every format.
pub fn exhaustive() -> String {
    let mut cases = String::new();
    for (channels, rate) in FORMATS {
        for sources in (0..=3).flat_map(all_lists) {
            let _ = writeln!(cases, "bank {channels} {rate} {}", written(&sources));
        }
        for n in 4..=18 {
            let sources: Vec<&str> = SMALL.iter().cycle().skip(n).take(n).copied().collect();
            let _ = writeln!(cases, "bank {channels} {rate} {}", written(&sources));
        }
    }
    cases
}

impl Generator {
    /// A source that breaks no rule, but for one in a hundred.
    fn mostly_good_source(&mut self, to: u64) -> String {
        loop {
            let source = self.source(to);
            if spans::read(&source).is_ok() || self.random.below(100) == 0 {
                return source;
            }
        }
    }

    pub fn bank_case(&mut self) -> String {
        let (channels, rate) = (self.channels(), self.rate());
        let n = match self.random.below(3) {
            0 => self.random.below(4),
            1 => self.random.below(19),
            _ => 15 + self.random.below(4),
        };
        let sources: Vec<String> = (0..n).map(|_| self.mostly_good_source(rate)).collect();
        format!("bank {channels} {rate} {}", written(&sources))
    }
}
