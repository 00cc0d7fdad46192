//! Cases of the word `mixer`.

use super::banks::written;
use super::Generator;
use std::fmt::Write;

/// Sources in formats of their own, whole frames and half ones.
const SOURCES: [&str; 3] = [
    "none;o/1/2;o/1/2/3f800000,40000000,40400000",
    "none;k/2/1;k/2/1/40800000,40a00000,40c00000,40e00000;k/1/3/41000000,41100000",
    "none;o/3/1;o/3/1/41200000,41300000,41400000,41500000",
];

/// The calls of a run in which source i is added before answer `moments[i]`, the later numbers first if asked.
fn calls(moments: &[usize], answers: usize, later_first: bool) -> String {
    let mut calls = Vec::new();
    for answer in 0..answers {
        let mut adds: Vec<usize> = (0..moments.len()).filter(|i| moments[*i] == answer).collect();
        if later_first {
            adds.reverse();
        }
        calls.extend(adds.iter().map(|i| format!("a{i}")));
        calls.push("n".to_string());
    }
    calls.join(",")
}

/// All lists of n moments below `end`.
fn all_moments(n: usize, end: usize) -> Vec<Vec<usize>> {
    if n == 0 {
        return vec![Vec::new()];
    }
    let shorter = all_moments(n - 1, end);
    (0..end).flat_map(|first| shorter.iter().map(move |rest| [&[first], rest.as_slice()].concat())).collect()
}

/// Up to three sources added at every moment of two frames, for 1 to 4 channels; and what is refused.
pub fn exhaustive() -> String {
    let mut cases = String::new();
    for channels in 1..=4 {
        for n in 0..=3 {
            let sources = written(&SOURCES[..n]);
            for moments in all_moments(n, 2 * channels + 1) {
                for later_first in [false, true] {
                    let _ = writeln!(cases, "mixer {channels} 2 {sources} {}", calls(&moments, 4 * channels + 12, later_first));
                }
            }
        }
        let _ = writeln!(cases, "mixer {channels} 1 {} a3,a1,n,a1,a0,a18446744073709551615,n,n,a1,a0,n,n,n,n,n,n", written(&SOURCES[..2]));
    }
    cases
}

impl Generator {
    /// A short source without ramps.
    fn short_source(&mut self) -> String {
        let mut text = format!("none;{}/{}/{}", self.random.one_of(&["k", "o"]), 1 + self.random.below(8), 1 + self.random.below(4));
        let spans = self.random.below(4);
        for i in 0..spans {
            let known = if i + 1 < spans { "k" } else { *self.random.one_of(&["k", "o"]) };
            let n = 1 + self.random.below(20);
            let list = self.list(n);
            let _ = write!(text, ";{known}/{}/{}/{list}", 1 + self.random.below(8), 1 + self.random.below(4));
        }
        text
    }

    pub fn mixer_case(&mut self) -> String {
        let (channels, rate) = (self.channels(), 1 + self.random.below(4));
        let n = match self.random.below(3) {
            0 => 1 + self.random.below(3),
            1 => self.random.below(18),
            _ => 14 + self.random.below(4),
        };
        let sources: Vec<String> = (0..n).map(|_| self.short_source()).collect();
        let calls: Vec<String> = (0..self.random.below(120))
            .map(|_| match self.random.below(3) {
                0 => format!("a{}", self.random.below(n + 1)),
                _ => "n".to_string(),
            })
            .collect();
        let calls = if calls.is_empty() { "-".to_string() } else { calls.join(",") };
        format!("mixer {channels} {rate} {} {calls}", written(&sources))
    }
}
