//! Cases from a seed.

mod banks;
mod mixers;

use crate::random::Random;
use std::fmt::Write;

/// Samples that rounding and comparisons treat in a way of their own.
const SPECIAL: [u32; 12] = [
    0x0000_0000, 0x8000_0000, 0x7f80_0000, 0xff80_0000, 0x7fc0_0000, 0xffc0_0001, 0x7f80_0001, 0x0000_0001, 0x807f_ffff, 0x7f7f_ffff, 0x3f80_0000, 0xbf80_0000,
];

/// Lengths of spans around the cut after 32,768 samples.
const LENGTHS: [u64; 6] = [32_767, 32_768, 32_769, 32_772, 65_536, 65_537];

const RATES: [u64; 14] = [1, 2, 3, 8_000, 11_025, 12_000, 16_000, 22_050, 24_000, 32_000, 44_100, 48_000, 65_535, 65_536];

pub struct Generator {
    random: Random,
}

impl Generator {
    pub fn new(seed: u64) -> Generator {
        Generator { random: Random::new(seed) }
    }

    fn sample(&mut self) -> u32 {
        match self.random.below(4) {
            0 => *self.random.one_of(&SPECIAL),
            1 => (self.random.below(2001) as f32 / 1000.0 - 1.0).to_bits(),
            _ => self.random.next() as u32,
        }
    }

    fn list(&mut self, n: u64) -> String {
        if n == 0 {
            return "-".to_string();
        }
        (0..n).map(|_| format!("{:08x}", self.sample())).collect::<Vec<_>>().join(",")
    }

    /// A channel count, now and then one outside the limits.
    fn channels(&mut self) -> u64 {
        match self.random.below(40) {
            0 => *self.random.one_of(&[0, 9, 16, 255, 65_535, 65_536, 65_537, u64::MAX]),
            _ => 1 + self.random.below(8),
        }
    }

    fn rate(&mut self) -> u64 {
        match self.random.below(40) {
            0 => *self.random.one_of(&[0, 65_537, 192_000, 4_294_967_295, 4_294_967_296, u64::MAX]),
            n if n < 20 => *self.random.one_of(&RATES),
            _ => 1 + self.random.below(65_536),
        }
    }

    /// Every pair of channel counts, with every short length; and the other words around their limits.
    pub fn exhaustive(&mut self) -> String {
        let mut cases = banks::exhaustive() + &mixers::exhaustive();
        for from in 1..=8 {
            for to in 1..=8 {
                for n in 0..=40 {
                    let list = self.list(n);
                    let _ = writeln!(cases, "channels {from} {to} {list}");
                }
            }
        }
        for channels in 1..=8 {
            for from in 1..=12 {
                for to in 1..=12 {
                    for n in [0, 1, channels - 1, channels, channels + 1, 2 * channels, 3 * channels + 1] {
                        let list = self.list(n);
                        let _ = writeln!(cases, "rate {channels} {from} {to} {list}");
                    }
                }
            }
        }
        for length in LENGTHS {
            for (c, t) in [(1, 1), (2, 2), (6, 2), (3, 8)] {
                for (from, to) in [(44_100, 44_100), (44_100, 48_000), (48_000, 44_100)] {
                    let _ = writeln!(cases, "uniform {t} {to} none;o/1/44100;k/{c}/{from}/ramp:{length}");
                    let _ = writeln!(cases, "uniform {t} {to} none;k/1/44100;k/2/8000/ramp:5;k/{c}/{from}/ramp:{length};o/1/11025/ramp:{length}");
                }
            }
        }
        for channels in 0..=9 {
            for rate in [0, 1, 2, 44_100, 65_536, 65_537] {
                for length in [0, 1, 2, 7, 8, 9, 44_100] {
                    let _ = writeln!(cases, "buffer {channels} {rate} {length}");
                }
            }
        }
        for length in [16_777_215, 16_777_216, 16_777_217, 16_777_218] {
            let _ = writeln!(cases, "buffer 1 1 {length}\nchannels 2 1 ramp:{length}");
        }
        cases
    }

    fn channels_case(&mut self) -> String {
        let (from, to) = (self.channels(), self.channels());
        let list = match self.random.below(8) {
            0 => format!("ramp:{}", self.random.below(100_000)),
            _ => {
                let n = self.random.below(200);
                self.list(n)
            }
        };
        format!("channels {from} {to} {list}")
    }

    fn rate_case(&mut self) -> String {
        let (channels, to) = (self.channels(), self.rate());
        let (n, most) = match self.random.below(8) {
            0 => (self.random.below(20_000), 200_000),
            _ => (self.random.below(60), 600),
        };
        let from = self.rate_within(to, n, most);
        let list = if most > 600 { format!("ramp:{n}") } else { self.list(n) };
        format!("rate {channels} {from} {to} {list}")
    }

    /// A rate from which n samples at most become `most` at the rate `to`.
    fn rate_within(&mut self, to: u64, n: u64, most: u64) -> u64 {
        for _ in 0..100 {
            let from = self.rate();
            if from > 0 && n.saturating_mul(to.min(65_536)) / from.min(65_536) <= most {
                return from;
            }
        }
        to
    }

    /// A source of up to four spans for a target rate, now and then one that breaks a rule.
    fn source(&mut self, to: u64) -> String {
        let total = match self.random.below(3) {
            0 => "none".to_string(),
            _ => self.random.below(1 << 40).to_string(),
        };
        let mut text = format!("{total};{}/{}/{}", self.random.one_of(&["k", "o"]), self.channels(), self.rate());
        let spans = self.random.below(5);
        for i in 0..spans {
            let known = match self.random.below(30) {
                0 => "o",
                _ if i + 1 < spans => "k",
                _ => *self.random.one_of(&["k", "o"]),
            };
            let (n, ramp) = match self.random.below(40) {
                0 => (*self.random.one_of(&LENGTHS), true),
                1 => (self.random.below(3_000), true),
                _ => (1 + self.random.below(40), false),
            };
            let rate = self.rate_within(to, n, if ramp { 100_000 } else { 2_000 });
            let list = if ramp { format!("ramp:{n}") } else { self.list(n) };
            let _ = write!(text, ";{known}/{}/{rate}/{list}", self.channels());
        }
        text
    }

    fn uniform_case(&mut self) -> String {
        let (channels, rate) = (self.channels(), self.rate());
        format!("uniform {channels} {rate} {}", self.source(rate))
    }

    fn buffer_case(&mut self) -> String {
        let (channels, rate) = (self.channels(), self.rate());
        format!("buffer {channels} {rate} {}", self.random.below(100_000))
    }

    /// A line with a letter changed, put in or taken out.
    fn torn(&mut self, line: String) -> String {
        let mut letters: Vec<char> = line.chars().collect();
        let at = self.random.below(letters.len() as u64) as usize;
        let letter = *self.random.one_of(&['0', '9', 'a', 'g', ' ', ',', '-', '+', '.', ':', 'é']);
        match self.random.below(3) {
            0 => letters[at] = letter,
            1 => letters.insert(at, letter),
            _ => drop(letters.remove(at)),
        }
        letters.into_iter().collect()
    }

    /// Some hundred cases of every kind.
    pub fn round(&mut self) -> String {
        let mut cases = String::new();
        for _ in 0..200 {
            let case = match self.random.below(12) {
                0 => self.buffer_case(),
                1 | 2 => self.channels_case(),
                3 | 4 => self.rate_case(),
                5 | 6 => self.bank_case(),
                7 | 8 => self.mixer_case(),
                _ => self.uniform_case(),
            };
            let case = match self.random.below(10) {
                0 => self.torn(case),
                _ => case,
            };
            let _ = writeln!(cases, "{case}");
        }
        cases
    }
}
