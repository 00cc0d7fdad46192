//! The text of cases, read and written by rules of its own, apart from the port's.

/// Why a line has no answer by rodio.
pub enum Fault {
    Refused(u8),
    NotText,
    NoSuchWord,
    WrongFields,
    NotANumber,
    NotASample,
    ListTooLong,
    NotASource,
    NoSuchFormat,
    EmptySpan,
    OpenSpanNotLast,
    NotACall,
}

impl std::fmt::Display for Fault {
    fn fmt(&self, f: &mut std::fmt::Formatter<'_>) -> std::fmt::Result {
        let why = match self {
            Fault::Refused(n) => return write!(f, "refused {n}"),
            Fault::NotText => "the line is no text",
            Fault::NoSuchWord => "no such word",
            Fault::WrongFields => "more or fewer fields than the word has",
            Fault::NotANumber => "a number is not written in decimal digits, or is too large",
            Fault::NotASample => "a sample is not written in eight hexadecimal digits",
            Fault::ListTooLong => "a list is longer than 16777217 samples",
            Fault::NotASource => "a source is not written TOTAL;REST;SPAN;SPAN..",
            Fault::NoSuchFormat => "a source has a format outside the limits",
            Fault::EmptySpan => "a source has an empty span",
            Fault::OpenSpanNotLast => "a source has an open span that is not its last",
            Fault::NotACall => "a call is not written n, or a and a number",
        };
        write!(f, "? {why}")
    }
}

/// The most cells that a list can be asked for with.
const LONGEST_LIST: u64 = 16_777_217;

/// A list, and whether it was written as a ramp.
pub struct List {
    pub samples: Vec<f32>,
    pub ramp: bool,
}

pub fn number(word: &str) -> Result<u64, Fault> {
    let digits = word.strip_prefix('+').unwrap_or(word);
    if digits.is_empty() || !digits.bytes().all(|b| b.is_ascii_digit()) {
        return Err(Fault::NotANumber);
    }
    digits.parse().map_err(|_| Fault::NotANumber)
}

pub fn ramp(word: &str) -> Result<Vec<f32>, Fault> {
    let n = number(word)?;
    if n > LONGEST_LIST {
        return Err(Fault::ListTooLong);
    }
    Ok((0..n).map(|i| i as f32).collect())
}

pub fn list(word: &str) -> Result<List, Fault> {
    if let Some(n) = word.strip_prefix("ramp:") {
        return Ok(List { samples: ramp(n)?, ramp: true });
    }
    let mut samples = Vec::new();
    if word != "-" {
        for part in word.split(',') {
            if part.len() != 8 || !part.bytes().all(|b| b.is_ascii_hexdigit()) {
                return Err(Fault::NotASample);
            }
            samples.push(f32::from_bits(u32::from_str_radix(part, 16).map_err(|_| Fault::NotASample)?));
        }
    }
    Ok(List { samples, ramp: false })
}

/// The bits of a sample, with one pattern for every NaN.
pub fn bits(sample: f32) -> u32 {
    if sample.is_nan() {
        0x7fc0_0000
    } else {
        sample.to_bits()
    }
}

fn joined<T>(all: &[T], show: impl Fn(&T) -> String) -> String {
    if all.is_empty() {
        return "-".to_string();
    }
    all.iter().map(show).collect::<Vec<_>>().join(",")
}

pub fn samples(all: &[f32], hashed: bool) -> String {
    if !hashed {
        return joined(all, |x| format!("{:08x}", bits(*x)));
    }
    let mut hash: u64 = 0xcbf2_9ce4_8422_2325;
    for x in all {
        for byte in bits(*x).to_le_bytes() {
            hash = (hash ^ u64::from(byte)).wrapping_mul(0x100_0000_01b3);
        }
    }
    format!("#{}:{hash:016x}", all.len())
}

pub fn numbers(all: &[usize]) -> String {
    joined(all, |n| n.to_string())
}
