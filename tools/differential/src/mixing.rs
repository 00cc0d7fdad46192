//! Rodio's mixer under a list of calls, each with its reply.

use crate::answer::MOST_LISTS;
use crate::spans::Spans;
use crate::text::{self, Fault};
use rodio::mixer;

pub enum Call {
    Add(u64),
    Next,
}

/// `-` for none, or `n` and `aI` joined by commas.
pub fn calls(word: &str) -> Result<Vec<Call>, Fault> {
    if word == "-" {
        return Ok(Vec::new());
    }
    word.split(',')
        .map(|part| match part.strip_prefix('a') {
            _ if part == "n" => Ok(Call::Next),
            Some(number) => Ok(Call::Add(text::number(number)?)),
            None => Err(Fault::NotACall),
        })
        .collect()
}

/// Rodio has no numbers: it is asked to add a source exactly where the rules accept the add.
pub fn replies(sources: Vec<Spans>, channels: u16, rate: u32, calls: &[Call]) -> String {
    let mut waiting: Vec<Option<Spans>> = sources.into_iter().take(MOST_LISTS).map(Some).collect();
    let (input, mut output) = mixer::mixer(channels, rate);
    let replies: Vec<String> = calls
        .iter()
        .map(|call| match call {
            Call::Next => match output.next() {
                Some(sample) => format!("n={:08x}", text::bits(sample)),
                None => "n=end".to_string(),
            },
            Call::Add(number) => {
                let refusal = match waiting.get_mut(*number as usize).map(Option::take) {
                    None => 4,
                    Some(None) => 5,
                    Some(Some(source)) => {
                        input.add(source);
                        0
                    }
                };
                format!("a{number}={refusal}")
            }
        })
        .collect();
    if replies.is_empty() {
        return "-".to_string();
    }
    replies.join(",")
}
