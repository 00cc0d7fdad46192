//! Compares the port's program `replay` with rodio: the same cases to both, every answer the same by bits.
//!
//!     differential REPLAY [--seed N] [--seconds N]    makes cases from a seed, and compares until the time is up
//!     differential REPLAY --answer < CASES            prints rodio's answers to cases

mod answer;
mod generate;
mod mixing;
mod random;
mod spans;
mod text;

use generate::Generator;
use std::io::{Read, Write};
use std::process::{Command, ExitCode, Stdio};
use std::time::{Duration, Instant};

/// What `replay` prints for the cases.
fn replayed(replay: &str, cases: &[u8]) -> Vec<String> {
    let mut child = Command::new(replay)
        .stdin(Stdio::piped())
        .stdout(Stdio::piped())
        .spawn()
        .expect("the program replay starts");
    let mut stdin = child.stdin.take().expect("its input is a pipe");
    let input = cases.to_vec();
    let writer = std::thread::spawn(move || {
        let _ = stdin.write_all(&input);
    });
    let mut printed = Vec::new();
    child
        .stdout
        .take()
        .expect("its output is a pipe")
        .read_to_end(&mut printed)
        .expect("its output is read");
    writer.join().expect("all cases are written");
    let status = child.wait().expect("it ends");
    assert!(status.success(), "replay ended with {status}");
    String::from_utf8(printed)
        .expect("replay prints text")
        .lines()
        .map(str::to_string)
        .collect()
}

/// Rodio's answer to each line that asks for one, with the line.
fn expected(cases: &[u8]) -> Vec<(String, String)> {
    cases
        .split(|b| *b == b'\n')
        .filter(|line| !line.is_empty() && line[0] != b'#')
        .map(|line| (String::from_utf8_lossy(line).into_owned(), answer::answer(line)))
        .collect()
}

/// How many values an answer holds.
fn values(answer: &str) -> u64 {
    1 + answer.bytes().filter(|b| matches!(b, b',' | b'+')).count() as u64
}

/// Compares one batch, and answers how many cases and values were the same, or what differs.
fn compare(replay: &str, cases: &[u8]) -> Result<(u64, u64), String> {
    let wanted = expected(cases);
    let found = replayed(replay, cases);
    let mut compared = 0;
    for (i, (line, want)) in wanted.iter().enumerate() {
        let Some(got) = found.get(i) else {
            return Err(format!("no answer\n  case   {line}\n  rodio  {want}"));
        };
        if got != want {
            return Err(format!("a difference\n  case   {line}\n  rodio  {want}\n  replay {got}"));
        }
        compared += values(want);
    }
    if found.len() != wanted.len() {
        return Err(format!("{} answers to {} cases", found.len(), wanted.len()));
    }
    Ok((wanted.len() as u64, compared))
}

fn option(words: &[String], name: &str, default: u64) -> u64 {
    let Some(at) = words.iter().position(|w| w == name) else {
        return default;
    };
    words.get(at + 1).and_then(|w| w.parse().ok()).unwrap_or_else(|| panic!("{name} takes a number"))
}

fn main() -> ExitCode {
    let words: Vec<String> = std::env::args().skip(1).collect();
    let Some(replay) = words.first() else {
        eprintln!("differential REPLAY [--seed N] [--seconds N] | REPLAY --answer < CASES");
        return ExitCode::from(2);
    };
    if words.iter().any(|w| w == "--answer") {
        let mut cases = Vec::new();
        std::io::stdin().read_to_end(&mut cases).expect("the cases are read");
        for (_, answer) in expected(&cases) {
            println!("{answer}");
        }
        return ExitCode::SUCCESS;
    }
    let seed = option(&words, "--seed", 1);
    let limit = Duration::from_secs(option(&words, "--seconds", 60));
    let started = Instant::now();
    let mut generator = Generator::new(seed);
    let (mut cases, mut compared, mut rounds) = (0, 0, 0);
    let mut batch = generator.exhaustive();
    loop {
        match compare(replay, batch.as_bytes()) {
            Ok((c, v)) => {
                cases += c;
                compared += v;
            }
            Err(what) => {
                println!("differential: seed {seed}, round {rounds}: {what}");
                return ExitCode::FAILURE;
            }
        }
        if started.elapsed() >= limit {
            break;
        }
        batch = generator.round();
        rounds += 1;
    }
    println!("differential: {compared} answers in {cases} cases compared with rodio, all the same (seed {seed}, {rounds} random rounds)");
    ExitCode::SUCCESS
}
