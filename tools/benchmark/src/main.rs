//! Times the port, rodio and a plain loop on the same input, in turn, and prints the ratio of the port's time to rodio's.

mod plain;
mod port;

use rodio::buffer::SamplesBuffer;
use rodio::conversions::{ChannelCountConverter, SampleRateConverter};
use rodio::source::UniformSourceIterator;
use std::hint::black_box;
use std::time::Instant;

/// How many input samples a row is timed on.
const LENGTH: usize = 1_200_000;

/// Writes what an iterator gives over the front of `out`, and answers how many samples.
fn drained(samples: impl Iterator<Item = f32>, out: &mut [f32]) -> usize {
    let mut n = 0;
    for (cell, sample) in out.iter_mut().zip(samples) {
        *cell = sample;
        n += 1;
    }
    n
}

/// The seconds that a run takes, and what it answers.
fn timed(run: &mut dyn FnMut(&mut [f32]) -> usize, out: &mut [f32]) -> (f64, usize) {
    let started = Instant::now();
    let n = run(black_box(out));
    (started.elapsed().as_secs_f64(), black_box(n))
}

fn median(mut all: Vec<f64>) -> f64 {
    all.sort_by(f64::total_cmp);
    all[all.len() / 2]
}

/// One row: the three runs in turn, several rounds, after one round that is not counted.
fn row(
    name: &str,
    rounds: usize,
    room: usize,
    port: &mut dyn FnMut(&mut [f32]) -> usize,
    rodio: &mut dyn FnMut(&mut [f32]) -> usize,
    plain: &mut dyn FnMut(&mut [f32]) -> usize,
) {
    let mut out = vec![0.0; room];
    let mut answers = Vec::new();
    let (mut ratios, mut times, mut floors) = (Vec::new(), Vec::new(), Vec::new());
    for round in 0..=rounds {
        let (p, n) = timed(port, &mut out);
        let ours = out[..n].to_vec();
        let (r, m) = timed(rodio, &mut out);
        assert!(n == m && ours.iter().zip(&out).all(|(a, b)| a.to_bits() == b.to_bits()), "{name}: the port and rodio differ");
        let (f, l) = timed(plain, &mut out);
        assert!(n == l && ours.iter().zip(&out).all(|(a, b)| a.to_bits() == b.to_bits()), "{name}: the port and the plain loop differ");
        answers.push(n);
        if round > 0 {
            ratios.push(p / r);
            times.push(p / n as f64 * 1e9);
            floors.push(f / r);
        }
    }
    let (low, high) = ratios.iter().fold((f64::MAX, 0.0_f64), |(l, h), x| (l.min(*x), h.max(*x)));
    println!(
        "| {name} | {:.2} | {low:.2} to {high:.2} | {:.2} | {:.2} |",
        median(ratios.clone()),
        median(floors),
        median(times)
    );
}

fn input(length: usize) -> Vec<f32> {
    (0..length).map(|i| ((i * 7919 % 20_011) as f32 - 10_000.0) / 10_000.0).collect()
}

fn rate_row(name: &str, rounds: usize, length: usize, from: u32, to: u32, channels: u16) {
    let data = input(length);
    let room = (length as u64 * u64::from(to) / u64::from(from)) as usize + 64;
    row(
        name,
        rounds,
        room,
        &mut |out| port::rate(&data, out, from, to, channels),
        &mut |out| drained(SampleRateConverter::new(data.iter().copied(), from, to, channels), out),
        &mut |out| plain::rate(&data, out, from, to, channels as usize),
    );
}

fn channels_row(name: &str, rounds: usize, from: u16, to: u16) {
    let data = input(LENGTH);
    let room = LENGTH / from as usize * to as usize + 64;
    row(
        name,
        rounds,
        room,
        &mut |out| port::channels(&data, out, from, to),
        &mut |out| drained(ChannelCountConverter::new(data.iter().copied(), from, to), out),
        &mut |out| plain::channels(&data, out, from as usize, to as usize),
    );
}

fn uniform_row(name: &str, rounds: usize, from: u32, to: u32) {
    let data = input(LENGTH);
    let source = SamplesBuffer::new(2, from, data.clone());
    let room = (LENGTH as u64 * u64::from(to) / u64::from(from)) as usize + 64;
    row(
        name,
        rounds,
        room,
        &mut |out| port::uniform(&data, out, (2, from), (2, to)),
        &mut |out| drained(UniformSourceIterator::new(source.clone(), 2, to), out),
        &mut |out| plain::rate(&data, out, from, to, 2),
    );
}

/// So many stereo sources, each of a tenth of the length, all added before the first answer.
fn mix_row(name: &str, rounds: usize, sources: usize, from: u32, to: u32) {
    let each = LENGTH / 10;
    let data = input(each * sources);
    let buffers: Vec<SamplesBuffer> = data.chunks(each).map(|part| SamplesBuffer::new(2, from, part)).collect();
    let room = (each as u64 * u64::from(to) / u64::from(from)) as usize + 64;
    row(
        name,
        rounds,
        room,
        &mut |out| port::mix(&data, out, each, sources, (2, from), (2, to)),
        &mut |out| {
            let (mixer, answers) = rodio::mixer::mixer(2, to);
            for buffer in &buffers {
                mixer.add(buffer.clone());
            }
            drained(answers, out)
        },
        &mut |out| plain::mix(&data, out, each, from, to),
    );
}

fn main() {
    let rounds = std::env::args().nth(1).and_then(|n| n.parse().ok()).unwrap_or(15);
    println!("| row | port / rodio | spread | plain loop / rodio | port, ns a sample |");
    println!("|---|---|---|---|---|");
    for (name, channels) in [("mono", 1), ("stereo", 2), ("six channels", 6)] {
        rate_row(&format!("rate, {name}, 44,100 to 48,000"), rounds, LENGTH, 44_100, 48_000, channels);
        rate_row(&format!("rate, {name}, 48,000 to 44,100"), rounds, LENGTH, 48_000, 44_100, channels);
    }
    channels_row("channels, 2 to 6", rounds, 2, 6);
    channels_row("channels, 6 to 2", rounds, 6, 2);
    uniform_row("uniform, stereo 44,100 to 2 at 48,000", rounds, 44_100, 48_000);
    for (name, sources) in [("one stereo source", 1), ("four stereo sources", 4), ("sixteen stereo sources", 16)] {
        mix_row(&format!("mixer, {name}, 48,000"), rounds, sources, 48_000, 48_000);
        mix_row(&format!("mixer, {name}, 44,100 to 48,000"), rounds, sources, 44_100, 48_000);
    }
    for length in [10_000, 100_000, 1_000_000] {
        rate_row(&format!("cost against length: stereo, 44,100 to 48,000, {length} samples"), rounds, length, 44_100, 48_000, 2);
    }
}
