//! Rodio's answer to a case. Outside the limits of the port, the number of the refusal.

use crate::mixing;
use crate::spans::{self, Spans};
use crate::text::{self, Fault};
use rodio::buffer::SamplesBuffer;
use rodio::conversions::{ChannelCountConverter, SampleRateConverter};
use rodio::source::UniformSourceIterator;
use rodio::Source;
use std::cell::Cell;
use std::rc::Rc;

const MOST_CHANNELS: u64 = 8;
const HIGHEST_RATE: u64 = 65_536;
const MOST_CELLS: usize = 16_777_216;
pub const MOST_LISTS: usize = 16;

/// An iterator that counts what was drawn from it.
struct Counted<I> {
    inner: I,
    drawn: Rc<Cell<usize>>,
}

impl<I: Iterator> Iterator for Counted<I> {
    type Item = I::Item;

    fn next(&mut self) -> Option<I::Item> {
        let item = self.inner.next();
        if item.is_some() {
            self.drawn.set(self.drawn.get() + 1);
        }
        item
    }
}

/// A list as an input, and the count of what was drawn from it.
fn counted(samples: &[f32]) -> (impl Iterator<Item = f32> + '_, Rc<Cell<usize>>) {
    let drawn = Rc::new(Cell::new(0));
    let input = Counted {
        inner: samples.iter().copied(),
        drawn: drawn.clone(),
    };
    (input, drawn)
}

pub fn channels(n: u64) -> Result<u16, Fault> {
    if n == 0 || n > MOST_CHANNELS {
        return Err(Fault::Refused(2));
    }
    Ok(n as u16)
}

pub fn rate(n: u64) -> Result<u32, Fault> {
    if n == 0 || n > HIGHEST_RATE {
        return Err(Fault::Refused(1));
    }
    Ok(n as u32)
}

fn cells(samples: &[f32]) -> Result<(), Fault> {
    if samples.len() > MOST_CELLS {
        return Err(Fault::Refused(3));
    }
    Ok(())
}

fn buffer(fields: &[&str]) -> Result<String, Fault> {
    let [c, r, length] = fields else {
        return Err(Fault::WrongFields);
    };
    let (c, r, data) = (text::number(c)?, text::number(r)?, text::ramp(length)?);
    let (c, r) = (channels(c)?, rate(r)?);
    cells(&data)?;
    let buffer = SamplesBuffer::new(c, r, data);
    let duration = buffer.total_duration().map(|d| d.as_nanos().to_string());
    Ok(duration.unwrap_or("none".to_string()))
}

/// All that a converter gives, how much of its input was used when each sample was given, and whether the end stays the end.
fn drawn(converter: &mut impl Iterator<Item = f32>, gone: &Cell<usize>, ramp: bool) -> String {
    let (mut out, mut used) = (Vec::new(), Vec::new());
    while let Some(sample) = converter.next() {
        out.push(sample);
        used.push(gone.get());
    }
    if converter.next().is_some() {
        return "a sample after the end".to_string();
    }
    if ramp {
        used.clear();
    }
    format!("{}|{}", text::samples(&out, ramp), text::numbers(&used))
}

fn channel_conversion(fields: &[&str]) -> Result<String, Fault> {
    let [from, to, list] = fields else {
        return Err(Fault::WrongFields);
    };
    let (from, to, list) = (text::number(from)?, text::number(to)?, text::list(list)?);
    let (from, to) = (channels(from)?, channels(to)?);
    cells(&list.samples)?;
    let (input, gone) = counted(&list.samples);
    let mut converter = ChannelCountConverter::new(input, from, to);
    Ok(drawn(&mut converter, &gone, list.ramp).replace('|', " "))
}

fn rate_conversion(fields: &[&str]) -> Result<String, Fault> {
    let [c, from, to, list] = fields else {
        return Err(Fault::WrongFields);
    };
    let (c, from, to, list) = (text::number(c)?, text::number(from)?, text::number(to)?, text::list(list)?);
    let (c, from, to) = (channels(c)?, rate(from)?, rate(to)?);
    cells(&list.samples)?;
    let (input, gone) = counted(&list.samples);
    let mut converter = SampleRateConverter::new(input, from, to, c);
    let made = gone.get();
    Ok(drawn(&mut converter, &gone, list.ramp).replace('|', &format!(" {made} ")))
}

/// What a source gives in one format.
fn stream((source, ramp): (Spans, bool), c: u16, r: u32) -> String {
    let samples: Vec<f32> = UniformSourceIterator::new(source, c, r).collect();
    text::samples(&samples, ramp)
}

fn uniform(fields: &[&str]) -> Result<String, Fault> {
    let [c, r, source] = fields else {
        return Err(Fault::WrongFields);
    };
    let (c, r, source) = (text::number(c)?, text::number(r)?, spans::read(source)?);
    let (c, r) = (channels(c)?, rate(r)?);
    Ok(stream(source, c, r))
}

/// `-` for no source, or sources joined by plus signs.
fn sources(words: &str) -> Result<Vec<(Spans, bool)>, Fault> {
    if words == "-" {
        return Ok(Vec::new());
    }
    words.split('+').map(spans::read).collect()
}

/// The streams of the first sources, as many as a bank has lists.
fn bank(fields: &[&str]) -> Result<String, Fault> {
    let [c, r, words] = fields else {
        return Err(Fault::WrongFields);
    };
    let (c, r, sources) = (text::number(c)?, text::number(r)?, sources(words)?);
    let (c, r) = (channels(c)?, rate(r)?);
    let lists: Vec<String> = sources.into_iter().take(MOST_LISTS).map(|source| stream(source, c, r)).collect();
    if lists.is_empty() {
        return Ok("0 -".to_string());
    }
    Ok(format!("{} {}", lists.len(), lists.join("+")))
}

fn mixer(fields: &[&str]) -> Result<String, Fault> {
    let [c, r, words, ops] = fields else {
        return Err(Fault::WrongFields);
    };
    let (c, r, sources, calls) = (text::number(c)?, text::number(r)?, sources(words)?, mixing::calls(ops)?);
    let (c, r) = (channels(c)?, rate(r)?);
    let sources = sources.into_iter().map(|(source, _)| source).collect();
    Ok(mixing::replies(sources, c, r, &calls))
}

/// The answer to one line.
pub fn answer(line: &[u8]) -> String {
    let Ok(line) = std::str::from_utf8(line) else {
        return Fault::NotText.to_string();
    };
    let fields: Vec<&str> = line.split(' ').collect();
    let answer = match fields[0] {
        "bank" => bank(&fields[1..]),
        "buffer" => buffer(&fields[1..]),
        "channels" => channel_conversion(&fields[1..]),
        "mixer" => mixer(&fields[1..]),
        "rate" => rate_conversion(&fields[1..]),
        "uniform" => uniform(&fields[1..]),
        _ => Err(Fault::NoSuchWord),
    };
    answer.unwrap_or_else(|fault| fault.to_string())
}
