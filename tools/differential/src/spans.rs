//! A source of any list of spans, read from its text and played through rodio's trait.

use crate::answer::{channels, rate};
use crate::text::{self, Fault};
use rodio::{ChannelCount, SampleRate, Source};
use std::collections::VecDeque;
use std::time::Duration;

#[derive(Clone)]
pub struct Span {
    pub known: bool,
    pub channels: ChannelCount,
    pub rate: SampleRate,
    pub samples: VecDeque<f32>,
}

/// Spans, none of them empty, what the source rests at, and its duration.
#[derive(Clone)]
pub struct Spans {
    pub spans: VecDeque<Span>,
    pub rest: Span,
    pub total: Option<Duration>,
}

impl Spans {
    fn current(&self) -> &Span {
        self.spans.front().unwrap_or(&self.rest)
    }
}

impl Iterator for Spans {
    type Item = f32;

    fn next(&mut self) -> Option<f32> {
        let span = self.spans.front_mut()?;
        let sample = span.samples.pop_front();
        if span.samples.is_empty() {
            self.spans.pop_front();
        }
        sample
    }
}

impl Source for Spans {
    fn current_span_len(&self) -> Option<usize> {
        let span = self.current();
        span.known.then_some(span.samples.len())
    }

    fn channels(&self) -> ChannelCount {
        self.current().channels
    }

    fn sample_rate(&self) -> SampleRate {
        self.current().rate
    }

    fn total_duration(&self) -> Option<Duration> {
        self.total
    }
}

/// A span without its samples, from three fields.
fn head(fields: &[&str]) -> Result<Span, Fault> {
    let known = match fields[0] {
        "k" => true,
        "o" => false,
        _ => return Err(Fault::NotASource),
    };
    let (c, r) = (text::number(fields[1])?, text::number(fields[2])?);
    let (Ok(channels), Ok(rate)) = (channels(c), rate(r)) else {
        return Err(Fault::NoSuchFormat);
    };
    Ok(Span {
        known,
        channels,
        rate,
        samples: VecDeque::new(),
    })
}

/// The source that a word writes, and whether a ramp is in it.
pub fn read(word: &str) -> Result<(Spans, bool), Fault> {
    let parts: Vec<&str> = word.split(';').collect();
    if parts.len() < 2 {
        return Err(Fault::NotASource);
    }
    let total = match parts[0] {
        "none" => None,
        n => Some(Duration::from_nanos(text::number(n)?)),
    };
    let fields: Vec<&str> = parts[1].split('/').collect();
    if fields.len() != 3 {
        return Err(Fault::NotASource);
    }
    let rest = head(&fields)?;
    let (mut spans, mut ramp) = (VecDeque::new(), false);
    for part in &parts[2..] {
        if spans.back().is_some_and(|s: &Span| !s.known) {
            return Err(Fault::OpenSpanNotLast);
        }
        let fields: Vec<&str> = part.split('/').collect();
        if fields.len() != 4 {
            return Err(Fault::NotASource);
        }
        let mut span = head(&fields)?;
        let list = text::list(fields[3])?;
        if list.samples.is_empty() {
            return Err(Fault::EmptySpan);
        }
        span.samples = list.samples.into();
        ramp |= list.ramp;
        spans.push_back(span);
    }
    Ok((Spans { spans, rest, total }, ramp))
}
