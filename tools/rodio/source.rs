//! The `Source` trait as rodio declares it, less the methods that only wrap a source in another.

use crate::common::{ChannelCount, SampleRate};
use crate::Sample;
use std::time::Duration;

#[path = "rodio/source/uniform.rs"]
mod uniform;

pub use uniform::UniformSourceIterator;

/// A seek that failed. Seeking is not ported and never called here.
#[derive(Debug, Clone)]
pub enum SeekError {
    NotSupported { underlying_source: &'static str },
}

pub trait Source: Iterator<Item = Sample> {
    fn current_span_len(&self) -> Option<usize>;

    fn channels(&self) -> ChannelCount;

    fn sample_rate(&self) -> SampleRate;

    fn total_duration(&self) -> Option<Duration>;

    fn try_seek(&mut self, _pos: Duration) -> Result<(), SeekError> {
        Err(SeekError::NotSupported {
            underlying_source: std::any::type_name::<Self>(),
        })
    }
}
