//! rodio's own files, unchanged, from the directory that the link `rodio` beside this file names, and what they lean on.
//! `source.rs` stands in for the declaration of the `Source` trait, and `num_rational.rs` for the crate of that name.

#[path = "rodio/buffer.rs"]
pub mod buffer;
#[path = "rodio/conversions/channels.rs"]
mod channels;
#[path = "rodio/common.rs"]
pub mod common;
#[path = "rodio/math.rs"]
mod math;
#[path = "rodio/mixer.rs"]
pub mod mixer;
#[path = "rodio/conversions/sample_rate.rs"]
mod sample_rate;
pub mod source;

pub mod conversions {
    pub use crate::channels::ChannelCountConverter;
    pub use crate::sample_rate::SampleRateConverter;
}

pub use common::{ChannelCount, Sample, SampleRate};
pub use source::Source;
