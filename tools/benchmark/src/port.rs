//! The port's exported functions. A slice is passed as a pointer and a length.

extern "C" {
    fn kelpie_channels(input: *const f32, input_len: usize, out: *mut f32, out_len: usize, from: u16, to: u16) -> usize;

    fn kelpie_rate(input: *const f32, input_len: usize, out: *mut f32, out_len: usize, from: u32, to: u32, channels: u16) -> usize;

    fn kelpie_uniform(
        input: *const f32,
        input_len: usize,
        out: *mut f32,
        out_len: usize,
        from_channels: u16,
        from_rate: u32,
        to_channels: u16,
        to_rate: u32,
    ) -> usize;

    fn kelpie_mix(
        input: *const f32,
        input_len: usize,
        out: *mut f32,
        out_len: usize,
        each: usize,
        sources: usize,
        from_channels: u16,
        from_rate: u32,
        to_channels: u16,
        to_rate: u32,
    ) -> usize;
}

pub fn channels(input: &[f32], out: &mut [f32], from: u16, to: u16) -> usize {
    unsafe { kelpie_channels(input.as_ptr(), input.len(), out.as_mut_ptr(), out.len(), from, to) }
}

pub fn rate(input: &[f32], out: &mut [f32], from: u32, to: u32, channels: u16) -> usize {
    unsafe { kelpie_rate(input.as_ptr(), input.len(), out.as_mut_ptr(), out.len(), from, to, channels) }
}

/// The formats are channels and rate.
pub fn uniform(input: &[f32], out: &mut [f32], from: (u16, u32), to: (u16, u32)) -> usize {
    unsafe { kelpie_uniform(input.as_ptr(), input.len(), out.as_mut_ptr(), out.len(), from.0, from.1, to.0, to.1) }
}

/// Mixes so many parts of a length.
pub fn mix(input: &[f32], out: &mut [f32], each: usize, sources: usize, from: (u16, u32), to: (u16, u32)) -> usize {
    unsafe { kelpie_mix(input.as_ptr(), input.len(), out.as_mut_ptr(), out.len(), each, sources, from.0, from.1, to.0, to.1) }
}
