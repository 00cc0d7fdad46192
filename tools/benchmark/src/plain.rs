//! The same arithmetic in plain loops over slices, as the floor of what it can cost.

fn gcd(a: u32, b: u32) -> u32 {
    if b == 0 {
        a
    } else {
        gcd(b, a % b)
    }
}

/// Whole frames only.
pub fn rate(input: &[f32], out: &mut [f32], from: u32, to: u32, channels: usize) -> usize {
    let d = gcd(from, to);
    let (from, to) = ((from / d) as usize, (to / d) as usize);
    let last = input.len() / channels - 1;
    let (mut j, mut n, mut written) = (0, 0, 0);
    while j < last {
        let (numerator, denominator) = (n as f32, to as f32);
        let (current, next) = (&input[j * channels..][..channels], &input[(j + 1) * channels..][..channels]);
        for ((cell, a), b) in out[written..][..channels].iter_mut().zip(current).zip(next) {
            *cell = a + (b - a) * numerator / denominator;
        }
        written += channels;
        n += from;
        while n >= to {
            n -= to;
            j += 1;
        }
    }
    if j == last {
        out[written..][..channels].copy_from_slice(&input[j * channels..][..channels]);
        written += channels;
    }
    written
}

/// Whole frames only, and no mono input.
pub fn channels(input: &[f32], out: &mut [f32], from: usize, to: usize) -> usize {
    let both = from.min(to);
    for (frame, made) in input.chunks_exact(from).zip(out.chunks_exact_mut(to)) {
        made[..both].copy_from_slice(&frame[..both]);
        made[both..].fill(0.0);
    }
    input.len() / from * to
}

/// Parts of one length, in whole stereo frames, each converted by itself and then added to the sum.
pub fn mix(input: &[f32], out: &mut [f32], each: usize, from: u32, to: u32) -> usize {
    let mut heard = vec![0.0; out.len()];
    let mut written = 0;
    out.fill(0.0);
    for part in input.chunks_exact(each) {
        if from == to {
            heard[..each].copy_from_slice(part);
            written = each;
        } else {
            written = rate(part, &mut heard, from, to, 2);
        }
        for (cell, sample) in out.iter_mut().zip(&heard[..written]) {
            *cell += sample;
        }
    }
    written
}
