//! What the programs use: segments, random lines, the same in every run, the median of times, and how measurements are printed.

#![allow(dead_code)]

/// How often each time is taken.
pub const REPETITIONS: usize = 61;

#[derive(Clone, Copy)]
pub struct Segment {
    pub modulus: u64,
    pub step: u64,
    pub start: u64,
    pub count: u64,
    pub window: u64,
}

/// A modulus from 2^61 to 2^62, a step and a start.
pub fn lines(number: usize) -> Vec<[u64; 3]> {
    let mut state = 88_172_645_463_325_252u64;
    let mut random = || {
        state ^= state << 13;
        state ^= state >> 7;
        state ^= state << 17;
        state
    };
    (0..number)
        .map(|_| {
            let modulus = (1 << 61) + random() % ((1 << 61) + 1);
            [modulus, random() % modulus, random() % modulus]
        })
        .collect()
}

/// The one in the middle.
pub fn median(times: impl Iterator<Item = f64>) -> f64 {
    let mut times: Vec<f64> = times.collect();
    times.sort_by(f64::total_cmp);
    times[times.len() / 2]
}

/// Times the proved call and the others in each repetition, so that what disturbs the machine meets all of them; prints medians, of
/// the times and of the ratios within a repetition. A time is divided by the number of arguments given.
pub fn measure<const N: usize>(names: [&str; N], arguments: u64, mut times: impl FnMut() -> (f64, [f64; N])) {
    let times: Vec<(f64, [f64; N])> = (0..REPETITIONS).map(|_| times()).collect();
    let digits = if arguments == 1 { 1 } else { 3 };
    for (other, name) in names.iter().enumerate() {
        let proved_time = median(times.iter().map(|t| t.0)) / arguments as f64;
        let other_time = median(times.iter().map(|t| t.1[other])) / arguments as f64;
        let ratio = median(times.iter().map(|t| t.0 / t.1[other]));
        println!("{name}\t{proved_time:.digits$}\t{other_time:.digits$}\t{ratio:.3}");
    }
}
