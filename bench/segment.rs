//! Both searches of random segments with a modulus from 2^61 to 2^62: the proved calls against unverified Rust. First the same
//! code; then the searches arranged by hand, by the division instruction as the proved code has it, and with selects for quotients
//! below 8 and the instruction or a floating-point reciprocal for the others; last Lefèvre's published search. The windows leave
//! about one segment in a thousand not clear.

#[path = "../tests/c_api.rs"]
mod c_api;
mod common;
#[allow(dead_code)]
mod same;
mod tuned;

use common::{median, Segment, REPETITIONS};
use std::hint::black_box;
use std::time::Instant;
use tuned::{Float, Instruction};

/// Too many for a branch predictor to learn the way of each, and not too many for the cache.
const SEGMENTS: usize = 32_768;

/// Lefèvre's search as 000 prints it (Algorithm 1, with its letters), by division instructions and without the further ones that
/// 000 leaves out, which shorten long runs of subtractions. It answers clear or not and nothing else, and divides by zero where a
/// length becomes 0, as none does in segments like these.
#[inline(never)]
fn lefevre(modulus: u64, step: u64, start: u64, count: u64, window: u64, clear: &mut bool) -> u32 {
    let refusal = tuned::refusal(modulus, step, start, count, window);
    if refusal == 0 {
        *clear = lefevre_clears(modulus, step, start, count, window);
    }
    refusal
}

#[inline(always)]
fn lefevre_clears(modulus: u64, step: u64, start: u64, count: u64, window: u64) -> bool {
    let (mut p, mut q, mut d, mut u, mut v) = (step, modulus - step, start, 1, 1);
    if d < window {
        return false;
    }
    loop {
        if d < p {
            let k = q / p;
            q -= k * p;
            u += k * v;
            if u + v >= count {
                return true;
            }
            p -= q;
            v += u;
        } else {
            d -= p;
            if d < window {
                return false;
            }
            let k = p / q;
            p -= k * q;
            v += k * u;
            if u + v >= count {
                return true;
            }
            q -= p;
            u += v;
        }
    }
}

/// Nanoseconds a segment of a search into the memory given.
fn nanoseconds<T>(search: impl Fn(u64, u64, u64, u64, u64, &mut T) -> u32, segments: &[Segment], mut memory: T) -> f64 {
    let start = Instant::now();
    for s in segments {
        black_box(search(s.modulus, s.step, s.start, s.count, s.window, &mut memory));
        black_box(&memory);
    }
    start.elapsed().as_secs_f64() * 1e9 / segments.len() as f64
}

/// What a search shows of a segment.
fn shown<const N: usize>(search: fn(u64, u64, u64, u64, u64, &mut [u64; N]) -> u32, s: &Segment) -> [u64; N] {
    let mut memory = [0; N];
    search(s.modulus, s.step, s.start, s.count, s.window, &mut memory);
    memory
}

/// Unverified code that answers otherwise would not be worth a comparison.
fn check_answers(segments: &[Segment]) {
    for s in segments {
        let regular = shown(|m, a, b, n, w, to| c_api::regular_search(m, a, b, n, w, to), s);
        assert_eq!(regular, shown(same::regular, s));
        assert_eq!(regular, shown(tuned::regular::<Instruction<false>>, s));
        assert_eq!(regular, shown(tuned::regular::<Instruction<true>>, s));
        assert_eq!(regular, shown(tuned::regular::<Float>, s));
        let fine = shown(|m, a, b, n, w, to| c_api::fine_search(m, a, b, n, w, to), s);
        assert_eq!(fine, shown(same::fine, s));
        assert_eq!(fine, shown(tuned::fine::<Instruction<false>>, s));
        assert_eq!(fine, shown(tuned::fine::<Instruction<true>>, s));
        assert_eq!(fine, shown(tuned::fine::<Float>, s));
    }
}

/// Times every search in each repetition, so that what disturbs the machine meets all of them; prints medians, of the times and
/// of the ratios within a repetition.
fn measure(power: u32, segments: &[Segment]) {
    let times: Vec<[f64; 11]> = (0..REPETITIONS)
        .map(|_| {
            [
                nanoseconds(|m, a, b, n, w, to| c_api::regular_search(m, a, b, n, w, to), segments, [0; 5]),
                nanoseconds(same::regular, segments, [0; 5]),
                nanoseconds(tuned::regular::<Instruction<false>>, segments, [0; 5]),
                nanoseconds(tuned::regular::<Instruction<true>>, segments, [0; 5]),
                nanoseconds(tuned::regular::<Float>, segments, [0; 5]),
                nanoseconds(|m, a, b, n, w, to| c_api::fine_search(m, a, b, n, w, to), segments, [0; 6]),
                nanoseconds(same::fine, segments, [0; 6]),
                nanoseconds(tuned::fine::<Instruction<false>>, segments, [0; 6]),
                nanoseconds(tuned::fine::<Instruction<true>>, segments, [0; 6]),
                nanoseconds(tuned::fine::<Float>, segments, [0; 6]),
                nanoseconds(lefevre, segments, false),
            ]
        })
        .collect();
    for (name, proved) in [("regular", 0), ("fine", 5)] {
        let others = [
            ("", proved + 1),
            (", arranged by hand", proved + 2),
            (", selects", proved + 3),
            (", selects and reciprocals", proved + 4),
            (", Lefevre", 10),
        ];
        for (against, other) in others {
            let [proved_time, other_time] = [proved, other].map(|i| median(times.iter().map(|t| t[i])));
            let ratio = median(times.iter().map(|t| t[proved] / t[other]));
            println!("{name} N=2^{power}{against}\t{proved_time:.1}\t{other_time:.1}\t{ratio:.3}");
        }
    }
}

fn main() {
    let lines = common::lines(SEGMENTS);
    for power in [12, 15, 20] {
        let segments: Vec<Segment> = lines
            .iter()
            .map(|&[modulus, step, start]| {
                // A search that reaches 4 N points finds one of a thousand segments not clear.
                Segment { modulus, step, start, count: 1 << power, window: modulus >> (power + 12) }
            })
            .collect();
        check_answers(&segments);
        measure(power, &segments);
    }
}
