//! Domains drawn at random, for the tests of the calls and of the job program.

// Each program uses some of it.
#![allow(dead_code)]

use crate::harness::Random;
use crate::reference::{Domain, LARGEST_CURVE, LARGEST_ORIGIN};

pub fn one_of<T: Copy>(random: &mut Random, from: &[T]) -> T {
    from[random.below(from.len() as u64) as usize]
}

/// A size with either sign.
pub fn signed(random: &mut Random, size: u64) -> i64 {
    one_of(random, &[size as i64, -(size as i64)])
}

/// Windows dense and sparse, from 1 to the modulus; one in 32 is 0.
pub fn window(random: &mut Random, modulus: u64, count: u64) -> u64 {
    let (even, sparse) = (1 + random.below(modulus), 1 + random.below((modulus / count).max(1)));
    let some = one_of(random, &[1, modulus, even, sparse, sparse, sparse, sparse.div_ceil(8), sparse.div_ceil(8)]);
    if random.below(32) == 0 { 0 } else { some }
}

/// Curves of any size, none, and mostly such that a search may clear the domain or some of its parts: with D below the modulus
/// divided by the count.
fn curve(random: &mut Random, modulus: u64, count: u64) -> i64 {
    let clearing = modulus as u128 * 16 / (count as u128).pow(3);
    let clearing = random.below(clearing.min(LARGEST_CURVE as u128) as u64 + 1);
    let any = random.sized(LARGEST_CURVE as u64);
    let size = one_of(random, &[0, 1, any, clearing, clearing / 8, clearing / 64]);
    signed(random, size)
}

/// Origins from 0 to 2^52: the ends and what is beside them, small ones, some with which the arguments cross 2^32, and random ones,
/// evenly and of every size.
pub fn origin(random: &mut Random) -> u64 {
    let (any, sized) = (random.below(LARGEST_ORIGIN + 1), random.sized(LARGEST_ORIGIN));
    let (small, crossing) = (random.below(1000), (1 << 32) - random.below(256));
    one_of(random, &[0, 1, small, crossing, LARGEST_ORIGIN - 1, LARGEST_ORIGIN, any, any, sized])
}

/// A random value, slope, curve and window beside what is given, with the origin 0.
pub fn somewhere(random: &mut Random, modulus: u64, count: u64) -> Domain {
    let (value, slope) = (random.below(modulus), random.below(modulus));
    let (curve, window) = (curve(random, modulus, count), window(random, modulus, count));
    Domain { origin: 0, modulus, value, slope, curve, count, window }
}

/// A count up to the given multiple of 8: any, or rounded up to a multiple of 8.
pub fn random_count(random: &mut Random, most: u64) -> u64 {
    let count = random.sized(most);
    one_of(random, &[count, count.next_multiple_of(8)])
}
