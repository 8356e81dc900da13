//! The expansion of random pairs with a modulus from 2^61 to 2^62: the proved call, and the same work in unverified Rust.

#[path = "../tests/c_api.rs"]
mod c_api;
mod common;
mod table;

use c_api::{Column, ROWS};
use std::hint::black_box;
use std::time::Instant;

const PAIRS: usize = 4096;
const REPETITIONS: usize = 101;

/// The caller's memory: three columns and the last row's index.
struct Memory {
    remainders: Column,
    denominators: Column,
    quotients: Column,
    last: u64,
}

const ZEROS: Memory = Memory { remainders: [0; ROWS], denominators: [0; ROWS], quotients: [0; ROWS], last: 0 };

type Expand = fn(u64, u64, &mut Memory) -> u32;

fn proved(modulus: u64, step: u64, to: &mut Memory) -> u32 {
    c_api::expand(modulus, step, &mut to.remainders, &mut to.denominators, &mut to.quotients, &mut to.last)
}

/// The table by value, handed over.
#[inline(never)]
fn by_value(modulus: u64, step: u64, to: &mut Memory) -> u32 {
    let answer = table::expand(modulus, step);
    if answer.refusal != 0 {
        return answer.refusal;
    }
    to.remainders = answer.table.remainders;
    to.denominators = answer.table.denominators;
    to.quotients = answer.table.quotients;
    to.last = answer.table.last as u64;
    0
}

/// Straight into the caller's memory: no table by value, nothing copied.
#[inline(never)]
fn in_place(modulus: u64, step: u64, to: &mut Memory) -> u32 {
    let refusal = table::refusal(modulus, step);
    if refusal == 0 {
        *to = ZEROS;
        to.last = table::fill(modulus, step, &mut to.remainders, &mut to.denominators, &mut to.quotients) as u64;
    }
    refusal
}

fn nanoseconds(expand: Expand, pairs: &[(u64, u64)], to: &mut Memory) -> f64 {
    let start = Instant::now();
    for &(modulus, step) in pairs {
        black_box(expand(modulus, step, to));
        black_box(&*to);
    }
    start.elapsed().as_secs_f64() * 1e9 / pairs.len() as f64
}

fn main() {
    let pairs: Vec<(u64, u64)> = common::lines(PAIRS).iter().map(|&[modulus, step, _]| (modulus, step)).collect();
    let mut to = ZEROS;
    let contenders: [Expand; 3] = [proved, by_value, in_place];
    let mut times = [const { Vec::new() }; 3];
    for _ in 0..REPETITIONS {
        for (expand, times) in contenders.iter().zip(&mut times) {
            times.push(nanoseconds(*expand, &pairs, &mut to));
        }
    }
    let [proved, by_value, in_place] = times.map(|times| common::median(times.into_iter()));
    println!("expansion, table by value\t{proved:.1}\t{by_value:.1}\t{:.3}", proved / by_value);
    println!("expansion, filled in place\t{proved:.1}\t{in_place:.1}\t{:.3}", proved / in_place);
}
