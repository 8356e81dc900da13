//! Digits, residues and modular division for random numbers with a modulus from 2^61 to 2^62: the proved calls, the same work in
//! unverified Rust, and what one would write without digits.

#[path = "../tests/c_api.rs"]
mod c_api;
mod common;
mod table;

use c_api::Digits;
use std::hint::black_box;
use std::time::Instant;

const NUMBERS: usize = 4096;
const REPETITIONS: usize = 101;

/// A modulus, a step, and an argument or a target that is accepted.
type Call = [u64; 3];

/// The caller's memory: the digits, and a number.
struct Memory {
    digits: Digits,
    number: u64,
}

type Work = fn(Call, &mut Memory) -> u32;

fn proved_digits([modulus, step, argument]: Call, to: &mut Memory) -> u32 {
    c_api::digits(modulus, step, argument, &mut to.digits, &mut to.number)
}

fn proved_residue([modulus, step, argument]: Call, to: &mut Memory) -> u32 {
    c_api::residue(modulus, step, argument, &mut to.number)
}

fn proved_divide([modulus, step, target]: Call, to: &mut Memory) -> u32 {
    c_api::divide(modulus, step, target, &mut to.number)
}

/// The same work as the proved calls.
mod same {
    use super::{table, Call, Digits, Memory};

    struct Answer {
        digits: Digits,
        count: usize,
        refusal: u32,
    }

    fn taken([modulus, step, argument]: Call) -> Answer {
        let mut digits = [0; 88];
        let answer = table::expand(modulus, step);
        if answer.refusal != 0 {
            return Answer { digits, count: 0, refusal: answer.refusal };
        }
        let last = answer.table.last;
        if argument >= answer.table.denominators[last] {
            return Answer { digits, count: 0, refusal: 9 };
        }
        let mut rest = argument;
        for row in (0..last).rev() {
            let denominator = answer.table.denominators[row];
            digits[row] = rest / denominator;
            rest %= denominator;
        }
        Answer { digits, count: last, refusal: 0 }
    }

    #[inline(never)]
    pub fn digits(call: Call, to: &mut Memory) -> u32 {
        let answer = taken(call);
        if answer.refusal == 0 {
            to.digits = answer.digits;
            to.number = answer.count as u64;
        }
        answer.refusal
    }

    #[inline(never)]
    pub fn residue([modulus, step, argument]: Call, to: &mut Memory) -> u32 {
        let answer = table::expand(modulus, step);
        if answer.refusal != 0 {
            return answer.refusal;
        }
        let last = answer.table.last;
        if argument >= answer.table.denominators[last] {
            return 9;
        }
        let (mut residue, mut rest) = (0, argument);
        for row in (0..last).rev() {
            let denominator = answer.table.denominators[row];
            let term = rest / denominator * answer.table.remainders[row];
            rest %= denominator;
            residue = if residue <= term { term - residue } else { modulus - (residue - term) };
        }
        to.number = residue;
        0
    }

    #[inline(never)]
    pub fn divide([modulus, step, target]: Call, to: &mut Memory) -> u32 {
        let refusal = table::refusal(modulus, step);
        if refusal != 0 {
            return refusal;
        }
        if target >= modulus {
            return 10;
        }
        let (mut before, mut remainder, mut denominator_before, mut denominator) = (modulus, step, 0u64, 1u64);
        let (mut rest, mut same, mut other, mut row) = (target, 0u64, 0u64, 0usize);
        while remainder != 0 {
            let next = denominator_before + before / remainder * denominator;
            let joined = same + rest / remainder * denominator;
            (before, remainder, rest) = (remainder, before % remainder, rest % remainder);
            (denominator_before, denominator) = (denominator, next);
            (same, other) = (other, joined);
            row += 1;
        }
        if rest != 0 {
            return 10;
        }
        let (from, taken) = if row % 2 == 0 { (same, other) } else { (other, same) };
        to.number = (from + (2 * denominator - taken)) % denominator;
        0
    }
}

/// A product of 128 bits and its remainder.
#[inline(never)]
fn product([modulus, step, argument]: Call, to: &mut Memory) -> u32 {
    let refusal = table::refusal(modulus, step);
    if refusal == 0 {
        to.number = (step as u128 * argument as u128 % modulus as u128) as u64;
    }
    refusal
}

/// The inverse of the step by the extended Euclidean algorithm, all in 128 bits, so that nothing overflows.
#[inline(never)]
fn inverse_wide([modulus, step, target]: Call, to: &mut Memory) -> u32 {
    let refusal = table::refusal(modulus, step);
    if refusal != 0 {
        return refusal;
    }
    let (mut before, mut remainder, mut factor_before, mut factor) = (modulus as i128, step as i128, 0i128, 1i128);
    while remainder != 0 {
        let quotient = before / remainder;
        (before, remainder) = (remainder, before % remainder);
        (factor_before, factor) = (factor, factor_before - quotient * factor);
    }
    if target >= modulus || target as i128 % before != 0 {
        return 10;
    }
    let period = modulus as i128 / before;
    to.number = (target as i128 / before * factor_before).rem_euclid(period) as u64;
    0
}

/// The same with factors of 64 bits, which are enough, and one product of 128 bits.
#[inline(never)]
fn inverse([modulus, step, target]: Call, to: &mut Memory) -> u32 {
    let refusal = table::refusal(modulus, step);
    if refusal != 0 {
        return refusal;
    }
    let (mut before, mut remainder, mut factor_before, mut factor) = (modulus, step, 0i64, 1i64);
    while remainder != 0 {
        let quotient = before / remainder;
        (before, remainder) = (remainder, before % remainder);
        (factor_before, factor) = (factor, factor_before - quotient as i64 * factor);
    }
    let divisor = before;
    if target >= modulus || target % divisor != 0 {
        return 10;
    }
    let period = modulus / divisor;
    let inverse = if factor_before < 0 { (factor_before + period as i64) as u64 } else { factor_before as u64 };
    to.number = ((target / divisor) as u128 * inverse as u128 % period as u128) as u64;
    0
}

fn nanoseconds(work: Work, calls: &[Call], to: &mut Memory) -> f64 {
    let start = Instant::now();
    for &call in calls {
        black_box(work(call, to));
        black_box(&*to);
    }
    start.elapsed().as_secs_f64() * 1e9 / calls.len() as f64
}

/// Times the proved call beside others on the same numbers, in turn.
fn compare(proved: Work, others: &[(&str, Work)], calls: &[Call]) {
    let mut to = Memory { digits: [0; 88], number: 0 };
    let mut times = vec![Vec::new(); others.len() + 1];
    for _ in 0..REPETITIONS {
        times[0].push(nanoseconds(proved, calls, &mut to));
        for ((_, work), times) in others.iter().zip(&mut times[1..]) {
            times.push(nanoseconds(*work, calls, &mut to));
        }
    }
    let medians: Vec<f64> = times.into_iter().map(|times| common::median(times.into_iter())).collect();
    for ((name, _), other) in others.iter().zip(&medians[1..]) {
        println!("{name}\t{:.1}\t{other:.1}\t{:.3}", medians[0], medians[0] / other);
    }
}

fn main() {
    // a number below the modulus, divided by gcd(modulus, step), is below the period
    let mut memory = Memory { digits: [0; 88], number: 0 };
    let calls: Vec<Call> = common::lines(NUMBERS)
        .into_iter()
        .map(|[modulus, step, number]| [modulus, step, number / gcd(modulus, step)])
        .collect();
    let targets: Vec<Call> = calls
        .iter()
        .map(|&[modulus, step, argument]| {
            assert_eq!(product([modulus, step, argument], &mut memory), 0);
            [modulus, step, memory.number]
        })
        .collect();
    for (&call, &target) in calls.iter().zip(&targets) {
        for work in [proved_divide as Work, same::divide, inverse_wide, inverse] {
            assert_eq!((work(target, &mut memory), memory.number), (0, call[2]));
        }
        for work in [proved_residue as Work, same::residue] {
            assert_eq!((work(call, &mut memory), memory.number), (0, target[2]));
        }
    }
    compare(proved_digits, &[("digits, the same work", same::digits)], &calls);
    compare(
        proved_residue,
        &[("residue, the same work", same::residue), ("residue, product of 128 bits", product)],
        &calls,
    );
    compare(
        proved_divide,
        &[
            ("divide, the same work", same::divide),
            ("divide, extended Euclid in 128 bits", inverse_wide),
            ("divide, extended Euclid in 64 bits", inverse),
        ],
        &targets,
    );
}

fn gcd(a: u64, b: u64) -> u64 {
    if b == 0 {
        a
    } else {
        gcd(b, a % b)
    }
}
