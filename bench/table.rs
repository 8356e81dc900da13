//! The expansion in unverified Rust: its refusals, its loop, and its table by value.

#![allow(dead_code)]

use crate::c_api::{Column, ROWS};

/// The refusals of the call.
#[inline(always)]
pub fn refusal(modulus: u64, step: u64) -> u32 {
    if modulus < 2 || modulus > 1 << 62 {
        1
    } else if step >= modulus {
        2
    } else {
        0
    }
}

/// The loop of the call: fills columns of zeros, answers the last row's index.
#[inline(always)]
pub fn fill(
    modulus: u64,
    step: u64,
    remainders: &mut Column,
    denominators: &mut Column,
    quotients: &mut Column,
) -> usize {
    let (mut before, mut remainder, mut denominator_before, mut denominator) = (modulus, step, 0u64, 1u64);
    let mut row = 0;
    while remainder != 0 {
        let quotient = before / remainder;
        let rest = before % remainder;
        remainders[row] = remainder;
        denominators[row] = denominator;
        quotients[row] = quotient;
        (before, remainder) = (remainder, rest);
        (denominator_before, denominator) = (denominator, denominator_before + quotient * denominator);
        row += 1;
    }
    denominators[row] = denominator;
    row
}

pub struct Table {
    pub remainders: Column,
    pub denominators: Column,
    pub quotients: Column,
    pub last: usize,
}

pub struct Answer {
    pub table: Table,
    pub refusal: u32,
}

/// Local arrays, and a struct made of them at the end and answered by value.
pub fn expand(modulus: u64, step: u64) -> Answer {
    let (mut remainders, mut denominators, mut quotients) = ([0u64; ROWS], [0u64; ROWS], [0u64; ROWS]);
    let refusal = refusal(modulus, step);
    if refusal != 0 {
        return Answer { table: Table { remainders, denominators, quotients, last: 0 }, refusal };
    }
    let last = fill(modulus, step, &mut remainders, &mut denominators, &mut quotients);
    Answer { table: Table { remainders, denominators, quotients, last }, refusal }
}
