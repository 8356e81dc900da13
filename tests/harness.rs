//! What the test programs share: a seed, random numbers, the caller's memory with canaries around it, and the running of
//! named tests.

// Each program uses some of it.
#![allow(dead_code)]

use std::fmt::Display;
use std::process::exit;

pub const SEED: u64 = 0x9E37_79B9_7F4A_7C15;

/// A number of the caller's memory, made of 64 bits.
pub trait Word: Copy + PartialEq {
    fn of(bits: u64) -> Self;
}

impl Word for u64 {
    fn of(bits: u64) -> Self {
        bits
    }
}

impl Word for u8 {
    fn of(bits: u64) -> Self {
        (bits >> 56) as u8
    }
}

/// Words of the caller, with canaries before and after the part that is lent.
#[derive(PartialEq)]
pub struct Lent<W = u64> {
    words: Vec<W>,
    len: usize,
}

impl<W: Word> Lent<W> {
    const CANARIES: usize = 16;

    pub fn new(len: usize, seed: u64) -> Self {
        let words = (0..len + 2 * Self::CANARIES).map(|i| W::of(seed ^ (i as u64).wrapping_mul(SEED))).collect();
        Lent { words, len }
    }

    pub fn part(&self) -> &[W] {
        &self.words[Self::CANARIES..Self::CANARIES + self.len]
    }

    /// The part, lent as a list of its length.
    pub fn lend_list(&mut self) -> &mut [W] {
        &mut self.words[Self::CANARIES..Self::CANARIES + self.len]
    }

    /// The part, lent as an array of its length.
    pub fn lend<const N: usize>(&mut self) -> &mut [W; N] {
        self.lend_list().try_into().unwrap()
    }

    /// Whether nothing outside the part differs from what it was made with.
    pub fn canaries_live(&self, made: &Self) -> bool {
        let (front, back) = (Self::CANARIES, Self::CANARIES + self.len);
        self.words[..front] == made.words[..front] && self.words[back..] == made.words[back..]
    }
}

/// xorshift64*.
pub struct Random(pub u64);

impl Random {
    pub fn next(&mut self) -> u64 {
        self.0 ^= self.0 >> 12;
        self.0 ^= self.0 << 25;
        self.0 ^= self.0 >> 27;
        self.0.wrapping_mul(0x2545_F491_4F6C_DD1D)
    }

    pub fn below(&mut self, n: u64) -> u64 {
        (self.next() as u128 * n as u128 >> 64) as u64
    }

    /// A number from 1 to the given one, of any size as likely as of another.
    pub fn sized(&mut self, most: u64) -> u64 {
        let number = 1 + self.below(most);
        (number >> self.below(most.ilog2() as u64 + 1)).max(1)
    }
}

/// A run of named tests, each with a line of its own.
pub struct Run {
    passed: usize,
    failed: usize,
}

impl Run {
    pub fn start() -> Self {
        println!("seed {SEED:#x}");
        Run { passed: 0, failed: 0 }
    }

    /// Counts a test: it passed with what it says it compared, or failed with the reason.
    pub fn count(&mut self, name: &str, result: Result<impl Display, String>) {
        match result {
            Ok(compared) => {
                self.passed += 1;
                println!("ok: {name} ({compared})");
            }
            Err(why) => self.fail(name, &why),
        }
    }

    /// Shows a test of the reference alone, which counts only if it failed.
    pub fn reference(&mut self, name: &str, result: Result<impl Display, String>) {
        match result {
            Ok(compared) => println!("reference: {name} ({compared})"),
            Err(why) => self.fail(&format!("reference: {name}"), &why),
        }
    }

    fn fail(&mut self, name: &str, why: &str) {
        self.failed += 1;
        println!("FAILED: {name}: {why}");
    }

    /// Ends the program with the line of counts, and with status 0 only if none failed.
    pub fn end(self) -> ! {
        println!("{} passed, {} failed", self.passed, self.failed);
        exit(if self.failed == 0 { 0 } else { 1 });
    }
}
