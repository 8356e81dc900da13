//! The expansion call against a reference written from document 01's section "The ladder" alone: every small modulus and step,
//! random and extreme ones, with canaries around the caller's memory.

mod c_api;
mod harness;
mod reference;

use c_api::ROWS;
use harness::{Lent, Random, Run, SEED};
use reference::{pair_refusal as refusal, Row, LARGEST};

/// Compares one call with the reference; says what differs.
fn compare(modulus: u64, step: u64) -> Result<(), String> {
    let fresh = || [Lent::new(ROWS, 1), Lent::new(ROWS, 2), Lent::new(ROWS, 3), Lent::new(1, 4)];
    let made = fresh();
    let mut lent = fresh();
    let [remainders, denominators, quotients, last] = &mut lent;
    let number = c_api::expand(
        modulus,
        step,
        remainders.lend(),
        denominators.lend(),
        quotients.lend(),
        &mut last.lend::<1>()[0],
    );
    let wrong = |what: &str| Err(format!("modulus {modulus}, step {step}: {what}"));
    if number != refusal(modulus, step) {
        return wrong(&format!("refusal {number}"));
    }
    if lent.iter().zip(&made).any(|(l, m)| !l.canaries_live(m)) {
        return wrong("written outside the caller's memory");
    }
    if number != 0 {
        return if lent == made { Ok(()) } else { wrong("memory changed on a refusal") };
    }
    let rows = reference::rows(modulus, step);
    if lent[3].part() != [rows.len() as u64 - 1] {
        return wrong("last row");
    }
    let columns: [Box<dyn Fn(&Row) -> u128>; 3] =
        [Box::new(|r| r.remainder), Box::new(|r| r.denominator), Box::new(|r| r.quotient)];
    for (column, (entry, name)) in lent.iter().zip(columns.iter().zip(["remainders", "denominators", "quotients"])) {
        let mut expected: Vec<u128> = rows.iter().map(entry).collect();
        expected.resize(ROWS, 0);
        if !column.part().iter().map(|&x| x as u128).eq(expected) {
            return wrong(name);
        }
    }
    Ok(())
}

fn all(pairs: impl IntoIterator<Item = (u64, u64)>) -> Result<usize, String> {
    let mut count = 0;
    for (modulus, step) in pairs {
        compare(modulus, step)?;
        count += 1;
    }
    Ok(count)
}

fn every_small_pair() -> Result<usize, String> {
    all((0..=400).flat_map(|m| (0..m + 3).map(move |a| (m, a))))
}

fn random_pairs() -> Result<usize, String> {
    let mut random = Random(SEED);
    all((0..200_000).map(|_| {
        let modulus = 2 + random.below(LARGEST - 1);
        (modulus, random.below(modulus))
    }))
}

fn random_pairs_of_every_size() -> Result<usize, String> {
    let mut random = Random(SEED + 1);
    all((0..100_000).map(|_| (random.next() >> random.below(64), random.next() >> random.below(64))))
}

fn common_divisors_and_powers_of_two() -> Result<usize, String> {
    let mut random = Random(SEED + 2);
    all((0..50_000).map(|i| {
        let divisor = if i % 2 == 0 { 1 << random.below(60) } else { 1 + random.below(1 << 30) };
        let times = 1 + random.below(LARGEST / divisor);
        (divisor * times, divisor * random.below(times))
    }))
}

fn extreme_pairs() -> Result<usize, String> {
    let ends = [0, 1, 2, 3, 45, LARGEST / 2, LARGEST - 1, LARGEST, LARGEST + 1, 1 << 63, u64::MAX - 1, u64::MAX];
    all(ends.iter().flat_map(|&m| {
        let near = [m.wrapping_sub(1), m, m.wrapping_add(1), m / 2, m / 2 + 1];
        ends.into_iter().chain(near).map(move |a| (m, a)).collect::<Vec<_>>()
    }))
}

/// Neighbouring Fibonacci numbers have the longest expansions; the largest pair up to 2^62 has all 89 rows.
fn fibonacci_pairs() -> Result<usize, String> {
    let (mut a, mut b, mut longest) = (1u64, 2u64, 0);
    let mut pairs = Vec::new();
    while b <= LARGEST {
        pairs.push((b, a));
        longest = reference::rows(b, a).len();
        (a, b) = (b, a + b);
    }
    if longest != ROWS {
        return Err(format!("the longest expansion has {longest} rows"));
    }
    all(pairs)
}

/// The reference's last denominator, with which the call's is compared above, is the period: by going through the multiples.
fn periods() -> Result<usize, String> {
    let mut count = 0;
    for modulus in 2..=400 {
        for step in 0..modulus {
            let last = reference::rows(modulus, step).last().unwrap().denominator;
            if last != reference::period(modulus, step) as u128 {
                return Err(format!("modulus {modulus}, step {step}: period {last}"));
            }
            count += 1;
        }
    }
    Ok(count)
}

/// Document 01's example P1, and its refusals that concern this call.
fn settled_examples() -> Result<usize, String> {
    let rows = reference::rows(45, 14);
    let column = |f: fn(&Row) -> u128| rows.iter().map(f).collect::<Vec<_>>();
    if column(|r| r.remainder) != [14, 3, 2, 1, 0]
        || column(|r| r.quotient) != [3, 4, 1, 2, 0]
        || column(|r| r.denominator) != [1, 3, 13, 16, 45]
    {
        return Err("the reference differs from P1".into());
    }
    if (refusal(1, 0), refusal(2, 0), refusal(2, 1)) != (1, 0, 0) {
        return Err("the reference refuses otherwise".into());
    }
    all([(45, 14), (1, 0), (2, 0), (2, 1)])
}

fn main() {
    let mut run = Run::start();
    let tests: [(&str, fn() -> Result<usize, String>); 7] = [
        ("every modulus up to 400", every_small_pair),
        ("random moduli up to 2^62", random_pairs),
        ("random numbers of every size", random_pairs_of_every_size),
        ("common divisors and powers of two", common_divisors_and_powers_of_two),
        ("extremes", extreme_pairs),
        ("Fibonacci numbers", fibonacci_pairs),
        ("settled examples", settled_examples),
    ];
    for (name, test) in tests {
        run.count(name, test().map(|pairs| format!("{pairs} pairs")));
    }
    run.reference("periods", periods().map(|pairs| format!("{pairs} pairs")));
    run.end()
}
