//! Digits, residues and modular division against a reference written from documents 01 and 02 alone: every argument and
//! every target of small moduli, found by trying all lists of digits and all arguments; the conditions on digits themselves for
//! large ones; with canaries around the caller's memory.

mod c_api;
mod harness;
mod reference;

use harness::{Lent, Random, Run, SEED};
use reference::{Row, LARGEST};

const PLACES: usize = 88;

/// 1 or 2 as the expansion, or the call's own number where its condition applies; 0 where none does.
fn refusal(modulus: u64, step: u64, own: u32, applies: impl FnOnce() -> bool) -> u32 {
    match reference::pair_refusal(modulus, step) {
        0 if applies() => own,
        number => number,
    }
}

/// Calls a function that leaves one number, with canaries around it: the number that it returned and the one that it left, or what
/// it changed that it should not.
fn left(call: impl FnOnce(&mut u64) -> u32) -> Result<(u32, u64), &'static str> {
    let made = Lent::new(1, 3);
    let mut lent = Lent::new(1, 3);
    let number = call(&mut lent.lend::<1>()[0]);
    if !lent.canaries_live(&made) {
        return Err("written outside the caller's memory");
    }
    if number != 0 && lent != made {
        return Err("memory changed on a refusal");
    }
    Ok((number, lent.part()[0]))
}

/// The digits that the call leaves, or the number of its refusal.
fn digits(modulus: u64, step: u64, x: u64) -> Result<Result<Vec<u64>, u32>, &'static str> {
    let fresh = || [Lent::new(PLACES, 1), Lent::new(1, 2)];
    let made = fresh();
    let mut lent = fresh();
    let [places, count] = &mut lent;
    let number = c_api::digits(modulus, step, x, places.lend(), &mut count.lend::<1>()[0]);
    if lent.iter().zip(&made).any(|(l, m)| !l.canaries_live(m)) {
        return Err("digits written outside the caller's memory");
    }
    if number != 0 {
        return if lent == made { Ok(Err(number)) } else { Err("memory changed on a refusal") };
    }
    let count = lent[1].part()[0] as usize;
    if count > PLACES || lent[0].part()[count..].iter().any(|&d| d != 0) {
        return Err("places after the digits");
    }
    Ok(Ok(lent[0].part()[..count].to_vec()))
}

/// Compares the digits and the residue of an argument with what is expected, where it is known, and with the conditions.
fn compare_argument(modulus: u64, step: u64, x: u64, rows: &[Row], expected: Option<&[u64]>) -> Result<(), String> {
    let wrong = |what: &str| Err(format!("modulus {modulus}, step {step}, argument {x}: {what}"));
    let refused = refusal(modulus, step, 9, || x as u128 >= rows.last().unwrap().denominator);
    match digits(modulus, step, x) {
        Err(what) => return wrong(what),
        Ok(Err(number)) if number != refused => return wrong(&format!("digits refused by {number}")),
        Ok(Err(_)) => {}
        Ok(Ok(_)) if refused != 0 => return wrong("digits accepted"),
        Ok(Ok(digits)) => {
            if expected.is_some_and(|expected| digits != expected) {
                return wrong("digits");
            }
            if !reference::allowed(rows, &digits) || reference::digit_sum(rows, &digits) != x as u128 {
                return wrong("conditions of the digits");
            }
            if reference::digit_residue(modulus, rows, &digits) != reference::multiple(modulus, step, x) {
                return wrong("residue by the digits");
            }
        }
    }
    match left(|to| c_api::residue(modulus, step, x, to)) {
        Err(what) => wrong(what),
        Ok((number, _)) if number != refused => wrong(&format!("residue refused by {number}")),
        Ok((0, residue)) if residue != reference::multiple(modulus, step, x) => wrong(&format!("residue {residue}")),
        Ok(_) => Ok(()),
    }
}

/// Compares a division with the argument that is expected, or with a refusal by 10 where there is none.
fn compare_target(modulus: u64, step: u64, target: u64, expected: Option<u64>) -> Result<(), String> {
    let wrong = |what: &str| Err(format!("modulus {modulus}, step {step}, target {target}: {what}"));
    let refused = refusal(modulus, step, 10, || expected.is_none());
    match left(|to| c_api::divide(modulus, step, target, to)) {
        Err(what) => wrong(what),
        Ok((number, _)) if number != refused => wrong(&format!("refused by {number}")),
        Ok((0, argument)) if Some(argument) != expected => wrong(&format!("argument {argument}")),
        Ok(_) => Ok(()),
    }
}

/// The rows of a pair; where it is refused, a single row with the denominator 1, which stands for none.
fn rows_of(modulus: u64, step: u64) -> Vec<Row> {
    if reference::pair_refusal(modulus, step) != 0 {
        vec![Row { remainder: 0, denominator: 1, quotient: 0 }]
    } else {
        reference::rows(modulus, step)
    }
}

/// An argument, and its residue as a target.
fn there_and_back(modulus: u64, step: u64, x: u64, rows: &[Row]) -> Result<usize, String> {
    compare_argument(modulus, step, x, rows, None)?;
    if refusal(modulus, step, 9, || x as u128 >= rows.last().unwrap().denominator) != 0 {
        return Ok(1);
    }
    compare_target(modulus, step, reference::multiple(modulus, step, x), Some(x))?;
    Ok(2)
}

/// The greatest common divisor of a step and a modulus: the modulus over the period.
fn divisor(modulus: u64, rows: &[Row]) -> u64 {
    modulus / rows.last().unwrap().denominator as u64
}

/// Every argument up to two after the last: the digits are those among all allowed lists that sum up to it.
fn every_small_argument() -> Result<usize, String> {
    let mut count = 0;
    for modulus in 2..=90 {
        for step in 0..modulus {
            let rows = reference::rows(modulus, step);
            let mut lists = vec![vec![]; reference::period(modulus, step) as usize];
            for list in reference::allowed_lists(&rows) {
                let sum = reference::digit_sum(&rows, &list) as usize;
                lists[sum] = list;
            }
            for x in 0..lists.len() + 2 {
                compare_argument(modulus, step, x as u64, &rows, lists.get(x).map(|list| &list[..]))?;
                count += 1;
            }
        }
    }
    Ok(count)
}

/// Every target up to one above the modulus: the argument is found by trying all below the period.
fn every_small_target() -> Result<usize, String> {
    let mut count = 0;
    for modulus in 0..=150 {
        for step in 0..modulus + 2 {
            let mut arguments = vec![None; modulus as usize + 2];
            if refusal(modulus, step, 0, || false) == 0 {
                for x in 0..reference::period(modulus, step) {
                    arguments[reference::multiple(modulus, step, x) as usize] = Some(x);
                }
            }
            for (target, &argument) in arguments.iter().enumerate() {
                compare_target(modulus, step, target as u64, argument)?;
                count += 1;
            }
        }
    }
    Ok(count)
}

fn random_arguments() -> Result<usize, String> {
    let mut random = Random(SEED);
    let mut count = 0;
    for _ in 0..100_000 {
        let modulus = 2 + random.below(LARGEST - 1);
        let step = random.below(modulus);
        let rows = reference::rows(modulus, step);
        let x = random.below(rows.last().unwrap().denominator as u64);
        count += there_and_back(modulus, step, x, &rows)?;
    }
    Ok(count)
}

/// Numbers of every size, most of which are refused.
fn random_numbers() -> Result<usize, String> {
    let mut random = Random(SEED + 1);
    let mut count = 0;
    for _ in 0..100_000 {
        let [modulus, step, x] = std::array::from_fn(|_| random.next() >> random.below(64));
        count += there_and_back(modulus, step, x, &rows_of(modulus, step))?;
    }
    Ok(count)
}

/// Common divisors: arguments on both sides of the period, and targets that are multiples, that are none, and that are above
/// the modulus.
fn common_divisors() -> Result<usize, String> {
    let mut random = Random(SEED + 2);
    let mut count = 0;
    for i in 0..50_000 {
        let common = if i % 2 == 0 { 1 << random.below(60) } else { 1 + random.below(1 << 30) };
        let times = 2 + random.below(LARGEST / common - 1);
        let (modulus, step) = (common * times, common * random.below(times));
        let rows = reference::rows(modulus, step);
        let (period, divisor) = (rows.last().unwrap().denominator as u64, divisor(modulus, &rows));
        let inside = random.below(period);
        for x in [inside, period - 1, period, period + inside, modulus] {
            count += there_and_back(modulus, step, x, &rows)?;
        }
        let multiple = reference::multiple(modulus, step, inside);
        if divisor > 1 {
            compare_target(modulus, step, multiple + 1 + random.below(divisor - 1), None)?;
            count += 1;
        }
        compare_target(modulus, step, modulus + multiple, None)?;
        count += 1;
    }
    Ok(count)
}

fn extremes() -> Result<usize, String> {
    let ends = [0, 1, 2, 3, 45, LARGEST / 2, LARGEST - 1, LARGEST, LARGEST + 1, 1 << 63, u64::MAX - 1, u64::MAX];
    let mut count = 0;
    for modulus in ends {
        let near =
            [modulus.wrapping_sub(1), modulus, modulus.wrapping_add(1), modulus / 2, modulus / 2 + 1, modulus / 3];
        for step in ends.into_iter().chain(near) {
            let rows = rows_of(modulus, step);
            let period = rows.last().unwrap().denominator as u64;
            for x in ends.into_iter().chain([period / 2, period - 1, period, period + 1]) {
                count += there_and_back(modulus, step, x, &rows)?;
            }
            for target in [modulus, modulus.saturating_add(1), u64::MAX] {
                compare_target(modulus, step, target, None)?;
                count += 1;
            }
        }
    }
    Ok(count)
}

/// Neighbouring Fibonacci numbers have the most digits; the largest pair up to 2^62 has all 88.
fn fibonacci_numbers() -> Result<usize, String> {
    let mut random = Random(SEED + 3);
    let (mut a, mut b, mut most, mut count) = (1u64, 2u64, 0, 0);
    while b <= LARGEST {
        let rows = reference::rows(b, a);
        let period = rows.last().unwrap().denominator as u64;
        for x in (0..50).map(|_| random.below(period)).chain([0, 1, period - 1]) {
            count += there_and_back(b, a, x, &rows)?;
        }
        most = digits(b, a, period - 1)?.map_err(|number| format!("refused by {number}"))?.len();
        (a, b) = (b, a + b);
    }
    if most != PLACES {
        return Err(format!("the most digits are {most}"));
    }
    Ok(count)
}

/// Document 02's example, and others worked by hand.
fn worked_examples() -> Result<usize, String> {
    let arguments: [(u64, u64, u64, Result<&[u64], u32>, u64); 8] = [
        (45, 14, 15, Ok(&[2, 0, 1, 0]), 30),
        (45, 14, 44, Ok(&[0, 4, 0, 2]), 31),
        (45, 14, 45, Err(9), 0),
        (45, 15, 2, Ok(&[2]), 30),
        (45, 15, 3, Err(9), 0),
        (45, 44, 44, Ok(&[0, 44]), 1),
        (45, 0, 0, Ok(&[]), 0),
        (45, 0, 1, Err(9), 0),
    ];
    for (modulus, step, x, expected, residue) in arguments {
        let called = digits(modulus, step, x)?;
        if called.as_deref() != expected.as_ref().map(|digits| *digits) {
            return Err(format!("modulus {modulus}, step {step}, argument {x}: {called:?}"));
        }
        let number = expected.err().unwrap_or(0);
        let called = left(|to| c_api::residue(modulus, step, x, to))?;
        if called.0 != number || (number == 0 && called.1 != residue) {
            return Err(format!("modulus {modulus}, step {step}, argument {x}: residue {called:?}"));
        }
    }
    let targets = [
        (45, 14, 30, Some(15)),
        (45, 14, 44, Some(16)),
        (45, 14, 45, None),
        (45, 15, 30, Some(2)),
        (45, 15, 31, None),
        (45, 44, 1, Some(44)),
        (45, 0, 0, Some(0)),
        (45, 0, 1, None),
    ];
    for (modulus, step, target, argument) in targets {
        compare_target(modulus, step, target, argument)?;
    }
    Ok(2 * arguments.len() + targets.len())
}

/// Of the reference: each argument below the period has exactly one allowed list, and no allowed list sums up to more.
fn lists() -> Result<usize, String> {
    let mut count = 0;
    for modulus in 2..=90 {
        for step in 0..modulus {
            let rows = reference::rows(modulus, step);
            let mut sums: Vec<u128> =
                reference::allowed_lists(&rows).iter().map(|list| reference::digit_sum(&rows, list)).collect();
            sums.sort();
            if !sums.into_iter().eq(0..reference::period(modulus, step) as u128) {
                return Err(format!("modulus {modulus}, step {step}"));
            }
            count += 1;
        }
    }
    Ok(count)
}

fn main() {
    let mut run = Run::start();
    let tests: [(&str, fn() -> Result<usize, String>); 8] = [
        ("every argument of moduli up to 90", every_small_argument),
        ("every target of moduli up to 150", every_small_target),
        ("random arguments of moduli up to 2^62", random_arguments),
        ("random numbers of every size", random_numbers),
        ("common divisors", common_divisors),
        ("extremes", extremes),
        ("Fibonacci numbers", fibonacci_numbers),
        ("worked examples", worked_examples),
    ];
    for (name, test) in tests {
        run.count(name, test().map(|calls| format!("{calls} arguments and targets")));
    }
    run.reference("lists of digits", lists().map(|pairs| format!("{pairs} pairs")));
    run.end()
}
