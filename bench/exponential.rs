//! Domains of the exponential function in double precision, spread evenly over a part of one binade, as examples/exp.py makes one: its
//! head has the scaling. The numbers are fixed-point numbers of 256 fraction bits.

/// The doubles of the binade from 1/2 on are whole multiples of 2^-53.
const ULP: u32 = 53;

/// A number from 0 to below 2^64, lowest word first: four words of fraction bits and one of the whole part.
type Fixed = [u64; 5];

const ONE: Fixed = [0, 0, 0, 0, 1];

fn add(a: &Fixed, b: &Fixed) -> Fixed {
    let (mut sum, mut carry) = ([0; 5], 0);
    for i in 0..5 {
        let word = a[i] as u128 + b[i] as u128 + carry;
        (sum[i], carry) = (word as u64, word >> 64);
    }
    sum
}

/// The product, rounded down.
fn times(a: &Fixed, b: &Fixed) -> Fixed {
    let mut words = [0u64; 10];
    for i in 0..5 {
        let mut carry = 0;
        for j in 0..5 {
            let word = a[i] as u128 * b[j] as u128 + words[i + j] as u128 + carry;
            (words[i + j], carry) = (word as u64, word >> 64);
        }
        words[i + 5] = carry as u64;
    }
    words[4..9].try_into().unwrap()
}

fn divided(a: &Fixed, by: u64) -> Fixed {
    let (mut quotient, mut rest) = ([0; 5], 0);
    for i in (0..5).rev() {
        let word = rest << 64 | a[i] as u128;
        (quotient[i], rest) = ((word / by as u128) as u64, word % by as u128);
    }
    quotient
}

/// exp(x) - 1, by its series.
fn expm1(x: &Fixed) -> Fixed {
    let (mut sum, mut term, mut n) = ([0; 5], ONE, 0);
    loop {
        n += 1;
        term = divided(&times(&term, x), n);
        if term == [0; 5] {
            return sum;
        }
        sum = add(&sum, &term);
    }
}

/// So many ulps of the binade.
fn ulps(number: u64) -> Fixed {
    let shifted = (number as u128) << (128 - ULP);
    [0, 0, shifted as u64, (shifted >> 64) as u64, 0]
}

/// 2^62 times a number times 2^power, modulo 2^62, rounded down. The power is at most 64.
fn modulo(a: &Fixed, power: u32) -> u64 {
    // The bits of the whole part and of the fraction, from 2^62 on down to 2^-64.
    let high = (a[4] as u128) << 64 | a[3] as u128;
    let low = (a[2] as u128) << 64 | a[1] as u128;
    let moved = high << power | low.checked_shr(128 - power).unwrap_or(0);
    (moved >> 2) as u64 & ((1 << 62) - 1)
}

/// The place in its binade, the value, the slope and the curve of each of so many domains with a modulus of 2^62, evenly from the double
/// 0.7 to 1, where the exponential is from 2 to e. Half an ulp of it is 2^-52.
pub fn domains(number: u64) -> Vec<(u64, u64, u64, i64)> {
    let first = 7 * (1 << ULP) / 10;
    let between = ((1 << ULP) - first) / number;
    let from_to = add(&ONE, &expm1(&ulps(between)));
    let step = expm1(&ulps(1));
    let mut value = add(&ONE, &expm1(&ulps(first)));
    (0..number)
        .map(|i| {
            let (c1, place) = (times(&value, &step), first + i * between - (1 << (ULP - 1)));
            let domain = (place, modulo(&value, 52), modulo(&c1, 52), modulo(&times(&c1, &step), 52) as i64);
            value = times(&value, &from_to);
            domain
        })
        .collect()
}
