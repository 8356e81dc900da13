//! Texts for the job program that are not what a job's text has to be: job J's and the longest one, on six lines and with an origin
//! on seven, spoilt in every way that 01 and 02 rule out, and texts changed in a place or a few, of which some stay well formed.

use crate::drawn::{one_of, origin, random_count, somewhere};
use crate::harness::{Random, SEED};
use crate::reference::{Domain, LARGEST, LARGEST_ORIGIN};
use std::iter;

pub const J: Domain = Domain { origin: 0, modulus: 45, value: 44, slope: 31, curve: 0, count: 16, window: 3 };

/// J with the largest origin, which has a text of seven lines.
pub const MOVED_J: Domain = Domain { origin: LARGEST_ORIGIN, ..J };

/// The largest number that is read on every line, of six and of seven.
pub const LONGEST: Domain = Domain {
    origin: 0,
    modulus: u64::MAX,
    value: u64::MAX,
    slope: u64::MAX,
    curve: -i64::MAX,
    count: u64::MAX,
    window: u64::MAX,
};
pub const LONGEST_MOVED: Domain = Domain { origin: u64::MAX, ..LONGEST };

const NAMES: [&str; 7] = ["origin", "modulus", "value", "slope", "curve", "count", "window"];

/// The numbers of J and of its origin on these lines.
const NUMBERS: [u64; 7] = [MOVED_J.origin, J.modulus, J.value, J.slope, J.curve as u64, J.count, J.window];

/// The lines of the origin and of the curve.
const ORIGIN: usize = 0;
const CURVE: usize = 4;

const MEGABYTE: usize = 1 << 20;

/// The lines of a job without their line feeds.
fn lines(job: &Domain) -> Vec<String> {
    job.text().lines().map(String::from).collect()
}

/// The text of such lines.
fn joined(parts: &[&[String]]) -> String {
    parts.concat().iter().map(|line| format!("{line}\n")).collect()
}

/// J's text with another line: of its six lines, or, for the line of the origin, of the seven with an origin.
fn with_line(i: usize, line: String) -> String {
    let lines = lines(&MOVED_J);
    joined(&[&lines[i.min(1)..i], &[line], &lines[i + 1..]])
}

/// J's text with another number, or what stands for one.
fn with_number(i: usize, number: &str) -> String {
    with_line(i, format!("{}={number}", NAMES[i]))
}

fn bytes(texts: Vec<String>) -> Vec<Vec<u8>> {
    texts.into_iter().map(String::into_bytes).collect()
}

/// Lines missing, added, in the place of another, swapped and in another order.
pub fn wrong_lines() -> Vec<Vec<u8>> {
    let mut texts = [J, MOVED_J].map(|job| wrong_lines_of(&lines(&job))).concat();
    // Without the line of the origin, seven lines are six that are right.
    texts.retain(|text| *text != J.text());
    bytes(texts)
}

fn wrong_lines_of(lines: &[String]) -> Vec<String> {
    let (text, count) = (joined(&[lines]), lines.len());
    let mut texts = vec![text.repeat(2), text.repeat(3)];
    for i in 0..count {
        texts.push(joined(&[&lines[..i], &lines[i + 1..]]));
        for j in (0..count).filter(|&j| j != i) {
            let mut other = lines.to_vec();
            other[i] = lines[j].clone();
            texts.push(joined(&[&other]));
            other[j] = lines[i].clone();
            texts.push(joined(&[&other]));
        }
    }
    for i in 0..=count {
        let more = ["", " ", "#", "0", "=", "modulus", "extra=1", &lines[i.max(1) - 1], &lines[i.min(count - 1)]];
        texts.extend(more.map(|more| joined(&[&lines[..i], &[more.into()], &lines[i..]])));
    }
    texts.extend((1..count).map(|i| joined(&[&lines[i..], &lines[..i]])));
    texts.push(joined(&[&lines.iter().rev().cloned().collect::<Vec<_>>()]));
    texts
}

/// The line of the origin, with a number that is read: after each other line, in the place of each, before only five of them, twice,
/// alone, and with something wrong before it or after it.
pub fn wrong_origins() -> Vec<Vec<u8>> {
    let (six, mut texts) = (lines(&J), Vec::new());
    for number in [0, 1, 45, LARGEST_ORIGIN, LARGEST_ORIGIN + 1, u64::MAX] {
        let origin = [format!("origin={number}")];
        texts.extend((1..=6).map(|i| joined(&[&six[..i], &origin, &six[i..]])));
        for i in 0..6 {
            texts.push(joined(&[&six[..i], &origin, &six[i + 1..]]));
            texts.push(joined(&[&origin, &six[..i], &six[i + 1..]]));
        }
        for other in ["origin=0", "origin=7"].map(String::from) {
            texts.push(joined(&[&origin, &[other.clone()], &six]));
            texts.push(joined(&[&origin, &six, &[other]]));
        }
        texts.extend([1, 2, 6, 7].map(|times| joined(&[&origin]).repeat(times)));
        texts.push(joined(&[&six, &origin, &six]));
        texts.push(joined(&[&origin, &six]).repeat(2));
        texts.extend(["", "origin", "origin=", "="].map(|line| joined(&[&[line.into()], &origin, &six])));
        texts.extend(["", "origin", "origin=", "="].map(|line| joined(&[&origin, &[line.into()], &six])));
        texts.push(joined(&[&origin, &six]).trim_end().into());
        texts.push(format!("{}{}", origin[0], J.text()));
    }
    bytes(texts)
}

/// Names in other letters, cut, longer and of other lines, and other things between name and number.
pub fn wrong_names() -> Vec<Vec<u8>> {
    let mut texts = [J, MOVED_J].map(|job| job.text().to_uppercase()).to_vec();
    for (i, name) in NAMES.iter().enumerate() {
        let mut names = vec![name.to_uppercase(), name[..1].to_uppercase() + &name[1..], name.repeat(2)];
        names.extend((0..name.len()).map(|at| name[..at].into()));
        names.extend((1..name.len()).map(|at| name[at..].into()));
        names.extend(["s", "\0", " ", "\"", "\t", "-"].map(|more| format!("{name}{more}")));
        names.extend(["s", "\0", " ", "\"", "\t", "\u{feff}"].map(|more| format!("{more}{name}")));
        names.extend(NAMES.iter().filter(|&other| other != name).map(|other| other.to_string()));
        texts.extend(names.iter().map(|name| with_line(i, format!("{name}={}", NUMBERS[i]))));
        let between = ["", ":", " ", "-", "==", "= ", " =", " = ", "=\t", "=+", ":=", "=\n", "\n=", "=\"", "\u{ff1d}"];
        texts.extend(between.map(|between| with_line(i, format!("{name}{between}{}", NUMBERS[i]))));
    }
    bytes(texts)
}

/// What is not a number as 01 writes one, between bars.
const MISSPELT: &str = "|-|+|--|-0|+0|-00|-01|-007|--1|-+1|+-1|+1|1-|1+|0-|00|000|01|007|016|-016|0x10|0x1f|x10|10h|1f|0b11\
    |0o7|1.0|1.|.5|0.0|1e1|1E1|1e|1,000|1 000|1_000|1'000|1_|_1| 1|1 | 16 |\t1|1\t|1\r|\r1|\r|1\0|\01|\0|\0\0|- 1|1/2|/|1/|:\
    |1:|a|1a|a1|O|l|inf|-inf|nan|true|null|\"1\"|'1'|(1)|=1|1=|1=1|=|1;|1#|1 #|1//|%d|$1|1\x0b|1\x0c|\x7f|1\x08|\u{85}1\
    |1\u{85}|1\u{a0}|\u{a0}1|\u{2212}1|\u{ff11}|\u{663}|\u{b2}|\u{feff}1|1\u{200b}|1\u{2028}";

/// Each of these on every line, zeros before the number, and minus signs where there may be none.
pub fn wrong_numbers() -> Vec<Vec<u8>> {
    let mut texts = Vec::new();
    for (i, number) in NUMBERS.into_iter().enumerate() {
        let mut numbers: Vec<String> = MISSPELT.split('|').map(String::from).collect();
        for zeros in [1, 2, 18, 19, 20, 100, 1000].map(|zeros| "0".repeat(zeros)) {
            numbers.extend(["", "-"].map(|sign| format!("{sign}{zeros}{number}")));
        }
        if i != CURVE {
            numbers.extend([1, 3, 16, number, u64::MAX].map(|number| format!("-{number}")));
        }
        texts.extend(numbers.iter().map(|number| with_number(i, number)));
    }
    bytes(texts)
}

/// Numbers too large for a line, also such as wrap to J's number in 64 or 128 bits.
fn too_large(random: &mut Random, i: usize) -> Vec<String> {
    let (word, number) = (1_u128 << 64, NUMBERS[i] as u128);
    let mut large: Vec<u128> = [0, 1, 8, 16, 1 << 20].map(|more| word + more).into();
    large.extend([1, 2, 3, 4, 5, 10, 1 << 32, word - 1].map(|times| times * word + number));
    large.extend((20..39).flat_map(|power| [10_u128.pow(power) - 1, 10_u128.pow(power)]));
    large.extend((0..24).map(|_| (1 + random.below(4)) as u128 * word + random.next() as u128));
    if i == CURVE {
        large.extend([0, 1, 5, 1 << 20, (1 << 63) - 1].map(|more| (1 << 63) + more));
        large.extend((0..24).map(|_| (1 << 63 | random.next()) as u128));
    }
    let mut numbers: Vec<String> = large.iter().map(u128::to_string).collect();
    // 2^128 is 340282366920938463463374607431768211456.
    numbers.push(format!("34028236692093846346337{}", 4_607_431_768_211_456 + number));
    for digits in [40, 64, 120, 128, 200] {
        numbers.extend(["9".repeat(digits), format!("1{}", "0".repeat(digits))]);
    }
    numbers
}

pub fn too_large_numbers() -> Vec<Vec<u8>> {
    let (mut random, mut texts) = (Random(SEED), Vec::new());
    // The origin comes last, so that its numbers do not shift the random ones of the other lines.
    for i in (1..7).chain([ORIGIN]) {
        let numbers = too_large(&mut random, i);
        texts.extend(numbers.iter().map(|number| with_number(i, number)));
        if i == CURVE {
            texts.extend(numbers.iter().map(|number| with_number(i, &format!("-{number}"))));
        }
    }
    bytes(texts)
}

/// One byte of every value after the text, other things for a line feed, and something before the text.
pub fn wrong_ends() -> Vec<Vec<u8>> {
    [J, MOVED_J].map(|job| wrong_ends_of(&job)).concat()
}

fn wrong_ends_of(job: &Domain) -> Vec<Vec<u8>> {
    let (text, lines) = (job.text(), lines(job));
    let mut texts: Vec<Vec<u8>> = (0..=255).map(|byte| [text.as_bytes(), &[byte]].concat()).collect();
    let ends = ["", " ", ";", "\r", "\0", "\\n", "\x0b", "\u{85}"];
    for end in ends.into_iter().chain(["\r\n", "\n\r", "\0\n", "\n\0", "\n\n", " \n", "\n ", ";\n"]) {
        texts.push(text.replace('\n', end).into());
        let at = |i: usize| [lines[..=i].join("\n"), joined(&[&lines[i + 1..]])].join(end);
        texts.extend((0..lines.len()).map(|i| at(i).into()));
    }
    for start in ["\n", " ", "\t", "\r\n", "\0", "\u{feff}", "\u{fffe}", "#\n", "=", "\x1b", "m", "o", "-"] {
        texts.push(format!("{start}{text}").into());
    }
    texts.push([&[0xff, 0xfe], text.as_bytes()].concat());
    texts.push(text.bytes().flat_map(|byte| [byte, 0]).collect());
    texts
}

/// Nothing, a byte of every value, and what has no numbers, no names or no lines.
pub fn no_job() -> Vec<Vec<u8>> {
    let mut texts: Vec<Vec<u8>> = (0..=255).map(|byte| vec![byte]).collect();
    texts.extend([0, 8, 164, 165, 166, 192, 193, 194, 4096, 1 << 16].map(|length| vec![0; length]));
    let (names, numbers) = (NAMES.map(|name| format!("{name}=")), NUMBERS.map(|number| number.to_string()));
    for (names, numbers) in [(&names[1..], &numbers[1..]), (&names[..], &numbers[..])] {
        texts.extend(bytes(vec![joined(&[names]), names.concat(), joined(&[numbers])]));
        texts.extend(["=\n", "=0\n", "\n"].map(|line| line.repeat(names.len()).into()));
    }
    texts.extend([J, MOVED_J].map(|job| job.text().replace('\n', " ").into()));
    texts.extend(["refused=8\n", "refused=11\n"].map(Vec::from));
    texts
}

/// More after J's text and after the longest one, so that the whole is of every length about the longest, or of a power of two.
pub fn more_after_the_text() -> Vec<Vec<u8>> {
    let mut texts = Vec::new();
    for text in [J, LONGEST, MOVED_J, LONGEST_MOVED].map(|job| job.text().into_bytes()) {
        let lengths = (text.len() + 1..=260).chain((9..17).flat_map(|power| [1 << power, (1 << power) + 1]));
        let more = lengths.zip(b"\n0\0 ".iter().cycle()).map(|(length, &byte)| vec![byte; length - text.len()]);
        texts.extend(more.map(|more| [&text[..], &more].concat()));
    }
    texts
}

pub fn texts_of_a_megabyte() -> Vec<Vec<u8>> {
    let repeated = ["7", "\n", "\0", "modulus=", "origin=", "origin=0\n"];
    let mut texts: Vec<String> = repeated.map(|text| text.repeat(MEGABYTE / text.len())).into();
    texts.extend(["\n", "0", "\0", &J.text()].map(|more| J.text() + &more.repeat(MEGABYTE / more.len())));
    texts.extend([LONGEST, MOVED_J, LONGEST_MOVED].map(|job| job.text() + &"\n".repeat(MEGABYTE)));
    for i in 0..7 {
        texts.extend(["0", "1", "9", "-"].map(|digit| with_number(i, &digit.repeat(MEGABYTE))));
    }
    bytes(texts)
}

/// Every proper beginning and end of J's text and of the longest one, on six lines and on seven. The last six lines of seven are left
/// out: they are a job's text.
pub fn beginnings_and_ends() -> Vec<Vec<u8>> {
    let texts = [J, LONGEST, MOVED_J, LONGEST_MOVED].map(|job| job.text());
    let cut = texts.iter().flat_map(|text| (1..text.len()).flat_map(|at| [&text[..at], &text[at..]]));
    cut.filter(|cut| !texts[..2].iter().any(|six| six == cut)).map(Vec::from).collect()
}

/// Digits, and bytes that a reader may take for something else.
const BYTES: &[u8] = b"0123456789\0\t\n\r +-,./:=AEMemx_\x7f\x80\xb0\xff";

/// The bytes that are tried at a place of J's text. On six lines all of them. On seven all at the line of the origin and just after it,
/// and elsewhere a quarter of them in turn: there the lines are those that are tried on six.
fn tried(job: &Domain, at: usize) -> impl Iterator<Item = u8> {
    let own = job.text().len() - J.text().len();
    let (first, step) = if own > 0 && at > own { (at % 4, 4) } else { (0, 1) };
    BYTES.iter().copied().skip(first).step_by(step)
}

/// J's text with a byte missing, two swapped, or a byte more, at every place.
pub fn bytes_missing_or_more() -> Vec<Vec<u8>> {
    let mut texts = Vec::new();
    for (job, text) in [J, MOVED_J].map(|job| (job, job.text().into_bytes())) {
        for at in 0..text.len() {
            texts.push([&text[..at], &text[at + 1..]].concat());
            let mut swapped = text.clone();
            swapped.swap(at, (at + 1) % text.len());
            texts.push(swapped);
        }
        for at in 0..=text.len() {
            texts.extend(tried(&job, at).map(|byte| [&text[..at], &[byte], &text[at..]].concat()));
        }
    }
    texts
}

/// J's text with another byte at every place; of every value at some of them.
pub fn other_bytes() -> Vec<Vec<u8>> {
    let [six, seven] = [J, MOVED_J].map(|job| job.text());
    let first = |text: &str, what: &str| text.find(what).unwrap();
    let (equals, curve) = (first(&six, "="), first(&six, "curve=") + 6);
    let every_of_six = vec![equals, equals + 1, curve, six.len() - 2, six.len() - 1];
    let equals = first(&seven, "=");
    let every_of_seven = vec![equals, equals + 1, first(&seven, "\n")];
    let mut texts = Vec::new();
    for (job, text, every_at) in [(J, six, every_of_six), (MOVED_J, seven, every_of_seven)] {
        let text = text.into_bytes();
        for at in 0..text.len() {
            let bytes: Vec<u8> = if every_at.contains(&at) { (0..=255).collect() } else { tried(&job, at).collect() };
            texts.extend(bytes.iter().map(|&byte| [&text[..at], &[byte], &text[at + 1..]].concat()));
        }
    }
    texts
}

/// Changes a text at random in a place or two.
fn change(random: &mut Random, text: &mut Vec<u8>) {
    let [at, other] = [(); 2].map(|_| random.below(text.len() as u64) as usize);
    let stretch = at..(at + other % 12).min(text.len());
    let digits: Vec<usize> = (0..text.len()).filter(|&i| text[i].is_ascii_digit()).collect();
    match random.below(8) {
        0 => text.insert(at, one_of(random, BYTES)),
        1 => text[at] = one_of(random, BYTES),
        2 => text.swap(at, other),
        3 => drop(text.drain(stretch)),
        4 => drop(text.splice(other..other, text[stretch].to_vec())),
        _ if digits.is_empty() => text.push(b'0'),
        _ => text[one_of(random, &digits)] = one_of(random, &BYTES[..10]),
    }
}

/// A text that is changed up to three times.
fn changed(random: &mut Random, text: String) -> Vec<u8> {
    let mut text = text.into_bytes();
    for _ in 0..1 + random.below(3) {
        change(random, &mut text);
    }
    text
}

fn random_domain(random: &mut Random) -> Domain {
    let (modulus, count) = (1 + random.sized(LARGEST - 1), random_count(random, 128));
    somewhere(random, modulus, count)
}

/// Texts of random domains, on six lines and on seven, that are changed so.
pub fn changed_texts() -> Vec<Vec<u8>> {
    let [mut of_six, mut of_seven] = [SEED + 1, SEED + 101].map(Random);
    let six = iter::repeat_with(|| {
        let domain = random_domain(&mut of_six);
        changed(&mut of_six, domain.text())
    });
    let seven = iter::repeat_with(|| {
        let domain = Domain { origin: origin(&mut of_seven), ..random_domain(&mut of_seven) };
        changed(&mut of_seven, domain.text_with_origin())
    });
    six.take(1_200).chain(seven.take(600)).collect()
}
