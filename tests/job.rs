//! Job texts of six lines and of seven through the built job program, whose path is the first argument: settled and random jobs
//! against the reference, malformed texts of every kind, texts that arrive in pieces, output that nobody reads. What has to be
//! printed follows from the numbers that a text was made of, or from how it was spoilt, never from the program.

mod drawn;
mod harness;
mod process;
mod reference;
mod texts;

use drawn::{one_of, origin, random_count, signed, somewhere};
use harness::{Random, Run, SEED};
use process::{ended, piped, piped_after, started, Shown, LIMIT};
use reference::{Domain, LARGEST, LARGEST_CURVE, LARGEST_ORIGIN, MOST, PLACES};
use std::collections::{BTreeMap, HashSet};
use std::fs::{read_dir, File};
use std::path::{Path, PathBuf};
use std::process::Child;
use std::time::Duration;
use std::{env, fmt, fs, iter, thread};
use texts::{J, LONGEST, LONGEST_MOVED, MOVED_J};

const P11: Domain = Domain { origin: 0, modulus: 45, value: 0, slope: 0, curve: 1, count: 8, window: 1 };

/// Every odd value once. -4,095 comes at argument 2^20 - 4,096, and from there on all arguments are hard: as many as there are places, of
/// seven digits each.
const ODD_VALUES: Domain =
    Domain { origin: 0, modulus: 2 * MOST, value: 4097, slope: 2, curve: 0, count: MOST, window: 4096 };

/// The values rise by 1 and end with the modulus less 1. The last 4,096 arguments are hard, as many as there are places: of seven digits
/// each, and their values of nineteen.
const LONGEST_LIST: Domain =
    Domain { origin: 0, modulus: LARGEST, value: LARGEST - MOST, slope: 1, curve: 0, count: MOST, window: 4097 };

/// The value of 1,010,000 + k is the modulus less k(k+1) + 1, and it is hard for k from -2,048 to 2,047: as many arguments as above, of as
/// many digits, and their values too.
const LONGEST_CURVED_LIST: Domain = Domain {
    origin: 0,
    modulus: LARGEST,
    value: LARGEST - 1 - 1_010_000 * 1_009_999,
    slope: 2 * 1_009_999,
    curve: -2,
    count: MOST,
    window: 2 + 2047 * 2048,
};

/// The bytes of the longest text on six lines and on seven, and of the longest output with the origin 0 and with the largest: three
/// lines of 15, 15 and 12 bytes, and 4,096 lines of 43, or of 52 where the arguments have sixteen digits.
const LONGEST_TEXTS: [usize; 2] = [165, 193];
const LONGEST_OUTPUTS: [usize; 2] = [176_170, 213_034];

/// The refusals of a job.
const REFUSALS: [u32; 9] = [1, 2, 3, 4, 5, 6, 7, 8, 11];

/// A job text and what the program has to print.
struct Case {
    text: Vec<u8>,
    output: String,
}

/// The job of a domain, by the reference: on six lines where its origin is 0, and else on seven.
fn job(domain: Domain) -> Case {
    Case { text: domain.text().into(), output: domain.printed() }
}

/// The same on seven lines whatever the origin is.
fn job_with_origin(domain: Domain) -> Case {
    Case { text: domain.text_with_origin().into(), output: domain.printed() }
}

/// The domain of a well-formed text, of six lines or of seven: its numbers are read leniently, and then the text has to be theirs.
fn reading(text: &[u8]) -> Option<Domain> {
    let text = std::str::from_utf8(text).ok()?;
    let numbers = text.split('\n').filter_map(|line| line.split_once('=')?.1.parse().ok());
    let mut numbers: Vec<i128> = numbers.collect();
    let six = numbers.len() == 6;
    if six {
        numbers.insert(0, 0);
    }
    let [origin, modulus, value, slope, curve, count, window] = numbers[..] else { return None };
    let field = |number| u64::try_from(number).ok();
    let domain = Domain {
        origin: field(origin)?,
        modulus: field(modulus)?,
        value: field(value)?,
        slope: field(slope)?,
        curve: i64::try_from(curve).ok().filter(|&curve| curve != i64::MIN)?,
        count: field(count)?,
        window: field(window)?,
    };
    let theirs = if six { domain.text() } else { domain.text_with_origin() };
    (theirs == text).then_some(domain)
}

/// A text that was made such that 8 refuses it.
fn malformed(text: impl Into<Vec<u8>>) -> Case {
    let text = text.into();
    assert!(reading(&text).is_none(), "well formed: {}", quoted(&text));
    Case { text, output: "refused=8\n".into() }
}

/// A text that was made in some way, well formed or not.
fn either(text: Vec<u8>) -> Case {
    match reading(&text) {
        Some(domain) => Case { text, output: domain.printed() },
        None => malformed(text),
    }
}

/// The beginning of a text, for a message.
fn quoted(text: &[u8]) -> String {
    let beginning = &text[..text.len().min(300)];
    format!("'{}'{}", beginning.escape_ascii(), if beginning.len() < text.len() { ".." } else { "" })
}

impl Case {
    /// Feeds a process in pieces with a pause after each; it has to print the output, and nothing else may be amiss.
    fn check_process(&self, child: Child, pieces: &[&[u8]], pause: Duration) -> Result<(), String> {
        let wrong = |what: String| Err(format!("{} bytes {}: {what}", self.text.len(), quoted(&self.text)));
        let Some(Shown { output, errors, status }) = ended(child, pieces, pause) else {
            return wrong(format!("no end within {LIMIT:?}"));
        };
        let wanted = self.output.as_bytes();
        if output != wanted {
            let same = output.iter().zip(wanted).take_while(|(a, b)| a == b).count();
            let at = wanted[..same].iter().rposition(|&byte| byte == b'\n').map_or(0, |end| end + 1);
            return wrong(format!("printed {} for {} from byte {at} on", quoted(&output[at..]), quoted(&wanted[at..])));
        }
        if !errors.is_empty() {
            return wrong(format!("wrote {} to standard error", quoted(&errors)));
        }
        if !status.success() {
            return wrong(format!("ended with {status}"));
        }
        Ok(())
    }

    fn check_pieces(&self, program: &str, pieces: &[&[u8]], pause: Duration) -> Result<(), String> {
        self.check_process(started(&mut piped(program))?, pieces, pause)
    }

    fn check(&self, program: &str) -> Result<(), String> {
        self.check_pieces(program, &[&self.text], Duration::ZERO)
    }
}

/// How many texts were run, and what had to be printed for them.
#[derive(Default)]
struct Tally {
    texts: usize,
    cleared: usize,
    possible: usize,
    listed: usize,
    refused: BTreeMap<u32, usize>,
}

impl Tally {
    fn of(cases: &[Case]) -> Tally {
        let mut tally = Tally { texts: cases.len(), ..Tally::default() };
        for Case { output, .. } in cases {
            if let Some(number) = output.strip_prefix("refused=") {
                *tally.refused.entry(number.trim_end().parse().unwrap()).or_default() += 1;
            }
            tally.cleared += output.starts_with("first=cleared") as usize;
            tally.possible += output.starts_with("first=possible") as usize;
            tally.listed += output.matches("argument=").count();
        }
        tally
    }

    fn add(&mut self, other: &Tally) {
        self.texts += other.texts;
        self.cleared += other.cleared;
        self.possible += other.possible;
        self.listed += other.listed;
        other.refused.iter().for_each(|(&number, times)| *self.refused.entry(number).or_default() += times);
    }
}

impl fmt::Display for Tally {
    fn fmt(&self, f: &mut fmt::Formatter) -> fmt::Result {
        write!(f, "{} texts", self.texts)?;
        if self.cleared + self.possible != 0 {
            write!(f, ", {} cleared, {} possible, {} listed", self.cleared, self.possible, self.listed)?;
        }
        let refused = self.refused.iter().map(|(number, times)| format!("{times} by {number}"));
        let refused: Vec<String> = refused.collect();
        if !refused.is_empty() {
            write!(f, "; refused {}", refused.join(", "))?;
        }
        Ok(())
    }
}

/// Runs the program on each text, on two at a time.
fn all(program: &str, cases: &[Case]) -> Result<Tally, String> {
    let (front, back) = cases.split_at(cases.len() / 2);
    let each = |cases: &[Case]| cases.iter().try_for_each(|case| case.check(program));
    thread::scope(|scope| {
        let front = scope.spawn(move || each(front));
        each(back).and(front.join().unwrap())
    })?;
    Ok(Tally::of(cases))
}

/// Document 01's examples that concern domains, as 02 leaves them, some of 2.1 to 2.3, of 2.6 and of 2.7 and others: printed by hand,
/// and by the reference.
fn settled_examples() -> Vec<Case> {
    let j = "modulus=45\nvalue=44\nslope=31\ncurve=0\ncount=16\nwindow=3\n";
    let j_printed = "first=possible\nparts=22111111\nlisted=2\nargument=0 value=44\nargument=3 value=2\n";
    let p11 = "first=possible\nparts=22111111\nlisted=2\nargument=0 value=0\nargument=1 value=0\n";
    let cleared = "first=cleared\nparts=00000000\nlisted=0\n";
    let scattered =
        "first=possible\nparts=22112212\nlisted=3\nargument=3 value=1\nargument=14 value=1\nargument=23 value=1\n";
    let either_side = "first=possible\nparts=11211121\nlisted=2\nargument=2 value=9\nargument=6 value=1\n";
    let all_eight = (0..8).map(|x| format!("argument={x} value=5\n")).collect::<String>();
    let all_eight = format!("first=possible\nparts=22222222\nlisted=8\n{all_eight}");
    // The values are 3, 5, 6, 6, 5, 3, 0, -4, and then those with the other sign.
    let falling = "first=possible\nparts=21111222\nlisted=4\n\
        argument=0 value=3\nargument=5 value=3\nargument=6 value=0\nargument=7 value=41\n";
    let rising = "first=possible\nparts=21111222\nlisted=4\n\
        argument=0 value=42\nargument=5 value=42\nargument=6 value=0\nargument=7 value=4\n";
    let about_the_largest = "first=possible\nparts=22233333\nlisted=3\n\
        argument=0 value=4611686018427387903\nargument=1 value=0\nargument=2 value=1\n";
    let j_moved = "first=possible\nparts=22111111\nlisted=2\n\
        argument=4503599627370496 value=44\nargument=4503599627370499 value=2\n";
    let j_moved_by_1 = "first=possible\nparts=22111111\nlisted=2\nargument=1 value=44\nargument=4 value=2\n";
    let examples = [
        (j.into(), j_printed),
        (format!("origin=0\n{j}"), j_printed),
        (format!("origin=1\n{j}"), j_moved_by_1),
        (format!("origin=4503599627370496\n{j}"), j_moved),
        (format!("origin=4503599627370497\n{j}"), "refused=11\n"),
        (format!("origin=18446744073709551615\n{j}"), "refused=11\n"),
        (Domain { window: 1, ..MOVED_J }.text(), cleared),
        (Domain { window: 46, origin: u64::MAX, ..J }.text(), "refused=5\n"),
        (Domain { curve: 1_048_577, origin: u64::MAX, ..J }.text(), "refused=6\n"),
        (P11.text(), p11),
        (Domain { curve: -1, ..P11 }.text(), p11),
        (Domain { value: 1, ..P11 }.text(), cleared),
        (Domain { value: 17, ..P11 }.text(), "first=possible\nparts=11111111\nlisted=0\n"),
        (Domain { value: 4, slope: 16, curve: -2, count: 24, window: 2, ..J }.text(), scattered),
        (Domain { modulus: 2, value: 1, slope: 0, window: 1, ..J }.text(), cleared),
        (Domain { modulus: 10, value: 3, slope: 3, curve: 0, count: 8, window: 2, ..J }.text(), either_side),
        (Domain { modulus: 11, value: 5, slope: 0, curve: 0, count: 8, window: 5, ..J }.text(), cleared),
        (Domain { modulus: 11, value: 5, slope: 0, curve: 0, count: 8, window: 6, ..J }.text(), &all_eight),
        (Domain { count: 12, ..J }.text(), j_printed),
        (Domain { count: 3, ..J }.text(), "first=possible\nparts=21133333\nlisted=1\nargument=0 value=44\n"),
        (Domain { count: 1, ..J }.text(), "first=possible\nparts=23333333\nlisted=1\nargument=0 value=44\n"),
        (Domain { modulus: 11, value: 5, slope: 0, curve: 0, count: 3, window: 5, ..J }.text(), cleared),
        (Domain { window: 1, ..J }.text(), cleared),
        (Domain { window: 0, ..J }.text(), "refused=5\n"),
        (Domain { window: 0, count: 0, ..J }.text(), "refused=4\n"),
        (Domain { window: 0, curve: 1_048_577, ..J }.text(), "refused=5\n"),
        (Domain { window: 1, curve: 1_048_577, ..J }.text(), "refused=6\n"),
        (Domain { value: 3, slope: 2, curve: -1, count: 8, window: 5, ..J }.text(), falling),
        (Domain { value: 42, slope: 43, curve: 1, count: 8, window: 5, ..J }.text(), rising),
        (Domain { modulus: LARGEST, value: LARGEST - 1, slope: 1, count: 3, window: 2, ..J }.text(), about_the_largest),
    ];
    let both = |(text, output): (String, &str)| {
        let domain = reading(text.as_bytes()).unwrap();
        [output.into(), domain.printed()].map(|output| Case { text: text.clone().into(), output })
    };
    let too_large = malformed(format!("origin=18446744073709551616\n{j}"));
    examples.into_iter().flat_map(both).chain([too_large]).collect()
}

/// The refusal of a job, by hand.
fn refused(number: u32, domain: Domain) -> Case {
    Case { text: domain.text().into(), output: format!("refused={number}\n") }
}

fn accepted(domain: Domain) -> Case {
    assert_eq!(domain.refusal(), 0, "{domain:?}");
    job(domain)
}

/// Each number at the ends of what is accepted, beside them, and where a narrower one would wrap; document 01's examples
/// without a mark are among them, as 02 leaves them.
fn ends_of_ranges() -> Vec<Case> {
    let mut cases = Vec::new();
    cases.extend([0, 1, LARGEST + 1, 1 << 63, u64::MAX].map(|modulus| refused(1, Domain { modulus, ..J })));
    for m in [2, 3, 45, LARGEST - 1, LARGEST] {
        let least = Domain { modulus: m, value: 0, slope: 0, curve: 0, count: 8, window: 1, ..J };
        cases.extend([least, Domain { value: m - 1, slope: m - 1, window: m, ..least }].map(accepted));
    }
    cases.extend([45, 46, (1 << 32) + 31, 1 << 63, u64::MAX].map(|slope| refused(2, Domain { slope, ..J })));
    cases.extend([45, 46, (1 << 32) + 44, 1 << 63, u64::MAX].map(|value| refused(3, Domain { value, ..J })));
    cases.extend([0, 1_048_577, 1_048_584, (1 << 32) + 16, 1 << 63].map(|count| refused(4, Domain { count, ..J })));
    cases.extend((1..=40).map(|count| accepted(Domain { count, ..J })));
    cases.extend([1_048_568, 1_048_575, 1_048_576].map(|count| accepted(Domain { value: 9, slope: 0, count, window: 9, ..J })));
    cases.extend([0, 46, 90, (1 << 32) + 3, 1 << 63, u64::MAX].map(|window| refused(5, Domain { window, ..J })));
    cases.extend([1, 2, 44, 45].map(|window| accepted(Domain { window, ..J })));
    for sign in [1, -1] {
        let curve = |size: i64| Domain { curve: sign * size, ..J };
        cases.extend([1, LARGEST_CURVE - 1, LARGEST_CURVE].map(|size| accepted(curve(size))));
        cases.extend([LARGEST_CURVE + 1, (1 << 32) + 1, i64::MAX].map(|size| refused(6, curve(size))));
    }
    let top = LARGEST_ORIGIN;
    cases.extend([1, (1 << 32) - 1, 1 << 32, top - 1, top].map(|origin| accepted(Domain { origin, ..J })));
    let above = [top + 1, top + 2, top + (1 << 32), 2 * top, 1 << 63, u64::MAX];
    cases.extend(above.map(|origin| refused(11, Domain { origin, ..J })));
    cases
}

/// The largest number that is read on each line and others above what is accepted, and the longest texts.
fn largest_numbers_read() -> Vec<Case> {
    let longest = [LONGEST, LONGEST_MOVED];
    assert_eq!(longest.map(|domain| domain.text().len()), LONGEST_TEXTS);
    let signs = longest.into_iter().flat_map(|domain| [domain, Domain { curve: i64::MAX, ..domain }]);
    let mut cases: Vec<Case> = signs.map(|domain| refused(1, domain)).collect();
    for number in [u64::MAX, u64::MAX - 1, 1 << 63, (1 << 63) - 1, 10_u64.pow(19), 10_u64.pow(19) - 1] {
        cases.push(refused(1, Domain { modulus: number, ..J }));
        cases.push(refused(2, Domain { slope: number, ..J }));
        cases.push(refused(3, Domain { value: number, ..J }));
        cases.push(refused(4, Domain { count: number, ..J }));
        cases.push(refused(5, Domain { window: number, ..J }));
        let size = number.min(1 << 63) as i64 - 1;
        cases.extend([size, -size].map(|curve| refused(6, Domain { curve, ..J })));
        cases.push(refused(11, Domain { origin: number, ..J }));
    }
    cases
}

/// The powers of ten and of two below two bounds of their exponents.
fn powers(of_ten: u32, of_two: u32) -> impl Iterator<Item = u64> {
    (0..of_ten).map(|power| 10_u64.pow(power)).chain((0..of_two).map(|power| 1 << power))
}

/// Slopes about each power of ten and of two: 1 is hard, as value and slope make up the modulus. Then origins about each of them, of
/// which those above 2^52 are refused.
fn numbers_of_every_length() -> Vec<Case> {
    let mut random = Random(SEED + 2);
    let slopes = powers(19, 62).flat_map(|power| [power - 1, power]).filter(|&slope| slope != 0);
    let make = |slope| {
        let most = (1 << random.below(62)).min(LARGEST - slope);
        let value = 1 + random.below(most);
        job(Domain { modulus: value + slope, value, slope, curve: 0, count: 8, window: 1, ..J })
    };
    let origins = powers(20, 64).flat_map(|power| [power - 1, power]);
    slopes.map(make).chain(origins.map(|origin| job_with_origin(Domain { origin, ..J }))).collect()
}

/// A job to which just the conditions of a set apply, each a bit; there are two for each set.
fn of_conditions(set: u32, large: bool) -> Domain {
    let applies = |number: u32| (set >> number & 1) as u64;
    let moduli = if large { [LARGEST, LARGEST + 1] } else { [2, 1] };
    let modulus = moduli[applies(1) as usize];
    let size = LARGEST_CURVE + applies(6) as i64;
    Domain {
        origin: applies(11) * if large { u64::MAX } else { LARGEST_ORIGIN + 1 },
        modulus,
        slope: modulus - 1 + applies(2),
        value: modulus - 1 + applies(3),
        count: match (applies(4), applies(7)) {
            (0, 0) => 8,
            (0, _) => 8 + PLACES as u64,
            (_, 0) => 0,
            (_, _) => MOST + 1,
        },
        // With a window of 0 nothing is hard, so that 7 cannot apply beside it.
        window: match (applies(5), applies(7)) {
            (0, 0) => 1,
            (0, _) => modulus,
            (_, 0) if !large => 0,
            (_, _) => modulus + 1,
        },
        curve: if large { size } else { -size },
    }
}

/// Every set of the conditions 1 to 7 and 11 in conflict with each other.
fn sets_of_conditions() -> Vec<Domain> {
    let numbers = [1, 2, 3, 4, 5, 6, 7, 11];
    let set_of = |chosen: u32| (0..8).map(|i| (chosen >> i & 1) << numbers[i]).sum::<u32>();
    let sets = (0..1 << 8).map(set_of);
    let domains = sets.flat_map(|set| [false, true].map(|large| (set, of_conditions(set, large))));
    let just = |(set, domain): (u32, Domain)| {
        let seventh = (0..domain.count).filter(|&x| domain.is_hard(x)).nth(PLACES).is_some();
        let applying = domain.conflicts().into_iter().chain([(7, seventh)]).filter(|(_, applies)| *applies);
        assert_eq!(applying.map(|(number, _)| 1 << number).sum::<u32>(), set, "{domain:?}");
        domain
    };
    domains.map(just).collect()
}

/// The lowest number wins, but 11 comes before 7. An origin that is accepted changes no refusal.
fn every_set_of_refusals() -> Vec<Case> {
    let domains = sets_of_conditions();
    let moved = domains.iter().filter(|domain| domain.origin == 0);
    let moved: Vec<Domain> = moved.map(|&domain| Domain { origin: LARGEST_ORIGIN, ..domain }).collect();
    domains.into_iter().chain(moved).map(job).collect()
}

/// 8 comes before all of them.
fn malformed_and_refused() -> Vec<Case> {
    let spoil = |(i, domain): (usize, &Domain)| {
        let text = domain.text();
        let ends = [text.trim_end().into(), text.clone() + "\n", text.clone() + "\0", text.replace('\n', "\r\n")];
        let numbers = if domain.origin == 0 {
            ["modulus=0", "window=+", "curve=00", "count= ", "slope=-"]
        } else {
            ["origin=0", "origin=+", "origin=-", "origin= ", "origin=\n"]
        };
        let name = numbers[i % 5].split_inclusive('=').next().unwrap();
        [malformed(ends[i % 4].clone()), malformed(text.replace(name, numbers[i % 5]))]
    };
    sets_of_conditions().iter().enumerate().flat_map(spoil).collect()
}

/// The domain with the window at which so many arguments are hard, if there is one.
fn with_hard(number: usize, domain: Domain) -> Option<Domain> {
    let mut distances: Vec<u64> = (0..domain.count).map(|x| domain.distance(x)).collect();
    distances.sort();
    let domain = Domain { window: distances[number - 1] + 1, ..domain };
    (domain.hard().len() == number).then_some(domain)
}

/// The case, which has to list so many arguments.
fn listing(number: usize, case: Case) -> Case {
    assert!(case.output.contains(&format!("\nlisted={number}\n")), "{}", quoted(&case.text));
    case
}

/// The longest lists with an origin, of as many arguments as there are places, whose output has so many bytes. Then lists with fewer
/// arguments, and with one or more too many.
fn longest_lists(origin: u64, output: usize) -> Vec<Case> {
    let list = Domain { origin, ..LONGEST_LIST };
    let curved = Domain { origin, ..LONGEST_CURVED_LIST };
    let mut cases: Vec<Case> = [list, curved].map(|domain| listing(PLACES, job(domain))).into();
    assert!(cases.iter().all(|case| case.output.len() == output));
    cases.push(listing(PLACES - 1, job(Domain { window: list.window - 1, ..list })));
    cases.push(refused(7, Domain { window: list.window + 1, ..list }));
    // One argument fewer at either end, and one more.
    cases.push(listing(PLACES - 2, job(Domain { window: 1 + 2047 * 2048, ..curved })));
    cases.push(refused(7, Domain { window: 2 + 2048 * 2049, ..curved }));
    for modulus in [2, 45, LARGEST] {
        let all = Domain { origin, modulus, window: modulus, ..P11 };
        cases.extend([4088, 4095, 4096].map(|count| job(Domain { count, ..all })));
        cases.extend([4097, 4104, MOST].map(|count| refused(7, Domain { count, ..all })));
    }
    cases
}

/// Lists of as many arguments as there are places, of one fewer and one more.
fn full_lists() -> Vec<Case> {
    let mut cases = longest_lists(0, LONGEST_OUTPUTS[0]);
    cases.extend(longest_lists(LARGEST_ORIGIN, LONGEST_OUTPUTS[1]));
    // 11 comes before 7.
    let far = Domain { origin: LARGEST_ORIGIN + 1, ..LONGEST_LIST };
    cases.extend([0, 1].map(|more| refused(11, Domain { window: far.window + more, ..far })));
    let earlier = 2 * MOST - 4095 - 2 * 1_000_000;
    cases.extend([4097, earlier].map(|value| listing(PLACES, job(Domain { value, ..ODD_VALUES }))));
    // Of even values an odd number is hard.
    let even = Domain { value: 4096, ..ODD_VALUES };
    cases.push(listing(PLACES - 1, job(even)));
    cases.extend([4097, 5000, MOST].map(|window| refused(7, Domain { window, ..even })));
    let mut random = Random(SEED + 3);
    for count in [4104, 5000, 8191, 8192, 10_001, 1 << 15, 1 << 15, 1 << 16, 1 << 16, MOST] {
        let modulus = LARGEST >> random.below(20);
        let domain = somewhere(&mut random, modulus, count);
        let about = [PLACES - 1, PLACES, PLACES + 1].into_iter().filter_map(|number| with_hard(number, domain));
        cases.extend(about.map(job));
    }
    cases
}

/// Arguments and counts of the list about each power of ten; values, and arguments with an origin, about each power of ten and of two.
fn printed_numbers_of_every_length() -> Vec<Case> {
    let mut cases = Vec::new();
    for power in (0..7).map(|power| 10_u64.pow(power)) {
        // Hard at the power and just before it.
        let (value, count) = ((2 * MOST + 1 - 2 * power) % (2 * MOST), power + 1);
        cases.push(job(Domain { value, count, window: 2, ..ODD_VALUES }));
        // An even window makes as many odd values hard, and an odd one as many even values; a window of 1 no odd value.
        let listed = [power - 1, power, power + 1].into_iter().filter(|&listed| listed <= PLACES as u64);
        cases.extend(listed.map(|listed| {
            let value = 17 + listed % 2;
            let domain = Domain { modulus: 8192, value, slope: 2, curve: 0, count: 4096, window: listed.max(1), ..J };
            assert_eq!(domain.hard().len() as u64, listed);
            job(domain)
        }));
    }
    // All arguments are hard, and their values are the power and the numbers before and after it.
    cases.extend(powers(19, 62).map(|power| {
        let all = Domain { modulus: LARGEST, value: power - 1, slope: 1, curve: 0, count: 3, window: LARGEST, ..J };
        listing(3, job(all))
    }));
    // The arguments are these three numbers, up to 2^52 + 1.
    let all = Domain { count: 3, window: J.modulus, ..J };
    cases.extend(powers(16, 53).map(|power| listing(3, job_with_origin(Domain { origin: power - 1, ..all }))));
    cases
}

/// So many random domains, made of their own seed.
fn random_jobs(own: u64, times: usize, make: impl Fn(&mut Random) -> Domain) -> Vec<Case> {
    let mut random = Random(SEED + own);
    (0..times).map(|_| job(make(&mut random))).collect()
}

fn random_small_moduli() -> Vec<Case> {
    random_jobs(4, 700, |random| {
        let (modulus, count) = (2 + random.below(4096), random_count(random, 256));
        somewhere(random, modulus, count)
    })
}

fn random_moduli_of_every_size() -> Vec<Case> {
    random_jobs(5, 500, |random| {
        let (modulus, count) = (1 + random.sized(LARGEST - 1), random_count(random, 512));
        somewhere(random, modulus, count)
    })
}

fn random_large_moduli() -> Vec<Case> {
    random_jobs(6, 300, |random| {
        let (modulus, count) = (LARGEST - random.below(LARGEST / 2 + 1), random_count(random, 1024));
        somewhere(random, modulus, count)
    })
}

/// From mostly cleared to some hard ones.
fn realistic_jobs() -> Vec<Case> {
    random_jobs(7, 24, |random| {
        let modulus = (1 << 60) - random.below(1 << 59);
        let (most, size) = (modulus >> one_of(random, &[29, 18, 14, 11]), random.below(40));
        let (curve, window) = (signed(random, size), 1 + random.below(most));
        Domain { curve, window, ..somewhere(random, modulus, 1 << 15) }
    })
}

fn largest_count() -> Vec<Case> {
    random_jobs(8, 6, |random| {
        let (most, size) = (LARGEST >> one_of(random, &[14, 20, 24]), random.below(4));
        let (curve, window) = (signed(random, size), 1 + random.below(most));
        let count = MOST - random.below(9);
        Domain { curve, window, ..somewhere(random, LARGEST - 57, count) }
    })
}

fn random_origins() -> Vec<Case> {
    random_jobs(9, 500, |random| {
        let most = one_of(random, &[4096, LARGEST - 1]);
        let (modulus, count) = (1 + random.sized(most), random_count(random, 256));
        Domain { origin: origin(random), ..somewhere(random, modulus, count) }
    })
}

/// Jobs on six lines, and what they print, with the line origin=0 before them: the output stays the same.
fn origin_0_written() -> Vec<Case> {
    let random = random_small_moduli().into_iter().take(100).chain(random_large_moduli().into_iter().take(50));
    let six = settled_examples().into_iter().filter(|case| case.text.starts_with(b"modulus=")).chain(random);
    six.map(|case| Case { text: [b"origin=0\n", &case.text[..]].concat(), ..case }).collect()
}

/// Texts whose bytes arrive one by one.
fn byte_by_byte(program: &str) -> Result<Tally, String> {
    let mut cases: Vec<Case> = [J, P11, LONGEST, MOVED_J, LONGEST_MOVED].map(job).into();
    cases.extend([J.text().trim_end(), &(J.text() + "\n"), &(LONGEST.text() + "\n")].map(malformed));
    cases.extend([MOVED_J.text().trim_end(), &(LONGEST_MOVED.text() + "\n")].map(malformed));
    for case in &cases {
        case.check_pieces(program, &case.text.chunks(1).collect::<Vec<_>>(), Duration::from_millis(1))?;
    }
    Ok(Tally::of(&cases))
}

/// J's text in two pieces, cut at every place, and that with an origin.
fn two_pieces(program: &str) -> Result<Tally, String> {
    let mut cases = Vec::new();
    for domain in [J, MOVED_J] {
        for at in 1..domain.text().len() {
            let case = job(domain);
            case.check_pieces(program, &[&case.text[..at], &case.text[at..]], Duration::from_millis(2))?;
            cases.push(case);
        }
    }
    Ok(Tally::of(&cases))
}

/// A pause before the text, and after it, where then the input ends or goes on.
fn late_ends(program: &str) -> Result<Tally, String> {
    let texts = [J, LONGEST, MOVED_J, LONGEST_MOVED].map(|domain| domain.text().into_bytes());
    let more: [&[u8]; 5] = [b"", b"\n", b"\0", b"7", &texts[0]];
    let mut cases = Vec::new();
    for (text, more) in texts.iter().flat_map(|text| more.map(|more| (text, more))) {
        let case = either([&text[..], more].concat());
        case.check_pieces(program, &[b"", text, more], Duration::from_millis(50))?;
        cases.push(case);
    }
    Ok(Tally::of(&cases))
}

/// A write that fails is not reported: the program ends as ever where the output is full or closed, and
/// where nobody reads it, whether or not the signal for that is ignored when it starts: Rattle's runtime
/// ignores it.
fn unwritable_output(program: &str) -> Result<Tally, String> {
    let moved_list = Domain { origin: LARGEST_ORIGIN, ..LONGEST_LIST };
    let texts = [J.text(), LONGEST_LIST.text(), moved_list.text(), LONGEST.text(), String::new()];
    let firsts = ["trap '' PIPE", "exec >/dev/full", "exec >&-"];
    for text in &texts {
        let after = firsts.map(|first| piped_after(first, program));
        for mut command in iter::once(piped(program)).chain(after) {
            let mut child = started(&mut command)?;
            let wrong = |what: String| format!("{command:?} on {text:?}: {what}");
            drop(child.stdout.take());
            let shown = ended(child, &[text.as_bytes()], Duration::ZERO);
            let Shown { errors, status, .. } = shown.ok_or_else(|| wrong(format!("no end within {LIMIT:?}")))?;
            if !status.success() || !errors.is_empty() {
                return Err(wrong(format!("ended with {status} and {}", quoted(&errors))));
            }
        }
    }
    Ok(Tally { texts: texts.len() * (1 + firsts.len()), ..Tally::default() })
}

/// A read that fails counts as the end of the input: of a folder, and of a closed input, the text is empty.
fn unreadable_input(program: &str) -> Result<Tally, String> {
    let folder = File::open(".").map_err(|why| why.to_string())?;
    let cases = [(); 2].map(|_| malformed(""));
    for (case, command) in cases.iter().zip([piped(program).stdin(folder), &mut piped_after("exec <&-", program)]) {
        let checked = case.check_process(started(command)?, &[], Duration::ZERO);
        checked.map_err(|why| format!("{command:?}: {why}"))?;
    }
    Ok(Tally::of(&cases))
}

/// A file of the examples as the program's input: it has to be well formed, and the output the reference's.
fn example(program: &str, file: &Path) -> Result<Case, String> {
    let text = fs::read(file).map_err(|why| why.to_string())?;
    let output = reading(&text).ok_or("malformed")?.printed();
    let case = Case { text, output };
    let input = File::open(file).map_err(|why| why.to_string())?;
    case.check_process(started(piped(program).stdin(input))?, &[], Duration::ZERO)?;
    Ok(case)
}

fn examples(program: &str) -> Result<Tally, String> {
    let folder = read_dir("examples").map_err(|why| format!("examples: {why}"))?;
    let files = folder.filter_map(|entry| Some(entry.ok()?.path()));
    let mut files: Vec<PathBuf> = files.filter(|file| file.extension().is_some_and(|end| end == "job")).collect();
    files.sort();
    let named = |file: &PathBuf| example(program, file).map_err(|why| format!("{}: {why}", file.display()));
    let cases = files.iter().map(named).collect::<Result<Vec<Case>, String>>()?;
    if cases.is_empty() {
        return Err("no examples/*.job".into());
    }
    Ok(Tally::of(&cases))
}

const MALFORMED: [(&str, fn() -> Vec<Vec<u8>>); 10] = [
    ("wrong lines", texts::wrong_lines),
    ("wrong lines of the origin", texts::wrong_origins),
    ("wrong names", texts::wrong_names),
    ("wrong numbers", texts::wrong_numbers),
    ("too large numbers", texts::too_large_numbers),
    ("wrong ends", texts::wrong_ends),
    ("no job", texts::no_job),
    ("more after the text", texts::more_after_the_text),
    ("texts of a megabyte", texts::texts_of_a_megabyte),
    ("beginnings and ends", texts::beginnings_and_ends),
];

const CHANGED: [(&str, fn() -> Vec<Vec<u8>>); 3] = [
    ("bytes missing or more", texts::bytes_missing_or_more),
    ("other bytes", texts::other_bytes),
    ("changed texts", texts::changed_texts),
];

const JOBS: [(&str, fn() -> Vec<Case>); 15] = [
    ("settled examples", settled_examples),
    ("ends of ranges", ends_of_ranges),
    ("largest numbers read", largest_numbers_read),
    ("numbers of every length", numbers_of_every_length),
    ("every set of refusals", every_set_of_refusals),
    ("malformed and refused", malformed_and_refused),
    ("full lists", full_lists),
    ("printed numbers of every length", printed_numbers_of_every_length),
    ("random small moduli", random_small_moduli),
    ("random moduli of every size", random_moduli_of_every_size),
    ("random moduli from 2^61 to 2^62", random_large_moduli),
    ("count 2^15, moduli about 2^60", realistic_jobs),
    ("counts up to 2^20", largest_count),
    ("random origins", random_origins),
    ("origin 0 written and not", origin_0_written),
];

const PROCESSES: [(&str, fn(&str) -> Result<Tally, String>); 6] = [
    ("byte by byte", byte_by_byte),
    ("two pieces", two_pieces),
    ("late ends", late_ends),
    ("output that cannot be written", unwritable_output),
    ("input that cannot be read", unreadable_input),
    ("examples", examples),
];

/// The tests run, and the texts of them all.
struct Tests {
    program: String,
    run: Run,
    sum: Tally,
    different: HashSet<Vec<u8>>,
}

impl Tests {
    fn count(&mut self, name: &str, result: Result<Tally, String>) {
        self.sum.add(result.as_ref().unwrap_or(&Tally::default()));
        self.run.count(name, result);
    }

    fn texts(&mut self, name: &str, cases: Vec<Case>) {
        let result = all(&self.program, &cases);
        self.count(name, result);
        self.different.extend(cases.into_iter().map(|case| case.text));
    }

    fn end(mut self) -> ! {
        let (sum, different) = (self.sum, self.different.len());
        let few_refused = REFUSALS.iter().any(|number| sum.refused.get(number).is_none_or(|&times| times < 10));
        let enough = different >= 5_000 && sum.cleared >= 300 && sum.possible >= 1_000 && !few_refused;
        let sum = format!("{sum}; {different} different");
        self.run.count("as many texts as meant", if enough { Ok(sum) } else { Err(format!("only {sum}")) });
        self.run.end()
    }
}

fn main() {
    let program = env::args().nth(1).expect("the path of the job program as the first argument");
    let (run, sum, different) = (Run::start(), Tally::default(), HashSet::new());
    let mut tests = Tests { program, run, sum, different };
    for (name, make) in JOBS {
        tests.texts(name, make());
    }
    for (name, make) in MALFORMED {
        tests.texts(name, make().into_iter().map(malformed).collect());
    }
    for (name, make) in CHANGED {
        tests.texts(name, make().into_iter().map(either).collect());
    }
    for (name, test) in PROCESSES {
        let result = test(&tests.program);
        tests.count(name, result);
    }
    tests.end()
}
