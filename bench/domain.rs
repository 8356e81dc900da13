//! Searches of domains and scans: the proved calls against unverified Rust. First domains with a modulus from 2^61 to 2^62: those
//! that phase 1 clears, also beside the proved regular search of their covering segments alone, and domains as they come, at random and
//! of the exponential function. Then one
//! pass of a scan, for each argument, against loops that only count, and scans that list every argument and its value. Last, ranges of
//! lists.
//!
//! For comparison: slides 004 imply 248 ns a domain (34,040 s for 2^37 domains on one core of 2010).

#[path = "../tests/c_api.rs"]
mod c_api;
mod common;
mod exponential;
#[allow(dead_code)]
mod same;
#[allow(dead_code)]
mod tuned;

use c_api::{Marks, Searched};
use common::{measure, Segment};
use std::hint::black_box;
use std::time::Instant;

/// Too many for a branch predictor to learn the way of each, and not too many for the cache.
const DOMAINS: usize = 32_768;

/// The places that the job program has.
const PLACES: usize = 4096;

/// The most arguments, and as many places.
const MOST: usize = 1 << 20;

/// Where every domain begins, the largest origin.
const ORIGIN: u64 = 1 << 52;

#[derive(Clone, Copy)]
struct Domain {
    origin: u64,
    modulus: u64,
    value: u64,
    slope: u64,
    curve: i64,
    count: u64,
    window: u64,
}

impl Domain {
    #[inline(always)]
    fn deviation(&self) -> u64 {
        self.curve.unsigned_abs() * (self.count * (self.count - 1) / 2)
    }

    /// The covering segment of both sides.
    #[inline(always)]
    fn covering(&self) -> Segment {
        let (deviation, raise) = (self.deviation(), self.window - 1);
        let value = add_and_correct(self.value, raise, self.modulus);
        Segment {
            modulus: self.modulus,
            step: if self.slope == 0 { 0 } else { self.modulus - self.slope },
            start: self.start(value, deviation * (self.curve >= 0) as u64),
            count: self.count,
            window: self.modulus.min(self.window + raise + deviation),
        }
    }

    /// Most deviations are below the modulus, and then there is nothing to divide.
    #[inline(always)]
    fn start(&self, value: u64, deviation: u64) -> u64 {
        if deviation < self.modulus {
            add_and_correct(value, deviation, self.modulus)
        } else {
            (value + deviation) % self.modulus
        }
    }

    /// Where the eight parts begin, and how many arguments each has.
    fn parts(&self) -> impl Iterator<Item = (u64, u64)> {
        let (eighth, rest) = (self.count / 8, self.count % 8);
        (0..8).map(move |i| (i * eighth + i.min(rest), eighth + (i < rest) as u64))
    }

    /// The part with so many arguments that begins at h.
    fn part(&self, h: u64, count: u64) -> Domain {
        let reduced = |number: i128| number.rem_euclid(self.modulus as i128) as u64;
        let (value, slope, curve, x) = (self.value as i128, self.slope as i128, self.curve as i128, h as i128);
        Domain {
            origin: self.origin + h,
            value: reduced(value + slope * x + curve * (x * (x - 1) / 2)),
            slope: reduced(slope + curve * x),
            count,
            ..*self
        }
    }

    /// Shows the hard arguments and their values one by one.
    #[inline(always)]
    fn scan(&self, mut hard: impl FnMut(u64, u64)) {
        let (mut value, mut slope) = (self.value, self.slope);
        let curve = self.curve.rem_euclid(self.modulus as i64) as u64;
        for x in 0..self.count {
            if value < self.window || self.modulus - value < self.window {
                hard(x, value);
            }
            value = add_and_correct(value, slope, self.modulus);
            slope = add_and_correct(slope, curve, self.modulus);
        }
    }
}

/// The sum modulo the modulus.
#[inline(always)]
fn add_and_correct(a: u64, b: u64, modulus: u64) -> u64 {
    let sum = a + b;
    if sum >= modulus {
        sum - modulus
    } else {
        sum
    }
}

/// The same, comparing first, so that the comparison doesn't wait for the sum.
#[inline(always)]
fn compare_and_add(a: u64, b: u64, modulus: u64) -> u64 {
    let left = modulus - b;
    if a < left {
        a + b
    } else {
        a - left
    }
}

/// The search of a domain as documents 01 and 02 have it, plainly and unverified. Phase 1 looks for the distance alone, as the proved code
/// does.
#[inline(never)]
fn search(domain: &Domain, list: &mut [u64], values: &mut [u64], marks: &mut Marks, searched: &mut Searched) -> u32 {
    let Domain { origin, modulus, value, slope, curve, count, window } = *domain;
    let refusal = tuned::refusal(modulus, slope, value, count, window);
    if refusal != 0 {
        return refusal;
    }
    if curve < -(1 << 20) || curve > 1 << 20 {
        return 6;
    }
    if origin > ORIGIN {
        return 11;
    }
    let covering = domain.covering();
    if covering.window <= same::regular_distance(modulus, covering.step, covering.start, count) {
        *marks = [0; 8];
        *searched = [1, 0];
        return 0;
    }
    search_parts(domain, list, values, marks, searched)
}

/// Phases 2 and 3.
#[inline(never)]
fn search_parts(
    domain: &Domain,
    list: &mut [u64],
    values: &mut [u64],
    marks: &mut Marks,
    searched: &mut Searched,
) -> u32 {
    let (mut found, mut hard) = ([1; 8], 0);
    for ((h, count), mark) in domain.parts().zip(&mut found) {
        if count == 0 {
            *mark = 3;
            continue;
        }
        let part = domain.part(h, count);
        let (covering, mut shown) = (part.covering(), [0; 6]);
        same::fine(part.modulus, covering.step, covering.start, count, covering.window, &mut shown);
        if shown[5] == 0 {
            *mark = 2;
            part.scan(|_, _| hard += 1);
        }
    }
    if hard > list.len().min(values.len()) {
        return 7;
    }
    if hard > 0 {
        let mut places = list.iter_mut().zip(values);
        for ((h, count), _) in domain.parts().zip(&found).filter(|(_, &mark)| mark == 2) {
            let part = domain.part(h, count);
            part.scan(|x, v| {
                let (argument, value) = places.next().unwrap();
                (*argument, *value) = (part.origin + x, v);
            });
        }
    }
    *marks = found;
    *searched = [0, hard as u64];
    0
}

/// The memory that the calls are lent.
struct Memory {
    list: Vec<u64>,
    values: Vec<u64>,
    marks: Marks,
    searched: Searched,
    shown: [u64; 5],
    listed: u64,
}

impl Memory {
    fn new(places: usize) -> Self {
        let (list, values) = (vec![0; places], vec![0; places]);
        Memory { list, values, marks: [0; 8], searched: [0; 2], shown: [0; 5], listed: 0 }
    }
}

fn proved(domain: &Domain, to: &mut Memory) -> u32 {
    let Domain { origin, modulus, value, slope, curve, count, window } = *domain;
    let (list, values) = (&mut to.list, &mut to.values);
    c_api::search_domain(origin, modulus, value, slope, curve, count, window, list, values, &mut to.marks, &mut to.searched)
}

fn proved_regular(segment: &Segment, to: &mut Memory) -> u32 {
    let Segment { modulus, step, start, count, window } = *segment;
    c_api::regular_search(modulus, step, start, count, window, &mut to.shown)
}

fn proved_scan(segment: &Segment, to: &mut Memory) -> u32 {
    let Segment { modulus, step, start, count, window } = *segment;
    c_api::scan_segment(modulus, step, start, count, window, &mut to.list, &mut to.values, &mut to.listed)
}

fn unverified(domain: &Domain, to: &mut Memory) -> u32 {
    search(domain, &mut to.list, &mut to.values, &mut to.marks, &mut to.searched)
}

/// Nanoseconds for each of the inputs.
fn nanoseconds<I, A>(inputs: &[I], memory: &mut Memory, call: impl Fn(&I, &mut Memory) -> A) -> f64 {
    let start = Instant::now();
    for input in inputs {
        black_box(call(input, memory));
        black_box(&*memory);
    }
    start.elapsed().as_secs_f64() * 1e9 / inputs.len() as f64
}

/// What a search answers to a domain.
fn answer(search: fn(&Domain, &mut Memory) -> u32, domain: &Domain) -> (u32, Searched, Marks, Vec<u64>, Vec<u64>) {
    let mut memory = Memory::new(PLACES);
    (search(domain, &mut memory), memory.searched, memory.marks, memory.list, memory.values)
}

fn is_cleared(domain: &Domain) -> bool {
    answer(proved, domain).1[0] == 1
}

/// Domains of the given count, about 2^15, with small curves of either sign, and windows such that phase 1 leaves about one of a
/// thousand not clear.
fn domains(number: usize, count: u64) -> Vec<Domain> {
    let small = |random: u64| (random % 17) as i64 - 8;
    common::lines(number)
        .iter()
        .map(|&[modulus, slope, value]| {
            let domain = Domain { origin: ORIGIN, modulus, value, slope, curve: small(value), count, window: 0 };
            Domain { window: ((modulus >> 28) - domain.deviation()) / 2, ..domain }
        })
        .collect()
}

/// Domains that phase 1 clears: beside one proved regular search of each covering segment, and beside unverified Rust.
fn cleared_domains(domains: &[Domain]) {
    let (coverings, mut memory) = (domains.iter().map(Domain::covering).collect::<Vec<_>>(), Memory::new(PLACES));
    let names = ["cleared domain N=2^15, beside one proved regular search", "cleared domain N=2^15"];
    measure(names, 1, || {
        let proved = nanoseconds(domains, &mut memory, proved);
        let regular = nanoseconds(&coverings, &mut memory, proved_regular);
        (proved, [regular, nanoseconds(domains, &mut memory, unverified)])
    });
}

/// Domains as they come, some of which go to phase 2.
fn mixed_domains(name: &str, domains: &[Domain]) {
    let mut memory = Memory::new(PLACES);
    let possible = domains.iter().filter(|domain| !is_cleared(domain)).count();
    let name = format!("domains N={name}, {possible} of {} to phase 2", domains.len());
    measure([&name], 1, || {
        let proved = nanoseconds(domains, &mut memory, proved);
        (proved, [nanoseconds(domains, &mut memory, unverified)])
    });
}

/// Domains of the exponential function, asked for what is within 2^-32 half ulps of a breakpoint.
fn exponentials(number: u64) -> Vec<Domain> {
    let (modulus, count) = (1 << 62, 1 << 15);
    // The rounding of the curve moves values by up to 2^29.
    let window = (modulus >> 32) + (1 << 29);
    exponential::domains(number)
        .into_iter()
        .map(|(origin, value, slope, curve)| Domain { origin, modulus, value, slope, curve, count, window })
        .collect()
}

/// Counts the hard arguments of a segment by a loop over them all.
#[inline(never)]
fn count_segment(segment: &Segment, add: impl Fn(u64, u64, u64) -> u64) -> u64 {
    let Segment { modulus, step, start, count, window } = *segment;
    let (mut value, mut hard) = (start, 0);
    let slope = if step == 0 { 0 } else { modulus - step };
    for _ in 0..count {
        hard += (value < window) as u64;
        value = add(value, slope, modulus);
    }
    hard
}

/// Counts the arguments of a domain at whose values a test holds, by a loop over them all.
#[inline(always)]
fn count_domain(domain: &Domain, add: impl Fn(u64, u64, u64) -> u64, holds: impl Fn(u64) -> bool) -> u64 {
    let Domain { modulus, value, slope, curve, count, .. } = *domain;
    let (mut value, mut slope, mut hard) = (value, slope, 0);
    let curve = curve.rem_euclid(modulus as i64) as u64;
    for _ in 0..count {
        hard += holds(value) as u64;
        value = add(value, slope, modulus);
        slope = add(slope, curve, modulus);
    }
    hard
}

/// The hard arguments of a domain, by a test of each side.
#[inline(never)]
fn count_either_side(domain: &Domain, add: impl Fn(u64, u64, u64) -> u64) -> u64 {
    let Domain { modulus, window, .. } = *domain;
    count_domain(domain, add, |value| value < window || modulus - value < window)
}

/// The same by one test of values that are raised by w - 1.
#[inline(never)]
fn count_raised(domain: &Domain, add: impl Fn(u64, u64, u64) -> u64) -> u64 {
    let raise = domain.window - 1;
    let highest = (domain.modulus - 1).min(raise + raise);
    let raised = Domain { value: add_and_correct(domain.value, raise, domain.modulus), ..*domain };
    count_domain(&raised, add, |value| value <= highest)
}

/// Scans of segments of which no argument is hard, so that none is listed: one pass.
fn scans() {
    let mut memory = Memory::new(PLACES);
    let segments: Vec<Segment> = common::lines(4)
        .iter()
        .map(|&[modulus, step, start]| Segment { modulus, step, start, count: 1 << 20, window: 1 })
        .collect();
    for segment in &segments {
        assert_eq!((proved_scan(segment, &mut memory), memory.listed), (0, 0));
    }
    let name = "scan pass, per argument N=2^20";
    measure([name, &format!("{name}, comparing first")], 1 << 20, || {
        let proved = nanoseconds(&segments, &mut memory, proved_scan);
        let plain = nanoseconds(&segments, &mut memory, |segment, _| count_segment(segment, add_and_correct));
        let comparing_first = nanoseconds(&segments, &mut memory, |segment, _| count_segment(segment, compare_and_add));
        (proved, [plain, comparing_first])
    });
}

/// Domains with curves so large that the window of every covering segment is the modulus, and no argument hard.
fn curved() -> Vec<Domain> {
    common::lines(4)
        .iter()
        .zip([1 << 20, -(1 << 20)].iter().cycle())
        .map(|(&[modulus, slope, value], &curve)| {
            let modulus = modulus >> 10;
            let (value, slope) = (value % modulus, slope % modulus);
            Domain { origin: ORIGIN, modulus, value, slope, curve, count: 1 << 20, window: 1 }
        })
        .collect()
}

/// All eight parts of a domain scanned, with no argument hard.
fn domain_scans() {
    let (mut memory, domains) = (Memory::new(PLACES), curved());
    for domain in &domains {
        assert_eq!((proved(domain, &mut memory), memory.searched, memory.marks), (0, [0, 0], [2; 8]));
    }
    let name = "all parts scanned, per argument N=2^20";
    let names = [name, &format!("{name}, raised"), &format!("{name}, comparing first")];
    measure(names, 1 << 20, || {
        let proved = nanoseconds(&domains, &mut memory, proved);
        let plain = nanoseconds(&domains, &mut memory, |domain, _| count_either_side(domain, add_and_correct));
        let raised = nanoseconds(&domains, &mut memory, |domain, _| count_raised(domain, add_and_correct));
        let comparing_first = nanoseconds(&domains, &mut memory, |domain, _| count_either_side(domain, compare_and_add));
        (proved, [plain, raised, comparing_first])
    });
}

/// Writes the hard arguments of a segment and their residues by a loop over them all; it does not test whether there is room.
#[inline(never)]
fn list_segment(segment: &Segment, to: &mut Memory, add: impl Fn(u64, u64, u64) -> u64) -> u32 {
    let Segment { modulus, step, start, count, window } = *segment;
    let slope = if step == 0 { 0 } else { modulus - step };
    let (mut residue, mut at) = (start, 0);
    for x in 0..count {
        if residue < window {
            // Safe: the callers have a place for every argument.
            unsafe { (*to.list.get_unchecked_mut(at), *to.values.get_unchecked_mut(at)) = (x, residue) };
            at += 1;
        }
        residue = add(residue, slope, modulus);
    }
    to.listed = at as u64;
    0
}

/// The same, with the hard arguments counted before anything is written.
fn count_and_list_segment(segment: &Segment, to: &mut Memory) -> u32 {
    let hard = count_segment(segment, compare_and_add);
    if (to.list.len().min(to.values.len()) as u64) < hard {
        return 7;
    }
    list_segment(segment, to, compare_and_add)
}

/// Scans of segments of which every argument is hard, so that all are listed. With the modulus for the window the proved scan knows
/// that and does not count; with one less it counts first, and no residue is the modulus less 1.
fn full_scans(name: &str, count: u64, less: u64) {
    let mut memory = Memory::new(count as usize);
    let segments: Vec<Segment> = common::lines(4 * MOST / count as usize)
        .iter()
        .map(|&[modulus, step, start]| Segment { modulus, step, start, count, window: modulus - less })
        .collect();
    let plain = |segment: &Segment, to: &mut Memory| list_segment(segment, to, add_and_correct);
    let comparing_first = |segment: &Segment, to: &mut Memory| list_segment(segment, to, compare_and_add);
    let mut other = Memory::new(count as usize);
    for segment in &segments {
        assert_eq!((proved_scan(segment, &mut memory), plain(segment, &mut other)), (0, 0));
        assert_eq!((memory.listed, &memory.list, &memory.values), (count, &other.list, &other.values));
    }
    let name = format!("scan that lists all, per argument {name}");
    let names = [&name, &format!("{name}, comparing first"), &format!("{name}, counted before")];
    measure(names.map(|name| name.as_str()), count, || {
        let proved = nanoseconds(&segments, &mut memory, proved_scan);
        let plain = nanoseconds(&segments, &mut memory, plain);
        let comparing_first = nanoseconds(&segments, &mut memory, comparing_first);
        (proved, [plain, comparing_first, nanoseconds(&segments, &mut memory, count_and_list_segment)])
    });
}

/// Writes the hard arguments of a domain and their values by a loop over them all.
#[inline(never)]
fn list_domain(domain: &Domain, to: &mut Memory) -> u32 {
    let mut at = 0;
    domain.scan(|x, value| {
        // Safe: the callers have a place for every argument.
        unsafe { (*to.list.get_unchecked_mut(at), *to.values.get_unchecked_mut(at)) = (domain.origin + x, value) };
        at += 1;
    });
    to.searched = [0, at as u64];
    0
}

/// Domains of which every argument is hard, with curves so large that no part is cleared.
fn full_domains() {
    let mut memory = Memory::new(MOST);
    let domains: Vec<Domain> = curved().into_iter().map(|domain| Domain { window: domain.modulus, ..domain }).collect();
    let mut other = Memory::new(MOST);
    for domain in &domains {
        assert_eq!((proved(domain, &mut memory), list_domain(domain, &mut other)), (0, 0));
        assert_eq!((memory.searched, &memory.list, &memory.values), (other.searched, &other.list, &other.values));
    }
    measure(["domain that lists all, per argument N=2^20"], MOST as u64, || {
        let proved = nanoseconds(&domains, &mut memory, proved);
        (proved, [nanoseconds(&domains, &mut memory, list_domain)])
    });
}

/// Whether a list ascends strictly, and where its range between two bounds lies, by loops that do not end early.
#[inline(never)]
fn range(list: &[u64], lo: u64, hi: u64) -> [u64; 2] {
    let ascending = list.windows(2).fold(true, |so_far, pair| so_far & (pair[0] < pair[1]));
    if lo > hi || !ascending {
        return [0, 0];
    }
    let below = |bound| list.iter().filter(|&&entry| entry < bound).count() as u64;
    let start = below(lo);
    [start, below(hi) - start]
}

/// Ranges of lists of domains. The C function calls both `locate` and `range`, so that each of its loops runs twice.
fn ranges() {
    let list: Vec<u64> = (0..MOST as u64).map(|x| ORIGIN + 3 * x).collect();
    let bounds = [1, 2].map(|part| (ORIGIN + part * MOST as u64 / 2, ORIGIN + part * MOST as u64));
    let proved = |&(lo, hi): &(u64, u64), _: &mut Memory| {
        let mut start = 0;
        let count = c_api::range(&list, lo, hi, &mut start);
        [start, count]
    };
    let plain = |&(lo, hi): &(u64, u64), _: &mut Memory| range(&list, lo, hi);
    let mut memory = Memory::new(0);
    for pair in &bounds {
        assert_eq!(proved(pair, &mut memory), plain(pair, &mut memory));
    }
    measure(["range of a list, per entry N=2^20"], MOST as u64, || {
        let proved = nanoseconds(&bounds, &mut memory, proved);
        (proved, [nanoseconds(&bounds, &mut memory, plain)])
    });
}

fn main() {
    let [whole, with_rest] = [1 << 15, (1 << 15) - 3].map(|count| domains(DOMAINS + DOMAINS / 16, count));
    // Unverified code that answers otherwise would not be worth a comparison.
    for domain in whole.iter().chain(&with_rest) {
        assert_eq!(answer(proved, domain), answer(unverified, domain));
    }
    let cleared: Vec<Domain> = whole.iter().copied().filter(is_cleared).take(DOMAINS).collect();
    assert_eq!(cleared.len(), DOMAINS);
    cleared_domains(&cleared);
    mixed_domains("2^15", &whole[..DOMAINS]);
    mixed_domains("2^15 - 3", &with_rest[..DOMAINS]);
    mixed_domains("2^15, of the exponential function", &exponentials(DOMAINS as u64));
    scans();
    domain_scans();
    full_scans("N=2^20", 1 << 20, 0);
    full_scans("N=2^12", 1 << 12, 0);
    full_scans("N=2^20 w=M-1", 1 << 20, 1);
    full_domains();
    ranges();
}
