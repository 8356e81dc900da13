//! Scans of segments, searches of domains and ranges of lists against a reference written from documents 01 and 02 alone, which lists
//! arguments and values by going through the arguments and judges by counting residues: every small domain, random and extreme ones,
//! refusals, the settled examples, with canaries around the caller's memory.

mod c_api;
mod drawn;
mod harness;
mod reference;

use drawn::{one_of, origin, random_count, signed, somewhere, window};
use harness::{Lent, Random, Run, SEED};
use reference::{Condition, Domain, Segment, LARGEST, LARGEST_CURVE, LARGEST_ORIGIN, MOST};
use std::collections::HashSet;
use std::fmt;

/// Places for every argument of a small count.
const PLENTY: usize = 40;

/// How many places the caller has for the arguments of a list, and how many for their values.
#[derive(Clone, Copy)]
struct Places {
    list: usize,
    values: usize,
}

impl Places {
    fn of((list, values): (usize, usize)) -> Self {
        Places { list, values }
    }
}

impl fmt::Display for Places {
    fn fmt(&self, f: &mut fmt::Formatter) -> fmt::Result {
        write!(f, "{} places for arguments and {} for values", self.list, self.values)
    }
}

/// The caller's memory: the two columns of a list, which are its arguments and their values, and marks and numbers beside it.
#[derive(PartialEq)]
struct Memory {
    list: Lent,
    values: Lent,
    marks: Lent<u8>,
    numbers: Lent,
}

impl Memory {
    fn new(places: Places, marks: usize, numbers: usize) -> Self {
        Memory {
            list: Lent::new(places.list, 1),
            values: Lent::new(places.values, 4),
            marks: Lent::new(marks, 3),
            numbers: Lent::new(numbers, 2),
        }
    }

    fn canaries_live(&self, made: &Memory) -> bool {
        self.list.canaries_live(&made.list)
            && self.values.canaries_live(&made.values)
            && self.marks.canaries_live(&made.marks)
            && self.numbers.canaries_live(&made.numbers)
    }
}

/// What a call shows: the two columns of the list, and the marks and the numbers beside it. Nothing is shown of what is refused.
#[derive(Clone, Default)]
struct Shown {
    list: Vec<u64>,
    values: Vec<u64>,
    marks: Vec<u8>,
    numbers: Vec<u64>,
}

/// A call that lists hard arguments and their values.
trait Listing: fmt::Debug {
    /// How many marks and numbers it shows beside the list.
    const MARKS: usize;
    const NUMBERS: usize;

    /// The refusal by the reference, whatever the places are.
    fn other_refusal(&self) -> u32;

    /// What the reference shows where there are places enough.
    fn shown(&self) -> Shown;

    fn call(&self, memory: &mut Memory) -> u32;

    fn wrong<T>(&self, what: &str) -> Result<T, String> {
        Err(format!("{self:?}: {what}"))
    }
}

impl Listing for Segment {
    const MARKS: usize = 0;
    const NUMBERS: usize = 1;

    fn other_refusal(&self) -> u32 {
        self.refusal()
    }

    fn shown(&self) -> Shown {
        if self.refusal() != 0 {
            return Shown::default();
        }
        let hard = self.hard();
        Shown { values: self.values(&hard), marks: vec![], numbers: vec![hard.len() as u64], list: hard }
    }

    fn call(&self, memory: &mut Memory) -> u32 {
        let (list, values, [listed]) = (memory.list.lend_list(), memory.values.lend_list(), memory.numbers.lend());
        c_api::scan_segment(self.modulus, self.step, self.start, self.count, self.window, list, values, listed)
    }
}

impl Listing for Domain {
    const MARKS: usize = 8;
    const NUMBERS: usize = 2;

    fn other_refusal(&self) -> u32 {
        self.refusal()
    }

    fn shown(&self) -> Shown {
        if self.refusal() != 0 {
            return Shown::default();
        }
        let hard = self.hard();
        let numbers = vec![self.cleared() as u64, hard.len() as u64];
        Shown { list: self.list(&hard), values: self.values(&hard), marks: self.marks().into(), numbers }
    }

    fn call(&self, memory: &mut Memory) -> u32 {
        let Domain { origin, modulus, value, slope, curve, count, window } = *self;
        let (list, values) = (memory.list.lend_list(), memory.values.lend_list());
        let (marks, searched) = (memory.marks.lend(), memory.numbers.lend());
        c_api::search_domain(origin, modulus, value, slope, curve, count, window, list, values, marks, searched)
    }
}

/// The first place at which two columns differ.
fn first_difference<T: PartialEq>(one: &[T], other: &[T]) -> Option<usize> {
    one.iter().zip(other).position(|(a, b)| a != b)
}

/// Calls with so many places; the refusal and all of the memory have to be as the two columns, the marks and the numbers say.
fn check_places<L: Listing>(input: &L, places: Places, shown: &Shown) -> Result<(), String> {
    let [mut lent, mut wanted] = [(); 2].map(|_| Memory::new(places, L::MARKS, L::NUMBERS));
    let Shown { list, values, marks, numbers } = shown;
    let refusal = reference::listing_refusal(input.other_refusal(), list.len(), places.list, places.values);
    let number = input.call(&mut lent);
    if number != refusal {
        return input.wrong(&format!("refusal {number} for {refusal} with {places}"));
    }
    if !lent.canaries_live(&wanted) {
        return input.wrong(&format!("written outside the caller's memory with {places}"));
    }
    if refusal == 0 {
        wanted.list.lend_list()[..list.len()].copy_from_slice(list);
        wanted.values.lend_list()[..list.len()].copy_from_slice(values);
        wanted.marks.lend_list().copy_from_slice(marks);
        wanted.numbers.lend_list().copy_from_slice(numbers);
    }
    if lent == wanted {
        return Ok(());
    }
    if refusal != 0 {
        return input.wrong(&format!("memory changed on refusal {refusal} with {places}"));
    }
    let (has, has_marks) = (lent.numbers.part(), lent.marks.part());
    let at = first_difference(lent.list.part(), wanted.list.part());
    let value_at = first_difference(lent.values.part(), wanted.values.part());
    input.wrong(&format!(
        "{has:?} for {numbers:?}, marks {has_marks:?} for {marks:?}; with {places}, the list of {} differs first at \
         {at:?} and its values at {value_at:?}",
        list.len()
    ))
}

/// How many pairs of places take turns in the calls below.
const TURNS: usize = 7;

/// Calls with as many places as the list needs, with more, with one too few and with none, in both columns or in one of them: with five
/// such pairs for every input, and with one of seven others in turn.
fn check<L: Listing>(input: &L, turn: usize, shown: &Shown) -> Result<(), String> {
    let needed = shown.list.len();
    let (fewer, more) = (needed.saturating_sub(1), needed + 3);
    let in_turn: [(usize, usize); TURNS] =
        [(more, needed), (needed, more), (fewer, fewer), (fewer, more), (more, fewer), (0, needed), (needed, 0)];
    let one = in_turn[turn % TURNS];
    let mut pairs = [(needed, needed), (more, more), (fewer, needed), (needed, fewer), (0, 0), one].to_vec();
    pairs.sort();
    pairs.dedup();
    pairs.iter().try_for_each(|&pair| check_places(input, Places::of(pair), shown))
}

/// The same with all of the pairs.
fn check_every_turn(input: &impl Listing, shown: &Shown) -> Result<(), String> {
    (0..TURNS).try_for_each(|turn| check(input, turn, shown))
}

/// Origins that take turns in the calls below: the ends, some with which the arguments cross a multiple of 2^32, and others. Their
/// number is prime, so that each of them meets each window and count.
const ORIGINS: [u64; 11] = [
    0,
    1,
    2,
    1000,
    1 << 31,
    (1 << 32) - 8,
    (1 << 32) - 1,
    1 << 32,
    0x000A_5A5A_FFFF_FFFD,
    LARGEST_ORIGIN - 1,
    LARGEST_ORIGIN,
];

/// The origin whose turn it is, or the next one where the domain has it already.
fn other_origin(domain: &Domain, turn: usize) -> u64 {
    let in_turn = [0, 1].map(|next| ORIGINS[(turn + next) % ORIGINS.len()]);
    in_turn.into_iter().find(|&origin| origin != domain.origin).unwrap()
}

/// Calls with another origin: the answer, the marks and the values have to be the same, and the list moved by the difference.
fn check_moved(domain: &Domain, origin: u64, shown: &Shown) -> Result<(), String> {
    let list: Vec<u64> = shown.list.iter().map(|argument| argument - domain.origin + origin).collect();
    let needed = Places { list: list.len(), values: list.len() };
    check_places(&Domain { origin, ..*domain }, needed, &Shown { list, ..shown.clone() })
}

/// Calls with no places, a few and many, in both columns or in one of them: refused by what is beside them.
fn check_refused(input: &impl Listing) -> Result<(), String> {
    let pairs = [(0, 0), (1, 1), (PLENTY, PLENTY), (0, PLENTY), (PLENTY, 0)];
    pairs.iter().try_for_each(|&pair| check_places(input, Places::of(pair), &Shown::default()))
}

/// The sets of conditions in which an input was called: its own, and too few places in the list and in the values.
type Sets = HashSet<(Vec<Condition>, [bool; 2])>;

/// Calls with too few places in neither column, in one and in both, where that makes a set of conditions that is not yet among them. A
/// column without a place has too few where the first argument is hard; with a place for every argument it has enough.
fn check_sets<L: Listing>(
    input: &L,
    conflicts: &[Condition],
    count: u64,
    first_is_hard: bool,
    sets: &mut Sets,
) -> Result<(), String> {
    for few in [[false, false], [true, false], [false, true], [true, true]] {
        let met = count <= MOST + 1 && (first_is_hard || few == [false, false]);
        if met && sets.insert((conflicts.into(), few)) {
            let [list, values] = few.map(|few| if few { 0 } else { count as usize });
            check_places(input, Places { list, values }, &input.shown())?;
        }
    }
    Ok(())
}

/// The domains searched and the segments scanned, each once whatever its origins and windows; the different origins; the windows, how
/// many were refused, and what was answered.
#[derive(Default)]
struct Tally {
    domains: HashSet<[u64; 5]>,
    segments: HashSet<[u64; 4]>,
    origins: HashSet<u64>,
    windows: usize,
    refused: usize,
    cleared: usize,
    clear_parts: usize,
    scanned_parts: usize,
    empty_parts: usize,
    listed: usize,
}

impl Tally {
    fn add(&mut self, other: &Tally) {
        self.domains.extend(&other.domains);
        self.segments.extend(&other.segments);
        self.origins.extend(&other.origins);
        self.windows += other.windows;
        self.refused += other.refused;
        self.cleared += other.cleared;
        self.clear_parts += other.clear_parts;
        self.scanned_parts += other.scanned_parts;
        self.empty_parts += other.empty_parts;
        self.listed += other.listed;
    }
}

impl fmt::Display for Tally {
    fn fmt(&self, f: &mut fmt::Formatter) -> fmt::Result {
        let Tally { windows, cleared, clear_parts, scanned_parts, empty_parts, listed, .. } = self;
        if self.domains.is_empty() {
            write!(f, "{} segments, {windows} windows, {listed} listed", self.segments.len())?;
        } else {
            write!(f, "{} domains, {} origins", self.domains.len(), self.origins.len())?;
            write!(f, ", {windows} windows, {cleared} cleared")?;
            write!(f, ", {clear_parts} parts clear, {scanned_parts} scanned and {empty_parts} empty, {listed} listed")?;
        }
        if self.refused != 0 {
            write!(f, "; {} refused", self.refused)?;
        }
        Ok(())
    }
}

fn compare(domain: &Domain, tally: &mut Tally) -> Result<(), String> {
    if domain.refusal() != 0 {
        tally.refused += 1;
        return check_refused(domain);
    }
    let shown = domain.shown();
    let starts = domain.starts();
    let part_of = |x| starts[..8].iter().rposition(|&start| start <= x).unwrap();
    if shown.list.iter().any(|argument| shown.marks[part_of(argument - domain.origin)] != 2) {
        return domain.wrong("hard where the reference clears");
    }
    check(domain, tally.windows, &shown)?;
    let other = other_origin(domain, tally.windows);
    check_moved(domain, other, &shown)?;
    tally.domains.insert(domain.parabola());
    tally.origins.extend([domain.origin, other]);
    tally.windows += 1;
    tally.cleared += shown.numbers[0] as usize;
    let marked = |wanted| shown.marks.iter().filter(|&&mark| mark == wanted).count();
    tally.clear_parts += marked(1);
    tally.scanned_parts += marked(2);
    tally.empty_parts += marked(3);
    tally.listed += shown.list.len();
    Ok(())
}

fn compare_scan(segment: &Segment, tally: &mut Tally) -> Result<(), String> {
    if segment.refusal() != 0 {
        tally.refused += 1;
        return check_refused(segment);
    }
    let shown = segment.shown();
    check(segment, tally.windows, &shown)?;
    tally.segments.insert(segment.line());
    tally.windows += 1;
    tally.listed += shown.list.len();
    Ok(())
}

fn all(domains: impl IntoIterator<Item = Domain>) -> Result<Tally, String> {
    let mut tally = Tally::default();
    for domain in domains {
        compare(&domain, &mut tally)?;
    }
    Ok(tally)
}

fn all_scans(segments: impl IntoIterator<Item = Segment>) -> Result<Tally, String> {
    let mut tally = Tally::default();
    for segment in segments {
        compare_scan(&segment, &mut tally)?;
    }
    Ok(tally)
}

/// The domains with random origins, made of their own seed.
fn with_origins(own: u64, domains: impl IntoIterator<Item = Domain>) -> impl Iterator<Item = Domain> {
    let mut random = Random(SEED + 100 + own);
    domains.into_iter().map(move |domain| at(origin(&mut random), domain))
}

/// Compares so many random domains, made of their own seed.
fn random_domains(own: u64, times: usize, make: impl Fn(&mut Random, usize) -> Domain) -> Result<Tally, String> {
    let mut random = Random(SEED + own);
    all(with_origins(own, (0..times).map(|i| make(&mut random, i))))
}

/// A domain with the origin 0.
fn domain(modulus: u64, value: u64, slope: u64, curve: i64, count: u64, window: u64) -> Domain {
    Domain { origin: 0, modulus, value, slope, curve, count, window }
}

/// The domain with another origin.
fn at(origin: u64, domain: Domain) -> Domain {
    Domain { origin, ..domain }
}

fn segment([modulus, step, start, count, window]: [u64; 5]) -> Segment {
    Segment { modulus, step, start, count, window }
}

fn every_small_domain() -> Result<Tally, String> {
    let mut domains = Vec::new();
    for modulus in 2..=8 {
        for (value, slope) in (0..modulus).flat_map(|value| (0..modulus).map(move |slope| (value, slope))) {
            for (curve, count) in [-9, -1, 0, 1, 2].iter().flat_map(|&s| (1..=40).map(move |n| (s, n))) {
                domains.extend((0..=modulus).map(|window| domain(modulus, value, slope, curve, count, window)));
            }
        }
    }
    all(domains)
}

fn random_small_moduli() -> Result<Tally, String> {
    random_domains(0, 40_000, |random, _| {
        let (modulus, count) = (2 + random.below(4096), random_count(random, 256));
        somewhere(random, modulus, count)
    })
}

fn random_moduli_of_every_size() -> Result<Tally, String> {
    random_domains(1, 40_000, |random, _| {
        let (modulus, count) = (1 + random.sized(LARGEST - 1), random_count(random, 512));
        somewhere(random, modulus, count)
    })
}

fn random_large_moduli() -> Result<Tally, String> {
    random_domains(2, 10_000, |random, _| {
        let (modulus, count) = (LARGEST - random.below(LARGEST / 2 + 1), random_count(random, 1024));
        somewhere(random, modulus, count)
    })
}

fn curves_above_the_modulus() -> Result<Tally, String> {
    random_domains(3, 8_000, |random, _| {
        let (modulus, count) = (1 + random.sized(MOST - 1), random_count(random, 128));
        let size = modulus + random.below(MOST - modulus + 1);
        let window = one_of(random, &[0, 1, 1 + modulus / 5, modulus]);
        Domain { curve: signed(random, size), window, ..somewhere(random, modulus, count) }
    })
}

/// Slopes and values with a divisor in common with the modulus, so that the period of the covering segment is short.
fn common_divisors() -> Result<Tally, String> {
    random_domains(4, 10_000, |random, i| {
        let (period, count) = (2 + random.below(600), random_count(random, 256));
        let divisor = random.sized(LARGEST / period);
        let somewhere = somewhere(random, divisor * period, count);
        let value = if i % 2 == 0 { somewhere.value } else { divisor * random.below(period) };
        Domain { value, slope: divisor * random.below(period), ..somewhere }
    })
}

/// A value just hard or just not hard, above a multiple of the modulus or below one, at an argument at an end of the domain or of a part,
/// or beside it.
fn hard_at_the_ends() -> Result<Tally, String> {
    random_domains(5, 20_000, |random, i| {
        let (modulus, count) = (1 + random.sized(LARGEST - 1), random_count(random, 256));
        let domain = Domain { value: 0, ..somewhere(random, modulus, count) };
        let edge = domain.starts()[i % 9];
        let x = one_of(random, &[edge.max(1) - 1, edge, edge + 1]);
        let away = one_of(random, &[0, 1, domain.window.saturating_sub(1), domain.window]);
        let wanted = one_of(random, &[away as i128, -(away as i128)]);
        let value = (wanted - domain.value_at(x) as i128).rem_euclid(modulus as i128);
        Domain { value: value as u64, ..domain }
    })
}

/// The windows at which the verdict on the domain, or on a part, changes.
fn windows_where_a_verdict_changes() -> Result<Tally, String> {
    random_domains(6, 20_000, |random, i| {
        let (modulus, count) = (1 + random.sized(LARGEST - 1), random_count(random, 256));
        let domain = somewhere(random, modulus, count);
        let parts = domain.parts().into_iter().filter(|part| part.count > 0).collect::<Vec<_>>();
        let of = if i % 3 == 0 { domain } else { one_of(random, &parts) };
        let covering = Domain { window: 1, ..of }.covering();
        let reached = if i % 3 == 0 { covering.regular_reached() } else { covering.fine_reached() };
        // A larger window clears no more; at the modulus nothing is clear.
        let clears = |window| Domain { window, ..of }.covering().clear(&reached);
        let possible = 1 + reference::first(modulus, |below| !clears(below + 1));
        Domain { window: possible - i as u64 % 2, ..domain }
    })
}

/// Slopes of the covering segment with which a regular search goes much farther than a fine one.
fn far_regular_searches() -> Result<Tally, String> {
    random_domains(7, 4_000, |random, _| {
        let (modulus, count) = (1000 + random.sized(LARGEST - 1000), random_count(random, 128));
        let near = random.sized(64);
        let slope = one_of(random, &[0, near, modulus - near, modulus / 2 + near, modulus / 3 + near]);
        Domain { slope, curve: signed(random, near % 3), ..somewhere(random, modulus, count) }
    })
}

fn realistic_domains() -> Result<Tally, String> {
    let mut random = Random(SEED + 8);
    let domains = (0..400).map(|i| {
        let modulus = (1 << 60) - random.below(1 << 59);
        let size = random.below([40, 1 << 14][i / 4 % 2]);
        // From mostly cleared to some hard ones.
        let window = 1 + random.below(modulus >> [29, 18, 14, 11][i % 4]);
        let (value, slope) = (random.below(modulus), random.below(modulus));
        domain(modulus, value, slope, signed(&mut random, size), 1 << 15, window)
    });
    all(with_origins(8, domains))
}

fn extreme_fields() -> Result<Tally, String> {
    let mut domains = Vec::new();
    for m in [2, 3, 45, MOST, 1 << 61, LARGEST - 1, LARGEST] {
        let ends = [0, 1, m / 2, m - 1];
        for (value, slope) in ends.iter().flat_map(|&value| ends.map(|slope| (value, slope))) {
            let curves = [0, 1, -1, LARGEST_CURVE - 1, 1 - LARGEST_CURVE, LARGEST_CURVE, -LARGEST_CURVE];
            for (curve, count) in curves.iter().flat_map(|&s| [1, 2, 7, 8, 9, 16, 71, 72].map(|n| (s, n))) {
                domains.extend([0, 1, m / 2, m - 1, m].map(|w| domain(m, value, slope, curve, count, w)));
            }
        }
    }
    all(domains)
}

/// Count 2^20 at the ends of the other fields, where the numbers are largest, and counts just below it that leave a rest.
fn largest_count() -> Result<Tally, String> {
    let m = LARGEST;
    let mut domains = vec![domain(2, 1, 1, LARGEST_CURVE, MOST, 2), domain(2, 1, 1, -LARGEST_CURVE, MOST, 1)];
    for curve in [LARGEST_CURVE, -LARGEST_CURVE] {
        domains.extend([0, 1, m >> 16, m - 1, m].map(|window| domain(m, m - 1, m - 1, curve, MOST, window)));
        domains.extend([(0, m - 1), (m - 1, 0), (m / 2, 1)].map(|(c0, c1)| domain(m, c0, c1, curve, MOST, m >> 17)));
        domains.extend([(m / 5, m / 7), (m / 3, m - m / 11)].map(|(c0, c1)| domain(m, c0, c1, curve, MOST, m >> 15)));
    }
    // Curves so small that parts may be clear.
    let mut random = Random(SEED + 12);
    for (curve, window) in [(1, 1), (-1, 1), (0, 1), (0, m >> 22), (2, m >> 21), (-2, m >> 21), (9, m >> 19), (-9, 1)] {
        let (value, slope) = (random.below(m - 57), random.below(m - 57));
        domains.extend([MOST, MOST - 1, MOST - 7].map(|count| domain(m - 57, value, slope, curve, count, window)));
    }
    domains.extend([LARGEST_CURVE, -LARGEST_CURVE].map(|curve| domain(m, m - 1, m - 1, curve, MOST - 1, m >> 16)));
    // All arguments are listed, up to the largest of all.
    let last = at(LARGEST_ORIGIN, domain(m, m - 1, m - 1, LARGEST_CURVE, MOST, m));
    all(with_origins(12, domains).chain([last]))
}

fn random_fields_of_every_size() -> Result<Tally, String> {
    let [mut random, mut origins] = [SEED + 9, SEED + 109].map(Random);
    let mut field = || random.next() >> random.below(64);
    all((0..60_000).map(|i| {
        let curve = field() as i64;
        let count = field() >> 50;
        Domain {
            origin: origins.next() >> origins.below(64),
            modulus: field(),
            value: field(),
            slope: field(),
            curve: if i % 2 == 0 { curve } else { curve >> 44 },
            count,
            window: field(),
        }
    }))
}

/// Random domains at each end of what is accepted as an origin, beside them, and where a narrower number would wrap.
fn ends_of_origins() -> Result<Tally, String> {
    let mut random = Random(SEED + 14);
    let accepted = [0, 1, (1 << 32) - 1, 1 << 32, LARGEST_ORIGIN - 1, LARGEST_ORIGIN];
    let top = LARGEST_ORIGIN;
    let refused = [top + 1, top + 2, top + (1 << 32), 2 * top, (1 << 63) - 1, 1 << 63, u64::MAX];
    let domains = (0..500).map(|_| {
        let (modulus, count) = (1 + random.sized(LARGEST - 1), random_count(&mut random, 256));
        somewhere(&mut random, modulus, count)
    });
    let origins = || accepted.into_iter().chain(refused);
    all(domains.flat_map(|domain| origins().map(move |origin| at(origin, domain))))
}

/// Every set of the conditions 1 to 7 and 11 in conflict with each other, 7 by the list, by the values and by both: the lowest number
/// wins, but 11 comes before 7. Beside another condition, 7 applies where the first argument is hard and there is no place.
fn every_set_of_refusals() -> Result<Tally, String> {
    let (mut tally, mut sets, mut turn) = (Tally::default(), Sets::new(), 0);
    // One that is accepted and one that is not.
    let origins = [[0, LARGEST_ORIGIN + 1], [LARGEST_ORIGIN, u64::MAX]];
    let curves = [0, 5, LARGEST_CURVE, LARGEST_CURVE + 1, -LARGEST_CURVE, -LARGEST_CURVE - 1, i64::MIN, i64::MAX];
    let counts = [0, 1, 7, 8, 12, MOST + 1, MOST + 8, 1 << 63, u64::MAX];
    for modulus in [0, 1, 2, 45, LARGEST, LARGEST + 1, 1 << 63, u64::MAX - 1] {
        let fields = [0, modulus.wrapping_sub(1), modulus, modulus + 1, u64::MAX];
        for (value, slope) in fields.iter().flat_map(|&value| fields.map(|slope| (value, slope))) {
            for (curve, count) in curves.iter().flat_map(|&s| counts.map(|n| (s, n))) {
                for window in fields {
                    let domain = domain(modulus, value, slope, curve, count, window);
                    let first_is_hard = count > 0 && modulus > 0 && domain.is_hard(0);
                    turn += 1;
                    for domain in origins[turn % 2].map(|origin| at(origin, domain)) {
                        check_sets(&domain, &domain.conflicts(), count, first_is_hard, &mut sets)?;
                        compare(&domain, &mut tally)?;
                    }
                }
            }
        }
    }
    match sets.len() {
        512 => Ok(tally),
        few => Err(format!("only {few} of the 512 sets")),
    }
}

/// What 01 and 02 say of the parts, of the reference's: each has the values and the list of its stretch of the domain; no part is longer
/// than one before it, and the last is at most one argument shorter than the first.
fn parts_of_the_reference() -> Result<String, String> {
    let ([mut random, mut origins], mut values) = ([SEED + 13, SEED + 113].map(Random), 0);
    for _ in 0..2_000 {
        let (modulus, count) = (1 + random.sized(LARGEST - 1), random_count(&mut random, 512));
        let domain = at(origin(&mut origins), somewhere(&mut random, modulus, count));
        let of_parts = domain.parts().into_iter().flat_map(|part| (0..part.count).map(move |x| part.value_at(x)));
        if !of_parts.eq((0..count).map(|x| domain.value_at(x))) {
            return domain.wrong("parts with other values");
        }
        let of_parts = domain.parts().into_iter().flat_map(|part| part.list(&part.hard()));
        if !of_parts.eq(domain.list(&domain.hard())) {
            return domain.wrong("parts with other lists");
        }
        let counts = domain.parts().map(|part| part.count);
        if !counts.windows(2).all(|pair| pair[0] >= pair[1]) || counts[0] > counts[7] + 1 {
            return domain.wrong("parts of other lengths");
        }
        values += count;
    }
    Ok(format!("{values} values"))
}

/// What a domain shows, by hand: cleared or not, the marks, the list and its values.
fn domain_shown(cleared: u64, marks: [u8; 8], list: &[u64], values: &[u64]) -> Shown {
    let numbers = vec![cleared, list.len() as u64];
    Shown { list: list.into(), values: values.into(), marks: marks.into(), numbers }
}

/// Document 01's examples that concern domains, as 02 leaves them, and some of 2.1 to 2.3, of 2.6 and of 2.7: cleared or not, the marks,
/// the list and its values. A value is V(x): not raised by the window, not moved to the other side of the multiple, not moved by the origin.
fn settled_examples() -> Result<Tally, String> {
    let (m, all_eight) = (LARGEST, [0, 1, 2, 3, 4, 5, 6, 7]);
    let (j, largest) = (domain(45, 44, 31, 0, 16, 3), 4_503_599_627_370_496);
    let examples: [(&str, Domain, u64, [u8; 8], &[u64], &[u64]); 26] = [
        ("P10", domain(45, 44, 31, 0, 16, 3), 0, [2, 2, 1, 1, 1, 1, 1, 1], &[0, 3], &[44, 2]),
        ("P11", domain(45, 0, 0, 1, 8, 1), 0, [2, 2, 1, 1, 1, 1, 1, 1], &[0, 1], &[0, 0]),
        ("P11", domain(45, 0, 0, -1, 8, 1), 0, [2, 2, 1, 1, 1, 1, 1, 1], &[0, 1], &[0, 0]),
        ("2.1", domain(10, 3, 3, 0, 8, 2), 0, [1, 1, 2, 1, 1, 1, 2, 1], &[2, 6], &[9, 1]),
        ("2.1", domain(10, 3, 3, 0, 8, 6), 0, [2; 8], &all_eight, &[3, 6, 9, 2, 5, 8, 1, 4]),
        ("2.1", domain(11, 5, 0, 0, 8, 5), 1, [0; 8], &[], &[]),
        ("2.1", domain(11, 5, 0, 0, 8, 6), 0, [2; 8], &all_eight, &[5; 8]),
        ("2.2", domain(45, 44, 31, 0, 12, 3), 0, [2, 2, 1, 1, 1, 1, 1, 1], &[0, 3], &[44, 2]),
        ("2.2", domain(45, 44, 31, 0, 3, 3), 0, [2, 1, 1, 3, 3, 3, 3, 3], &[0], &[44]),
        ("2.2", domain(45, 44, 31, 0, 1, 3), 0, [2, 3, 3, 3, 3, 3, 3, 3], &[0], &[44]),
        ("2.2", domain(45, 0, 40, 1, 12, 2), 0, [2, 1, 1, 1, 1, 1, 1, 2], &[0, 11], &[0, 0]),
        ("2.2", domain(45, 0, 4, -1, 12, 2), 0, [2, 1, 1, 1, 1, 2, 1, 1], &[0, 9], &[0, 0]),
        ("2.2", domain(11, 5, 0, 0, 3, 5), 1, [0; 8], &[], &[]),
        ("2.3", domain(45, 44, 31, 0, 16, 1), 1, [0; 8], &[], &[]),
        ("2.3", domain(45, 44, 31, 0, 3, 45), 0, [2, 2, 2, 3, 3, 3, 3, 3], &[0, 1, 2], &[44, 30, 16]),
        // The values are 3, 5, 6, 6, 5, 3, 0, -4, and with the other sign those of the next.
        ("2.6", domain(45, 3, 2, -1, 8, 5), 0, [2, 1, 1, 1, 1, 2, 2, 2], &[0, 5, 6, 7], &[3, 3, 0, 41]),
        ("2.6", domain(45, 42, 43, 1, 8, 5), 0, [2, 1, 1, 1, 1, 2, 2, 2], &[0, 5, 6, 7], &[42, 42, 0, 4]),
        ("2.6", domain(m, m - 1, 1, 0, 3, 2), 0, [2, 2, 2, 3, 3, 3, 3, 3], &[0, 1, 2], &[m - 1, 0, 1]),
        ("2.7", at(1, j), 0, [2, 2, 1, 1, 1, 1, 1, 1], &[1, 4], &[44, 2]),
        ("2.7", at(4_294_967_295, j), 0, [2, 2, 1, 1, 1, 1, 1, 1], &[4_294_967_295, 4_294_967_298], &[44, 2]),
        ("2.7", at(largest, j), 0, [2, 2, 1, 1, 1, 1, 1, 1], &[4_503_599_627_370_496, 4_503_599_627_370_499], &[44, 2]),
        ("2.7", at(largest, domain(45, 44, 31, 0, 16, 1)), 1, [0; 8], &[], &[]),
        ("2.7", at(largest, domain(45, 17, 0, 1, 8, 1)), 0, [1; 8], &[], &[]),
        ("2.7", at(largest - 1, domain(45, 44, 31, 0, 3, 3)), 0, [2, 1, 1, 3, 3, 3, 3, 3], &[largest - 1], &[44]),
        (
            "2.7",
            at(largest - 6, domain(45, 3, 2, -1, 8, 5)),
            0,
            [2, 1, 1, 1, 1, 2, 2, 2],
            &[largest - 6, largest - 1, largest, largest + 1],
            &[3, 3, 0, 41],
        ),
        (
            "2.7",
            at(largest, domain(m, m - 1, 1, 0, 3, 2)),
            0,
            [2, 2, 2, 3, 3, 3, 3, 3],
            &[largest, largest + 1, largest + 2],
            &[m - 1, 0, 1],
        ),
    ];
    for (name, domain, cleared, marks, list, values) in examples {
        let shown = domain_shown(cleared, marks, list, values);
        let many = Places::of((2 << 20, 2 << 20));
        let checked = check_every_turn(&domain, &shown).and(check_places(&domain, many, &shown));
        checked.map_err(|why| format!("{name}: {why}"))?;
    }
    all(examples.map(|example| example.1))
}

/// Domains whose verdict or marks would be others with another D: cleared or not, the marks, the list and its values, by hand.
fn verdicts_by_spread() -> Result<Tally, String> {
    let examples: [(Domain, u64, [u8; 8], &[u64], &[u64]); 5] = [
        (domain(45, 17, 0, 1, 8, 1), 0, [1; 8], &[], &[]),
        (domain(45, 1, 0, 1, 8, 1), 1, [0; 8], &[], &[]),
        (domain(45, 0, 0, 1, 16, 1), 0, [2, 1, 1, 1, 1, 2, 1, 1], &[0, 1, 10], &[0, 0, 0]),
        (domain(45, 0, 0, -1, 16, 1), 0, [2, 1, 1, 1, 1, 2, 1, 1], &[0, 1, 10], &[0, 0, 0]),
        (domain(45, 4, 16, -2, 24, 2), 0, [2, 2, 1, 1, 2, 2, 1, 2], &[3, 14, 23], &[1, 1, 1]),
    ];
    for (domain, cleared, marks, list, values) in examples {
        check_every_turn(&domain, &domain_shown(cleared, marks, list, values))?;
    }
    all(examples.map(|example| example.0))
}

/// Document 01's examples without a mark that concern domains, as 02 leaves them, two more counts that 02 accepts, and a window of 0
/// (2.3): 5 comes after 4 and before 6. Then the ends of the origin (2.7): 11 comes after 6. Then 7, by the list and by the values (2.6),
/// which comes after all of them.
fn settled_refusals() -> Result<Tally, String> {
    // The argument 0 of each is hard, and of the first one other.
    let [two, curved, wide] = [(0, 3), (LARGEST_CURVE + 1, 3), (0, 46)].map(|(s, w)| domain(45, 44, 31, s, 16, w));
    let refusals = [
        (domain(1, 0, 0, 0, 8, 1), 1),
        (domain(2, 0, 0, 0, 8, 1), 0),
        (domain(45, 44, 31, 0, 0, 3), 4),
        (domain(45, 44, 31, 0, 1_048_577, 3), 4),
        (domain(45, 44, 31, 0, 12, 3), 0),
        (domain(45, 44, 31, 0, 1, 3), 0),
        (domain(45, 9, 0, 0, 1_048_575, 9), 0),
        (domain(45, 44, 31, 0, 16, 45), 0),
        (domain(45, 44, 31, 0, 16, 46), 5),
        (domain(45, 44, 31, 0, 16, 1), 0),
        (domain(45, 44, 31, 0, 16, 0), 5),
        (domain(45, 44, 31, 0, 0, 0), 4),
        (domain(45, 44, 31, LARGEST_CURVE + 1, 16, 0), 5),
        (domain(45, 44, 31, LARGEST_CURVE + 1, 0, 0), 4),
        (domain(45, 44, 31, LARGEST_CURVE + 1, 16, 1), 6),
        (domain(45, 44, 31, i64::MIN, 16, 3), 6),
        (domain(45, 44, 31, i64::MAX, 16, 3), 6),
        (at(1, two), 0),
        (at((1 << 52) - 1, two), 0),
        (at(1 << 52, two), 0),
        (at((1 << 52) + 1, two), 11),
        (at(1 << 53, two), 11),
        (at(1 << 63, two), 11),
        (at(u64::MAX, two), 11),
        (at((1 << 52) + 1, curved), 6),
        (at(u64::MAX, curved), 6),
        (at(u64::MAX, wide), 5),
        (at(u64::MAX, domain(45, 44, 31, 0, 16, 0)), 5),
        (at(u64::MAX, domain(45, 44, 31, 0, 0, 3)), 4),
        (at(u64::MAX, domain(45, 45, 31, 0, 16, 3)), 3),
        (at(u64::MAX, domain(45, 44, 45, 0, 16, 3)), 2),
        (at(u64::MAX, domain(1, 0, 0, 0, 8, 1)), 1),
    ];
    let by_places = [
        (two, (2, 2), 0),
        (two, (2, 16), 0),
        (two, (16, 2), 0),
        (two, (1, 2), 7),
        (two, (2, 1), 7),
        (two, (1, 1), 7),
        (two, (1, 16), 7),
        (two, (16, 1), 7),
        (two, (0, 16), 7),
        (two, (16, 0), 7),
        (two, (0, 0), 7),
        (curved, (0, 16), 6),
        (curved, (16, 0), 6),
        (curved, (0, 0), 6),
        (wide, (0, 16), 5),
        (wide, (16, 0), 5),
        (wide, (0, 0), 5),
        (at(1 << 52, two), (2, 2), 0),
        (at(1 << 52, two), (1, 2), 7),
        (at(1 << 52, two), (2, 1), 7),
        (at(1 << 52, two), (0, 0), 7),
        (at((1 << 52) + 1, two), (2, 2), 11),
        (at((1 << 52) + 1, two), (1, 2), 11),
        (at((1 << 52) + 1, two), (2, 1), 11),
        (at((1 << 52) + 1, two), (0, 0), 11),
        (at(u64::MAX, two), (0, 16), 11),
        (at(u64::MAX, two), (16, 0), 11),
        (at(u64::MAX, two), (0, 0), 11),
        (at(u64::MAX, curved), (0, 0), 6),
    ];
    let with_places = refusals.map(|(domain, number)| (domain, (16, 16), number)).into_iter().chain(by_places);
    for (domain, places, number) in with_places {
        let places = Places::of(places);
        if domain.call(&mut Memory::new(places, 8, 2)) != number {
            return domain.wrong(&format!("not {number} with {places}"));
        }
        check_places(&domain, places, &domain.shown())?;
    }
    all(refusals.map(|refusal| refusal.0))
}

fn every_small_scan() -> Result<Tally, String> {
    let segments = |modulus| {
        (0..modulus).flat_map(move |step| {
            (0..modulus).flat_map(move |start| {
                (1..modulus + 3).flat_map(move |count| {
                    (0..=modulus).map(move |window| Segment { modulus, step, start, count, window })
                })
            })
        })
    };
    all_scans((2..=10).flat_map(segments))
}

fn random_scans() -> Result<Tally, String> {
    let mut random = Random(SEED + 10);
    all_scans((0..50_000).map(|i| {
        let modulus = 1 + random.sized(if i % 2 == 0 { LARGEST - 1 } else { 4096 });
        let (step, count) = (random.below(modulus), random.sized(if i % 32 == 0 { 1 << 13 } else { 256 }));
        let (start, window) = (random.below(modulus), window(&mut random, modulus, count));
        // A residue just hard or just not hard at the last argument, or at the one after it.
        let from_start = [start, 0, window % modulus, window.max(1) - 1][i % 4] as i128;
        let x = if i % 8 < 4 { count - 1 } else { count };
        let start = if i % 4 == 0 { from_start } else { from_start + step as i128 * x as i128 };
        Segment { modulus, step, start: start.rem_euclid(modulus as i128) as u64, count, window }
    }))
}

fn extreme_scans() -> Result<Tally, String> {
    let mut segments = Vec::new();
    for m in [2, 3, 45, MOST, 1 << 61, LARGEST - 1, LARGEST] {
        let ends = [0, 1, m / 2, m - 1];
        for (step, start) in ends.iter().flat_map(|&step| ends.map(|start| (step, start))) {
            for count in [1, 2, 100] {
                segments.extend([0, 1, m / 2, m - 1, m].map(|window| segment([m, step, start, count, window])));
            }
        }
        segments.extend([0, 1, m].map(|window| segment([m, m - 1, m - 1, MOST, window])));
        segments.push(segment([m, m - 1 - m / 3, m / 2, MOST, m / 1000]));
    }
    all_scans(segments)
}

/// Every set of the conditions 1 to 5 and 7, as for domains.
fn every_set_of_scan_refusals() -> Result<Tally, String> {
    let (mut tally, mut sets) = (Tally::default(), Sets::new());
    for modulus in [0, 1, 2, 45, LARGEST, LARGEST + 1, 1 << 63, u64::MAX - 1] {
        let fields = [0, 1, modulus.wrapping_sub(1), modulus, modulus + 1, u64::MAX];
        for (step, start) in fields.iter().flat_map(|&step| fields.map(|start| (step, start))) {
            for (count, window) in [0, 1, 7, MOST + 1, u64::MAX].iter().flat_map(|&n| fields.map(|w| (n, w))) {
                let segment = Segment { modulus, step, start, count, window };
                let first_is_hard = count > 0 && modulus > 0 && segment.residue(0) < window;
                check_sets(&segment, &segment.conflicts(), count, first_is_hard, &mut sets)?;
                compare_scan(&segment, &mut tally)?;
            }
        }
    }
    match sets.len() {
        128 => Ok(tally),
        few => Err(format!("only {few} of the 128 sets")),
    }
}

/// Document 01's example P9 with its residues, scans with a window of M, 01's refusals that concern scans, as 02 leaves them, and 7, by the
/// list and by the values.
fn settled_scans() -> Result<Tally, String> {
    let examples: [([u64; 5], &[u64], &[u64]); 5] = [
        ([45, 14, 44, 16, 6], &[3, 6], &[2, 5]),
        ([45, 14, 44, 16, 3], &[3], &[2]),
        ([45, 14, 44, 3, 45], &[0, 1, 2], &[44, 30, 16]),
        ([LARGEST, 1, 1, 3, LARGEST], &[0, 1, 2], &[1, 0, LARGEST - 1]),
        ([LARGEST, LARGEST - 1, LARGEST - 1, 3, LARGEST], &[0, 1, 2], &[LARGEST - 1, 0, 1]),
    ];
    for (fields, list, values) in examples {
        let numbers = vec![list.len() as u64];
        let shown = Shown { list: list.into(), values: values.into(), marks: vec![], numbers };
        check_every_turn(&segment(fields), &shown).map_err(|why| format!("settled: {why}"))?;
    }
    let refusals = [
        ([1, 0, 0, 1, 1], (1, 1), 1),
        ([2, 0, 0, 1, 1], (1, 1), 0),
        ([45, 14, 44, 0, 1], (16, 16), 4),
        ([45, 14, 44, 1_048_577, 1], (16, 16), 4),
        ([45, 14, 44, 16, 45], (16, 16), 0),
        ([45, 14, 44, 16, 46], (16, 16), 5),
        ([45, 14, 44, 16, 46], (0, 16), 5),
        ([45, 14, 44, 16, 46], (16, 0), 5),
        ([45, 14, 44, 16, 0], (16, 16), 5),
        ([45, 14, 44, 16, 0], (0, 0), 5),
        ([45, 14, 44, 0, 0], (16, 16), 4),
        ([45, 14, 44, 16, 6], (1, 1), 7),
        ([45, 14, 44, 16, 6], (1, 2), 7),
        ([45, 14, 44, 16, 6], (2, 1), 7),
        ([45, 14, 44, 16, 6], (1, 16), 7),
        ([45, 14, 44, 16, 6], (16, 1), 7),
        ([45, 14, 44, 16, 6], (2, 2), 0),
        ([45, 14, 44, 16, 6], (2, 16), 0),
        ([45, 14, 44, 16, 6], (16, 2), 0),
    ];
    for (fields, places, number) in refusals {
        let (segment, places) = (segment(fields), Places::of(places));
        if segment.call(&mut Memory::new(places, 0, 1)) != number {
            return segment.wrong(&format!("not {number} with {places}"));
        }
        check_places(&segment, places, &segment.shown())?;
    }
    all_scans(refusals.map(|refusal| segment(refusal.0)))
}

/// Cuts a list between two bounds: the range has to have this start and this count, and the list has to stay as it is.
fn check_range(list: &[u64], lo: u64, hi: u64, (start, count): (usize, usize)) -> Result<(), String> {
    let [mut lent, mut wanted] = [(); 2].map(|_| Memory::new(Places::of((list.len(), 0)), 0, 1));
    lent.list.lend_list().copy_from_slice(list);
    wanted.list.lend_list().copy_from_slice(list);
    wanted.numbers.lend_list()[0] = start as u64;
    let [at] = lent.numbers.lend();
    let number = c_api::range(lent.list.part(), lo, hi, at);
    if number != count as u64 || lent != wanted {
        let has = lent.numbers.part()[0];
        let wrong = format!("({has}, {number}) for ({start}, {count}), or memory beside it");
        let (length, first) = (list.len(), &list[..list.len().min(20)]);
        return Err(format!("{length} arguments {first:?}.., from {lo} to below {hi}: {wrong}"));
    }
    Ok(())
}

/// Compares the range of a list between two bounds with the reference.
fn compare_range(list: &[u64], lo: u64, hi: u64) -> Result<(), String> {
    check_range(list, lo, hi, reference::range(list, lo, hi))
}

/// Five ascending numbers and bounds about them. They are neighbours: the smallest numbers, the largest and some between, also such as
/// cross 2^32 and 2^52. Or their lower halves are the same, or fall as the numbers rise, and would mislead who compares 32 bits.
fn numbers_and_bounds() -> Vec<([u64; 5], Vec<u64>)> {
    let firsts = [0, 1 << 20, 1 << 31, (1 << 32) - 5, (1 << 32) - 2, (1 << 52) - 2, u64::MAX - 4];
    let neighbours = firsts.map(|first: u64| {
        let bounds = (0..7).filter_map(|by| first.checked_add(by)?.checked_sub(1)).collect();
        ([0, 1, 2, 3, 4].map(|by| first + by), bounds)
    });
    let upper = [0, 1, 2, 1 << 20, u32::MAX as u64];
    let halves = [[5; 5], [4, 3, 2, 1, 0]].map(|lower: [u64; 5]| {
        let numbers = [0, 1, 2, 3, 4].map(|i| (upper[i] << 32) + lower[i]);
        (numbers, [&numbers[..], &[1 << 32]].concat())
    });
    neighbours.into_iter().chain(halves).collect()
}

/// Every list of up to five of five numbers, in any order, with every pair of bounds about them.
fn every_small_range() -> Result<String, String> {
    let (mut lists, mut longest, mut ranges) = (vec![vec![]], vec![vec![]], 0);
    for _ in 0..5 {
        longest = longest.iter().flat_map(|list| (0..5).map(|last| [&list[..], &[last]].concat())).collect();
        lists.extend(longest.iter().cloned());
    }
    for (numbers, mut bounds) in numbers_and_bounds() {
        bounds.extend([0, u64::MAX]);
        for list in &lists {
            let list: Vec<u64> = list.iter().map(|&place: &usize| numbers[place]).collect();
            for (lo, hi) in bounds.iter().flat_map(|&lo| bounds.iter().map(move |&hi| (lo, hi))) {
                compare_range(&list, lo, hi)?;
                ranges += 1;
            }
        }
    }
    Ok(format!("{ranges} ranges of {} lists", lists.len()))
}

/// A strictly ascending list, of numbers from one on and below a bound that is counted from it.
fn ascending(random: &mut Random, length: u64, from: u64, below: u64) -> Vec<u64> {
    let mut list: Vec<u64> = (0..length).map(|_| from + random.below(below)).collect();
    list.sort();
    list.dedup();
    list
}

/// A bound at a number or beside it, with another upper half, at an end, or anywhere.
fn bound_about(random: &mut Random, near: u64) -> u64 {
    let (any, lower, high) = (random.next(), near & u32::MAX as u64, 1 << 32);
    let beside = [near, near, near.saturating_sub(1), near.saturating_add(1)];
    let far = [lower, near.saturating_sub(high), near.saturating_add(high), any, 0, high, u64::MAX];
    if random.below(2) == 0 {
        one_of(random, &beside)
    } else {
        one_of(random, &far)
    }
}

/// Random longer lists, strictly ascending or not at one place only, with bounds about their arguments.
fn random_ranges() -> Result<String, String> {
    let (mut random, mut ranges) = (Random(SEED + 11), 0);
    for i in 0..8_000 {
        let (length, below) = (1 + random.sized(300), [MOST, 1 << 32, 400, 1 << 53][i % 4]);
        let from = one_of(&mut random, &[0, 0, (1 << 32) - 200, LARGEST_ORIGIN, u64::MAX - below]);
        let mut list = ascending(&mut random, length, from, below);
        let at = random.below(list.len() as u64) as usize;
        match i % 5 {
            0 if at > 0 => list[at] = list[at - 1],
            1 if at > 0 => list.swap(at - 1, at),
            2 => list[at] ^= 1 << 32,
            _ => (),
        }
        for _ in 0..24 {
            let bounds = [(); 2].map(|_| {
                let near = one_of(&mut random, &list);
                bound_about(&mut random, near)
            });
            compare_range(&list, bounds[0], bounds[1])?;
            ranges += 1;
        }
    }
    Ok(format!("{ranges} ranges"))
}

/// Lists as long as the largest that a call fills, from 0 on and from the largest origin on.
fn longest_ranges() -> Result<String, String> {
    let mut ranges = 0;
    for from in [0, LARGEST_ORIGIN] {
        let mut list: Vec<u64> = (from..from + MOST).collect();
        let bounds = [0, 1, 524_288, MOST - 1, MOST, u32::MAX as u64].map(|bound| from + bound);
        let pairs = || bounds.iter().flat_map(|&lo| bounds.map(|hi| (lo, hi)));
        pairs().try_for_each(|(lo, hi)| compare_range(&list, lo, hi))?;
        *list.last_mut().unwrap() -= 1;
        pairs().try_for_each(|(lo, hi)| compare_range(&list, lo, hi))?;
        ranges += 2 * bounds.len().pow(2);
    }
    Ok(format!("{ranges} ranges"))
}

/// The lists that calls leave for domains with an origin, cut where the parts begin: each cut has the start and the count of the cut
/// without the origin. Bounds without the origin come before such a list, where it is large enough.
fn ranges_of_domains() -> Result<String, String> {
    let ([mut random, mut origins], mut ranges) = ([SEED + 15, SEED + 115].map(Random), 0);
    for i in 0..2_000 {
        let (modulus, count) = (2 + random.below(4096), random_count(&mut random, 256));
        let somewhere = Domain { window: 1 + modulus / 8, ..somewhere(&mut random, modulus, count) };
        let domain = at(if i % 2 == 0 { LARGEST_ORIGIN } else { origin(&mut origins) }, somewhere);
        let (hard, starts) = (domain.hard(), domain.starts());
        let mut lent = Memory::new(Places::of((hard.len(), hard.len())), 8, 2);
        if domain.call(&mut lent) != 0 || lent.list.part() != domain.list(&hard) {
            return domain.wrong("refused, or another list");
        }
        for (lo, hi) in starts.iter().flat_map(|&lo| starts.map(|hi| (lo, hi))) {
            let cut = reference::range(&hard, lo, hi);
            check_range(lent.list.part(), domain.origin + lo, domain.origin + hi, cut)?;
            ranges += 1;
        }
        if domain.origin >= count {
            check_range(lent.list.part(), 0, count, (0, 0))?;
            ranges += 1;
        }
    }
    Ok(format!("{ranges} ranges"))
}

/// Ranges by hand, most of them such that 32 bits do not tell: of J's list with the largest origin, of bounds and arguments that differ
/// in the upper half alone, and of lists whose lower halves ascend where they do not, or do not where they do.
fn settled_ranges() -> Result<String, String> {
    let (word, largest, most) = (1 << 32, 4_503_599_627_370_496, u64::MAX);
    let (j, threes) = ([largest, largest + 3], [3, 6, 9]);
    let (same_lower, falling_lower) = ([5, word + 5, 2 * word + 5], [2, word + 1, 2 * word]);
    let examples: [(&[u64], u64, u64, (usize, usize)); 33] = [
        (&threes, 4, 9, (1, 1)),
        (&threes, 7, 8, (2, 0)),
        (&threes, 4, word, (1, 2)),
        (&threes, 4, word + 4, (1, 2)),
        (&threes, word, 10, (0, 0)),
        (&threes, word, word + 10, (3, 0)),
        (&threes, word, most, (3, 0)),
        (&threes, most, 0, (0, 0)),
        (&j, largest, largest + 16, (0, 2)),
        (&j, largest, largest + 3, (0, 1)),
        (&j, largest + 1, largest + 4, (1, 1)),
        (&j, largest + 1, largest + 3, (1, 0)),
        (&j, largest + 4, most, (2, 0)),
        (&j, 0, 16, (0, 0)),
        (&j, 0, largest, (0, 0)),
        (&j, 0, largest + 1, (0, 1)),
        (&same_lower, 0, word, (0, 1)),
        (&same_lower, word, 2 * word, (1, 1)),
        (&same_lower, 5, 2 * word + 5, (0, 2)),
        (&same_lower, 6, 2 * word + 6, (1, 2)),
        (&same_lower, word + 6, 2 * word + 5, (2, 0)),
        (&falling_lower, 0, most, (0, 3)),
        (&falling_lower, 2, word + 1, (0, 1)),
        (&falling_lower, word, 2 * word, (1, 1)),
        (&falling_lower, word + 2, 2 * word + 1, (2, 1)),
        (&[word + 1, 2, 3], 0, most, (0, 0)),
        (&[word + 5, 5], 0, most, (0, 0)),
        (&[word + 5, word + 5], 0, most, (0, 0)),
        (&[word - 1, word], word - 1, word, (0, 1)),
        (&[word - 1, word], word, word + 1, (1, 1)),
        (&[0, most], 0, most, (0, 1)),
        (&[0, most], 1, most, (1, 0)),
        (&[most - 1, most], most - 1, most, (0, 1)),
    ];
    examples.iter().try_for_each(|&(list, lo, hi, range)| check_range(list, lo, hi, range))?;
    examples.iter().try_for_each(|&(list, lo, hi, _)| compare_range(list, lo, hi))?;
    Ok(format!("{} ranges", examples.len()))
}

fn main() {
    let mut run = Run::start();
    let domain_tests: [(&str, fn() -> Result<Tally, String>); 18] = [
        ("every modulus up to 8", every_small_domain),
        ("random small moduli", random_small_moduli),
        ("random moduli of every size", random_moduli_of_every_size),
        ("random moduli from 2^61 to 2^62", random_large_moduli),
        ("curves above the modulus", curves_above_the_modulus),
        ("common divisors", common_divisors),
        ("hard at the ends of domains and parts", hard_at_the_ends),
        ("windows where a verdict changes", windows_where_a_verdict_changes),
        ("far regular searches", far_regular_searches),
        ("count 2^15, moduli about 2^60", realistic_domains),
        ("extreme fields", extreme_fields),
        ("counts up to 2^20", largest_count),
        ("random fields of every size", random_fields_of_every_size),
        ("ends of origins", ends_of_origins),
        ("every set of refusals", every_set_of_refusals),
        ("settled examples", settled_examples),
        ("verdicts that hang on D", verdicts_by_spread),
        ("settled refusals", settled_refusals),
    ];
    let scan_tests: [(&str, fn() -> Result<Tally, String>); 5] = [
        ("scans of every modulus up to 10", every_small_scan),
        ("random scans", random_scans),
        ("extreme scans", extreme_scans),
        ("every set of refusals of scans", every_set_of_scan_refusals),
        ("settled scans", settled_scans),
    ];
    let [domains, scans] = [&domain_tests[..], &scan_tests[..]].map(|tests| {
        let mut sum = Tally::default();
        for (name, test) in tests {
            let result = test();
            sum.add(result.as_ref().unwrap_or(&Tally::default()));
            run.count(name, result);
        }
        sum
    });
    run.reference("parts", parts_of_the_reference());
    run.count("every small range", every_small_range());
    run.count("random ranges", random_ranges());
    run.count("longest ranges", longest_ranges());
    run.count("ranges of domains' lists", ranges_of_domains());
    run.count("settled ranges", settled_ranges());
    let enough = domains.domains.len() >= 100_000
        && domains.origins.len() >= 30_000
        && domains.cleared >= 10_000
        && domains.clear_parts >= 50_000
        && domains.empty_parts >= 50_000;
    run.count("as many domains as meant", if enough { Ok(domains) } else { Err(format!("only {domains}")) });
    let enough = scans.segments.len() >= 40_000;
    run.count("as many scans as meant", if enough { Ok(scans) } else { Err(format!("only {scans}")) });
    run.end()
}
