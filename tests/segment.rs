//! Both searches of a segment against a reference written from documents 01 and 02 alone, which counts residues: every small modulus,
//! random and extreme segments, refusals, the settled examples, with canaries around the caller's memory.

mod c_api;
mod harness;
mod reference;

use c_api::ROWS;
use harness::{Lent, Random, Run, SEED};
use reference::{Configuration, Segment, LARGEST, MOST};
use std::collections::HashSet;
use std::fmt;
use Search::{Fine, Regular};

/// Document 01's bound of a regular index.
const HIGHEST: u64 = 29;

#[derive(Clone, Copy, Debug)]
enum Search {
    Regular,
    Fine,
}

impl Search {
    fn reached(self, segment: &Segment) -> Configuration {
        match self {
            Regular => segment.regular_reached(),
            Fine => segment.fine_reached(),
        }
    }

    fn memory(self) -> Lent {
        match self {
            Regular => Lent::new(5, 5),
            Fine => Lent::new(6, 6),
        }
    }

    fn call(self, s: &Segment, memory: &mut Lent) -> u32 {
        match self {
            Regular => c_api::regular_search(s.modulus, s.step, s.start, s.count, s.window, memory.lend()),
            Fine => c_api::fine_search(s.modulus, s.step, s.start, s.count, s.window, memory.lend()),
        }
    }

    /// What the search has to show.
    fn words(self, reached: &Configuration, (distance, argument): (u64, u64), window: u64) -> Vec<u64> {
        let (count, clear) = (reached.count as u64, (distance >= window) as u64);
        match self {
            Regular => vec![count, reached.index, distance, argument, clear],
            Fine => vec![count, reached.index, reached.part, distance, argument, clear],
        }
    }

    fn wrong<T>(self, segment: &Segment, what: &str) -> Result<T, String> {
        Err(format!("{self:?}, {segment:?}: {what}"))
    }
}

/// The words that a search shows, or none if it refuses; by the reference it has to.
fn shown(search: Search, segment: &Segment) -> Result<Option<Vec<u64>>, String> {
    let (made, mut lent) = (search.memory(), search.memory());
    let number = search.call(segment, &mut lent);
    if number != segment.refusal() {
        return search.wrong(segment, &format!("refusal {number}"));
    }
    if !lent.canaries_live(&made) {
        return search.wrong(segment, "written outside the caller's memory");
    }
    if number != 0 {
        return if lent == made { Ok(None) } else { search.wrong(segment, "memory changed on a refusal") };
    }
    Ok(Some(lent.part().to_vec()))
}

/// The distance, its argument and whether the verdict is clear, of an accepted segment.
fn found(search: Search, segment: &Segment) -> Result<(u64, u64, bool), String> {
    let words = shown(search, segment)?.unwrap();
    let [.., distance, argument, clear] = words[..] else { unreachable!() };
    Ok((distance, argument, clear == 1))
}

/// The segments compared, each once whatever its windows; the windows at which they were compared, how many were refused, and the
/// highest index reached.
#[derive(Default)]
struct Tally {
    segments: HashSet<[u64; 4]>,
    windows: usize,
    refused: usize,
    highest: u64,
}

impl Tally {
    fn add(&mut self, other: &Tally) {
        self.segments.extend(&other.segments);
        self.windows += other.windows;
        self.refused += other.refused;
        self.highest = self.highest.max(other.highest);
    }
}

impl fmt::Display for Tally {
    fn fmt(&self, f: &mut fmt::Formatter) -> fmt::Result {
        write!(f, "{} segments, {} windows", self.segments.len(), self.windows)?;
        if self.refused != 0 {
            write!(f, "; {} refused", self.refused)?;
        }
        Ok(())
    }
}

/// Compares both searches with the reference at the segment's window, at 1 and the modulus, and where a verdict changes; a window of 0 is refused.
fn compare(segment: &Segment, tally: &mut Tally) -> Result<(), String> {
    if segment.refusal() != 0 {
        tally.refused += 1;
        return shown(Regular, segment).and(shown(Fine, segment)).map(drop);
    }
    let [regular, fine] = [Regular, Fine].map(|search| search.reached(segment));
    if regular.index > HIGHEST || fine.count > regular.count {
        return Regular.wrong(segment, "index above 29, or fewer points than the fine search");
    }
    let [regular_least, fine_least] = [regular, fine].map(|reached| segment.least_below(reached.count as u64));
    let (near, far) = (regular_least.0, fine_least.0);
    let mut windows = [segment.window, 0, 1, segment.modulus, near, near + 1, far, far + 1];
    windows.sort();
    for window in windows.chunk_by(|a, b| a == b).map(|equal| equal[0]) {
        let segment = Segment { window, ..*segment };
        for (search, reached, least) in [(Regular, &regular, regular_least), (Fine, &fine, fine_least)] {
            let wanted = (window != 0).then(|| search.words(reached, least, window));
            let has = shown(search, &segment)?;
            if has != wanted {
                return search.wrong(&segment, &format!("{has:?} for {wanted:?}"));
            }
        }
        tally.windows += (window != 0) as usize;
    }
    tally.segments.insert(segment.line());
    tally.highest = tally.highest.max(regular.index);
    Ok(())
}

fn all(segments: impl IntoIterator<Item = Segment>) -> Result<Tally, String> {
    let mut tally = Tally::default();
    for segment in segments {
        compare(&segment, &mut tally)?;
    }
    Ok(tally)
}

/// Compares so many random segments, made of their own seed.
fn random_segments(own: u64, times: usize, make: impl Fn(&mut Random, usize) -> Segment) -> Result<Tally, String> {
    let mut random = Random(SEED + own);
    all((0..times).map(|i| make(&mut random, i)))
}

fn segment([modulus, step, start, count, window]: [u64; 5]) -> Segment {
    Segment { modulus, step, start, count, window }
}

/// A random start and window beside what is given.
fn somewhere(random: &mut Random, modulus: u64, step: u64, count: u64) -> Segment {
    let (start, window) = (random.below(modulus), 1 + random.below((modulus / count).max(1)));
    Segment { modulus, step, start, count, window }
}

/// A modulus and a step with random quotients, one in four of them large, and a common divisor.
fn by_quotients(random: &mut Random) -> (u64, u64) {
    let divisor = random.sized(1 << 32) as u128;
    let (mut modulus, mut step) = (divisor * (2 + random.below(9) as u128), divisor);
    for _ in 0..random.below(60) {
        let quotient = if random.below(4) == 0 { random.sized(1 << 24) } else { 1 + random.below(3) } as u128;
        if modulus * quotient + step > LARGEST as u128 {
            break;
        }
        (modulus, step) = (modulus * quotient + step, modulus);
    }
    (modulus as u64, step as u64)
}

/// Every segment of a modulus up to 24, with counts also above the period.
fn small_segments() -> impl Iterator<Item = Segment> {
    let segments = |modulus| {
        (0..modulus).flat_map(move |step| {
            (0..modulus).flat_map(move |start| {
                (1..modulus + 3).map(move |count| {
                    let window = 1 + (step + start + count) % modulus;
                    Segment { modulus, step, start, count, window }
                })
            })
        })
    };
    (2..=24).flat_map(segments)
}

fn every_small_segment() -> Result<Tally, String> {
    all(small_segments())
}

fn random_moduli_of_every_size() -> Result<Tally, String> {
    random_segments(0, 30_000, |random, _| {
        let modulus = 1 + random.sized(LARGEST - 1);
        let (step, count) = (random.below(modulus), random.sized(MOST));
        somewhere(random, modulus, step, count)
    })
}

fn random_large_moduli() -> Result<Tally, String> {
    random_segments(1, 6_000, |random, _| {
        let modulus = LARGEST - random.below(LARGEST / 2 + 1);
        let (step, count) = (random.below(modulus), random.sized(MOST));
        somewhere(random, modulus, step, count)
    })
}

fn common_divisors_and_powers_of_two() -> Result<Tally, String> {
    random_segments(2, 8_000, |random, i| {
        let divisor = if i % 2 == 0 { 1 << random.below(60) } else { 1 + random.below(1 << 30) };
        let times = if i % 4 < 2 {
            2 << random.below((LARGEST / divisor).ilog2() as u64)
        } else {
            2 + random.below(LARGEST / divisor - 1)
        };
        let (step, count) = (divisor * random.below(times), random.sized(MOST));
        somewhere(random, divisor * times, step, count)
    })
}

fn counts_about_the_period() -> Result<Tally, String> {
    random_segments(3, 10_000, |random, i| {
        let period = 1 + random.sized(MOST / 2 - 1);
        let divisor = random.sized(LARGEST / period);
        let count = [period - 1, period, period + 1, 2 * period, random.sized(MOST), MOST][i % 6];
        let step = divisor * random.below(period);
        somewhere(random, divisor * period, step, count)
    })
}

fn extreme_steps() -> Result<Tally, String> {
    let mut random = Random(SEED + 4);
    let mut moduli = vec![2, 3, 4, 5, 6, 45, 1 << 10, MOST - 1, MOST, MOST + 1, u32::MAX as u64, 1 << 32, 1 << 61];
    moduli.extend([LARGEST - 57, LARGEST - 1, LARGEST]);
    moduli.extend((0..8).map(|_| 1 + random.sized(LARGEST - 1)));
    let mut segments = Vec::new();
    for m in moduli {
        let mut steps = vec![0, 1, 2, 3, m / 3, m / 2 - 1, m / 2, m / 2 + 1, m - 2, m - 1];
        steps.retain(|&step| step < m);
        for step in steps {
            for count in [1, 2, 3, 100, 5000, MOST] {
                let starts = [0, 1, m / 2, m - 1, random.below(m)];
                // The reference is slow at the largest count: it goes through the fine configurations.
                let starts = if count == MOST { &starts[3..] } else { &starts };
                segments.extend(starts.iter().map(|&start| Segment { modulus: m, step, start, count, window: m / 2 }));
            }
        }
    }
    all(segments)
}

fn random_quotients() -> Result<Tally, String> {
    random_segments(5, 12_000, |random, _| {
        let (modulus, step) = by_quotients(random);
        let count = random.sized(MOST);
        somewhere(random, modulus, step, count)
    })
}

/// Counts that a configuration has, and those beside them.
fn counts_of_configurations() -> Result<Tally, String> {
    random_segments(6, 9_000, |random, i| {
        let (modulus, step) = by_quotients(random);
        let rows = reference::rows(modulus, step);
        let low = |configuration: &Configuration| configuration.count < 1 << 13;
        let listed: Vec<_> = if i % 2 == 0 {
            reference::regular_configurations(&rows).take_while(low).collect()
        } else {
            reference::fine_configurations(&rows).take_while(low).collect()
        };
        let count = listed[random.below(listed.len() as u64) as usize].count as u64;
        let count = [count.max(2) - 1, count, count + 1][i % 3];
        somewhere(random, modulus, step, count)
    })
}

/// Starts that a point has, and those beside them: residues 0 and 1, and the largest.
fn starts_at_points() -> Result<Tally, String> {
    random_segments(7, 9_000, |random, i| {
        let (modulus, step) = by_quotients(random);
        let (count, x) = (random.sized(MOST), random.sized(4 * MOST) - 1);
        let point = (step as u128 * x as u128 % modulus as u128) as u64;
        let start = [point, (point + 1) % modulus, (point + modulus - 1) % modulus][i % 3];
        Segment { start, ..somewhere(random, modulus, step, count) }
    })
}

/// Neighbouring Fibonacci numbers, and steps near the golden section of a modulus.
fn golden_pairs() -> Vec<(u64, u64)> {
    let (mut pairs, mut a, mut b) = (Vec::new(), 1u64, 2u64);
    while b <= LARGEST {
        pairs.push((b, a));
        (a, b) = (b, a + b);
    }
    let golden = |modulus: u64| (modulus as u128 * a as u128 / b as u128) as u64;
    pairs.extend([1 << 40, 1 << 61, LARGEST - 1, LARGEST].map(|modulus| (modulus, golden(modulus))));
    pairs
}

/// Golden steps have the longest searches: some reach the highest index.
fn golden_steps() -> Result<Tally, String> {
    let mut random = Random(SEED + 8);
    let mut segments = Vec::new();
    for (modulus, step) in golden_pairs() {
        for count in [1, 2, 3, 4, 5, 6, 89, 90, 10_946, 832_040, 832_041, MOST] {
            segments.extend([step, modulus - step].map(|step| somewhere(&mut random, modulus, step, count)));
        }
    }
    let tally = all(segments)?;
    match tally.highest {
        HIGHEST => Ok(tally),
        highest => Err(format!("the highest index reached is {highest}")),
    }
}

fn largest_count() -> Result<Tally, String> {
    random_segments(9, 3_000, |random, _| {
        let modulus = LARGEST - random.below(LARGEST / 2 + 1);
        let step = random.below(modulus);
        somewhere(random, modulus, step, MOST)
    })
}

/// Every set of conditions in conflict with each other: the lowest number wins.
fn every_set_of_refusals() -> Result<Tally, String> {
    let mut segments = Vec::new();
    for modulus in [0, 1, 2, 45, LARGEST, LARGEST + 1, 1 << 63, u64::MAX - 1] {
        let fields = [0, 1, modulus.wrapping_sub(1), modulus, modulus + 1, u64::MAX];
        for (step, start) in fields.iter().flat_map(|&step| fields.map(|start| (step, start))) {
            for (count, window) in [0, 1, 7, MOST + 1, u64::MAX].iter().flat_map(|&n| fields.map(|w| (n, w))) {
                segments.push(Segment { modulus, step, start, count, window });
            }
        }
    }
    let sets: HashSet<_> = segments.iter().map(Segment::conflicts).collect();
    if sets.len() != 32 {
        return Err(format!("only {} of the 32 sets", sets.len()));
    }
    all(segments)
}

fn extreme_fields() -> Result<Tally, String> {
    let ends = [0, 1, 2, LARGEST, LARGEST + 1, 1 << 63, u64::MAX];
    let counts = [0, 1, 2, MOST, MOST + 1, LARGEST, LARGEST + 1, 1 << 63, u64::MAX];
    let mut segments = Vec::new();
    for (modulus, step) in ends.iter().flat_map(|&m| ends.map(|a| (m, a))) {
        for (start, window) in ends.iter().flat_map(|&b| ends.map(|w| (b, w))) {
            segments.extend(counts.map(|count| Segment { modulus, step, start, count, window }));
        }
    }
    all(segments)
}

fn random_fields_of_every_size() -> Result<Tally, String> {
    let mut random = Random(SEED + 10);
    let mut field = || random.next() >> random.below(64);
    all((0..100_000).map(|_| Segment {
        modulus: field(),
        step: field(),
        start: field(),
        count: field() >> 40,
        window: field(),
    }))
}

/// Where a search is clear, no argument below the count has a residue under the window: by going through them.
fn clear_is_right() -> Result<String, String> {
    let (mut random, mut clear) = (Random(SEED + 11), 0);
    for i in 0..4_000 {
        let (modulus, step) = by_quotients(&mut random);
        let count = random.sized(4096);
        let segment = somewhere(&mut random, modulus, step, count);
        let (least, _) = segment.least(0..count);
        let window = [least.max(1), least + 1, segment.window][i % 3];
        for search in [Regular, Fine] {
            if found(search, &Segment { window, ..segment })?.2 {
                clear += 1;
                if least < window {
                    return search.wrong(&segment, &format!("clear at window {window}, with a residue {least}"));
                }
            }
        }
    }
    Ok(format!("4000 segments, 8000 searches, {clear} of them clear"))
}

/// A segment with a smaller count or window is cleared by the same search and by the fine one.
fn smaller_stays_clear() -> Result<String, String> {
    let (mut random, mut smaller) = (Random(SEED + 12), 0);
    for _ in 0..20_000 {
        let (modulus, step) = by_quotients(&mut random);
        let count = random.sized(MOST);
        let segment = somewhere(&mut random, modulus, step, count);
        for search in [Regular, Fine] {
            // Nothing is clear where the distance is 0.
            let (window, ..) = found(search, &segment)?;
            if window == 0 {
                continue;
            }
            let less = Segment { count: 1 + random.below(count), window: 1 + random.below(window), ..segment };
            for segment in [Segment { window, ..segment }, Segment { window, ..less }, less] {
                smaller += 1;
                if !found(search, &segment)?.2 || !found(Fine, &segment)?.2 {
                    return search.wrong(&segment, "not clear, where a larger one is");
                }
            }
        }
    }
    match smaller {
        110_000.. => Ok(format!("20000 segments, {smaller} pairs of a count and a window")),
        few => Err(format!("only {few} pairs of a count and a window")),
    }
}

/// The table of 14/45 in 000, by hand from 01's definitions and without its row (4, 0): i, t, q(i-1,t), q(i), theta(i-1,t),
/// theta(i), k(i+1).
const TABLE_OF_000: [[u64; 7]; 10] = [
    [0, 0, 0, 1, 45, 14, 3],
    [0, 1, 1, 1, 31, 14, 3],
    [0, 2, 2, 1, 17, 14, 3],
    [1, 0, 1, 3, 14, 3, 4],
    [1, 1, 4, 3, 11, 3, 4],
    [1, 2, 7, 3, 8, 3, 4],
    [1, 3, 10, 3, 5, 3, 4],
    [2, 0, 3, 13, 3, 2, 1],
    [3, 0, 13, 16, 2, 1, 2],
    [3, 1, 29, 16, 1, 1, 2],
];

/// Compares a row with the expansion, and with the gaps between the points of its configuration: q(i) of length theta(i-1,t) and
/// q(i-1,t) of length theta(i).
fn compare_row([i, t, q_before, q, theta_before, theta, k]: [u64; 7]) -> Result<(), String> {
    let [mut remainders, mut denominators, mut quotients] = [[0; ROWS]; 3];
    c_api::expand(45, 14, &mut remainders, &mut denominators, &mut quotients, &mut 0);
    let expanded = [denominators, remainders, quotients].map(|column| column[i as usize]);
    if expanded != [q, theta, k] {
        return Err(format!("row ({i}, {t}): the expansion has {expanded:?}"));
    }
    // The distance is 0 where the start is a point, and grows by 1 from there to the next point.
    let distance = |start| found(Fine, &segment([45, 14, start, q_before + q, 1])).map(|(distance, ..)| distance);
    let distances = (0..45).map(distance).collect::<Result<Vec<_>, _>>()?;
    let mut gaps: Vec<u64> = distances.chunk_by(|one, next| one + 1 == *next).map(|gap| gap.len() as u64).collect();
    gaps.sort();
    if gaps != [vec![theta; q_before as usize], vec![theta_before; q as usize]].concat() {
        return Err(format!("row ({i}, {t}): the gaps are {gaps:?}"));
    }
    Ok(())
}

/// Every row of the table, and the configuration that each count reaches by it, from every start. A regular search reaches the rows
/// with t = 0, then the period.
fn table_of_000() -> Result<Tally, String> {
    TABLE_OF_000.into_iter().try_for_each(compare_row)?;
    let fine: Vec<_> = TABLE_OF_000.iter().map(|[i, t, q_before, q, ..]| vec![q_before + q, *i, *t]).collect();
    let regular = fine.iter().filter(|words| words[2] == 0).map(|words| words[..2].to_vec());
    let regular: Vec<_> = regular.chain([vec![45, 4]]).collect();
    let starts = |count| (0..45).map(move |start| segment([45, 14, start, count, 1]));
    for segment in (1..=60).flat_map(starts) {
        for (search, configurations) in [(Regular, &regular), (Fine, &fine)] {
            let reached = configurations.iter().find(|words| words[0] >= segment.count);
            let (has, wanted) = (shown(search, &segment)?.unwrap(), reached.or(configurations.last()).unwrap());
            if !has.starts_with(wanted) {
                return search.wrong(&segment, &format!("{has:?} for {wanted:?} in front"));
            }
        }
    }
    all((1..=60).flat_map(starts))
}

/// Document 01's examples P2 to P8: modulus, step, start, count, window; the words shown, as far as 01 tells them. It tells no window for P6 to
/// P8: they are run with all from 1 to 45.
fn settled_examples() -> Result<Tally, String> {
    let any = None;
    let examples: [(&str, Search, [u64; 5], &[Option<u64>]); 13] = [
        ("P2", Regular, [45, 14, 44, 16, 1], &[16, 2, 2, 3, 1].map(Some)),
        ("P3", Regular, [45, 14, 44, 17, 1], &[29, 3, 0, 16, 0].map(Some)),
        ("P4", Regular, [45, 14, 8, 5, 1], &[Some(16), any, Some(0), Some(7), Some(0)]),
        ("P4", Fine, [45, 14, 8, 5, 1], &[7, 1, 1, 8, 0, 1].map(Some)),
        ("P5", Regular, [45, 0, 9, 1_048_576, 9], &[1, 0, 9, 0, 1].map(Some)),
        ("P5", Regular, [45, 0, 9, 1_048_576, 10], &[1, 0, 9, 0, 0].map(Some)),
        ("P5", Fine, [45, 0, 9, 1_048_576, 9], &[1, 0, 0, 9, 0, 1].map(Some)),
        ("P5", Fine, [45, 0, 9, 1_048_576, 10], &[1, 0, 0, 9, 0, 0].map(Some)),
        ("P6", Fine, [45, 15, 44, 10, 1], &[Some(3), Some(0), Some(2), Some(14), Some(2), any]),
        ("P7", Regular, [45, 44, 0, 3, 1], &[Some(45), Some(2), any, any, any]),
        ("P7", Fine, [45, 44, 0, 3, 1], &[Some(3), Some(1), Some(1), any, any, any]),
        ("P8", Regular, [45, 14, 44, 1, 1], &[Some(1), any, Some(44), any, any]),
        ("P8", Fine, [45, 14, 44, 1, 1], &[Some(1), any, any, Some(44), any, any]),
    ];
    let mut segments = Vec::new();
    for (name, search, fields, told) in examples {
        let windows = if ["P6", "P7", "P8"].contains(&name) { 1..=45 } else { fields[4]..=fields[4] };
        for segment in windows.map(|window| Segment { window, ..segment(fields) }) {
            let words = shown(search, &segment)?.ok_or(name)?;
            if words.len() != told.len() || words.iter().zip(told).any(|(word, told)| told.is_some_and(|t| t != *word)) {
                return search.wrong(&segment, &format!("{name}: {words:?}"));
            }
            segments.push(segment);
        }
    }
    all(segments)
}

/// Document 01's examples without a mark that concern segments, as 02 leaves them, and a window of 0 (2.3), also beside a count of 0.
fn settled_refusals() -> Result<Tally, String> {
    let refusals = [
        ([1, 0, 0, 1, 1], 1),
        ([2, 0, 0, 1, 1], 0),
        ([45, 14, 44, 0, 1], 4),
        ([45, 14, 44, 1_048_577, 1], 4),
        ([45, 14, 44, 16, 45], 0),
        ([45, 14, 44, 16, 46], 5),
        ([45, 14, 44, 16, 1], 0),
        ([45, 14, 44, 16, 0], 5),
        ([2, 0, 0, 1, 0], 5),
        ([LARGEST, 1, 0, 1_048_576, 0], 5),
        ([45, 14, 44, 0, 0], 4),
    ];
    for (fields, number) in refusals {
        for search in [Regular, Fine] {
            if search.call(&segment(fields), &mut search.memory()) != number {
                return search.wrong(&segment(fields), &format!("not {number}"));
            }
        }
    }
    all(refusals.map(|refusal| segment(refusal.0)))
}

/// What 01 says of the lists, of the reference's: they ascend, both end with the period, the regular counts are among the fine.
fn lists_of_the_reference() -> Result<String, String> {
    let mut lists = 0;
    for (modulus, step) in (2..=200).flat_map(|m| (0..m).map(move |a| (m, a))) {
        let rows = reference::rows(modulus, step);
        let regular: Vec<_> = reference::regular_configurations(&rows).map(|c| c.count).collect();
        let fine: Vec<_> = reference::fine_configurations(&rows).map(|c| c.count).collect();
        let period = Some(reference::period(modulus, step) as u128);
        let ends =
            [&regular, &fine].iter().all(|list| list.is_sorted_by(|a, b| a < b) && list.last().copied() == period);
        if !ends || !regular.iter().all(|count| fine.contains(count)) {
            return Err(format!("modulus {modulus}, step {step}: {regular:?}, {fine:?}"));
        }
        lists += 2;
    }
    Ok(format!("{lists} lists"))
}

/// What the reference counts is what it finds by going through the arguments: the hard ones and the least residue.
fn counts_of_the_reference() -> Result<String, String> {
    let mut random = Random(SEED + 13);
    let some = (0..3_000).map(|i| {
        let (modulus, step) = by_quotients(&mut random);
        let count = random.sized(if i % 500 == 0 { MOST } else { 1 << 14 });
        somewhere(&mut random, modulus, step, count)
    });
    let mut segments = 0;
    for segment in small_segments().chain(some) {
        let count = segment.count;
        let (hard, least) = (segment.hard_below(count, segment.window), segment.least_below(count));
        if hard != segment.hard().len() as u128 || least != segment.least(0..count) {
            return Err(format!("{segment:?}: {hard} hard, {least:?}"));
        }
        segments += 1;
    }
    Ok(format!("{segments} segments"))
}

/// What the reference counts where there are too many arguments to go through. The hard ones up to an argument and from there on add
/// up; a period has every residue that differs from the start by a multiple of gcd(a, M), which is M / P.
fn far_counts_of_the_reference() -> Result<String, String> {
    let mut random = Random(SEED + 14);
    let ends = [LARGEST - 1, LARGEST].map(|m| [0, 1, 2, m / 2, m / 2 + 1, m - 2, m - 1].map(|step| (m, step)));
    let mut pairs: Vec<_> = ends.concat().into_iter().chain(golden_pairs()).collect();
    pairs.extend((0..2_000).map(|_| by_quotients(&mut random)));
    for &(modulus, step) in &pairs {
        let period = reference::rows(modulus, step).last().unwrap().denominator as u64;
        for start in [0, modulus - 1, random.below(modulus)] {
            let (x, window) = (random.below(LARGEST), random.below(modulus + 1));
            let segment = Segment { modulus, step, start, count: 1, window };
            let rest = Segment { start: segment.residue(x), ..segment };
            let [all, before, after] =
                [(segment, LARGEST), (segment, x), (rest, LARGEST - x)].map(|(s, n)| s.hard_below(n, window));
            if all != before + after {
                return Err(format!("{segment:?}: {all} hard, {before} below {x} and {after} from there on"));
            }
            let (least, argument) = segment.least_below(period);
            if least != start % (modulus / period) || segment.residue(argument) != least || argument >= period {
                return Err(format!("{segment:?}: {least} at {argument} below {period}"));
            }
        }
    }
    Ok(format!("{} segments", 3 * pairs.len()))
}

fn main() {
    let mut run = Run::start();
    let tests: [(&str, fn() -> Result<Tally, String>); 17] = [
        ("every modulus up to 24", every_small_segment),
        ("random moduli of every size", random_moduli_of_every_size),
        ("random moduli from 2^61 to 2^62", random_large_moduli),
        ("common divisors and powers of two", common_divisors_and_powers_of_two),
        ("counts about the period", counts_about_the_period),
        ("extreme steps", extreme_steps),
        ("random quotients, some large", random_quotients),
        ("counts of configurations", counts_of_configurations),
        ("starts at points", starts_at_points),
        ("golden steps, to index 29", golden_steps),
        ("count 2^20", largest_count),
        ("every set of refusals", every_set_of_refusals),
        ("extreme fields", extreme_fields),
        ("random fields of every size", random_fields_of_every_size),
        ("table of 14/45", table_of_000),
        ("settled examples", settled_examples),
        ("settled refusals", settled_refusals),
    ];
    let mut sum = Tally::default();
    for (name, test) in tests {
        let result = test();
        sum.add(result.as_ref().unwrap_or(&Tally::default()));
        run.count(name, result);
    }
    run.count("clear is right", clear_is_right());
    run.count("smaller stays clear", smaller_stays_clear());
    run.reference("lists of configurations", lists_of_the_reference());
    run.reference("hard and least residues, counted", counts_of_the_reference());
    run.reference("the same, too far to go through", far_counts_of_the_reference());
    let enough = sum.segments.len() >= 200_000;
    run.count("as many as meant", if enough { Ok(sum) } else { Err(format!("only {sum}")) });
    run.end()
}
