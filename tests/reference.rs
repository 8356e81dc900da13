//! Document 01's definitions, as document 02 changes and completes them, computed as they stand there: nothing here knows how the calls find their
//! answers. Only residues that may be too many to go through are counted by a floor sum. Wide numbers, so that nothing can wrap.

// Each program uses some of them.
#![allow(dead_code)]

use std::ops::Range;

/// The largest modulus.
pub const LARGEST: u64 = 1 << 62;

/// The largest count.
pub const MOST: u64 = 1 << 20;

/// The size of the largest curve.
pub const LARGEST_CURVE: i64 = 1 << 20;

/// The largest origin.
pub const LARGEST_ORIGIN: u64 = 1 << 52;

/// The places that the job program has for hard arguments, and as many for their values.
pub const PLACES: usize = 4096;

/// A condition of the table: its number, and whether it applies.
pub type Condition = (u32, bool);

/// The refusal by conditions in the order in which they are asked: the number of the first that applies, 0 where none does. 01 asks
/// them in the order of their numbers; 02 says of each later one where it stands.
pub fn refusal(conditions: &[Condition]) -> u32 {
    conditions.iter().find(|(_, applies)| *applies).map_or(0, |(number, _)| *number)
}

/// The refusal of a call that lists the hard arguments and their values: its other one, or 7 where they are more than the places of the
/// list, or than those of the values.
pub fn listing_refusal(other: u32, hard: usize, list_places: usize, value_places: usize) -> u32 {
    if other == 0 && (hard > list_places || hard > value_places) {
        7
    } else {
        other
    }
}

/// The table's condition 1.
pub fn modulus_outside(modulus: u64) -> bool {
    !(2..=LARGEST).contains(&modulus)
}

/// The refusal of a modulus and a step, 0 where there is none.
pub fn pair_refusal(modulus: u64, step: u64) -> u32 {
    refusal(&[(1, modulus_outside(modulus)), (2, step >= modulus)])
}

/// A row of the expansion: theta(i), q(i), k(i+1).
pub struct Row {
    pub remainder: u128,
    pub denominator: u128,
    pub quotient: u128,
}

/// The rows 0 to m, the last k written 0.
pub fn rows(modulus: u64, step: u64) -> Vec<Row> {
    let (mut before, mut remainder) = (modulus as u128, step as u128);
    let (mut denominator_before, mut denominator) = (0u128, 1u128);
    let mut rows = Vec::new();
    while remainder != 0 {
        let quotient = before / remainder;
        rows.push(Row { remainder, denominator, quotient });
        (before, remainder) = (remainder, before - quotient * remainder);
        (denominator_before, denominator) = (denominator, denominator_before + quotient * denominator);
    }
    rows.push(Row { remainder: 0, denominator, quotient: 0 });
    rows
}

/// The first x after 0 at which the multiples of the step modulo the modulus are 0 again, found by going through them.
pub fn period(modulus: u64, step: u64) -> u64 {
    (1..).find(|x| step as u128 * *x as u128 % modulus as u128 == 0).unwrap()
}

/// 02's conditions on a list of digits: m of them, d(0) < k(1), d(i) <= k(i+1), and d(i-1) = 0 where d(i) = k(i+1).
pub fn allowed(rows: &[Row], digits: &[u64]) -> bool {
    let most = |i: usize| rows[i].quotient;
    digits.len() == rows.len() - 1
        && digits.iter().enumerate().all(|(i, &d)| (d as u128) < most(i) + u128::from(i > 0))
        && (1..digits.len()).all(|i| (digits[i] as u128) < most(i) || digits[i - 1] == 0)
}

/// The sum of d(i)*q(i).
pub fn digit_sum(rows: &[Row], digits: &[u64]) -> u128 {
    digits.iter().zip(rows).map(|(&d, row)| d as u128 * row.denominator).sum()
}

/// The sum of d(i)*theta(i), the terms of odd rows subtracted, modulo the modulus.
pub fn digit_residue(modulus: u64, rows: &[Row], digits: &[u64]) -> u64 {
    let term = |(i, (&d, row)): (usize, (&u64, &Row))| {
        let term = d as i128 * row.remainder as i128;
        if i % 2 == 0 {
            term
        } else {
            -term
        }
    };
    digits.iter().zip(rows).enumerate().map(term).sum::<i128>().rem_euclid(modulus as i128) as u64
}

/// Every list of digits that is allowed.
pub fn allowed_lists(rows: &[Row]) -> Vec<Vec<u64>> {
    let mut lists = vec![vec![]];
    for row in &rows[..rows.len() - 1] {
        lists = lists
            .into_iter()
            .flat_map(|list| (0..=row.quotient as u64).map(move |d| [&list[..], &[d]].concat()))
            .collect();
        let length = lists[0].len();
        lists.retain(|list| allowed(&rows[..=length], list));
    }
    lists
}

/// a*x mod M.
pub fn multiple(modulus: u64, step: u64, x: u64) -> u64 {
    (step as u128 * x as u128 % modulus as u128) as u64
}

/// A configuration (01: a rung): its count of points and its label, of which a regular one has only the index.
#[derive(Clone, Copy, Debug, PartialEq)]
pub struct Configuration {
    pub count: u128,
    pub index: u64,
    pub part: u64,
}

/// q(i-1).
fn denominator_before(rows: &[Row], i: usize) -> u128 {
    i.checked_sub(1).map_or(0, |before| rows[before].denominator)
}

/// q(i) + q(i-1) for each i with theta(i) not 0, then the period with index m.
pub fn regular_configurations(rows: &[Row]) -> impl Iterator<Item = Configuration> + '_ {
    rows.iter().enumerate().map(|(i, row)| {
        let before = if row.remainder == 0 { 0 } else { denominator_before(rows, i) };
        Configuration { count: row.denominator + before, index: i as u64, part: 0 }
    })
}

/// q(i) + q(i-1) + t·q(i) for each i with theta(i) not 0 and t from 0 to k(i+1) - 1;
/// where the step is 0, the one configuration 1. They are made one by one as they are asked for: there may be 2^62 of them.
pub fn fine_configurations(rows: &[Row]) -> impl Iterator<Item = Configuration> + '_ {
    let alone = (rows.len() == 1).then_some(Configuration { count: 1, index: 0, part: 0 });
    alone.into_iter().chain(rows.iter().enumerate().flat_map(|(i, row)| {
        let first = row.denominator + denominator_before(rows, i);
        let count = move |t| first + t * row.denominator;
        (0..row.quotient).map(move |t| Configuration { count: count(t), index: i as u64, part: t as u64 })
    }))
}

/// The first configuration not below the count, or the last one, which is the period.
pub fn reached(configurations: impl Iterator<Item = Configuration>, count: u64) -> Configuration {
    let mut last = None;
    for configuration in configurations {
        last = Some(configuration);
        if configuration.count >= count as u128 {
            break;
        }
    }
    last.unwrap()
}

/// The sum of (a·x + b) / m, rounded down, over the x below n: as many points of a grid stand under a line. Where its slope is less
/// than 1, they are counted row by row from the top, which is such a sum again, with smaller numbers.
///
/// Nothing wraps where n and m are at most 2^62, a at most m and b below 2m. The next n and m are no larger, as `top` is below
/// (n + 1)·m; so a product of two numbers is at most 2^124, and `whole` is a part of the first sum, of n terms up to n.
fn floor_sum(n: u128, m: u128, a: u128, b: u128) -> u128 {
    if n == 0 {
        return 0;
    }
    let whole = n * (n - 1) / 2 * (a / m) + n * (b / m);
    let (a, b) = (a % m, b % m);
    let top = a * n + b;
    whole + floor_sum(top / m, a, m, top % m)
}

/// The first number below the end at which something holds, by halving: it holds from there on, and at the last.
pub fn first(end: u64, holds: impl Fn(u64) -> bool) -> u64 {
    let (mut low, mut high) = (0, end - 1);
    while low < high {
        let middle = (low + high) / 2;
        if holds(middle) {
            high = middle;
        } else {
            low = middle + 1;
        }
    }
    low
}

#[derive(Clone, Copy, Debug)]
pub struct Segment {
    pub modulus: u64,
    pub step: u64,
    pub start: u64,
    pub count: u64,
    pub window: u64,
}

impl Segment {
    /// The table's conditions 1 to 5.
    pub fn conflicts(&self) -> [Condition; 5] {
        [
            (1, modulus_outside(self.modulus)),
            (2, self.step >= self.modulus),
            (3, self.start >= self.modulus),
            (4, !(1..=MOST).contains(&self.count)),
            (5, !(1..=self.modulus).contains(&self.window)),
        ]
    }

    pub fn refusal(&self) -> u32 {
        refusal(&self.conflicts())
    }

    /// The segment without its window.
    pub fn line(&self) -> [u64; 4] {
        [self.modulus, self.step, self.start, self.count]
    }

    /// (b - a·x) mod M.
    pub fn residue(&self, x: u64) -> u64 {
        (self.start as i128 - self.step as i128 * x as i128).rem_euclid(self.modulus as i128) as u64
    }

    /// The least residue over the x of a range and the x that has it, by going through them all.
    pub fn least(&self, range: Range<u64>) -> (u64, u64) {
        range.map(|x| (self.residue(x), x)).min().unwrap()
    }

    /// How many x below n have a residue less than the window, without going through them. With y = b + (M - a)·x, the quotients of
    /// y + M and of y + M - w by M differ by 1 where y mod M < w, and else not.
    pub fn hard_below(&self, n: u64, window: u64) -> u128 {
        let [n, m, a, b] = [n, self.modulus, self.step, self.start].map(u128::from);
        floor_sum(n, m, m - a, b + m) - floor_sum(n, m, m - a, b + m - window as u128)
    }

    /// The least residue over the x below n and the first x that has it, both by such counts alone: neither the rows nor the
    /// configurations are used.
    pub fn least_below(&self, n: u64) -> (u64, u64) {
        let least = first(self.modulus, |residue| self.hard_below(n, residue + 1) > 0);
        (least, first(n, |x| self.hard_below(x + 1, least + 1) > 0))
    }

    /// The configuration that the regular search reaches.
    pub fn regular_reached(&self) -> Configuration {
        reached(regular_configurations(&rows(self.modulus, self.step)), self.count)
    }

    /// The configuration that the fine search reaches.
    pub fn fine_reached(&self) -> Configuration {
        reached(fine_configurations(&rows(self.modulus, self.step)), self.count)
    }

    /// The verdict clear of the search that reaches it: no residue below its count is less than the window.
    pub fn clear(&self, reached: &Configuration) -> bool {
        self.hard_below(reached.count as u64, self.window) == 0
    }

    /// The hard arguments, by going through them all.
    pub fn hard(&self) -> Vec<u64> {
        (0..self.count).filter(|&x| self.residue(x) < self.window).collect()
    }

    /// The values beside the list: the residue of each hard argument.
    pub fn values(&self, hard: &[u64]) -> Vec<u64> {
        hard.iter().map(|&x| self.residue(x)).collect()
    }
}

#[derive(Clone, Copy, Debug)]
pub struct Domain {
    pub origin: u64,
    pub modulus: u64,
    pub value: u64,
    pub slope: u64,
    pub curve: i64,
    pub count: u64,
    pub window: u64,
}

impl Domain {
    /// The table's conditions 1 to 6, and 11, which 02 puts after 6 and before 7. 1 to 5 are a segment's, with the slope for its step
    /// and the value for its start.
    pub fn conflicts(&self) -> [Condition; 7] {
        let Domain { origin, modulus, value, slope, curve, count, window } = *self;
        let [first, second, third, fourth, fifth] =
            Segment { modulus, step: slope, start: value, count, window }.conflicts();
        let sixth = (6, !(-LARGEST_CURVE..=LARGEST_CURVE).contains(&curve));
        [first, second, third, fourth, fifth, sixth, (11, origin > LARGEST_ORIGIN)]
    }

    pub fn refusal(&self) -> u32 {
        refusal(&self.conflicts())
    }

    /// A number modulo the modulus.
    fn reduced(&self, number: i128) -> u64 {
        number.rem_euclid(self.modulus as i128) as u64
    }

    /// The domain without its origin and its window.
    pub fn parabola(&self) -> [u64; 5] {
        [self.modulus, self.value, self.slope, self.curve as u64, self.count]
    }

    /// V(x) = (c0 + c1·x + s·x(x-1)/2) mod M.
    pub fn value_at(&self, x: u64) -> u64 {
        let (value, slope, curve, x) = (self.value as i128, self.slope as i128, self.curve as i128, x as i128);
        self.reduced(value + slope * x + curve * (x * (x - 1) / 2))
    }

    /// The distance of V(x) to the nearest multiple of M.
    pub fn distance(&self, x: u64) -> u64 {
        let value = self.value_at(x);
        value.min(self.modulus - value)
    }

    /// Hard on either side: that distance is less than w.
    pub fn is_hard(&self, x: u64) -> bool {
        self.distance(x) < self.window
    }

    /// The hard arguments x, by going through them all.
    pub fn hard(&self) -> Vec<u64> {
        (0..self.count).filter(|&x| self.is_hard(x)).collect()
    }

    /// The list of the hard arguments: origin + x for each.
    pub fn list(&self, hard: &[u64]) -> Vec<u64> {
        hard.iter().map(|&x| self.origin + x).collect()
    }

    /// The values beside the list: V(x) for each, whatever the origin is.
    pub fn values(&self, hard: &[u64]) -> Vec<u64> {
        hard.iter().map(|&x| self.value_at(x)).collect()
    }

    /// D = |s|·N(N-1)/2.
    pub fn deviation(&self) -> i128 {
        let (curve, count) = (self.curve as i128, self.count as i128);
        curve.abs() * (count * (count - 1) / 2)
    }

    /// The covering segment, by 02: the start gains w - 1, and the window is the smaller of M and 2w - 1 + D.
    pub fn covering(&self) -> Segment {
        let (deviation, w) = (self.deviation(), self.window as i128);
        let start = if self.curve >= 0 { self.value as i128 + deviation } else { self.value as i128 };
        Segment {
            modulus: self.modulus,
            step: self.reduced(-(self.slope as i128)),
            start: self.reduced(start + w - 1),
            count: self.count,
            window: (2 * w - 1 + deviation).min(self.modulus as i128) as u64,
        }
    }

    /// Where the eight parts begin, and where the last one ends: each has the count divided by eight, rounded down, and the first ones
    /// take one more until the rest is used up.
    pub fn starts(&self) -> [u64; 9] {
        let (mut starts, mut rest) = ([0; 9], self.count % 8);
        for i in 0..8 {
            let one_more = rest.min(1);
            rest -= one_more;
            starts[i + 1] = starts[i] + self.count / 8 + one_more;
        }
        starts
    }

    /// The eight parts, domains of their own, some of which may have no argument. The one that begins at h has the domain's origin + h
    /// for its own.
    pub fn parts(&self) -> [Domain; 8] {
        let starts = self.starts();
        [0, 1, 2, 3, 4, 5, 6, 7].map(|part| {
            let h = starts[part];
            let slope = self.reduced(self.slope as i128 + self.curve as i128 * h as i128);
            let (origin, value, count) = (self.origin + h, self.value_at(h), starts[part + 1] - h);
            Domain { origin, value, slope, count, ..*self }
        })
    }

    /// Phase 1's verdict: whether the regular search clears the covering segment.
    pub fn cleared(&self) -> bool {
        let covering = self.covering();
        covering.clear(&covering.regular_reached())
    }

    /// The marks: all 0 where phase 1 clears the domain; else 3 for a part without arguments, 1 for one whose covering segment the fine
    /// search clears, and 2 for another.
    pub fn marks(&self) -> [u8; 8] {
        if self.cleared() {
            return [0; 8];
        }
        self.parts().map(|part| {
            if part.count == 0 {
                return 3;
            }
            let covering = part.covering();
            if covering.clear(&covering.fine_reached()) {
                1
            } else {
                2
            }
        })
    }

    /// The lines of the domain's job but the origin's.
    fn six_lines(&self) -> String {
        let Domain { modulus, value, slope, curve, count, window, .. } = self;
        format!("modulus={modulus}\nvalue={value}\nslope={slope}\ncurve={curve}\ncount={count}\nwindow={window}\n")
    }

    /// The text of the domain's job on seven lines, the origin's first.
    pub fn text_with_origin(&self) -> String {
        format!("origin={}\n{}", self.origin, self.six_lines())
    }

    /// The text of the domain's job: on six lines where the origin is 0, and else on seven.
    pub fn text(&self) -> String {
        if self.origin == 0 {
            self.six_lines()
        } else {
            self.text_with_origin()
        }
    }

    /// What the job program prints for either text.
    pub fn printed(&self) -> String {
        let hard = if self.refusal() == 0 { self.hard() } else { vec![] };
        let refusal = listing_refusal(self.refusal(), hard.len(), PLACES, PLACES);
        if refusal != 0 {
            return format!("refused={refusal}\n");
        }
        let first = if self.cleared() { "cleared" } else { "possible" };
        let marks = self.marks().map(|mark| mark.to_string()).concat();
        let lines = self.list(&hard).into_iter().zip(self.values(&hard));
        let lines: String = lines.map(|(argument, value)| format!("argument={argument} value={value}\n")).collect();
        format!("first={first}\nparts={marks}\nlisted={}\n{lines}", hard.len())
    }
}

/// The range of a list between two bounds (01: the cut-out), as its start and its count.
pub fn range(list: &[u64], lo: u64, hi: u64) -> (usize, usize) {
    if lo > hi || !list.windows(2).all(|pair| pair[0] < pair[1]) {
        return (0, 0);
    }
    let below = list.iter().filter(|&&argument| argument < lo).count();
    let between = list.iter().filter(|&&argument| lo <= argument && argument < hi).count();
    (below, between)
}
