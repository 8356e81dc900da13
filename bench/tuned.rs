//! Both searches in unverified Rust, as fast as we know to make them, with the same refusals and answers as the proved calls.
//!
//! Two rows a turn, so that none asks whether it is even, and hints that no branch is meant. Each search comes in three versions. One
//! divides by the instruction, which is the fastest where that takes some fifteen cycles. The others are faster on some processors:
//! the only branch in a row that is hard to foresee is on the size of its quotient, and below 8, as five in six are, it is found by
//! three selects; those from 8 up by the instruction, or by one reciprocal in floating-point numbers for both divisions of a row,
//! which have the same divisor.

use std::hint::select_unpredictable as select;

/// A divisor, made ready to divide the lengths of a row.
pub trait Divisor: Copy {
    fn new(divisor: u64) -> Self;

    /// Quotient and remainder.
    fn divide(self, number: u64) -> (u64, u64);
}

/// For quotients below 2^BITS; the divisor times 2^(BITS - 1) is at most 2^63.
#[derive(Clone, Copy)]
struct Selects<const BITS: u32>(u64);

impl<const BITS: u32> Divisor for Selects<BITS> {
    #[inline(always)]
    fn new(divisor: u64) -> Self {
        Selects(divisor)
    }

    #[inline(always)]
    fn divide(self, number: u64) -> (u64, u64) {
        let (mut quotient, mut rest) = (0, number);
        for bit in (0..BITS).rev() {
            let less = rest.wrapping_sub(self.0 << bit);
            let under = (less as i64) < 0;
            quotient += quotient + !under as u64;
            rest = select(under, rest, less);
        }
        (quotient, rest)
    }
}

/// What a search does with the quotients from 8 up. A reciprocal, by which numbers up to 2^62 are multiplied, is a little too small:
/// a quotient is found right or one too small.
pub trait Large: Divisor {
    /// For quotients below 2^BITS.
    const BITS: u32;

    /// Whether small quotients are found by selects.
    const SELECTS: bool = true;
}

/// Quotient and remainder, from a quotient that is right or one too small.
#[inline(always)]
fn correct(number: u64, divisor: u64, quotient: u64) -> (u64, u64) {
    let rest = number.wrapping_sub(quotient.wrapping_mul(divisor));
    let less = rest.wrapping_sub(divisor);
    let under = (less as i64) < 0;
    (quotient + !under as u64, select(under, rest, less))
}

/// The reciprocal as a floating-point number.
#[derive(Clone, Copy)]
pub struct Float {
    divisor: u64,
    reciprocal: f64,
}

impl Divisor for Float {
    #[inline(always)]
    fn new(divisor: u64) -> Self {
        const LESS: f64 = 1.0 - 1.0 / (1u64 << 50) as f64;
        Float { divisor, reciprocal: LESS / divisor as i64 as f64 }
    }

    #[inline(always)]
    fn divide(self, number: u64) -> (u64, u64) {
        // The product is from 0 to 2^40.
        let quotient = unsafe { (number as i64 as f64 * self.reciprocal).to_int_unchecked::<i64>() } as u64;
        correct(number, self.divisor, quotient)
    }
}

impl Large for Float {
    const BITS: u32 = 40;
}

/// The division instruction: for all other quotients, or for all from 8 up, or, without selects, for every one.
#[derive(Clone, Copy)]
pub struct Instruction<const SELECTS: bool>(u64);

impl<const SELECTS: bool> Divisor for Instruction<SELECTS> {
    #[inline(always)]
    fn new(divisor: u64) -> Self {
        Instruction(divisor)
    }

    #[inline(always)]
    fn divide(self, number: u64) -> (u64, u64) {
        (number / self.0, number % self.0)
    }
}

impl<const SELECTS: bool> Large for Instruction<SELECTS> {
    const BITS: u32 = 63;
    const SELECTS: bool = SELECTS;
}

/// The divisions of a row: how often the long gaps can be cut and what that leaves of them; how many cuts are passed on the way
/// from the end where they begin to the start, and what is left of the way.
struct Row {
    cuts: u64,
    rest: u64,
    passed: u64,
    left: u64,
}

impl Row {
    /// Of a search's last row, how many cuts it makes: as many as leave something of a long gap, and in a fine search no more than
    /// the count needs.
    #[inline(always)]
    fn part<const FINE: bool>(&self, longs: u64, shorts: u64, count: u64) -> u64 {
        let all = self.cuts - (self.rest == 0) as u64;
        if FINE {
            // Less than 2^20 both.
            all.min(((count - shorts - 1) as u32 / longs as u32) as u64)
        } else {
            all
        }
    }

    /// The label after so many of the cuts; a regular search's has only the index, of the next row.
    #[inline(always)]
    fn label<const FINE: bool>(&self, index: u64, part: u64) -> (u64, u64) {
        let whole = !FINE || part == self.cuts;
        (index + whole as u64, select(whole, 0, part))
    }
}

/// A configuration of u gaps of length q and v gaps of length p (000's letters), with the point nearest to the start from below:
/// its argument x and its distance d. Even rows cut the gaps q from the left, odd rows the gaps p from the right.
struct Gaps {
    p: u64,
    q: u64,
    u: u64,
    v: u64,
    x: u64,
    d: u64,
}

/// Calls a row with the divisor that suits the quotient of two lengths.
macro_rules! row {
    ($gaps:ident.$row:ident($count:ident), $long:ident / $short:ident below 2^$bits:literal) => {
        if R::SELECTS && $gaps.$short > $gaps.$long >> $bits {
            $gaps.$row::<Selects<$bits>>($count)
        } else if $gaps.$short > $gaps.$long >> R::BITS {
            $gaps.$row::<R>($count)
        } else {
            $gaps.$row::<Instruction<true>>($count)
        }
    };
}

impl Gaps {
    #[inline(always)]
    fn start(modulus: u64, step: u64, start: u64) -> Self {
        Gaps { p: step, q: modulus, u: 1, v: 0, x: 0, d: start }
    }

    /// An even row, or its divisions alone where it reaches the count or the period and so is the last one. One cut may be enough to
    /// reach the count: that test does not wait for the divisions.
    #[inline(always)]
    fn even<D: Divisor>(&mut self, count: u64) -> Option<Row> {
        let by = D::new(self.p);
        let (cuts, rest) = by.divide(self.q);
        let (passed, left) = by.divide(self.d);
        let all = self.v + cuts * self.u;
        if self.v + 2 * self.u >= count || all + self.u >= count || rest == 0 {
            return Some(Row { cuts, rest, passed, left });
        }
        self.q = rest;
        self.v = all;
        self.d = left;
        self.x += passed * self.u;
        None
    }

    /// An odd row, in the same way. All cuts are passed from the end where they stop, so that the remainder is the new distance.
    #[inline(always)]
    fn odd<D: Divisor>(&mut self, count: u64) -> Option<Row> {
        let by = D::new(self.q);
        let (cuts, rest) = by.divide(self.p);
        let all = self.u + cuts * self.v;
        if self.u + 2 * self.v >= count || all + self.v >= count || rest == 0 {
            // One less than the way: a cut at the start itself is not passed.
            let (passed, left) = by.divide(self.p - 1 - self.d);
            return Some(Row { cuts, rest, passed, left });
        }
        let (back, left) = by.divide(self.d.saturating_sub(rest));
        let stays = self.d < rest || self.x >= self.v;
        self.d = select(stays, self.d, left);
        self.x += select(stays, 0, self.u + (cuts - back) * self.v);
        self.p = rest;
        self.u = all;
        None
    }

    /// The last row, if even; answers the label.
    #[inline(always)]
    fn end_even<const FINE: bool>(&mut self, row: Row, index: u64, count: u64) -> (u64, u64) {
        let part = row.part::<FINE>(self.u, self.v, count);
        let moves = row.passed.min(part);
        self.v += part * self.u;
        self.d -= moves * self.p;
        self.x += moves * self.u;
        row.label::<FINE>(index, part)
    }

    /// The last row, if odd.
    #[inline(always)]
    fn end_odd<const FINE: bool>(&mut self, row: Row, index: u64, count: u64) -> (u64, u64) {
        let part = row.part::<FINE>(self.v, self.u, count);
        let stays = row.passed >= part || self.x >= self.v;
        self.d = select(stays, self.d, self.q - 1 - row.left);
        self.x += select(stays, 0, self.u + self.v + row.passed * self.v);
        self.u += part * self.v;
        row.label::<FINE>(index, part)
    }
}

/// The refusals of the calls.
#[inline(always)]
pub fn refusal(modulus: u64, step: u64, start: u64, count: u64, window: u64) -> u32 {
    if modulus < 2 || modulus > 1 << 62 {
        1
    } else if step >= modulus {
        2
    } else if start >= modulus {
        3
    } else if count < 1 || count > 1 << 20 {
        4
    } else if window < 1 || window > modulus {
        5
    } else {
        0
    }
}

/// The rows of a search to the last one, which gives the label.
#[inline(always)]
fn rows<R: Large, const FINE: bool>(gaps: &mut Gaps, count: u64) -> (u64, u64) {
    if count == 1 || gaps.p == 0 {
        return (0, 0);
    }
    let mut index = 0;
    let mut last = row!(gaps.even(count), q / p below 2^2);
    loop {
        if let Some(row) = last {
            return gaps.end_even::<FINE>(row, index, count);
        }
        if let Some(row) = row!(gaps.odd(count), p / q below 2^3) {
            return gaps.end_odd::<FINE>(row, index + 1, count);
        }
        index += 2;
        last = row!(gaps.even(count), q / p below 2^3);
    }
}

#[inline(never)]
pub fn regular<R: Large>(modulus: u64, step: u64, start: u64, count: u64, window: u64, shown: &mut [u64; 5]) -> u32 {
    let refusal = refusal(modulus, step, start, count, window);
    if refusal == 0 {
        let mut gaps = Gaps::start(modulus, step, start);
        let (index, _) = rows::<R, false>(&mut gaps, count);
        *shown = [gaps.u + gaps.v, index, gaps.d, gaps.x, (gaps.d >= window) as u64];
    }
    refusal
}

#[inline(never)]
pub fn fine<R: Large>(modulus: u64, step: u64, start: u64, count: u64, window: u64, shown: &mut [u64; 6]) -> u32 {
    let refusal = refusal(modulus, step, start, count, window);
    if refusal == 0 {
        let mut gaps = Gaps::start(modulus, step, start);
        let (index, part) = rows::<R, true>(&mut gaps, count);
        *shown = [gaps.u + gaps.v, index, part, gaps.d, gaps.x, (gaps.d >= window) as u64];
    }
    refusal
}
