//! The proved searches written in Rust and unverified: what the same algorithm takes without its proofs. The functions are those of
//! crates/segment/src, under older names and in an older shape. Written in the present one, the Rust compiler makes them some 5% slower, so
//! this is the stricter comparison. The search for the distance alone has the present shape, but for the
//! index and the budget, and a hint that no branch is meant.

use std::hint::select_unpredictable;

#[derive(Clone, Copy)]
struct State {
    long: u64,
    short: u64,
    longs: u64,
    shorts: u64,
    argument: u64,
    distance: u64,
    part: u64,
    index: u32,
    done: bool,
}

#[derive(Clone, Copy)]
struct Cuts {
    number: u64,
    rest: u64,
}

#[derive(Clone, Copy)]
struct Moved {
    argument: u64,
    distance: u64,
}

#[inline(always)]
fn first(modulus: u64, step: u64, start: u64, count: u64) -> State {
    State {
        long: modulus,
        short: step,
        longs: 1,
        shorts: 0,
        argument: 0,
        distance: start,
        part: 0,
        index: 0,
        done: step == 0 || count <= 1,
    }
}

#[inline(always)]
fn regular_even(state: State, count: u64) -> State {
    let row = divide(state);
    if row.rest == 0 {
        return next_row(state, cut(state, row.number - 1), carry_all_left(state), true);
    }
    next_row(state, row, carry_all_left(state), reaches(state, row, count))
}

#[inline(always)]
fn regular_odd(state: State, count: u64) -> State {
    let row = divide(state);
    if row.rest == 0 {
        let all = cut(state, row.number - 1);
        return next_row(state, all, carry_right(state, all), true);
    }
    next_row(state, row, carry_right(state, row), reaches(state, row, count))
}

#[inline(always)]
fn fine_even(state: State, count: u64) -> State {
    let row = divide(state);
    let moved = carry_all_left(state);
    if ends(state, row, count) {
        let cuts = cut(state, cuts_to(state, row, count));
        return end(state, cuts, carry_left(state, cuts), cuts.number == row.number);
    }
    next_row(state, row, moved, false)
}

#[inline(always)]
fn fine_odd(state: State, count: u64) -> State {
    let row = divide(state);
    if ends(state, row, count) {
        let cuts = cut(state, cuts_to(state, row, count));
        return end(state, cuts, carry_right(state, cuts), cuts.number == row.number);
    }
    next_row(state, row, carry_right(state, row), false)
}

#[inline(always)]
fn divide(state: State) -> Cuts {
    Cuts { number: state.long / state.short, rest: state.long % state.short }
}

#[inline(always)]
fn cut(state: State, number: u64) -> Cuts {
    Cuts { number, rest: state.long - number * state.short }
}

#[inline(always)]
fn ends(state: State, row: Cuts, count: u64) -> bool {
    count <= state.shorts + 2 * state.longs || row.rest == 0 || reaches(state, row, count)
}

#[inline(always)]
fn reaches(state: State, row: Cuts, count: u64) -> bool {
    count <= state.shorts + row.number * state.longs + state.longs
}

#[inline(always)]
fn cuts_to(state: State, row: Cuts, count: u64) -> u64 {
    all_cuts(row).min((count - state.shorts - 1) / state.longs)
}

#[inline(always)]
fn all_cuts(row: Cuts) -> u64 {
    if row.rest == 0 {
        row.number - 1
    } else {
        row.number
    }
}

#[inline(always)]
fn carry_all_left(state: State) -> Moved {
    Moved { argument: state.argument + state.distance / state.short * state.longs, distance: state.distance % state.short }
}

#[inline(always)]
fn carry_left(state: State, cuts: Cuts) -> Moved {
    let moves = cuts.number.min(state.distance / state.short);
    Moved { argument: state.argument + moves * state.longs, distance: state.distance - moves * state.short }
}

#[inline(always)]
fn carry_right(state: State, cuts: Cuts) -> Moved {
    let over = state.distance.saturating_sub(cuts.rest);
    let argument = state.argument + (state.shorts + cuts.number * state.longs - over / state.short * state.longs);
    let distance = over % state.short;
    // In two tests: of one with both conditions the compiler makes a branch.
    if state.longs <= state.argument {
        return Moved { argument: state.argument, distance: state.distance };
    }
    if state.distance < cuts.rest {
        return Moved { argument: state.argument, distance: state.distance };
    }
    Moved { argument, distance }
}

#[inline(always)]
fn next_row(state: State, cuts: Cuts, moved: Moved, done: bool) -> State {
    State {
        long: state.short,
        short: cuts.rest,
        longs: state.shorts + cuts.number * state.longs,
        shorts: state.longs,
        argument: moved.argument,
        distance: moved.distance,
        part: 0,
        index: state.index + 1,
        done,
    }
}

#[inline(always)]
fn end(state: State, cuts: Cuts, moved: Moved, whole: bool) -> State {
    let shorts = state.shorts + cuts.number * state.longs;
    State {
        long: pick(whole, state.short, cuts.rest),
        short: pick(whole, cuts.rest, state.short),
        longs: pick(whole, shorts, state.longs),
        shorts: pick(whole, state.longs, shorts),
        argument: moved.argument,
        distance: moved.distance,
        part: pick(whole, 0, cuts.number),
        index: state.index + pick(whole, 1, 0) as u32,
        done: true,
    }
}

#[inline(always)]
fn pick(first: bool, a: u64, b: u64) -> u64 {
    if first {
        a
    } else {
        b
    }
}

/// Even and odd rows in turn, until the search is done.
#[inline(always)]
fn search(mut state: State, count: u64, even: fn(State, u64) -> State, odd: fn(State, u64) -> State) -> State {
    if state.done {
        return state;
    }
    while state.index < 29 {
        state = even(state, count);
        if state.done {
            return state;
        }
        state = odd(state, count);
        if state.done {
            return state;
        }
    }
    state
}

#[inline(never)]
pub fn regular(modulus: u64, step: u64, start: u64, count: u64, window: u64, shown: &mut [u64; 5]) -> u32 {
    let refusal = super::tuned::refusal(modulus, step, start, count, window);
    if refusal == 0 {
        let s = search(first(modulus, step, start, count), count, regular_even, regular_odd);
        *shown = [s.longs + s.shorts, s.index as u64, s.distance, s.argument, (s.distance >= window) as u64];
    }
    refusal
}

/// A state without its argument: `wide` tells at an odd row whether the start lies in a long gap.
#[derive(Clone, Copy)]
struct Sketch {
    long: u64,
    short: u64,
    longs: u64,
    shorts: u64,
    distance: u64,
    wide: bool,
    done: bool,
}

#[inline(always)]
fn sketch_row(sketch: Sketch, count: u64) -> Sketch {
    let rest = sketch.long % sketch.short;
    let longs = sketch.shorts + sketch.long / sketch.short * sketch.longs;
    Sketch {
        long: sketch.short,
        short: rest,
        longs,
        shorts: sketch.longs,
        done: (rest == 0) | (count - sketch.longs <= longs),
        ..sketch
    }
}

#[inline(always)]
fn sketch_even(sketch: Sketch, count: u64) -> Sketch {
    let cuts = sketch.long / sketch.short;
    let (moves, distance) = (sketch.distance / sketch.short, sketch.distance % sketch.short);
    Sketch { distance, wide: moves != cuts, ..sketch_row(sketch, count) }
}

#[inline(always)]
fn sketch_odd(sketch: Sketch, count: u64) -> Sketch {
    let next = sketch_row(sketch, count);
    let over = if sketch.distance < next.short { sketch.distance } else { sketch.distance - next.short };
    Sketch { distance: select_unpredictable(sketch.wide, over % sketch.short, sketch.distance), ..next }
}

/// The distance of the regular search alone, as crates/segment/src/sketch.rt finds it.
#[inline(always)]
pub fn regular_distance(modulus: u64, step: u64, start: u64, count: u64) -> u64 {
    let (long, short, distance) = (modulus, step, start);
    let mut sketch =
        Sketch { long, short, longs: 1, shorts: 0, distance, wide: true, done: step == 0 || count <= 1 };
    while !sketch.done {
        sketch = sketch_even(sketch, count);
        if sketch.done {
            break;
        }
        sketch = sketch_odd(sketch, count);
    }
    sketch.distance
}

#[inline(never)]
pub fn fine(modulus: u64, step: u64, start: u64, count: u64, window: u64, shown: &mut [u64; 6]) -> u32 {
    let refusal = super::tuned::refusal(modulus, step, start, count, window);
    if refusal == 0 {
        let s = search(first(modulus, step, start, count), count, fine_even, fine_odd);
        *shown = [s.longs + s.shorts, s.index as u64, s.part, s.distance, s.argument, (s.distance >= window) as u64];
    }
    refusal
}
