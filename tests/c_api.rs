//! The proved calls, as crates/c_api/src/lib.rt declares them. Nothing checks one against the other: they are kept alike by hand.

// Each program calls some of them.
#![allow(dead_code)]

pub const ROWS: usize = 89;

pub type Column = [u64; ROWS];

/// The places for the digits of an argument.
pub type Digits = [u64; 88];

/// What a regular search shows: the count reached, the quotients drawn, the distance, its argument, 1 for clear or 0 for
/// possible.
pub type RegularShown = [u64; 5];

/// What a fine search shows: the count reached, the index and the part of its label, the distance, its argument, 1 for clear or 0
/// for possible.
pub type FineShown = [u64; 6];

/// The marks of a domain's eight parts.
pub type Marks = [u8; 8];

/// What a domain search shows beside the marks: 1 for cleared or 0 for possible, how many arguments it listed.
pub type Searched = [u64; 2];

// Safe: each is proved for every number, and Rust's references are what their arrays ask for.
unsafe extern "C" {
    /// The expansion into the caller's memory, or a refusal's number.
    #[link_name = "geyserdish_expand"]
    pub safe fn expand(
        modulus: u64,
        step: u64,
        remainders: &mut Column,
        denominators: &mut Column,
        quotients: &mut Column,
        last: &mut u64,
    ) -> u32;

    /// The digits of an argument and their number into the caller's memory, or a refusal's number.
    #[link_name = "geyserdish_digits"]
    pub safe fn digits(modulus: u64, step: u64, argument: u64, digits: &mut Digits, count: &mut u64) -> u32;

    /// The residue of an argument into the caller's memory, or a refusal's number.
    #[link_name = "geyserdish_residue"]
    pub safe fn residue(modulus: u64, step: u64, argument: u64, residue: &mut u64) -> u32;

    /// The argument of a residue into the caller's memory, or a refusal's number.
    #[link_name = "geyserdish_divide"]
    pub safe fn divide(modulus: u64, step: u64, target: u64, argument: &mut u64) -> u32;

    /// The regular search of a segment into the caller's memory, or a refusal's number.
    #[link_name = "geyserdish_regular_search"]
    pub safe fn regular_search(
        modulus: u64,
        step: u64,
        start: u64,
        count: u64,
        window: u64,
        shown: &mut RegularShown,
    ) -> u32;

    /// The fine search of a segment into the caller's memory, or a refusal's number.
    #[link_name = "geyserdish_fine_search"]
    pub safe fn fine_search(modulus: u64, step: u64, start: u64, count: u64, window: u64, shown: &mut FineShown)
        -> u32;

    fn geyserdish_scan_segment(
        modulus: u64,
        step: u64,
        start: u64,
        count: u64,
        window: u64,
        list: *mut u64,
        list_places: usize,
        values: *mut u64,
        value_places: usize,
        listed: &mut u64,
    ) -> u32;

    fn geyserdish_search_domain(
        origin: u64,
        modulus: u64,
        value: u64,
        slope: u64,
        curve: i64,
        count: u64,
        window: u64,
        list: *mut u64,
        list_places: usize,
        values: *mut u64,
        value_places: usize,
        marks: &mut Marks,
        searched: &mut Searched,
    ) -> u32;

    fn geyserdish_range(list: *const u64, length: usize, lo: u64, hi: u64, start: &mut u64) -> u64;
}

// Safe: a list, and the values beside it, have as many places as their lengths say, and nothing overlaps them.

/// The hard arguments of a segment into the caller's list, the residue of each into the same place of the values, and their number
/// beside them, or a refusal's number.
pub fn scan_segment(
    modulus: u64,
    step: u64,
    start: u64,
    count: u64,
    window: u64,
    list: &mut [u64],
    values: &mut [u64],
    listed: &mut u64,
) -> u32 {
    let (list_places, list) = (list.len(), list.as_mut_ptr());
    let (value_places, values) = (values.len(), values.as_mut_ptr());
    unsafe {
        geyserdish_scan_segment(modulus, step, start, count, window, list, list_places, values, value_places, listed)
    }
}

/// The search of a domain into the caller's list, values and memory, or a refusal's number. An argument is listed as origin + x, and its
/// value goes into its place of the values.
pub fn search_domain(
    origin: u64,
    modulus: u64,
    value: u64,
    slope: u64,
    curve: i64,
    count: u64,
    window: u64,
    list: &mut [u64],
    values: &mut [u64],
    marks: &mut Marks,
    searched: &mut Searched,
) -> u32 {
    let (list_places, list) = (list.len(), list.as_mut_ptr());
    let (value_places, values) = (values.len(), values.as_mut_ptr());
    unsafe {
        geyserdish_search_domain(
            origin,
            modulus,
            value,
            slope,
            curve,
            count,
            window,
            list,
            list_places,
            values,
            value_places,
            marks,
            searched,
        )
    }
}

/// The range of a list between two bounds: its start into the caller's memory, and its count.
pub fn range(list: &[u64], lo: u64, hi: u64, start: &mut u64) -> u64 {
    unsafe { geyserdish_range(list.as_ptr(), list.len(), lo, hi, start) }
}
