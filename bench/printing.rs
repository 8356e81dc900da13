//! Printing a full list: the proved program against unverified Rust that writes the same lines, for each of them. `bench/program` makes
//! a library of the program, which is called within this process and gets its input and output calls from here. A run reads the job,
//! searches and prints; what a line costs is what a job that lists 4,096 arguments of sixteen digits with values of nineteen takes more
//! than one that lists a single argument and scans as many, less what the search alone takes more.

#[path = "../tests/c_api.rs"]
mod c_api;
mod common;

use common::measure;
use std::cell::RefCell;
use std::hint::black_box;
use std::io::Write;
use std::time::Instant;

/// The bytes of the longest answer, and the places of a job's list and values.
const LONGEST: usize = 213_034;
const PLACES: usize = 4096;

/// How often a job is run in a row.
const RUNS: usize = 16;

#[link(name = "program", kind = "static")]
unsafe extern "C" {
    /// The program's main function, which looks at no argument.
    safe fn program_main(number: i32, arguments: *const *const u8) -> i32;
}

/// What the program reads, and what it wrote where that is to be kept.
#[derive(Default)]
struct Standard {
    input: Vec<u8>,
    output: Option<Vec<u8>>,
}

thread_local! {
    static STANDARD: RefCell<Standard> = RefCell::default();
}

/// The program's read: the whole input, and then its end.
#[no_mangle]
unsafe extern "C" fn program_read(_: i32, to: *mut u8, places: usize) -> isize {
    STANDARD.with_borrow_mut(|standard| {
        let input = std::mem::take(&mut standard.input);
        assert!(input.len() <= places);
        std::ptr::copy_nonoverlapping(input.as_ptr(), to, input.len());
        input.len() as isize
    })
}

/// The program's write.
#[no_mangle]
unsafe extern "C" fn program_write(_: i32, from: *const u8, length: usize) -> isize {
    STANDARD.with_borrow_mut(|standard| {
        if let Some(output) = &mut standard.output {
            output.extend(std::slice::from_raw_parts(from, length));
        }
    });
    length as isize
}

/// What a read or a write failed by: none does.
#[no_mangle]
extern "C" fn rattle_errno() -> i32 {
    0
}

/// A line whose last value is one less than the modulus, so that its last w - 1 arguments, and no others, are less than the window away
/// from a multiple of the modulus.
struct Job {
    window: u64,
}

impl Job {
    const ORIGIN: u64 = 1 << 52;
    const MODULUS: u64 = 1 << 62;
    const COUNT: u64 = 1 << 20;
    const VALUE: u64 = Self::MODULUS - Self::COUNT;

    fn text(&self) -> String {
        let Job { window } = self;
        let (origin, modulus, value, count) = (Self::ORIGIN, Self::MODULUS, Self::VALUE, Self::COUNT);
        format!("origin={origin}\nmodulus={modulus}\nvalue={value}\nslope=1\ncurve=0\ncount={count}\nwindow={window}\n")
    }

    /// Runs the program; what it wrote, where that is to be kept.
    fn run(&self, output: Option<Vec<u8>>) -> Option<Vec<u8>> {
        STANDARD.set(Standard { input: self.text().into_bytes(), output });
        program_main(0, std::ptr::null());
        STANDARD.take().output
    }

    /// The search of its domain alone; how many arguments it listed.
    fn search(&self, list: &mut [u64; PLACES], values: &mut [u64; PLACES]) -> u64 {
        let (mut marks, mut searched) = ([0; 8], [0; 2]);
        let (modulus, value, count, window) = (Self::MODULUS, Self::VALUE, Self::COUNT, self.window);
        c_api::search_domain(Self::ORIGIN, modulus, value, 1, 0, count, window, list, values, &mut marks, &mut searched);
        searched[1]
    }
}

/// The same work as the proved functions; bytes are copied as the compiler has it done there.
mod same {
    fn put(bytes: &[u8], out: &mut [u8], at: usize) -> usize {
        let fitting = bytes.len().min(out.len().saturating_sub(at));
        if fitting > 0 {
            out[at..at + fitting].copy_from_slice(&bytes[..fitting]);
        }
        at + fitting
    }

    fn put_byte(byte: u8, out: &mut [u8], at: usize) -> usize {
        if out.len() <= at {
            return at;
        }
        out[at] = byte;
        at + 1
    }

    fn put_number(number: u64, out: &mut [u8], at: usize) -> usize {
        let (mut digits, mut first, mut left) = ([0; 20], 19, number);
        while 10 <= left {
            digits[first] = (48 + left % 10) as u8;
            left /= 10;
            first -= 1;
        }
        digits[first] = (48 + left) as u8;
        put(&digits[first..], out, at)
    }

    pub fn lines(arguments: &[u64], values: &[u64], out: &mut [u8]) -> usize {
        arguments.iter().zip(values).fold(0, |at, (&argument, &value)| {
            let after_name = put(b"argument=", out, at);
            let after_argument = put_number(argument, out, after_name);
            let after_value_name = put(b" value=", out, after_argument);
            let after_value = put_number(value, out, after_value_name);
            put_byte(b'\n', out, after_value)
        })
    }
}

/// By Rust's own formatting.
fn formatted(arguments: &[u64], values: &[u64], out: &mut [u8]) -> usize {
    let (places, mut rest) = (out.len(), out);
    for (argument, value) in arguments.iter().zip(values) {
        writeln!(rest, "argument={argument} value={value}").unwrap();
    }
    places - rest.len()
}

/// Nanoseconds of each of several runs.
fn nanoseconds<A>(mut work: impl FnMut() -> A) -> f64 {
    let start = Instant::now();
    for _ in 0..RUNS {
        black_box(work());
    }
    start.elapsed().as_secs_f64() * 1e9 / RUNS as f64
}

fn main() {
    let (full, single) = (Job { window: 4097 }, Job { window: 2 });
    let (mut list, mut values) = ([0; PLACES], [0; PLACES]);
    assert_eq!(single.search(&mut list, &mut values), 1);
    assert_eq!(full.search(&mut list, &mut values), PLACES as u64);
    let (written, mut out) = (full.run(Some(Vec::new())).unwrap(), [0; LONGEST]);
    assert_eq!(written.len(), LONGEST);
    // Unverified code that prints something else would not be worth a comparison.
    let unverified: [fn(&[u64], &[u64], &mut [u8]) -> usize; 2] = [same::lines, formatted];
    for lines in unverified {
        let length = lines(&list, &values, &mut out);
        assert!(written.ends_with(&out[..length]) && written[..LONGEST - length].ends_with(b"\nlisted=4096\n"));
    }
    let listed = (list, values);
    let name = "printing a full list, per line";
    measure([name, &format!("{name}, beside write!")], PLACES as u64, || {
        let printed = nanoseconds(|| full.run(None)) - nanoseconds(|| single.run(None));
        let searched = nanoseconds(|| full.search(&mut list, &mut values));
        let searched = searched - nanoseconds(|| single.search(&mut list, &mut values));
        let write = |lines: fn(&[u64], &[u64], &mut [u8]) -> usize| {
            nanoseconds(|| lines(black_box(&listed.0), black_box(&listed.1), black_box(&mut out)))
        };
        (printed - searched, unverified.map(write))
    });
}
