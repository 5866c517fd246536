// Compares the library with an independent implementation, and times both beside the machine's own operations.
mod compare;
mod independent;
mod ours;
mod stream;

use std::hint::black_box;
use std::process::ExitCode;
use std::time::Instant;
use stream::Stream;

// Steps of one batch, and how often a batch is timed; the best time counts.
const BATCH: usize = 4096;
const RUNS: usize = 1000;

const SYSTEMS: [(u32, &str); 2] = [(1, "modulo 2^64"), (2, "in the pair")];

#[derive(Clone, Copy)]
struct Case {
    code: u32,
    a: u32,
    b: u32,
    claim: [u64; 7],
}

fn case(code: u32, a: u32, b: u32) -> Case {
    let mut claim = [0; 7];
    independent::write_step(code, a, b, &mut claim);
    Case { code, a, b, claim }
}

// Half of the operands are near one another, half have any exponent.
fn operand(s: &mut Stream) -> u32 {
    if s.below(2) == 0 { s.near() } else { s.finite() }
}

fn batch(name: &str) -> Vec<Case> {
    let mut s = Stream::new(3);
    (0..BATCH)
        .map(|_| match name {
            "add" => case(1, operand(&mut s), operand(&mut s)),
            "subtract" => case(2, operand(&mut s), operand(&mut s)),
            "multiply" => case(3, operand(&mut s), operand(&mut s)),
            "divide" => case(4, operand(&mut s), operand(&mut s)),
            "root" => case(5, operand(&mut s) & 0x7FFF_FFFF, 0),
            "direct" => case(1 + s.below(8), s.direct(), s.direct()),
            _ => case(1 + s.below(5), operand(&mut s), operand(&mut s)),
        })
        .collect()
}

fn nanoseconds(run: &mut impl FnMut()) -> f64 {
    let start = Instant::now();
    run();
    start.elapsed().as_nanos() as f64
}

// The best times of several of two runs, taken by turns, in nanoseconds for each of `count`.
fn best(count: usize, mut first: impl FnMut(), mut second: impl FnMut()) -> (f64, f64) {
    let mut least = (f64::INFINITY, f64::INFINITY);
    for _ in 0..RUNS {
        least.0 = least.0.min(nanoseconds(&mut first));
        least.1 = least.1.min(nanoseconds(&mut second));
    }
    (least.0 / count as f64, least.1 / count as f64)
}

// The same loop for the library and for the independent implementation.
macro_rules! write_all {
    ($side:ident, $cases:expr) => {
        || {
            let mut out = [0; 7];
            for c in $cases {
                black_box($side::write_step(c.code, c.a, c.b, &mut out));
                black_box(&out);
            }
        }
    };
}

macro_rules! check_all {
    ($side:ident, $system:expr, $cases:expr) => {
        || {
            let mut named = [0];
            for c in $cases {
                black_box($side::check_step($system, c.code, c.a, c.b, c.claim[0] as u32, &c.claim[1..], &mut named));
            }
        }
    };
}

macro_rules! check_sheet {
    ($side:ident, $system:expr, $numbers:expr) => {
        || {
            let mut told = [0; 5];
            black_box($side::check_sheet($system, 7, 0x1_0000_0001, black_box($numbers), &mut told));
            black_box(&told);
        }
    };
}

fn machine(code: u32, cases: &[Case]) -> f64 {
    let run = || {
        for c in cases {
            let (x, y) = (f32::from_bits(c.a), f32::from_bits(c.b));
            black_box(match code {
                1 => x + y,
                2 => x - y,
                3 => x * y,
                4 => x / y,
                _ => x.sqrt(),
            });
        }
    };
    best(cases.len(), run, run).0
}

fn line(name: &str, (ours, independent): (f64, f64)) {
    println!("{name:<44} {ours:>9.2} {independent:>12.2} {:>7.2}", ours / independent);
}

// A claim on two cells before it that has to be rounded, or any after a few tries.
fn claim(s: &mut Stream, rows: &[[u64; 10]]) -> [u64; 10] {
    let mut row = [0; 10];
    for _ in 0..20 {
        let (first, second) = (s.below(rows.len() as u32) as usize, s.below(rows.len() as u32) as usize);
        let c = case(1 + s.below(5), rows[first][3] as u32, rows[second][3] as u32);
        row[..3].copy_from_slice(&[u64::from(c.code), first as u64, second as u64]);
        row[3..].copy_from_slice(&c.claim);
        if c.claim[1] != 0 {
            break;
        }
    }
    row
}

// A sheet of 256 cells, 16 inputs and then claims.
fn claims() -> Vec<u64> {
    let mut s = Stream::new(4);
    let mut rows: Vec<[u64; 10]> = (0..16).map(|_| [0, 0, 0, u64::from(operand(&mut s)), 0, 0, 0, 0, 0, 0]).collect();
    while rows.len() < 256 {
        let next = claim(&mut s, &rows);
        rows.push(next);
    }
    rows.into_flattened()
}

// A sheet of 256 inputs.
fn inputs() -> Vec<u64> {
    let mut s = Stream::new(5);
    (0..256).flat_map(|_| [0, 0, 0, u64::from(operand(&mut s)), 0, 0, 0, 0, 0, 0]).collect()
}

fn steps() {
    for name in ["add", "subtract", "multiply", "divide", "root", "direct", "all five mixed"] {
        let cases = &batch(name);
        line(&format!("{name}, written"), best(BATCH, write_all!(ours, cases), write_all!(independent, cases)));
        for (system, at) in SYSTEMS {
            let times = best(BATCH, check_all!(ours, system, cases), check_all!(independent, system, cases));
            line(&format!("{name}, checked {at}"), times);
        }
    }
}

fn sheets() {
    for (numbers, count, name) in [(claims(), 256, "row of a sheet of 256"), (inputs(), 1, "256 inputs, closed")] {
        let numbers = &numbers[..];
        for (system, at) in SYSTEMS {
            let times = best(count, check_sheet!(ours, system, numbers), check_sheet!(independent, system, numbers));
            line(&format!("{name}, {at}"), times);
        }
    }
}

// The close and the closing number alone: a list of 256 inputs, less the same list stopped by an input too many.
fn closings() {
    let whole = &inputs()[..];
    let stopped = &[whole, &[0; 10]].concat()[..];
    for (system, at) in SYSTEMS {
        let with = best(1, check_sheet!(ours, system, whole), check_sheet!(independent, system, whole));
        let without = best(1, check_sheet!(ours, system, stopped), check_sheet!(independent, system, stopped));
        line(&format!("closing number of 256 cells, {at}"), (with.0 - without.0, with.1 - without.1));
    }
}

fn main() -> ExitCode {
    match compare::all() {
        Ok(said) => println!("{said}"),
        Err(difference) => {
            println!("difference: {difference}");
            return ExitCode::FAILURE;
        }
    }
    println!("nanoseconds each, best of {RUNS} runs over {BATCH} steps\n");
    println!("{:<44} {:>9} {:>12} {:>7}", "", "library", "independent", "ratio");
    steps();
    sheets();
    closings();
    println!();
    for (code, name) in [(1, "add"), (2, "subtract"), (3, "multiply"), (4, "divide"), (5, "root")] {
        println!("{:<44} {:>9.2}", format!("{name}, the machine's own, word alone"), machine(code, &batch(name)));
    }
    ExitCode::SUCCESS
}
