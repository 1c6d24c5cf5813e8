//! Microseconds that ordering an assign takes: the proved call Order, which reads the assign first, and Chialisp's `toposort_assign_bindings`
//! on trees that are already built.

use crate::library;
use oracle::answers::{self, Call, Case, Trees, MAX_F, WORK_PER_F};
use oracle::orders::shapes::{self, Bound};
use oracle::random::Random;
use oracle::records::{Let, Record};
use std::hint::black_box;
use std::time::Instant;

const COUNTS: [usize; 2] = [10, 64];
const BOUND: [Bound; 3] = [Bound::Name, Bound::Atom, Bound::List];
/// About the bytes of each binding body.
const BODY_BYTES: usize = 200;
const RUNS: usize = 20;
/// Bindings that one run orders.
const RUN_BINDINGS: usize = 5_000;

pub fn speed() -> Result<(), String> {
    let head = ["needs", "bindings", "pattern", "bytes", "call us", "Rust us", "Rust / call"];
    println!("{}", head.map(|word| format!("{word:>12}")).join(" "));
    for count in COUNTS {
        for (what, needs) in all_needs(count) {
            for bound in BOUND {
                let assign = shapes::assign(7, shapes::weighty(&needs, BODY_BYTES, bound));
                row(what, bound, &assign)?;
            }
        }
    }
    Ok(())
}

/// What the bindings need of each other: chains that take as many turns as bindings and that take one each, nothing, some.
fn all_needs(count: usize) -> [(&'static str, Vec<Vec<usize>>); 4] {
    let some = shapes::random_dag(&mut Random::seeded(1), count, 3);
    [("backward", shapes::backward(count)), ("forward", shapes::forward(count)), ("none", vec![vec![]; count]), ("random", some)]
}

fn row(what: &str, bound: Bound, assign: &Let) -> Result<(), String> {
    let count = assign.bindings.len();
    let case = Case { call: Call::Order, f: MAX_F, work: WORK_PER_F * MAX_F, counter: 0, buffer: count, input: assign.bytes() };
    let mut work = vec![0; case.work as usize];
    let mut result = vec![0; count];
    same_answers(&case, &mut work, &mut result)?;
    let trees = Trees::of(assign);
    let mut runs: [&mut dyn FnMut() -> bool; 2] =
        [&mut || run(black_box(&case), &mut work, &mut result), &mut || black_box(&trees).ordered()];
    let [call, rust] = best(&mut runs, RUN_BINDINGS / count).map(|seconds| seconds * 1e6);
    let start = format!("{what:>12} {count:>12} {:>12} {:>12}", format!("{bound:?}"), case.input.len());
    println!("{start} {call:>12.1} {rust:>12.1} {:>12.2}", rust / call);
    Ok(())
}

/// The call Order on a case: whether it accepts.
fn run(case: &Case, work: &mut [u8], result: &mut [u8]) -> bool {
    library::call(case, work, &case.input, result).number == 0
}

/// The library gives the order that the Rust gives.
fn same_answers(case: &Case, work: &mut [u8], result: &mut [u8]) -> Result<(), String> {
    let wanted = answers::answer(case)?.output;
    match run(case, work, result) && result == wanted {
        true => Ok(()),
        false => Err(format!("the library orders {result:?}, the Rust {wanted:?}")),
    }
}

/// The seconds of each in its best of several runs of so many times.
pub fn best<const N: usize>(runs: &mut [&mut dyn FnMut() -> bool; N], times: usize) -> [f64; N] {
    best_of(RUNS, runs, times)
}

/// The seconds of each in its best of `count` runs of so many times. The runs take turns, so that all meet the same machine.
pub fn best_of<const N: usize>(count: usize, runs: &mut [&mut dyn FnMut() -> bool; N], times: usize) -> [f64; N] {
    let mut best = [f64::MAX; N];
    for _ in 0..count {
        for (best, run) in best.iter_mut().zip(runs.iter_mut()) {
            let start = Instant::now();
            (0..times).for_each(|_| assert!(black_box(run())));
            *best = f64::min(*best, start.elapsed().as_secs_f64() / times as f64);
        }
    }
    best
}
