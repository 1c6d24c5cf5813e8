//! Two releases of the library in one run: nanoseconds for a lookup in maps of many sizes, and for a byte of Whole form.

use crate::library::Answered;
use crate::order_speed::best_of;
use crate::releases::{self, Release};
use crate::whole_speed::{self, Forms};
use oracle::answers::{Case, MAX_F, WORK_PER_F};
use oracle::random::Random;
use std::collections::BTreeSet;
use std::hint::black_box;

/// How many entries a map has.
const ENTRIES: [usize; 4] = [1, 8, 64, 400];
/// How many bytes its names share at the beginning, and at the end.
const SHARED: [(usize, usize); 4] = [(0, 0), (8, 0), (200, 0), (0, 200)];
/// The letters in which names differ.
const LETTERS: usize = 4;
/// Runs of each, many and short: some meet a machine that does nothing else.
const RUNS: usize = 400;
/// Entries that one run goes by, at most.
const RUN_ENTRIES: usize = 40_000;
/// Bytes that one run renames.
const RUN_BYTES: usize = 64 * 1024;

pub fn speed(seed: u64) -> Result<(), String> {
    let head = ["entries", "beginning", "ending", "before ns", "after ns", "after/before"];
    println!("{}", head.map(|word| format!("{word:>12}")).join(" "));
    let mut random = Random::seeded(seed);
    for entries in ENTRIES {
        for (beginning, ending) in SHARED {
            lookups(&mut random, entries, beginning, ending)?;
        }
    }
    let head = ["forms", "bytes in", "before ns/B", "after ns/B", "after/before"];
    println!("\n{:>14} {}", "", head.map(|word| format!("{word:>12}")).join(" "));
    whole_speed::all_forms(seed).iter().try_for_each(|(what, forms)| passes(what, forms))
}

/// Different names of one length, alike at the beginning and at the end.
fn names(random: &mut Random, count: usize, beginning: usize, ending: usize) -> Vec<Vec<u8>> {
    let shared: Vec<u8> = b"payment_to_".iter().copied().cycle().take(beginning.max(ending)).collect();
    let mut seen = BTreeSet::new();
    let mut names = Vec::new();
    while names.len() < count {
        let letters: Vec<u8> = (0..LETTERS).map(|_| b'a' + random.below(26) as u8).collect();
        if seen.insert(letters.clone()) {
            names.push([&shared[..beginning], &letters, &shared[..ending]].concat());
        }
    }
    names
}

/// A field of a map: the length of a name, and its bytes.
fn field(name: &[u8]) -> Vec<u8> {
    [&[name.len() as u8], name].concat()
}

/// One line: every name of a map looked up once, and as many that it does not have.
fn lookups(random: &mut Random, entries: usize, beginning: usize, ending: usize) -> Result<(), String> {
    let asked = names(random, 2 * entries, beginning, ending);
    let new = |index: usize| (index as u16).to_be_bytes();
    let map: Vec<u8> = (0..entries).flat_map(|index| [field(&asked[index]), field(&new(index))].concat()).collect();
    for (index, name) in asked.iter().enumerate() {
        let wanted = if index < entries { index } else { u16::from_be_bytes([name[0], name[1]]).into() };
        if releases::BOTH.iter().any(|release| release.lookup(name, &map) != wanted) {
            return Err(format!("a lookup in a map of {entries} entries gives something else than {wanted}"));
        }
    }
    let run = |release: &Release| asked.iter().all(|name| black_box(release.lookup(black_box(name), &map)) < usize::MAX);
    let [before, after] = &releases::BOTH;
    let seconds = best_of(RUNS, &mut [&mut || run(before), &mut || run(after)], RUN_ENTRIES.div_ceil(entries * asked.len()));
    let [before, after] = seconds.map(|seconds| seconds * 1e9 / asked.len() as f64);
    println!("{entries:>12} {beginning:>12} {ending:>12} {before:>12.1} {after:>12.1} {:>12.2}", after / before);
    Ok(())
}

/// A release with the memory that it is lent.
struct Side {
    release: &'static Release,
    work: Vec<u8>,
    result: Vec<u8>,
}

impl Side {
    fn of(release: &'static Release) -> Side {
        Side { release, work: vec![0x53; (WORK_PER_F * MAX_F) as usize], result: vec![0; MAX_F as usize] }
    }

    fn answer(&mut self, case: &Case) -> Answered {
        self.release.whole_form(black_box(case), &mut self.work, &mut self.result)
    }

    fn accepts(&mut self, cases: &[Case]) -> bool {
        cases.iter().all(|case| self.answer(case).number == 0)
    }
}

/// One line: Whole form on the same forms by both, which must write the same.
fn passes(what: &str, forms: &Forms) -> Result<(), String> {
    let cases: Vec<Case> = forms.iter().map(|form| whole_speed::case(form)).collect();
    let [mut before, mut after] = [0, 1].map(|at| Side::of(&releases::BOTH[at]));
    for case in &cases {
        let answers = [before.answer(case), after.answer(case)];
        if answers[0] != answers[1] || before.result != after.result {
            return Err(format!("{answers:?} before and after, or other bytes"));
        }
    }
    let total: usize = forms.iter().map(Vec::len).sum();
    let times = RUN_BYTES.div_ceil(total.max(1));
    let seconds = best_of(RUNS, &mut [&mut || before.accepts(&cases), &mut || after.accepts(&cases)], times);
    let [before, after] = seconds.map(|seconds| seconds * 1e9 / total as f64);
    println!("{what:>14} {:>12} {:>12} {before:>12.2} {after:>12.2} {:>12.2}", forms.len(), total / forms.len(), after / before);
    Ok(())
}
