//! Bytes per second of the proved reader and of the plain one, on accepted forms of three sizes.

use crate::library::{self, Open};
use crate::plain;
use oracle::generate::Maker;
use oracle::reads::Asked;
use oracle::records::{Bytes, Record};
use std::hint::black_box;
use std::time::Instant;

/// The least and the most bytes of a form.
const SIZES: [(usize, usize); 3] = [(90, 110), (900, 1100), (15600, 16384)];
/// The bytes that the forms of one size have together.
const POOL: usize = 128 * 1024;
const F: usize = 16384;
const RUNS: usize = 40;
/// Bytes that one run reads.
const RUN_BYTES: usize = 1024 * 1024;

pub fn speed(seed: u64) -> Result<(), String> {
    let mut maker = Maker::seeded(seed);
    println!("{:>14} {:>8} {:>16} {:>16} {:>8}", "bytes", "forms", "library MB/s", "plain MB/s", "ratio");
    for (least, most) in SIZES {
        let forms = forms(&mut maker, least, most);
        same_answers(&forms)?;
        let [library, plain] = best([library::open, plain::open], &forms);
        let range = format!("{least}..{most}");
        println!("{:>14} {:>8} {:>16.1} {:>16.1} {:>8.2}", range, forms.len(), library / 1e6, plain / 1e6, library / plain);
    }
    Ok(())
}

/// Accepted forms of a size.
fn forms(maker: &mut Maker, least: usize, most: usize) -> Vec<Bytes> {
    let mut forms = Vec::new();
    let mut total = 0;
    while total < POOL {
        let budget = least / 40 + maker.random.below(most / 10 + 1);
        let form = maker.some_form(budget).bytes();
        if (least..=most).contains(&form.len()) && plain::open(Asked::Form, &form, F).number == 0 {
            total += form.len();
            forms.push(form);
        }
    }
    forms
}

fn same_answers(forms: &[Bytes]) -> Result<(), String> {
    for form in forms {
        let (library, plain) = (library::open(Asked::Form, form, F), plain::open(Asked::Form, form, F));
        if library != plain {
            return Err(format!("the library says {library:?}, the plain reader {plain:?}"));
        }
    }
    Ok(())
}

/// Bytes per second of each reader in its best of several runs. The runs take turns, so that both meet the same machine.
fn best(readers: [Open; 2], forms: &[Bytes]) -> [f64; 2] {
    let total: usize = forms.iter().map(Vec::len).sum();
    let turns = RUN_BYTES.div_ceil(total);
    let mut best = [0.0; 2];
    for _ in 0..RUNS {
        for (best, open) in best.iter_mut().zip(readers) {
            *best = f64::max(*best, (turns * total) as f64 / run(open, forms, turns));
        }
    }
    best
}

/// The seconds that so many turns over all forms take.
fn run(open: Open, forms: &[Bytes], turns: usize) -> f64 {
    let start = Instant::now();
    for _ in 0..turns {
        for form in forms {
            black_box(open(Asked::Form, black_box(form), F));
        }
    }
    start.elapsed().as_secs_f64()
}
