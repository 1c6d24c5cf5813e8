//! Nanoseconds that Whole form takes for a byte of its input: the proved call, from bytes to bytes; Chialisp's `rename_args_compileform`
//! on trees that are already built; and the same with reading before it and writing behind it.

use crate::drawn;
use crate::library;
use crate::order_speed::best;
use oracle::answers::{self, Call, Case, FormTree, MAX_F, WORK_PER_F};
use oracle::generate::Maker;
use oracle::reader;
use oracle::records::{Bytes, Record};
use std::hint::black_box;

/// The least and the most bytes of a form.
const SIZES: [(&str, usize, usize); 2] = [("about 100", 90, 110), ("about 1,000", 900, 1100)];
/// The least bytes of a long result.
const LONG: usize = 15600;
/// The bytes that the forms of one size have together.
const POOL: usize = 64 * 1024;
/// How many helpers are tried for a long form.
const TRIES: usize = 120;
/// How many it may have.
const MOST_HELPERS: usize = 64;
/// How many records of each may branch.
const HELPER_BUDGET: usize = 14;
/// Bytes that one run reads.
const RUN_BYTES: usize = 256 * 1024;

/// A line for each size of generated forms, the longest of many helpers, and for each drawn one.
pub fn speed(seed: u64) -> Result<(), String> {
    let head = ["forms", "bytes in", "bytes out", "call ns/B", "trees ns/B", "same ns/B", "trees / call", "same / call"];
    println!("{:>14} {}", "", head.map(|word| format!("{word:>12}")).join(" "));
    all_forms(seed).iter().try_for_each(|(what, forms)| row(what, forms))
}

/// Forms that are timed together.
pub type Forms = Vec<Bytes>;

/// Forms of three sizes from the generator, and each drawn one alone, with what they are.
pub fn all_forms(seed: u64) -> Vec<(&'static str, Forms)> {
    let mut maker = Maker::seeded(seed);
    let mut all: Vec<(&str, Forms)> = SIZES.iter().map(|&(what, least, most)| (what, forms(&mut maker, least, most))).collect();
    all.push(("about 16,000", long_forms(&mut maker)));
    all.extend(drawn::all().into_iter().map(|(what, form)| (what, vec![form.bytes()])));
    all
}

/// A case of Whole form in which F and the buffer are the largest.
pub fn case(input: &[u8]) -> Case {
    let f = MAX_F;
    Case { call: Call::Whole, f, work: WORK_PER_F * f, counter: 0, buffer: f as usize, input: input.to_vec() }
}

/// The length of the result, if the form is accepted.
fn written(input: &[u8]) -> Option<usize> {
    answers::answer(&case(input)).ok().filter(|answer| answer.number == 0).map(|answer| answer.output.len())
}

/// Accepted forms of a size.
fn forms(maker: &mut Maker, least: usize, most: usize) -> Forms {
    let mut forms = Vec::new();
    let mut total = 0;
    while total < POOL {
        let budget = least / 40 + maker.random.below(most / 10 + 1);
        let form = maker.some_form(budget).bytes();
        if (least..=most).contains(&form.len()) && written(&form).is_some() {
            total += form.len();
            forms.push(form);
        }
    }
    forms
}

/// Accepted forms of many helpers, whose results are about as long as F allows.
fn long_forms(maker: &mut Maker) -> Forms {
    let mut forms = Vec::new();
    while forms.len() * LONG < POOL {
        let mut form = maker.some_form(2);
        let mut length = 0;
        for _ in 0..TRIES {
            form.helpers.push(maker.some_helper(HELPER_BUDGET));
            match written(&form.bytes()).filter(|_| form.helpers.len() <= MOST_HELPERS) {
                Some(written) => length = written,
                None => drop(form.helpers.pop()),
            }
        }
        if length >= LONG {
            forms.push(form.bytes());
        }
    }
    forms
}

/// One line: all must give the same bytes first; then each in its best of several runs.
fn row(what: &str, forms: &[Bytes]) -> Result<(), String> {
    let cases: Vec<Case> = forms.iter().map(|form| case(form)).collect();
    let mut work = vec![0x53; (WORK_PER_F * MAX_F) as usize];
    let mut result = vec![0; MAX_F as usize];
    let written = same_answers(&cases, &mut work, &mut result)?;
    let trees: Vec<FormTree> =
        forms.iter().map(|form| reader::form(form).map(|form| FormTree::of(&form)).expect("read before")).collect();
    let total: usize = forms.iter().map(Vec::len).sum();
    let mut runs: [&mut dyn FnMut() -> bool; 3] = [
        &mut || cases.iter().all(|case| library::call(black_box(case), &mut work, &case.input, &mut result).number == 0),
        &mut || trees.iter().all(|tree| black_box(tree).renamed(0)),
        &mut || forms.iter().all(|form| black_box(answers::rust_bytes(black_box(form), 0)).is_some()),
    ];
    let seconds = best(&mut runs, RUN_BYTES.div_ceil(total.max(1)));
    let [call, trees, same] = seconds.map(|seconds| seconds * 1e9 / total as f64);
    let start = format!("{what:>14} {:>12} {:>12} {:>12}", forms.len(), total / forms.len(), written / forms.len());
    println!("{start} {call:>12.2} {trees:>12.2} {same:>12.2} {:>12.2} {:>12.2}", trees / call, same / call);
    Ok(())
}

/// The library gives what the Rust gives; the bytes of all results together.
fn same_answers(cases: &[Case], work: &mut [u8], result: &mut [u8]) -> Result<usize, String> {
    let mut written = 0;
    for case in cases {
        let got = library::call(case, work, &case.input, result);
        let wanted = (got.number == 0).then(|| answers::rust_bytes(&case.input, 0)).flatten();
        if wanted.as_deref() != Some(&result[..got.len as usize]) {
            return Err(format!("the library gives {got:?}, and other bytes than the Rust"));
        }
        written += got.len as usize;
    }
    Ok(written)
}
