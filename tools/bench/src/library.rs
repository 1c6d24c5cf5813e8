//! The proved calls and the proved reader, linked from their static library.

use oracle::answers::{Call, Case};
use oracle::reader::Refusal;
use oracle::reads::Asked;

/// A reader, by the record asked for, the input and F.
pub type Open = fn(Asked, &[u8], usize) -> Refusal;

/// What a call tells beside its number: place, counter, rounds, length.
pub type Told = [u64; 4];

/// A call that takes F, work memory, the counter, an input and a result buffer.
pub type Walking = unsafe extern "C" fn(usize, *mut u8, usize, u64, *const u8, usize, *mut u8, usize, *mut Told) -> u32;

extern "C" {
    /// Reads an input of a kind (0 a form, 1 a helper, 2 an assign) with this F. Gives the number, and the place through `place`.
    fn rename_read(kind: u8, input: *const u8, input_len: usize, f: usize, place: *mut u64) -> u32;

    /// The call Name. Gives the number, as all calls do.
    fn rename_name(name: *const u8, name_len: usize, counter: u64, result: *mut u8, result_len: usize, told: *mut Told) -> u32;

    /// The call Order.
    fn rename_order(
        f: usize,
        work: *mut u8,
        work_len: usize,
        counter: u64,
        input: *const u8,
        input_len: usize,
        result: *mut u8,
        result_len: usize,
        told: *mut Told,
    ) -> u32;

    /// The call Page, which takes no counter.
    fn rename_page(
        f: usize,
        work: *mut u8,
        work_len: usize,
        input: *const u8,
        input_len: usize,
        result: *mut u8,
        result_len: usize,
        told: *mut Told,
    ) -> u32;

    /// The call Whole form.
    fn rename_whole_form(
        f: usize,
        work: *mut u8,
        work_len: usize,
        counter: u64,
        input: *const u8,
        input_len: usize,
        result: *mut u8,
        result_len: usize,
        told: *mut Told,
    ) -> u32;

    /// The call Children only.
    fn rename_children_only(
        f: usize,
        work: *mut u8,
        work_len: usize,
        counter: u64,
        input: *const u8,
        input_len: usize,
        result: *mut u8,
        result_len: usize,
        told: *mut Told,
    ) -> u32;

    /// The call Single helper.
    fn rename_single_helper(
        f: usize,
        work: *mut u8,
        work_len: usize,
        counter: u64,
        input: *const u8,
        input_len: usize,
        result: *mut u8,
        result_len: usize,
        told: *mut Told,
    ) -> u32;
}

/// The refusal; number and place are 0 if the input is accepted.
pub fn open(asked: Asked, input: &[u8], f: usize) -> Refusal {
    let mut place = u64::MAX;
    // SAFETY: the pointer and the length are one slice's, and `place` lives through the call.
    let number = unsafe { rename_read(asked as u8, input.as_ptr(), input.len(), f, &mut place) };
    Refusal { number: number.into(), place }
}

/// What a call answers.
#[derive(Clone, Copy, Debug, PartialEq, Eq)]
pub struct Answered {
    pub number: u64,
    pub place: u64,
    pub counter: u64,
    pub rounds: u64,
    pub len: u64,
}

/// The call of a case on an input, in work memory of just the length that the case says.
pub fn call(case: &Case, work: &mut [u8], input: &[u8], result: &mut [u8]) -> Answered {
    match walking(case.call) {
        Some(run) => walked(run, case, work, input, result),
        None => named(case, input, result),
    }
}

/// A call that takes a record, on an input.
pub fn walked(run: Walking, case: &Case, work: &mut [u8], input: &[u8], result: &mut [u8]) -> Answered {
    let mut told = [u64::MAX; 4];
    // SAFETY: each pointer and length are one slice's, no two of them overlap, and the four numbers live through the call.
    let number = unsafe {
        let (f, counter) = (case.f as usize, case.counter);
        let (work, work_len) = (work.as_mut_ptr(), work.len());
        run(f, work, work_len, counter, input.as_ptr(), input.len(), result.as_mut_ptr(), result.len(), &mut told)
    };
    answered(number, told)
}

/// The call Name on a name.
fn named(case: &Case, name: &[u8], result: &mut [u8]) -> Answered {
    let mut told = [u64::MAX; 4];
    // SAFETY: the same.
    let number = unsafe { rename_name(name.as_ptr(), name.len(), case.counter, result.as_mut_ptr(), result.len(), &mut told) };
    answered(number, told)
}

fn answered(number: u32, told: Told) -> Answered {
    let [place, counter, rounds, len] = told;
    Answered { number: number.into(), place, counter, rounds, len }
}

/// The call Page.
pub fn page(f: usize, work: &mut [u8], input: &[u8], result: &mut [u8]) -> Answered {
    let mut told = [u64::MAX; 4];
    // SAFETY: each pointer and length are one slice's, no two of them overlap, and the four numbers live through the call.
    let number = unsafe {
        let (work, work_len) = (work.as_mut_ptr(), work.len());
        rename_page(f, work, work_len, input.as_ptr(), input.len(), result.as_mut_ptr(), result.len(), &mut told)
    };
    answered(number, told)
}

/// The function of a call that takes a record; Name takes none.
fn walking(call: Call) -> Option<Walking> {
    match call {
        Call::Name => None,
        Call::Order => Some(rename_order),
        Call::Whole => Some(rename_whole_form),
        Call::Children => Some(rename_children_only),
        Call::Helper => Some(rename_single_helper),
    }
}
