//! Cases of the calls Whole form, Children only and Single helper, each with what it is about; their lines and their stored form.

mod gathered;
mod limits;
mod series;
mod shapes;
mod slots;
mod sums;

pub use gathered::{least_f, rises, Gathered, COUNTERS, LOCS};
pub use series::Series;

use crate::answers::{self, Call, Checked};
use crate::records::Bytes;
use crate::stored::{different, four_bytes, one_byte, two_bytes};
use crate::vectors;

/// A case, and what it is about.
#[derive(Clone, Debug)]
pub struct Case {
    pub about: String,
    pub call: answers::Case,
}

/// The number of a call in a stored case.
fn code(call: Call) -> u8 {
    match call {
        Call::Whole => 0,
        Call::Children => 1,
        _ => 2,
    }
}

/// The call, the number, F, the work memory, the counter before and after, the place; the lengths of buffer, input and
/// output; then input and output.
fn stored(case: &Case) -> Checked<Bytes> {
    let call = &case.call;
    let answer = answers::answer(call).map_err(|why| format!("{why}: {}", vectors::left(call)))?;
    let mut bytes = vec![code(call.call), one_byte(answer.number as usize)];
    bytes.extend(four_bytes(call.f));
    bytes.extend(four_bytes(call.work));
    for field in [call.counter, answer.counter, answer.place] {
        bytes.extend(field.to_be_bytes());
    }
    for length in [call.buffer, call.input.len(), answer.output.len()] {
        bytes.extend(two_bytes(length));
    }
    bytes.extend(&call.input);
    bytes.extend(&answer.output);
    Ok(bytes)
}

/// The cases of a series that differ, as they are stored.
pub fn store(series: Series, count: usize) -> Checked<Bytes> {
    let cases = different(series, count, stored)?;
    Ok(cases.into_iter().flat_map(|(_, bytes)| bytes).collect())
}

/// The same cases as vector lines, each after a line that says what it is about.
pub fn lines(series: Series, count: usize) -> Checked<Vec<String>> {
    let cases = different(series, count, stored)?;
    let line = |(index, (case, _)): (usize, &(Case, Bytes))| {
        let answer = answers::answer(&case.call)?;
        Ok(format!("# {index} {}\n{}", case.about, vectors::line(&case.call, &answer)))
    };
    cases.iter().enumerate().map(line).collect()
}
