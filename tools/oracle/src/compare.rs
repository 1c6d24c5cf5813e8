//! The model against the Rust, and the codec against itself, on random forms.

use crate::answers::{self, Call, Checked, Opened, Renamed};
use crate::codec;
use crate::generate::Maker;
use crate::model::Walk;
use crate::ordering::{self, Toposorted};
use crate::print;
use crate::records::Record;
use crate::sample;
use crate::vectors::hex;

/// What was compared.
#[derive(Default)]
struct Tally {
    renamed: u64,
    deadlocked: u64,
    refused: u64,
}

/// Runs both without limits (no 6, no 7), so that each form is compared: form, counter, place of a deadlock.
pub fn compare(count: u64, seed: u64) -> Result<(), String> {
    let mut maker = Maker::seeded(seed);
    let mut tally = Tally::default();
    for _ in 0..count {
        let call = sample::walk_or_order(&mut maker.random);
        let counter = sample::some_counter(&mut maker.random);
        let input = sample::whole_input(&mut maker, call);
        one(call, &input, counter, &mut tally).map_err(|why| format!("{why}\n{} at {counter}: {}", call.word(), hex(&input)))?;
    }
    let Tally { renamed, deadlocked, refused } = tally;
    println!("{count} forms agree: {renamed} renamed or ordered, {deadlocked} deadlocked, {refused} not readable");
    Ok(())
}

fn one(call: Call, input: &[u8], counter: u64, tally: &mut Tally) -> Checked<()> {
    let mut walk = Walk::unlimited(counter);
    match answers::read(call, input) {
        Err(_) => tally.refused += 1,
        Ok(Opened::Assign(assign)) => {
            let ordered = match ordering::toposort_assign_bindings(&assign.bindings) {
                Toposorted::Ordered(indices) => Ok((indices, 0)),
                Toposorted::Deadlock(_) => answers::deadlock(assign.loc),
            };
            let rust = answers::rust_order(&assign)?;
            same(rust.map(|indices| (indices, 0)), ordered, |indices| format!("{indices:?}"), tally)?;
        }
        Ok(Opened::Form(form)) => {
            kept(&form, &codec::form_from_rust(&codec::form_to_rust(&form)), input)?;
            same(answers::rust_form(call, &form, counter)?, answers::model_form(call, &form, &mut walk), print::form, tally)?;
        }
        Ok(Opened::Helper(helper)) => {
            kept(&helper, &codec::helper_from_rust(&codec::helper_to_rust(&helper)), input)?;
            same(answers::rust_helper(&helper, counter)?, answers::model_helper(&helper, &mut walk), print::helper, tally)?;
        }
    }
    Ok(())
}

/// A record survives the way through the Rust's trees, and is written as it was read.
fn kept<T: PartialEq + Record>(record: &T, back: &T, input: &[u8]) -> Checked<()> {
    match record == back && record.bytes() == input {
        true => Ok(()),
        false => Err("the codec does not give the record back".to_string()),
    }
}

fn same<T: PartialEq>(rust: Renamed<T>, model: Renamed<T>, show: impl Fn(&T) -> String, tally: &mut Tally) -> Checked<()> {
    if rust != model {
        let told = |result: &Renamed<T>| match result {
            Ok((record, counter)) => format!("{} and counter {counter}", show(record)),
            Err(refusal) => format!("{} at {}", refusal.number, refusal.place),
        };
        return Err(format!("the Rust gives {}\nthe model gives {}", told(&rust), told(&model)));
    }
    match rust {
        Ok(_) => tally.renamed += 1,
        Err(_) => tally.deadlocked += 1,
    }
    Ok(())
}
