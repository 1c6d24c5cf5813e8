//! The answer to a call: refusals 1 to 4 by the reader, 6 and 7 by the model, the result and refusal 5 by the Rust, 8 at the end.

use crate::codec;
use crate::compiler::codegen::toposort_assign_bindings;
use crate::compiler::comptypes::{Binding, CompileErr, CompileForm};
use crate::compiler::gensym::{gensym, ARGNAME_CTR};
use crate::compiler::rename::{rename_args_compileform, rename_args_helperform, rename_children_compileform};
use crate::compiler::srcloc::Srcloc;
use crate::model::{order_cost, Walk};
use crate::ordering::{self, Toposorted};
use crate::reader::{self, Refusal};
use crate::records::{Bytes, Form, Helper, Let, Record};
use std::panic::{catch_unwind, AssertUnwindSafe};
use std::rc::Rc;
use std::sync::atomic::Ordering;

pub const MAX_COUNTER: u64 = 4294967295;
pub const MIN_F: u64 = 64;
pub const MAX_F: u64 = 16384;
pub const WORK_PER_F: u64 = 256;
pub const MAX_NAME: usize = 255;

#[derive(Clone, Copy, Debug, PartialEq, Eq)]
pub enum Call {
    Name,
    Order,
    Whole,
    Children,
    Helper,
}

pub const CALLS: [(Call, &str); 5] = [
    (Call::Name, "name"),
    (Call::Order, "order"),
    (Call::Whole, "whole"),
    (Call::Children, "children"),
    (Call::Helper, "helper"),
];

impl Call {
    pub fn named(word: &str) -> Option<Call> {
        CALLS.iter().find(|(_, name)| *name == word).map(|(call, _)| *call)
    }

    pub fn word(self) -> &'static str {
        CALLS.iter().find(|(call, _)| *call == self).expect("every call has a name").1
    }
}

#[derive(Clone, Debug, PartialEq, Eq)]
pub struct Case {
    pub call: Call,
    pub f: u64,
    pub work: u64,
    pub counter: u64,
    pub buffer: usize,
    pub input: Bytes,
}

/// `rounds` are those of an order that is accepted, and 0 in every other answer. `output` is what is written at the front of the
/// result buffer.
#[derive(Clone, Debug, PartialEq, Eq)]
pub struct Answer {
    pub number: u64,
    pub place: u64,
    pub counter: u64,
    pub rounds: u64,
    pub output: Bytes,
}

/// What a rename function gives: the new form and counter, or the location of a deadlock.
pub type Renamed<T> = Result<(T, u64), Refusal>;

/// A disagreement between the Rust and the model, in words.
pub type Checked<T> = Result<T, String>;

pub fn answer(case: &Case) -> Checked<Answer> {
    if case.call == Call::Name {
        return name(case);
    }
    let opened = match open(case) {
        Ok(opened) => opened,
        Err(refusal) => return Ok(refused(case, refusal)),
    };
    match opened {
        Opened::Assign(assign) => order_answer(case, &assign),
        Opened::Form(form) => {
            let limited = model_form(case.call, &form, &mut Walk::limited(case.counter, case.f as usize));
            rename_answer(case, limited, || rust_form(case.call, &form, case.counter))
        }
        Opened::Helper(helper) => {
            let limited = model_helper(&helper, &mut Walk::limited(case.counter, case.f as usize));
            rename_answer(case, limited, || rust_helper(&helper, case.counter))
        }
    }
}

/// A read input.
pub enum Opened {
    Assign(Let),
    Form(Form),
    Helper(Helper),
}

/// Refusals 1 to 4.
fn open(case: &Case) -> Result<Opened, Refusal> {
    let limits = (MIN_F..=MAX_F).contains(&case.f) && case.work >= WORK_PER_F * case.f && case.counter <= MAX_COUNTER;
    if !limits {
        return reader::refuse(1, 0);
    }
    if case.input.len() as u64 > case.f {
        return reader::refuse(3, 0);
    }
    read(case.call, &case.input)
}

pub fn read(call: Call, input: &[u8]) -> Result<Opened, Refusal> {
    match call {
        Call::Order => reader::assign(input).map(Opened::Assign),
        Call::Helper => reader::helper(input).map(Opened::Helper),
        _ => reader::form(input).map(Opened::Form),
    }
}

fn refused(case: &Case, refusal: Refusal) -> Answer {
    Answer { number: refusal.number, place: refusal.place, counter: case.counter, rounds: 0, output: Bytes::new() }
}

fn delivered(case: &Case, output: Bytes, counter: u64) -> Answer {
    if output.len() > case.buffer {
        return refused(case, Refusal { number: 8, place: 0 });
    }
    Answer { number: 0, place: 0, counter, rounds: 0, output }
}

fn name(case: &Case) -> Checked<Answer> {
    if case.counter > MAX_COUNTER {
        return Ok(refused(case, Refusal { number: 1, place: 0 }));
    }
    let mut walk = Walk::unlimited(case.counter);
    let modelled = walk.gensym(&case.input);
    let made = run(case.counter, || Ok(gensym(case.input.clone())))?;
    match made {
        Ok(made) if made.len() > MAX_NAME => Ok(refused(case, Refusal { number: 6, place: 0 })),
        Ok(made) if modelled.as_ref() == Ok(&made) && counter() == walk.counter => Ok(delivered(case, made, counter())),
        _ => Err("the Rust and the model make different names".to_string()),
    }
}

fn order_answer(case: &Case, assign: &Let) -> Checked<Answer> {
    if assign.bindings.len() > case.buffer {
        return Ok(refused(case, Refusal { number: 8, place: 0 }));
    }
    let modelled = ordering::toposort_assign_bindings(&assign.bindings);
    match (rust_order(assign)?, modelled) {
        (Ok(indices), Toposorted::Ordered(same)) if indices == same => {
            Ok(Answer { rounds: ordering::rounds(&assign.bindings), ..delivered(case, as_bytes(&indices), case.counter) })
        }
        (Err(refusal), Toposorted::Deadlock(stuck)) => Ok(Answer { output: as_bytes(&stuck), ..refused(case, refusal) }),
        (rust, modelled) => Err(format!("the Rust orders {rust:?}, the model {modelled:?}")),
    }
}

fn as_bytes(indices: &[usize]) -> Bytes {
    indices.iter().map(|index| u8::try_from(*index).expect("at most 64 bindings")).collect()
}

/// The model's 6 or 7; else what the Rust gives, which the model must give too.
fn rename_answer<T: Record + PartialEq>(
    case: &Case,
    model: Renamed<T>,
    rust: impl Fn() -> Checked<Renamed<T>>,
) -> Checked<Answer> {
    if let Err(refusal @ Refusal { number: 6 | 7, .. }) = model {
        return Ok(refused(case, refusal));
    }
    let rust = rust()?;
    if rust != model {
        return Err("the Rust and the model give different results".to_string());
    }
    Ok(match rust {
        Ok((record, counter)) => delivered(case, record.bytes(), counter),
        Err(refusal) => refused(case, refusal),
    })
}

pub fn model_form(call: Call, form: &Form, walk: &mut Walk) -> Renamed<Form> {
    let result = match call {
        Call::Children => walk.rename_children_compileform(form)?,
        _ => walk.rename_args_compileform(form)?,
    };
    Ok((result, walk.counter))
}

pub fn model_helper(helper: &Helper, walk: &mut Walk) -> Renamed<Helper> {
    Ok((walk.rename_args_helperform(helper)?, walk.counter))
}

/// The walk of an input that can be read, with no F; a fresh one for any other.
pub fn walked(call: Call, input: &[u8], counter: u64) -> Walk {
    walked_within(call, input, counter, usize::MAX)
}

/// The same with an F: after a 7 its peak is what passed F.
pub fn walked_within(call: Call, input: &[u8], counter: u64, f: usize) -> Walk {
    let mut walk = Walk::limited(counter, f);
    match read(call, input) {
        Ok(Opened::Form(form)) => drop(model_form(call, &form, &mut walk)),
        Ok(Opened::Helper(helper)) => drop(model_helper(&helper, &mut walk)),
        Ok(Opened::Assign(assign)) => walk.cost = order_cost(&assign.bindings),
        Err(_) => {}
    }
    walk
}

pub fn rust_form(call: Call, form: &Form, from: u64) -> Checked<Renamed<Form>> {
    let given = codec::form_to_rust(form);
    let result = run(from, || match call {
        Call::Children => rename_children_compileform(&given),
        _ => rename_args_compileform(&given),
    })?;
    Ok(result.map(|form| (codec::form_from_rust(&form), counter())))
}

pub fn rust_helper(helper: &Helper, from: u64) -> Checked<Renamed<Helper>> {
    let given = codec::helper_to_rust(helper);
    let result = run(from, || rename_args_helperform(&given))?;
    Ok(result.map(|helper| (codec::helper_from_rust(&helper), counter())))
}

/// The exact order, or the deadlock.
pub fn rust_order(assign: &Let) -> Checked<Result<Vec<usize>, Refusal>> {
    let trees = Trees::of(assign);
    let result = run(0, || toposort_assign_bindings(&trees.loc, &trees.bindings))?;
    Ok(result.map(|items| items.iter().map(|item| item.index).collect()))
}

/// An assign as the Rust has it, made once to be ordered many times.
pub struct Trees {
    loc: Srcloc,
    bindings: Vec<Rc<Binding>>,
}

impl Trees {
    pub fn of(assign: &Let) -> Trees {
        Trees { loc: Srcloc::at(assign.loc), bindings: assign.bindings.iter().map(codec::binding_to_rust).collect() }
    }

    /// Runs `toposort_assign_bindings`: whether there is an order.
    pub fn ordered(&self) -> bool {
        toposort_assign_bindings(&self.loc, &self.bindings).is_ok()
    }
}

/// A form as the Rust has it, made once to be renamed many times.
pub struct FormTree(CompileForm);

impl FormTree {
    pub fn of(form: &Form) -> FormTree {
        FormTree(codec::form_to_rust(form))
    }

    /// Runs `rename_args_compileform` from a counter: whether there is no deadlock.
    pub fn renamed(&self, from: u64) -> bool {
        set_counter(from);
        rename_args_compileform(&self.0).is_ok()
    }
}

/// Whole form by the Rust from bytes to bytes: read, made into trees, renamed, and written; nothing for a refusal.
pub fn rust_bytes(input: &[u8], from: u64) -> Option<Bytes> {
    let form = reader::form(input).ok()?;
    set_counter(from);
    let renamed = rename_args_compileform(&codec::form_to_rust(&form)).ok()?;
    Some(codec::form_from_rust(&renamed).bytes())
}

/// Runs the Rust from a counter. Its one error is the deadlock; a panic is a disagreement.
pub(crate) fn run<T>(from: u64, rust: impl Fn() -> Result<T, CompileErr>) -> Checked<Result<T, Refusal>> {
    set_counter(from);
    let result = catch_unwind(AssertUnwindSafe(rust)).map_err(|_| "the Rust panics".to_string())?;
    Ok(result.or_else(|error| deadlock(error.0.number)))
}

pub fn deadlock<T>(loc: u32) -> Result<T, Refusal> {
    Err(Refusal { number: 5, place: loc.into() })
}

fn set_counter(from: u64) {
    ARGNAME_CTR.store(from as usize, Ordering::SeqCst);
}

pub(crate) fn counter() -> u64 {
    ARGNAME_CTR.load(Ordering::SeqCst) as u64
}
