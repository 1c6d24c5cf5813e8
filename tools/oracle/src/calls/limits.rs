//! Cases at the limits of what a call is given: F, work memory, the counter, the result buffer, the input.

use super::gathered::Gathered;
use super::shapes::{self, Shaped};
use super::slots::Part;
use crate::answers::{Call, Case, MAX_COUNTER, MAX_F, MIN_F, WORK_PER_F};
use crate::bodies::shapes::deep;
use crate::bodies::slots::{deadlocked, growing, let_body, long_name, name_binding, TOO_LONG};
use crate::cases::{atom, form_of, var};
use crate::random::Random;
use crate::reads::limits::{head, Inputs};
use crate::reads::{self, Asked};
use crate::records::{Bytes, Form, Head, Helper, Kind, Record};

/// One small input for each call; each draws a name and has a result longer than itself.
fn small() -> [(Call, Bytes); 3] {
    let body = || let_body(Kind::Parallel, vec![name_binding(b"y", var("x"))], var("y"));
    let form = Form { args: atom("x"), helpers: vec![Helper::HC(head(b"c"), var("x"))], ..form_of(body()) };
    let helper = Helper::HD(head(b"d"), false, atom("x"), body());
    [
        (Call::Whole, Part::Form(form.clone()).placed(0)),
        (Call::Children, Part::Form(form).placed(0)),
        (Call::Helper, Part::Helper(helper).placed(0)),
    ]
}

/// F, work memory and counter at their limits and past them, alone and together with another refusal.
pub fn given(gathered: &mut Gathered) {
    for (call, input) in small() {
        let case =
            |f: u64, work: u64, counter: u64, input: &Bytes| Case { call, f, work, counter, buffer: 600, input: input.clone() };
        for f in [0, 1, MIN_F - 1, MIN_F, MIN_F + 1, MAX_F - 1, MAX_F, MAX_F + 1, 65535, u32::MAX.into()] {
            gathered.given("limit of F", case(f, WORK_PER_F * MAX_F, 0, &input));
        }
        for f in [MIN_F, 200, MAX_F] {
            for work in [0, f, WORK_PER_F * f - 1, WORK_PER_F * f, WORK_PER_F * MAX_F] {
                gathered.given("limit of work memory", case(f, work, 0, &input));
            }
        }
        for counter in [MAX_COUNTER - 1, MAX_COUNTER, MAX_COUNTER + 1, 1 << 33, u64::MAX] {
            gathered.given("limit of the counter", case(300, 300 * WORK_PER_F, counter, &input));
        }
        let (cut, longer) = (input[..30].to_vec(), vec![0x58; 201]);
        for bad in [&cut, &longer, &Bytes::new()] {
            gathered.given("1 before 2 and 3", case(MIN_F - 1, WORK_PER_F * MIN_F, 0, bad));
            gathered.given("1 before 2 and 3", case(200, 200 * WORK_PER_F - 1, 0, bad));
            gathered.given("1 before 2 and 3", case(200, 200 * WORK_PER_F, MAX_COUNTER + 1, bad));
            gathered.given("3 by length before 2", case(200, 200 * WORK_PER_F, MAX_COUNTER, bad));
        }
    }
}

/// Result buffers that are long enough and not, for every kind of helper and for refused walks.
pub fn buffers(gathered: &mut Gathered) {
    for (call, input) in small() {
        for counter in [0, MAX_COUNTER] {
            gathered.buffers("small", call, counter, input.clone());
        }
        let f = input.len() as u64;
        gathered.given("7 before 8", Case { call, f, work: WORK_PER_F * f, counter: 0, buffer: 0, input });
    }
    let helper = |body| Helper::HC(head(b"c"), body);
    for body in [deadlocked(), long_name(TOO_LONG)] {
        let form = Form { helpers: vec![helper(body.clone())], ..form_of(var("x")) };
        gathered.buffers("refused", Call::Helper, 0, Part::Helper(helper(body)).placed(0));
        gathered.buffers("refused", Call::Whole, 0, Part::Form(form.clone()).placed(0));
        gathered.buffers("refused", Call::Children, 0, Part::Form(form).placed(0));
    }
    let (body, counter) = (growing(2), 7);
    for (what, helper) in shapes::kinds(&body) {
        let form = Form { args: atom("x"), helpers: vec![helper.clone()], ..form_of(var("x")) };
        gathered.buffers(what, Call::Helper, counter, Part::Helper(helper).placed(0));
        gathered.buffers(what, Call::Whole, counter, Part::Form(form.clone()).placed(0));
        gathered.buffers(what, Call::Children, counter, Part::Form(form).placed(0));
    }
}

/// Inputs cut off everywhere, changed in some bytes, with bytes left over, and of the other call.
pub fn damaged(gathered: &mut Gathered, random: &mut Random) {
    for (call, input) in small() {
        let f = 3 * input.len();
        for length in 0..input.len() {
            gathered.push("cut off", call, f, 0, input[..length].to_vec());
        }
        for place in (0..input.len()).step_by(3) {
            let mut changed = input.clone();
            changed[place] = random.pick(b"\x00\x01\x02\x40\x41\xffBSHCFX");
            gathered.push("changed", call, f, 0, changed);
        }
        gathered.push("left over", call, f, 0, [&input[..], b"\x00"].concat());
        gathered.push("twice", call, f, 0, [&input[..], &input[..]].concat());
        for (_, other) in small() {
            gathered.push("of another call", call, f, 0, other);
        }
    }
}

/// Each input with the call that asks for it: of forms with the two calls by turns, of assigns with none.
fn with_calls(inputs: Inputs) -> Vec<(Call, Bytes)> {
    let mut turn = 0;
    let mut called = |(asked, input): (Asked, Bytes)| {
        turn += (asked == Asked::Form) as usize;
        let call = match asked {
            Asked::Form => Some([Call::Whole, Call::Children][turn % 2]),
            Asked::Helper => Some(Call::Helper),
            Asked::Assign => None,
        };
        call.map(|call| (call, input))
    };
    inputs.into_iter().filter_map(&mut called).collect()
}

/// Levels, counts, SC and BF at their limits and past them; BM in and around assigns.
pub fn records(gathered: &mut Gathered, full: bool) {
    for levels in [31, 32] {
        for (turn, body) in deep(levels).into_iter().enumerate() {
            let call = [Call::Whole, Call::Children][turn % 2];
            gathered.plain(&format!("{} levels", levels + 1), call, 0, Part::Form(form_of(body)).placed(0));
        }
    }
    for (about, inputs) in [("limit of the records", reads::at_limits(full)), ("BM", reads::with_mods(full))] {
        for (call, input) in with_calls(inputs) {
            gathered.plain(about, call, 5, input);
        }
    }
}

/// A CF of so many bytes, with an atom as its args.
fn of_length(length: usize) -> Form {
    let form = Form { args: atom("x"), ..form_of(var("x")) };
    let missing = length - form.size();
    Form { rest: vec![0x53; missing], ..form }
}

/// Inputs and results as long as F and longer, at the least F; at the largest F those that are not too long to store.
pub fn lengths(gathered: &mut Gathered) {
    let about = "length of the input";
    let form = |length: usize| Part::Form(of_length(length)).placed(0);
    let helper = |length: usize| {
        let rest = vec![0x42; length - Helper::HR(head(b"")).size()];
        Part::Helper(Helper::HR(Head { rest, ..head(b"") })).placed(0)
    };
    let (least, most) = (MIN_F as usize, MAX_F as usize);
    for (call, length) in [(Call::Children, 64), (Call::Whole, 64), (Call::Whole, 56), (Call::Whole, 57), (Call::Whole, 65)] {
        gathered.push(about, call, least, 0, form(length));
    }
    for length in [64, 65] {
        gathered.push(about, Call::Helper, least, 0, helper(length));
    }
    for length in [most - 8, most, most + 1] {
        gathered.push(about, Call::Whole, most, 0, form(length));
    }
}

/// Cases in which F is enough, at a counter.
pub fn plain(gathered: &mut Gathered, counter: u64, from: u32, shaped: Vec<Shaped>) {
    for (about, call, part) in shaped {
        gathered.plain(&about, call, counter, part.placed(from));
    }
}
