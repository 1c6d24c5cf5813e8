//! H records and CF of every kind with places in them, and what stands around them in a call.

use crate::answers::Call;
use crate::bodies::places::Places;
use crate::bodies::slots::{body_filled, empty, sexp_filled, Fill, AROUND, OWN};
use crate::cases::{form_of, nil};
use crate::reads::limits::{a_mod, head};
use crate::records::{Bytes, Form, Helper, Record, Sexp};
use crate::sexps::shapes::named;

/// What a call is given.
#[derive(Clone, Debug)]
pub enum Part {
    Helper(Helper),
    Form(Form),
}

impl Part {
    /// Its bytes, every L its own.
    pub fn placed(&self, from: u32) -> Bytes {
        let mut places = Places(from);
        match self {
            Part::Helper(helper) => places.helper(helper).bytes(),
            Part::Form(form) => places.form(form).bytes(),
        }
    }
}

/// An H record or a CF with places in it.
#[derive(Clone, Copy, Debug, PartialEq, Eq)]
pub enum Shape {
    Constant,
    Function,
    Macro,
    Namespace,
    Form,
}

/// Every shape.
pub const SHAPES: [Shape; 5] = [Shape::Constant, Shape::Function, Shape::Macro, Shape::Namespace, Shape::Form];

impl Shape {
    /// What stands in its places.
    pub fn places(self) -> &'static [&'static str] {
        match self {
            Shape::Constant => &["the body"],
            Shape::Function => &["the args", "the body"],
            Shape::Macro => &["the args", "the args of the CF", "helper 0 of the CF", "helper 1 of the CF", "the body of the CF"],
            Shape::Namespace => &["helper 0", "a namespace in it", "helper 2"],
            Shape::Form => &["the args", "helper 0", "helper 1", "the body"],
        }
    }

    /// How a case names it.
    pub fn words(self) -> &'static str {
        match self {
            Shape::Constant => "an HC",
            Shape::Function => "an HD",
            Shape::Macro => "an HM",
            Shape::Namespace => "an HN",
            Shape::Form => "a CF",
        }
    }

    /// Whether an S record stands in a place.
    pub fn is_sexp(self, place: usize) -> bool {
        match self {
            Shape::Function | Shape::Form => place == 0,
            Shape::Macro => place < 2,
            Shape::Constant | Shape::Namespace => false,
        }
    }

    /// The record with these fills in its places.
    pub fn filled(self, fills: &[Fill], counter: u64) -> Part {
        let body = |place: usize| body_filled(&fills[place], counter);
        let sexp = |place: usize, name: &[u8]| sexp_filled(&fills[place], name);
        let constant = |place: usize| Helper::HC(head(b"c"), body(place));
        Part::Helper(match self {
            Shape::Constant => constant(0),
            Shape::Function => Helper::HD(head(b"d"), true, sexp(0, OWN), body(1)),
            Shape::Macro => {
                let form = Form { args: sexp(1, b"b"), helpers: vec![constant(2), constant(3)], ..form_of(body(4)) };
                Helper::HM(head(b"m"), sexp(0, OWN), form)
            }
            Shape::Namespace => {
                let inner = Helper::HN(head(b"n"), vec![constant(1)]);
                let last = Helper::HD(head(b"d"), false, nil(), body(2));
                Helper::HN(head(b"n"), vec![constant(0), inner, last])
            }
            Shape::Form => {
                let second = Helper::HD(head(b"d"), false, named(b"d"), body(2));
                return Part::Form(Form { args: sexp(0, OWN), helpers: vec![constant(1), second], ..form_of(body(3)) });
            }
        })
    }
}

/// What stands around an H record or a CF.
#[derive(Clone, Copy, Debug, PartialEq, Eq)]
pub enum Around {
    Alone,
    Children,
    Form,
    Namespace,
    Macro,
    MacroNamespace,
    MacroInForm,
}

/// Everything that may stand around.
pub const AROUNDS: [Around; 7] = [
    Around::Alone,
    Around::Children,
    Around::Form,
    Around::Namespace,
    Around::Macro,
    Around::MacroNamespace,
    Around::MacroInForm,
];

/// A CF of these args that has a helper.
pub fn form_with(args: Sexp, helper: Helper) -> Form {
    Form { args, helpers: vec![helper], ..form_of(empty()) }
}

impl Around {
    /// How a case names it.
    pub fn words(self) -> &'static str {
        match self {
            Around::Alone => "alone",
            Around::Children => "by Children only",
            Around::Form => "in a CF with args",
            Around::Namespace => "in a namespace",
            Around::Macro => "in a macro",
            Around::MacroNamespace => "in a namespace of a macro",
            Around::MacroInForm => "in a macro in a CF with args",
        }
    }

    /// The call, and what it is given: the part, where the name that its parts use is bound around it.
    pub fn around(self, part: Part) -> (Call, Part) {
        match part {
            Part::Helper(helper) => self.around_helper(helper),
            Part::Form(form) => self.around_form(form),
        }
    }

    /// The same of an H record.
    fn around_helper(self, helper: Helper) -> (Call, Part) {
        let around = || named(AROUND);
        let space = |helper| Helper::HN(head(b"n"), vec![helper]);
        let a_macro = |args, helper| Helper::HM(head(b"m"), args, form_with(nil(), helper));
        match self {
            Around::Alone => (Call::Helper, Part::Helper(helper)),
            Around::Children => (Call::Children, Part::Form(form_with(around(), helper))),
            Around::Form => (Call::Whole, Part::Form(form_with(around(), helper))),
            Around::Namespace => (Call::Whole, Part::Form(form_with(around(), space(helper)))),
            Around::Macro => (Call::Helper, Part::Helper(a_macro(around(), helper))),
            Around::MacroNamespace => (Call::Helper, Part::Helper(a_macro(around(), space(helper)))),
            Around::MacroInForm => (Call::Whole, Part::Form(form_with(around(), a_macro(nil(), helper)))),
        }
    }

    /// The same of a CF; in place of a CF with args it stands in a BM there.
    fn around_form(self, form: Form) -> (Call, Part) {
        let a_macro = |args, form| Helper::HM(head(b"m"), args, form);
        let around = || named(AROUND);
        match self {
            Around::Alone => (Call::Whole, Part::Form(form)),
            Around::Children => (Call::Children, Part::Form(form)),
            Around::Form => (Call::Whole, Part::Form(Form { args: around(), ..form_of(a_mod(form)) })),
            Around::Macro => (Call::Helper, Part::Helper(a_macro(around(), form))),
            Around::Namespace | Around::MacroNamespace => {
                (Call::Helper, Part::Helper(Helper::HN(head(b"n"), vec![a_macro(around(), form)])))
            }
            Around::MacroInForm => (Call::Whole, Part::Form(form_with(around(), a_macro(nil(), form)))),
        }
    }
}
