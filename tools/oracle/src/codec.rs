//! Record trees to the Rust's trees and back.
//!
//! Fields that no record names (R) ride in a field that the pass only clones: a helper's R in its `nl`, a form's R as the name of its
//! one include. The other fields of the kind get a fixed value.

use crate::compiler::comptypes as rust;
use crate::compiler::sexp::SExp;
use crate::compiler::srcloc::Srcloc;
use crate::records::{Binding, Body, Form, Head, Helper, Hint, Kind, Lambda, Let, Loc, Pattern, Sexp};
use crate::shims::BigInt;
use crate::util::u8_from_number;
use std::rc::Rc;

fn at(loc: Loc) -> Srcloc {
    Srcloc::at(loc)
}

pub fn sexp_to_rust(sexp: &Sexp) -> Rc<SExp> {
    Rc::new(match sexp {
        Sexp::SN(loc) => SExp::Nil(at(*loc)),
        Sexp::SC(loc, head, tail) => SExp::Cons(at(*loc), sexp_to_rust(head), sexp_to_rust(tail)),
        Sexp::SI(loc, bytes) => SExp::Integer(at(*loc), BigInt::of_shortest(bytes)),
        Sexp::SQ(loc, quote, text) => SExp::QuotedString(at(*loc), *quote, text.clone()),
        Sexp::SA(loc, name) => SExp::Atom(at(*loc), name.clone()),
    })
}

pub fn sexp_from_rust(sexp: &SExp) -> Sexp {
    match sexp {
        SExp::Nil(loc) => Sexp::SN(loc.number),
        SExp::Cons(loc, head, tail) => Sexp::SC(loc.number, Rc::new(sexp_from_rust(head)), Rc::new(sexp_from_rust(tail))),
        SExp::Integer(loc, number) => Sexp::SI(loc.number, u8_from_number(number.clone())),
        SExp::QuotedString(loc, quote, text) => Sexp::SQ(loc.number, *quote, text.clone()),
        SExp::Atom(loc, name) => Sexp::SA(loc.number, name.clone()),
    }
}

pub fn binding_to_rust(binding: &Binding) -> Rc<rust::Binding> {
    Rc::new(rust::Binding {
        loc: at(binding.loc),
        nl: at(binding.name_loc),
        pattern: match &binding.pattern {
            Pattern::Name(name) => rust::BindingPattern::Name(name.clone()),
            Pattern::Complex(sexp) => rust::BindingPattern::Complex(sexp_to_rust(sexp)),
        },
        body: body_to_rust(&binding.body),
    })
}

fn binding_from_rust(binding: &rust::Binding) -> Binding {
    Binding {
        loc: binding.loc.number,
        name_loc: binding.nl.number,
        pattern: match &binding.pattern {
            rust::BindingPattern::Name(name) => Pattern::Name(name.clone()),
            rust::BindingPattern::Complex(sexp) => Pattern::Complex(sexp_from_rust(sexp)),
        },
        body: body_from_rust(&binding.body),
    }
}

fn let_to_rust(data: &Let) -> rust::BodyForm {
    let kind = match data.kind {
        Kind::Parallel => rust::LetFormKind::Parallel,
        Kind::Sequential => rust::LetFormKind::Sequential,
        Kind::Assign => rust::LetFormKind::Assign,
    };
    let inline_hint = match data.hint {
        Hint::Absent => None,
        Hint::NoChoice => Some(rust::LetFormInlineHint::NoChoice),
        Hint::Inline(loc) => Some(rust::LetFormInlineHint::Inline(at(loc))),
        Hint::NonInline(loc) => Some(rust::LetFormInlineHint::NonInline(at(loc))),
    };
    let data = rust::LetData {
        loc: at(data.loc),
        kw: data.keyword.map(at),
        inline_hint,
        bindings: data.bindings.iter().map(binding_to_rust).collect(),
        body: body_to_rust(&data.body),
    };
    rust::BodyForm::Let(kind, Box::new(data))
}

fn let_from_rust(kind: &rust::LetFormKind, data: &rust::LetData) -> Let {
    Let {
        kind: match kind {
            rust::LetFormKind::Parallel => Kind::Parallel,
            rust::LetFormKind::Sequential => Kind::Sequential,
            rust::LetFormKind::Assign => Kind::Assign,
        },
        loc: data.loc.number,
        keyword: data.kw.as_ref().map(|loc| loc.number),
        hint: match &data.inline_hint {
            None => Hint::Absent,
            Some(rust::LetFormInlineHint::NoChoice) => Hint::NoChoice,
            Some(rust::LetFormInlineHint::Inline(loc)) => Hint::Inline(loc.number),
            Some(rust::LetFormInlineHint::NonInline(loc)) => Hint::NonInline(loc.number),
        },
        bindings: data.bindings.iter().map(|binding| binding_from_rust(binding)).collect(),
        body: body_from_rust(&data.body),
    }
}

fn lambda_to_rust(data: &Lambda) -> rust::BodyForm {
    rust::BodyForm::Lambda(Box::new(rust::LambdaData {
        loc: at(data.loc),
        kw: data.keyword.map(at),
        capture_args: sexp_to_rust(&data.capture_args),
        captures: body_to_rust(&data.captures),
        args: sexp_to_rust(&data.args),
        body: body_to_rust(&data.body),
    }))
}

fn lambda_from_rust(data: &rust::LambdaData) -> Lambda {
    Lambda {
        loc: data.loc.number,
        keyword: data.kw.as_ref().map(|loc| loc.number),
        capture_args: sexp_from_rust(&data.capture_args),
        captures: body_from_rust(&data.captures),
        args: sexp_from_rust(&data.args),
        body: body_from_rust(&data.body),
    }
}

pub fn body_to_rust(body: &Body) -> Rc<rust::BodyForm> {
    Rc::new(match body {
        Body::BL(data) => let_to_rust(data),
        Body::BQ(sexp) => rust::BodyForm::Quoted((*sexp_to_rust(sexp)).clone()),
        Body::BV(sexp) => rust::BodyForm::Value((*sexp_to_rust(sexp)).clone()),
        Body::BC(loc, elements, tail) => rust::BodyForm::Call(
            at(*loc),
            elements.iter().map(body_to_rust).collect(),
            tail.as_ref().map(|tail| body_to_rust(tail)),
        ),
        Body::BM(loc, form) => rust::BodyForm::Mod(at(*loc), form_to_rust(form)),
        Body::BF(data) => lambda_to_rust(data),
    })
}

fn body_from_rust(body: &rust::BodyForm) -> Body {
    match body {
        rust::BodyForm::Let(kind, data) => Body::BL(Box::new(let_from_rust(kind, data))),
        rust::BodyForm::Quoted(sexp) => Body::BQ(sexp_from_rust(sexp)),
        rust::BodyForm::Value(sexp) => Body::BV(sexp_from_rust(sexp)),
        rust::BodyForm::Call(loc, elements, tail) => Body::BC(
            loc.number,
            elements.iter().map(|element| body_from_rust(element)).collect(),
            tail.as_ref().map(|tail| Box::new(body_from_rust(tail))),
        ),
        rust::BodyForm::Mod(loc, form) => Body::BM(loc.number, Box::new(form_from_rust(form))),
        rust::BodyForm::Lambda(data) => Body::BF(Box::new(lambda_from_rust(data))),
    }
}

/// The R of a helper rides here.
fn name_loc(head: &Head) -> Srcloc {
    Srcloc::carrying(head.loc, &head.rest)
}

fn no_long_name() -> rust::ImportLongName {
    rust::ImportLongName { components: Vec::new() }
}

fn constant_to_rust(head: &Head, body: &Body) -> rust::HelperForm {
    rust::HelperForm::Defconstant(rust::DefconstData {
        loc: at(head.loc),
        kind: rust::ConstantKind::Complex,
        name: head.name.clone(),
        kw: None,
        nl: name_loc(head),
        body: body_to_rust(body),
        tabled: false,
    })
}

fn macro_to_rust(head: &Head, args: &Sexp, form: &Form) -> rust::HelperForm {
    rust::HelperForm::Defmacro(rust::DefmacData {
        loc: at(head.loc),
        name: head.name.clone(),
        kw: None,
        nl: name_loc(head),
        args: sexp_to_rust(args),
        program: Rc::new(form_to_rust(form)),
        advanced: false,
    })
}

fn function_to_rust(head: &Head, inline: bool, args: &Sexp, body: &Body) -> rust::HelperForm {
    let data = rust::DefunData {
        loc: at(head.loc),
        name: head.name.clone(),
        kw: None,
        nl: name_loc(head),
        orig_args: sexp_to_rust(args),
        args: sexp_to_rust(args),
        body: body_to_rust(body),
        synthetic: None,
    };
    rust::HelperForm::Defun(inline, Box::new(data))
}

fn namespace_to_rust(head: &Head, helpers: &[Helper]) -> rust::HelperForm {
    rust::HelperForm::Defnamespace(Box::new(rust::NamespaceData {
        loc: at(head.loc),
        kw: at(head.loc),
        nl: name_loc(head),
        rendered_name: head.name.clone(),
        longname: no_long_name(),
        helpers: helpers.iter().map(helper_to_rust).collect(),
    }))
}

fn reference_to_rust(head: &Head) -> rust::HelperForm {
    rust::HelperForm::Defnsref(Box::new(rust::NamespaceRefData {
        loc: at(head.loc),
        kw: at(head.loc),
        nl: name_loc(head),
        rendered_name: head.name.clone(),
        longname: no_long_name(),
        specification: rust::ModuleImportSpec::Hiding(at(head.loc), Vec::new()),
    }))
}

pub fn helper_to_rust(helper: &Helper) -> rust::HelperForm {
    match helper {
        Helper::HC(head, body) => constant_to_rust(head, body),
        Helper::HM(head, args, form) => macro_to_rust(head, args, form),
        Helper::HD(head, inline, args, body) => function_to_rust(head, *inline, args, body),
        Helper::HN(head, helpers) => namespace_to_rust(head, helpers),
        Helper::HR(head) => reference_to_rust(head),
    }
}

fn head_from_rust(loc: &Srcloc, name: &[u8], name_loc: &Srcloc) -> Head {
    Head { loc: loc.number, name: name.to_vec(), rest: name_loc.carried.to_vec() }
}

pub fn helper_from_rust(helper: &rust::HelperForm) -> Helper {
    match helper {
        rust::HelperForm::Defconstant(data) => {
            Helper::HC(head_from_rust(&data.loc, &data.name, &data.nl), body_from_rust(&data.body))
        }
        rust::HelperForm::Defmacro(data) => {
            Helper::HM(head_from_rust(&data.loc, &data.name, &data.nl), sexp_from_rust(&data.args), form_from_rust(&data.program))
        }
        rust::HelperForm::Defun(inline, data) => Helper::HD(
            head_from_rust(&data.loc, &data.name, &data.nl),
            *inline,
            sexp_from_rust(&data.args),
            body_from_rust(&data.body),
        ),
        rust::HelperForm::Defnamespace(data) => Helper::HN(
            head_from_rust(&data.loc, &data.rendered_name, &data.nl),
            data.helpers.iter().map(helper_from_rust).collect(),
        ),
        rust::HelperForm::Defnsref(data) => Helper::HR(head_from_rust(&data.loc, &data.rendered_name, &data.nl)),
    }
}

pub fn form_to_rust(form: &Form) -> rust::CompileForm {
    let carrier = rust::IncludeDesc { kw: at(0), nl: at(0), name: form.rest.clone(), kind: None, fingerprint: [0; 32] };
    rust::CompileForm {
        loc: at(form.loc),
        include_forms: vec![carrier],
        args: sexp_to_rust(&form.args),
        helpers: form.helpers.iter().map(helper_to_rust).collect(),
        exp: body_to_rust(&form.body),
    }
}

pub fn form_from_rust(form: &rust::CompileForm) -> Form {
    Form {
        loc: form.loc.number,
        rest: form.include_forms[0].name.clone(),
        args: sexp_from_rust(&form.args),
        helpers: form.helpers.iter().map(helper_from_rust).collect(),
        body: body_from_rust(&form.exp),
    }
}
