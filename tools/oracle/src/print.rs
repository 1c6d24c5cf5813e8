//! Records in a readable form, near to the source language.
//!
//! A Name binding is written `name:x`; a Complex one as its pattern. An empty name is `||`; a name with unprintable bytes is in
//! hexadecimal. A lambda is `(lambda (& CAPTURE-ARGS := CAPTURES) ARGS BODY)`, the first list left out where both are nil or a number.

use crate::records::{Binding, Body, Form, Head, Helper, Kind, Lambda, Let, Pattern, Sexp};
use crate::vectors::hex;

fn name(bytes: &[u8]) -> String {
    match bytes {
        [] => "||".to_string(),
        _ if bytes.iter().all(u8::is_ascii_graphic) => String::from_utf8_lossy(bytes).into_owned(),
        _ => format!("|0x{}|", hex(bytes)),
    }
}

fn integer(bytes: &[u8]) -> String {
    if bytes.len() > 8 {
        return format!("0x{}", hex(bytes));
    }
    let start: i64 = if bytes[0] >= 0x80 { -1 } else { 0 };
    bytes.iter().fold(start, |value, byte| value << 8 | i64::from(*byte)).to_string()
}

pub fn sexp(s: &Sexp) -> String {
    match s {
        Sexp::SN(_) => "()".to_string(),
        Sexp::SC(_, head, tail) => format!("({}{})", sexp(head), rest_of_list(tail)),
        Sexp::SI(_, bytes) => integer(bytes),
        Sexp::SQ(_, _, bytes) => format!("{:?}", String::from_utf8_lossy(bytes)),
        Sexp::SA(_, bytes) => name(bytes),
    }
}

fn rest_of_list(tail: &Sexp) -> String {
    match tail {
        Sexp::SN(_) => String::new(),
        Sexp::SC(_, head, tail) => format!(" {}{}", sexp(head), rest_of_list(tail)),
        _ => format!(" . {}", sexp(tail)),
    }
}

fn words(words: impl IntoIterator<Item = String>) -> String {
    format!("({})", words.into_iter().collect::<Vec<String>>().join(" "))
}

fn pattern(binding: &Binding) -> String {
    match &binding.pattern {
        Pattern::Name(bytes) => format!("name:{}", name(bytes)),
        Pattern::Complex(s) => sexp(s),
    }
}

pub fn let_form(data: &Let) -> String {
    let pairs: Vec<String> = data.bindings.iter().map(|b| format!("{} {}", pattern(b), body(&b.body))).collect();
    match data.kind {
        Kind::Assign => words([vec!["assign".to_string()], pairs, vec![body(&data.body)]].concat()),
        kind => {
            let marker = if kind == Kind::Parallel { "let" } else { "let*" };
            let bindings = words(pairs.iter().map(|pair| format!("({pair})")));
            format!("({marker} {bindings} {})", body(&data.body))
        }
    }
}

fn lambda(data: &Lambda) -> String {
    let plain = matches!(data.capture_args, Sexp::SN(_)) && matches!(data.captures, Body::BV(Sexp::SN(_) | Sexp::SI(_, _)));
    let captures = match plain {
        true => String::new(),
        false => format!("(& {} := {}) ", sexp(&data.capture_args), body(&data.captures)),
    };
    format!("(lambda {captures}{} {})", sexp(&data.args), body(&data.body))
}

pub fn body(b: &Body) -> String {
    match b {
        Body::BL(data) => let_form(data),
        Body::BQ(s) => format!("(q . {})", sexp(s)),
        Body::BV(s) => sexp(s),
        Body::BC(_, elements, tail) => {
            let tail = tail.iter().map(|tail| format!("&rest {}", body(tail)));
            words(elements.iter().map(body).chain(tail))
        }
        Body::BM(_, f) => form(f),
        Body::BF(data) => lambda(data),
    }
}

pub fn helper(h: &Helper) -> String {
    let start = |word: &str, head: &Head| format!("{word} {}", name(&head.name));
    match h {
        Helper::HC(head, b) => format!("({} {})", start("defconst", head), body(b)),
        Helper::HM(head, args, f) => format!("({} {} {})", start("defmacro", head), sexp(args), form(f)),
        Helper::HD(head, inline, args, b) => {
            let word = if *inline { "defun-inline" } else { "defun" };
            format!("({} {} {})", start(word, head), sexp(args), body(b))
        }
        Helper::HN(head, helpers) => words([start("namespace", head)].into_iter().chain(helpers.iter().map(helper))),
        Helper::HR(head) => format!("({})", start("import", head)),
    }
}

pub fn form(f: &Form) -> String {
    let helpers: Vec<String> = f.helpers.iter().map(helper).collect();
    words([vec!["mod".to_string(), sexp(&f.args)], helpers, vec![body(&f.body)]].concat())
}
