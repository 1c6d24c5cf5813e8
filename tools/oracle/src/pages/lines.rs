//! The lines of a form.

use super::LINE;
use crate::records::{Binding, Body, Bytes, Form, Head, Helper, Pattern, Sexp};

/// A line for each record, in the sequence of the marks.
pub fn lines(form: &Form) -> Vec<Bytes> {
    let mut page = Page(Vec::new());
    page.form(form, 0);
    page.0
}

struct Page(Vec<Bytes>);

impl Page {
    /// The line of a record that so many others stand around.
    fn line(&mut self, around: usize, mark: &str, name: Option<&[u8]>) {
        let shown = match name {
            None => "-".to_string(),
            Some(name) => name.iter().map(|byte| if (0x21..=0x7e).contains(byte) { *byte as char } else { '.' }).collect(),
        };
        let width = LINE - 1;
        let text = format!("{}{mark} {shown}", "  ".repeat(around));
        self.0.push(format!("{text:width$.width$}\n").into_bytes());
    }

    fn sexp(&mut self, sexp: &Sexp, around: usize) {
        match sexp {
            Sexp::SN(_) => self.line(around, "SN", None),
            Sexp::SI(..) => self.line(around, "SI", None),
            Sexp::SQ(_, _, text) => self.line(around, "SQ", Some(text)),
            Sexp::SA(_, name) => self.line(around, "SA", Some(name)),
            Sexp::SC(_, head, tail) => {
                self.line(around, "SC", None);
                self.sexp(head, around + 1);
                self.sexp(tail, around + 1);
            }
        }
    }

    fn binding(&mut self, binding: &Binding, around: usize) {
        match &binding.pattern {
            Pattern::Name(name) => self.line(around, "BB", Some(name)),
            Pattern::Complex(sexp) => {
                self.line(around, "BB", None);
                self.sexp(sexp, around + 1);
            }
        }
        self.body(&binding.body, around + 1);
    }

    fn body(&mut self, body: &Body, around: usize) {
        let mark = match body {
            Body::BL(_) => "BL",
            Body::BQ(_) => "BQ",
            Body::BV(_) => "BV",
            Body::BC(..) => "BC",
            Body::BM(..) => "BM",
            Body::BF(_) => "BF",
        };
        self.line(around, mark, None);
        let inner = around + 1;
        match body {
            Body::BL(data) => {
                data.bindings.iter().for_each(|binding| self.binding(binding, inner));
                self.body(&data.body, inner);
            }
            Body::BQ(sexp) | Body::BV(sexp) => self.sexp(sexp, inner),
            Body::BC(_, elements, tail) => {
                elements.iter().for_each(|element| self.body(element, inner));
                tail.iter().for_each(|tail| self.body(tail, inner));
            }
            Body::BM(_, form) => self.form(form, inner),
            Body::BF(data) => {
                self.sexp(&data.capture_args, inner);
                self.body(&data.captures, inner);
                self.sexp(&data.args, inner);
                self.body(&data.body, inner);
            }
        }
    }

    fn helper(&mut self, helper: &Helper, around: usize) {
        let mut line = |mark: &str, head: &Head| self.line(around, mark, Some(&head.name));
        let inner = around + 1;
        match helper {
            Helper::HC(head, body) => {
                line("HC", head);
                self.body(body, inner);
            }
            Helper::HM(head, args, form) => {
                line("HM", head);
                self.sexp(args, inner);
                self.form(form, inner);
            }
            Helper::HD(head, _, args, body) => {
                line("HD", head);
                self.sexp(args, inner);
                self.body(body, inner);
            }
            Helper::HN(head, helpers) => {
                line("HN", head);
                helpers.iter().for_each(|helper| self.helper(helper, inner));
            }
            Helper::HR(head) => line("HR", head),
        }
    }

    fn form(&mut self, form: &Form, around: usize) {
        self.line(around, "CF", None);
        self.sexp(&form.args, around + 1);
        form.helpers.iter().for_each(|helper| self.helper(helper, around + 1));
        self.body(&form.body, around + 1);
    }
}
