//! Records whose every L is its own.

use crate::records::{Binding, Body, Form, Head, Helper, Hint, Lambda, Let, Loc, Pattern, Sexp};
use std::rc::Rc;

/// Gives out L, one after the other.
pub struct Places(pub Loc);

impl Places {
    fn next(&mut self) -> Loc {
        self.0 = self.0.wrapping_add(1);
        self.0
    }

    pub fn sexp(&mut self, sexp: &Sexp) -> Sexp {
        let loc = self.next();
        match sexp {
            Sexp::SN(_) => Sexp::SN(loc),
            Sexp::SC(_, head, tail) => {
                let head = self.sexp(head);
                Sexp::SC(loc, Rc::new(head), Rc::new(self.sexp(tail)))
            }
            Sexp::SI(_, number) => Sexp::SI(loc, number.clone()),
            Sexp::SQ(_, quote, text) => Sexp::SQ(loc, *quote, text.clone()),
            Sexp::SA(_, name) => Sexp::SA(loc, name.clone()),
        }
    }

    fn binding(&mut self, binding: &Binding) -> Binding {
        let (loc, name_loc) = (self.next(), self.next());
        let pattern = match &binding.pattern {
            Pattern::Name(name) => Pattern::Name(name.clone()),
            Pattern::Complex(sexp) => Pattern::Complex(self.sexp(sexp)),
        };
        Binding { loc, name_loc, pattern, body: self.body(&binding.body) }
    }

    fn let_form(&mut self, data: &Let) -> Let {
        let loc = self.next();
        let keyword = data.keyword.map(|_| self.next());
        let hint = match data.hint {
            Hint::Inline(_) => Hint::Inline(self.next()),
            Hint::NonInline(_) => Hint::NonInline(self.next()),
            ref other => other.clone(),
        };
        let bindings = data.bindings.iter().map(|binding| self.binding(binding)).collect();
        Let { kind: data.kind, loc, keyword, hint, bindings, body: self.body(&data.body) }
    }

    fn lambda(&mut self, data: &Lambda) -> Lambda {
        let loc = self.next();
        let keyword = data.keyword.map(|_| self.next());
        let capture_args = self.sexp(&data.capture_args);
        let captures = self.body(&data.captures);
        let args = self.sexp(&data.args);
        Lambda { loc, keyword, capture_args, captures, args, body: self.body(&data.body) }
    }

    pub fn body(&mut self, body: &Body) -> Body {
        match body {
            Body::BL(data) => Body::BL(Box::new(self.let_form(data))),
            Body::BQ(sexp) => Body::BQ(self.sexp(sexp)),
            Body::BV(sexp) => Body::BV(self.sexp(sexp)),
            Body::BC(_, elements, tail) => {
                let loc = self.next();
                let elements = elements.iter().map(|element| self.body(element)).collect();
                Body::BC(loc, elements, tail.as_ref().map(|tail| Box::new(self.body(tail))))
            }
            Body::BM(_, form) => Body::BM(self.next(), Box::new(self.form(form))),
            Body::BF(data) => Body::BF(Box::new(self.lambda(data))),
        }
    }

    /// A form with its helpers.
    pub fn form(&mut self, form: &Form) -> Form {
        let loc = self.next();
        let args = self.sexp(&form.args);
        let helpers = form.helpers.iter().map(|helper| self.helper(helper)).collect();
        Form { loc, rest: form.rest.clone(), args, helpers, body: self.body(&form.body) }
    }

    /// The head of a helper.
    fn head(&mut self, head: &Head) -> Head {
        Head { loc: self.next(), ..head.clone() }
    }

    /// A helper with what it holds.
    pub fn helper(&mut self, helper: &Helper) -> Helper {
        match helper {
            Helper::HC(head, body) => Helper::HC(self.head(head), self.body(body)),
            Helper::HM(head, args, form) => Helper::HM(self.head(head), self.sexp(args), self.form(form)),
            Helper::HD(head, inline, args, body) => Helper::HD(self.head(head), *inline, self.sexp(args), self.body(body)),
            Helper::HN(head, helpers) => Helper::HN(self.head(head), helpers.iter().map(|helper| self.helper(helper)).collect()),
            Helper::HR(head) => Helper::HR(self.head(head)),
        }
    }
}
