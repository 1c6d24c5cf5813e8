//! The form records as trees, and the bytes of each.

use std::rc::Rc;

/// L, a location.
pub type Loc = u32;
/// The bytes of a name, of a number, or of an R.
pub type Bytes = Vec<u8>;

#[derive(Clone, Debug, PartialEq, Eq)]
pub enum Sexp {
    SN(Loc),
    SC(Loc, Rc<Sexp>, Rc<Sexp>),
    SI(Loc, Bytes),
    SQ(Loc, u8, Bytes),
    SA(Loc, Bytes),
}

#[derive(Clone, Copy, Debug, PartialEq, Eq)]
pub enum Kind {
    Parallel,
    Sequential,
    Assign,
}

#[derive(Clone, Debug, PartialEq, Eq)]
pub enum Hint {
    Absent,
    NoChoice,
    Inline(Loc),
    NonInline(Loc),
}

#[derive(Clone, Debug, PartialEq, Eq)]
pub enum Pattern {
    Name(Bytes),
    Complex(Sexp),
}

#[derive(Clone, Debug, PartialEq, Eq)]
pub struct Binding {
    pub loc: Loc,
    pub name_loc: Loc,
    pub pattern: Pattern,
    pub body: Body,
}

#[derive(Clone, Debug, PartialEq, Eq)]
pub struct Let {
    pub kind: Kind,
    pub loc: Loc,
    pub keyword: Option<Loc>,
    pub hint: Hint,
    pub bindings: Vec<Binding>,
    pub body: Body,
}

#[derive(Clone, Debug, PartialEq, Eq)]
pub struct Lambda {
    pub loc: Loc,
    pub keyword: Option<Loc>,
    pub capture_args: Sexp,
    pub captures: Body,
    pub args: Sexp,
    pub body: Body,
}

#[derive(Clone, Debug, PartialEq, Eq)]
pub enum Body {
    BL(Box<Let>),
    BQ(Sexp),
    BV(Sexp),
    BC(Loc, Vec<Body>, Option<Box<Body>>),
    BM(Loc, Box<Form>),
    BF(Box<Lambda>),
}

/// What every helper has: L, name and R.
#[derive(Clone, Debug, PartialEq, Eq)]
pub struct Head {
    pub loc: Loc,
    pub name: Bytes,
    pub rest: Bytes,
}

#[derive(Clone, Debug, PartialEq, Eq)]
pub enum Helper {
    HC(Head, Body),
    HM(Head, Sexp, Form),
    HD(Head, bool, Sexp, Body),
    HN(Head, Vec<Helper>),
    HR(Head),
}

#[derive(Clone, Debug, PartialEq, Eq)]
pub struct Form {
    pub loc: Loc,
    pub rest: Bytes,
    pub args: Sexp,
    pub helpers: Vec<Helper>,
    pub body: Body,
}

/// Where a record's bytes go: into a list, or into a count of them.
pub trait Sink {
    fn put(&mut self, bytes: &[u8]);

    fn loc(&mut self, loc: Loc) {
        self.put(&loc.to_be_bytes());
    }

    fn name(&mut self, name: &[u8]) {
        self.put(&[u8::try_from(name.len()).expect("a name of at most 255 bytes")]);
        self.put(name);
    }

    fn rest(&mut self, rest: &[u8]) {
        let length = u16::try_from(rest.len()).expect("an R of at most 65535 bytes");
        self.put(&length.to_be_bytes());
        self.put(rest);
    }

    fn keyword(&mut self, keyword: Option<Loc>) {
        self.put(&[keyword.is_some() as u8]);
        if let Some(loc) = keyword {
            self.loc(loc);
        }
    }

    fn count(&mut self, count: usize) {
        self.put(&[u8::try_from(count).expect("a count of at most 255")]);
    }
}

impl Sink for Bytes {
    fn put(&mut self, bytes: &[u8]) {
        self.extend_from_slice(bytes);
    }
}

struct Count(usize);

impl Sink for Count {
    fn put(&mut self, bytes: &[u8]) {
        self.0 += bytes.len();
    }
}

pub trait Record {
    fn write(&self, to: &mut impl Sink);

    fn bytes(&self) -> Bytes {
        let mut bytes = Bytes::new();
        self.write(&mut bytes);
        bytes
    }

    fn size(&self) -> usize {
        let mut count = Count(0);
        self.write(&mut count);
        count.0
    }
}

impl Record for Sexp {
    fn write(&self, to: &mut impl Sink) {
        match self {
            Sexp::SN(loc) => start(to, b"SN", *loc),
            Sexp::SC(loc, head, tail) => {
                start(to, b"SC", *loc);
                head.write(to);
                tail.write(to);
            }
            Sexp::SI(loc, number) => {
                start(to, b"SI", *loc);
                to.name(number);
            }
            Sexp::SQ(loc, quote, text) => {
                start(to, b"SQ", *loc);
                to.put(&[*quote]);
                to.name(text);
            }
            Sexp::SA(loc, name) => {
                start(to, b"SA", *loc);
                to.name(name);
            }
        }
    }
}

fn start(to: &mut impl Sink, mark: &[u8; 2], loc: Loc) {
    to.put(mark);
    to.loc(loc);
}

impl Record for Binding {
    fn write(&self, to: &mut impl Sink) {
        start(to, b"BB", self.loc);
        to.loc(self.name_loc);
        match &self.pattern {
            Pattern::Name(name) => {
                to.put(&[0]);
                to.name(name);
            }
            Pattern::Complex(sexp) => {
                to.put(&[1]);
                sexp.write(to);
            }
        }
        self.body.write(to);
    }
}

impl Record for Let {
    fn write(&self, to: &mut impl Sink) {
        to.put(b"BL");
        to.put(&[match self.kind {
            Kind::Parallel => 0,
            Kind::Sequential => 1,
            Kind::Assign => 2,
        }]);
        to.loc(self.loc);
        to.keyword(self.keyword);
        write_hint(&self.hint, to);
        to.count(self.bindings.len());
        self.bindings.iter().for_each(|binding| binding.write(to));
        self.body.write(to);
    }
}

fn write_hint(hint: &Hint, to: &mut impl Sink) {
    match hint {
        Hint::Absent => to.put(&[0]),
        Hint::NoChoice => to.put(&[1]),
        Hint::Inline(loc) => {
            to.put(&[2]);
            to.loc(*loc);
        }
        Hint::NonInline(loc) => {
            to.put(&[3]);
            to.loc(*loc);
        }
    }
}

impl Record for Lambda {
    fn write(&self, to: &mut impl Sink) {
        start(to, b"BF", self.loc);
        to.keyword(self.keyword);
        self.capture_args.write(to);
        self.captures.write(to);
        self.args.write(to);
        self.body.write(to);
    }
}

impl Record for Body {
    fn write(&self, to: &mut impl Sink) {
        match self {
            Body::BL(data) => data.write(to),
            Body::BF(data) => data.write(to),
            Body::BQ(sexp) => {
                to.put(b"BQ");
                sexp.write(to);
            }
            Body::BV(sexp) => {
                to.put(b"BV");
                sexp.write(to);
            }
            Body::BC(loc, elements, tail) => {
                start(to, b"BC", *loc);
                to.count(elements.len());
                elements.iter().for_each(|element| element.write(to));
                to.put(&[tail.is_some() as u8]);
                tail.iter().for_each(|tail| tail.write(to));
            }
            Body::BM(loc, form) => {
                start(to, b"BM", *loc);
                form.write(to);
            }
        }
    }
}

fn write_head(head: &Head, to: &mut impl Sink) {
    to.name(&head.name);
    to.rest(&head.rest);
}

impl Record for Helper {
    fn write(&self, to: &mut impl Sink) {
        match self {
            Helper::HC(head, body) => {
                start(to, b"HC", head.loc);
                write_head(head, to);
                body.write(to);
            }
            Helper::HM(head, args, form) => {
                start(to, b"HM", head.loc);
                write_head(head, to);
                args.write(to);
                form.write(to);
            }
            Helper::HD(head, inline, args, body) => {
                start(to, b"HD", head.loc);
                to.put(&[*inline as u8]);
                write_head(head, to);
                args.write(to);
                body.write(to);
            }
            Helper::HN(head, helpers) => {
                start(to, b"HN", head.loc);
                write_head(head, to);
                to.count(helpers.len());
                helpers.iter().for_each(|helper| helper.write(to));
            }
            Helper::HR(head) => {
                start(to, b"HR", head.loc);
                write_head(head, to);
            }
        }
    }
}

impl Record for Form {
    fn write(&self, to: &mut impl Sink) {
        start(to, b"CF", self.loc);
        to.rest(&self.rest);
        self.args.write(to);
        to.count(self.helpers.len());
        self.helpers.iter().for_each(|helper| helper.write(to));
        self.body.write(to);
    }
}
