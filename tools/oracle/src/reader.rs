//! Reads records from left to right, with the refusals 2 and 3 and their places, and finds the place of refusal 4.

use crate::records::{Binding, Body, Bytes, Form, Head, Helper, Hint, Kind, Lambda, Let, Loc, Pattern, Sexp};
use std::rc::Rc;

const MAX_LEVELS: usize = 32;
const MAX_CONS: usize = 64;
const MAX_LAMBDAS: usize = 6;
const MAX_COUNT: usize = 64;

/// A refusal's number and place.
#[derive(Clone, Copy, Debug, PartialEq, Eq)]
pub struct Refusal {
    pub number: u64,
    pub place: u64,
}

pub fn refuse<T>(number: u64, place: usize) -> Read<T> {
    Err(Refusal { number, place: place as u64 })
}

pub type Read<T> = Result<T, Refusal>;

/// Where a record stands: the B, H and CF records and the BF records around it, and whether a BM there would be refused.
#[derive(Clone, Copy)]
struct Around {
    levels: usize,
    lambdas: usize,
    in_assign: bool,
    in_macro: bool,
}

const OUTSIDE: Around = Around { levels: 0, lambdas: 0, in_assign: false, in_macro: false };

impl Around {
    fn deeper(self, levels: usize) -> Around {
        Around { levels: self.levels + levels, ..self }
    }
}

struct Reader<'a> {
    input: &'a [u8],
    at: usize,
    first_macro: Option<usize>,
}

/// A whole CF.
pub fn form(input: &[u8]) -> Read<Form> {
    whole(input, |reader| reader.form(OUTSIDE))
}

/// A whole CF in which a BM may stand anywhere.
pub fn form_with_mods(input: &[u8]) -> Read<Form> {
    Ok(read_all(input, |reader| reader.form(OUTSIDE))?.0)
}

/// A whole helper.
pub fn helper(input: &[u8]) -> Read<Helper> {
    whole(input, |reader| reader.helper(OUTSIDE))
}

/// A whole BL of kind 2.
pub fn assign(input: &[u8]) -> Read<Let> {
    whole(input, |reader| reader.assign())
}

/// A record with nothing left over, and the first BM in a binding body of an assign.
fn read_all<T>(input: &[u8], read: impl Fn(&mut Reader) -> Read<T>) -> Read<(T, Option<usize>)> {
    let mut reader = Reader { input, at: 0, first_macro: None };
    let record = read(&mut reader)?;
    if reader.at < input.len() {
        return refuse(2, reader.at);
    }
    Ok((record, reader.first_macro))
}

fn whole<T>(input: &[u8], read: impl Fn(&mut Reader) -> Read<T>) -> Read<T> {
    match read_all(input, read)? {
        (_, Some(place)) => refuse(4, place),
        (record, None) => Ok(record),
    }
}

impl Reader<'_> {
    /// The next n bytes of the record whose mark is at `mark`.
    fn take(&mut self, n: usize, mark: usize) -> Read<&[u8]> {
        if self.input.len() - self.at < n {
            return refuse(2, mark);
        }
        self.at += n;
        Ok(&self.input[self.at - n..self.at])
    }

    /// A mark, one of those given; its offset and which.
    fn mark(&mut self, marks: &[&[u8; 2]]) -> Read<(usize, [u8; 2])> {
        let place = self.at;
        let found = self.take(2, place)?;
        match marks.iter().find(|mark| mark[..] == *found) {
            Some(mark) => Ok((place, **mark)),
            None => refuse(2, place),
        }
    }

    fn byte(&mut self, mark: usize) -> Read<u8> {
        Ok(self.take(1, mark)?[0])
    }

    /// A byte from 0 to `most`.
    fn choice(&mut self, most: u8, mark: usize) -> Read<u8> {
        match self.byte(mark)? {
            byte if byte <= most => Ok(byte),
            _ => refuse(2, mark),
        }
    }

    fn loc(&mut self, mark: usize) -> Read<Loc> {
        let bytes = self.take(4, mark)?;
        Ok(Loc::from_be_bytes([bytes[0], bytes[1], bytes[2], bytes[3]]))
    }

    fn name(&mut self, mark: usize) -> Read<Bytes> {
        let length = self.byte(mark)?;
        Ok(self.take(length.into(), mark)?.to_vec())
    }

    fn rest(&mut self, mark: usize) -> Read<Bytes> {
        let length = self.take(2, mark)?;
        let length = u16::from_be_bytes([length[0], length[1]]);
        Ok(self.take(length.into(), mark)?.to_vec())
    }

    fn keyword(&mut self, mark: usize) -> Read<Option<Loc>> {
        match self.choice(1, mark)? {
            0 => Ok(None),
            _ => Ok(Some(self.loc(mark)?)),
        }
    }

    fn hint(&mut self, mark: usize) -> Read<Hint> {
        Ok(match self.choice(3, mark)? {
            0 => Hint::Absent,
            1 => Hint::NoChoice,
            2 => Hint::Inline(self.loc(mark)?),
            _ => Hint::NonInline(self.loc(mark)?),
        })
    }

    fn count(&mut self, mark: usize) -> Read<usize> {
        match self.byte(mark)?.into() {
            count if count <= MAX_COUNT => Ok(count),
            _ => refuse(3, mark),
        }
    }

    fn sexp(&mut self, conses: usize) -> Read<Sexp> {
        let (mark, which) = self.mark(&[b"SN", b"SC", b"SI", b"SQ", b"SA"])?;
        if &which == b"SC" && conses == MAX_CONS {
            return refuse(3, mark);
        }
        let loc = self.loc(mark)?;
        Ok(match &which {
            b"SN" => Sexp::SN(loc),
            b"SC" => {
                let head = self.sexp(conses + 1)?;
                Sexp::SC(loc, Rc::new(head), Rc::new(self.sexp(conses + 1)?))
            }
            b"SI" => Sexp::SI(loc, self.number(mark)?),
            b"SQ" => Sexp::SQ(loc, self.byte(mark)?, self.name(mark)?),
            _ => Sexp::SA(loc, self.name(mark)?),
        })
    }

    /// The bytes of an SI: one at least, and none that could be left out.
    fn number(&mut self, mark: usize) -> Read<Bytes> {
        let bytes = self.name(mark)?;
        let shortest = match bytes[..] {
            [] => false,
            [0x00, second, ..] => second >= 0x80,
            [0xff, second, ..] => second < 0x80,
            _ => true,
        };
        match shortest {
            true => Ok(bytes),
            false => refuse(2, mark),
        }
    }

    fn level(&self, around: Around, mark: usize) -> Read<()> {
        match around.levels < MAX_LEVELS {
            true => Ok(()),
            false => refuse(3, mark),
        }
    }

    fn body(&mut self, around: Around) -> Read<Body> {
        let (mark, which) = self.mark(&[b"BL", b"BQ", b"BV", b"BC", b"BM", b"BF"])?;
        self.level(around, mark)?;
        Ok(match &which {
            b"BL" => Body::BL(Box::new(self.after_let_mark(around, mark, 0)?)),
            b"BQ" => Body::BQ(self.sexp(0)?),
            b"BV" => Body::BV(self.sexp(0)?),
            b"BC" => self.call(around.deeper(1), mark)?,
            b"BM" => self.macro_body(around.deeper(1), mark)?,
            _ => self.lambda(around, mark)?,
        })
    }

    fn assign(&mut self) -> Read<Let> {
        let (mark, _) = self.mark(&[b"BL"])?;
        self.after_let_mark(OUTSIDE, mark, 2)
    }

    /// A let whose mark is read, of a kind byte that is at least `least`.
    fn after_let_mark(&mut self, around: Around, mark: usize, least: u8) -> Read<Let> {
        let kind = match self.choice(2, mark)? {
            byte if byte < least => return refuse(2, mark),
            0 => Kind::Parallel,
            1 => Kind::Sequential,
            _ => Kind::Assign,
        };
        let loc = self.loc(mark)?;
        let keyword = self.keyword(mark)?;
        let hint = self.hint(mark)?;
        let count = self.count(mark)?;
        let levels = if kind == Kind::Sequential { count.max(1) } else { 1 };
        let inside = around.deeper(levels);
        if inside.levels > MAX_LEVELS {
            return refuse(3, mark);
        }
        let in_binding = Around { in_assign: inside.in_assign || kind == Kind::Assign, ..inside };
        let bindings = (0..count).map(|_| self.binding(in_binding)).collect::<Read<Vec<Binding>>>()?;
        let body = self.body(inside)?;
        Ok(Let { kind, loc, keyword, hint, bindings, body })
    }

    fn binding(&mut self, around: Around) -> Read<Binding> {
        let (mark, _) = self.mark(&[b"BB"])?;
        let loc = self.loc(mark)?;
        let name_loc = self.loc(mark)?;
        let pattern = match self.choice(1, mark)? {
            0 => Pattern::Name(self.name(mark)?),
            _ => Pattern::Complex(self.sexp(0)?),
        };
        let body = self.body(around)?;
        Ok(Binding { loc, name_loc, pattern, body })
    }

    fn call(&mut self, inside: Around, mark: usize) -> Read<Body> {
        let loc = self.loc(mark)?;
        let count = self.count(mark)?;
        let elements = (0..count).map(|_| self.body(inside)).collect::<Read<Vec<Body>>>()?;
        let tail = match self.choice(1, mark)? {
            0 => None,
            _ => Some(Box::new(self.body(inside)?)),
        };
        Ok(Body::BC(loc, elements, tail))
    }

    fn macro_body(&mut self, inside: Around, mark: usize) -> Read<Body> {
        if inside.in_assign && !inside.in_macro {
            self.first_macro.get_or_insert(mark);
        }
        let loc = self.loc(mark)?;
        let form = self.form(Around { in_macro: true, ..inside })?;
        Ok(Body::BM(loc, Box::new(form)))
    }

    fn lambda(&mut self, around: Around, mark: usize) -> Read<Body> {
        if around.lambdas == MAX_LAMBDAS {
            return refuse(3, mark);
        }
        let inside = Around { lambdas: around.lambdas + 1, ..around.deeper(1) };
        let loc = self.loc(mark)?;
        let keyword = self.keyword(mark)?;
        let capture_args = self.sexp(0)?;
        let captures = self.body(inside)?;
        let args = self.sexp(0)?;
        let body = self.body(inside)?;
        Ok(Body::BF(Box::new(Lambda { loc, keyword, capture_args, captures, args, body })))
    }

    fn helper(&mut self, around: Around) -> Read<Helper> {
        let (mark, which) = self.mark(&[b"HC", b"HM", b"HD", b"HN", b"HR"])?;
        self.level(around, mark)?;
        let inside = around.deeper(1);
        let loc = self.loc(mark)?;
        let inline = &which == b"HD" && self.choice(1, mark)? == 1;
        let head = Head { loc, name: self.name(mark)?, rest: self.rest(mark)? };
        Ok(match &which {
            b"HC" => Helper::HC(head, self.body(inside)?),
            b"HM" => Helper::HM(head, self.sexp(0)?, self.form(inside)?),
            b"HD" => Helper::HD(head, inline, self.sexp(0)?, self.body(inside)?),
            b"HN" => Helper::HN(head, self.helpers(inside, mark)?),
            _ => Helper::HR(head),
        })
    }

    fn helpers(&mut self, inside: Around, mark: usize) -> Read<Vec<Helper>> {
        let count = self.count(mark)?;
        (0..count).map(|_| self.helper(inside)).collect()
    }

    fn form(&mut self, around: Around) -> Read<Form> {
        let (mark, _) = self.mark(&[b"CF"])?;
        self.level(around, mark)?;
        let inside = around.deeper(1);
        let loc = self.loc(mark)?;
        let rest = self.rest(mark)?;
        let args = self.sexp(0)?;
        let helpers = self.helpers(inside, mark)?;
        let body = self.body(inside)?;
        Ok(Form { loc, rest, args, helpers, body })
    }
}
