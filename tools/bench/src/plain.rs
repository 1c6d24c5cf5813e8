//! A plain Rust reader of the records, written as one would without proofs: what the proved one is timed against.

use oracle::reader::Refusal;
use oracle::reads::Asked;

const MAX_LEVELS: usize = 32;
const MAX_CONS: usize = 64;
const MAX_LAMBDAS: usize = 6;
const MAX_COUNT: u8 = 64;

/// A refusal's number and place.
type Read<T> = Result<T, (u64, usize)>;

/// What stands around a record: B, H and CF records, BF records, an assign's binding body, a BM.
#[derive(Clone, Copy)]
struct Around {
    levels: usize,
    lambdas: usize,
    in_binding: bool,
    in_mod: bool,
}

const OUTSIDE: Around = Around { levels: 0, lambdas: 0, in_binding: false, in_mod: false };

struct Reader<'a> {
    input: &'a [u8],
    at: usize,
    first_mod: Option<usize>,
}

/// The refusal; number and place are 0 if the input is accepted.
pub fn open(asked: Asked, input: &[u8], f: usize) -> Refusal {
    if input.len() > f {
        return Refusal { number: 3, place: 0 };
    }
    let mut reader = Reader { input, at: 0, first_mod: None };
    let read = match asked {
        Asked::Form => reader.form(OUTSIDE),
        Asked::Helper => reader.helper(OUTSIDE),
        Asked::Assign => reader.assign(),
    };
    let (number, place) = match (read, reader.first_mod) {
        (Err(refusal), _) => refusal,
        (Ok(()), _) if reader.at < input.len() => (2, reader.at),
        (Ok(()), Some(place)) => (4, place),
        (Ok(()), None) => (0, 0),
    };
    Refusal { number, place: place as u64 }
}

impl<'a> Reader<'a> {
    /// The next n bytes of the record whose mark is at `mark`.
    fn take(&mut self, n: usize, mark: usize) -> Read<&'a [u8]> {
        match self.input[self.at..].get(..n) {
            Some(bytes) => {
                self.at += n;
                Ok(bytes)
            }
            None => Err((2, mark)),
        }
    }

    fn byte(&mut self, mark: usize) -> Read<u8> {
        Ok(self.take(1, mark)?[0])
    }

    /// A mark's place and its two bytes.
    fn mark(&mut self) -> Read<(usize, &'a [u8])> {
        let place = self.at;
        Ok((place, self.take(2, place)?))
    }

    /// A byte from 0 to `most`.
    fn choice(&mut self, most: u8, mark: usize) -> Read<u8> {
        match self.byte(mark)? {
            byte if byte <= most => Ok(byte),
            _ => Err((2, mark)),
        }
    }

    fn loc(&mut self, mark: usize) -> Read<()> {
        self.take(4, mark)?;
        Ok(())
    }

    fn name(&mut self, mark: usize) -> Read<&'a [u8]> {
        let length = self.byte(mark)?;
        self.take(length.into(), mark)
    }

    fn rest(&mut self, mark: usize) -> Read<()> {
        let length = self.take(2, mark)?;
        self.take(u16::from_be_bytes([length[0], length[1]]).into(), mark)?;
        Ok(())
    }

    fn keyword(&mut self, mark: usize) -> Read<()> {
        match self.choice(1, mark)? {
            0 => Ok(()),
            _ => self.loc(mark),
        }
    }

    fn hint(&mut self, mark: usize) -> Read<()> {
        match self.choice(3, mark)? {
            0 | 1 => Ok(()),
            _ => self.loc(mark),
        }
    }

    fn count(&mut self, mark: usize) -> Read<u8> {
        match self.byte(mark)? {
            count if count <= MAX_COUNT => Ok(count),
            _ => Err((3, mark)),
        }
    }

    fn sexp(&mut self, conses: usize) -> Read<()> {
        let (mark, which) = self.mark()?;
        match which {
            b"SN" => self.loc(mark),
            b"SC" => self.cons(conses, mark),
            b"SI" => self.integer(mark),
            b"SQ" => {
                self.loc(mark)?;
                self.byte(mark)?;
                self.name(mark).map(drop)
            }
            b"SA" => {
                self.loc(mark)?;
                self.name(mark).map(drop)
            }
            _ => Err((2, mark)),
        }
    }

    fn cons(&mut self, conses: usize, mark: usize) -> Read<()> {
        if conses == MAX_CONS {
            return Err((3, mark));
        }
        self.loc(mark)?;
        self.sexp(conses + 1)?;
        self.sexp(conses + 1)
    }

    fn integer(&mut self, mark: usize) -> Read<()> {
        self.loc(mark)?;
        match self.name(mark)? {
            [] | [0x00, 0x00..=0x7f, ..] | [0xff, 0x80..=0xff, ..] => Err((2, mark)),
            _ => Ok(()),
        }
    }

    /// What stands around the parts of a record.
    fn inside(&self, around: Around, mark: usize) -> Read<Around> {
        match around.levels {
            MAX_LEVELS => Err((3, mark)),
            levels => Ok(Around { levels: levels + 1, ..around }),
        }
    }

    fn body(&mut self, around: Around) -> Read<()> {
        let (mark, which) = self.mark()?;
        match which {
            b"BV" | b"BQ" => {
                self.inside(around, mark)?;
                self.sexp(0)
            }
            b"BC" => self.call(self.inside(around, mark)?, mark),
            b"BL" => self.let_form(self.inside(around, mark)?, mark, 0),
            b"BF" => self.lambda(self.inside(around, mark)?, mark),
            b"BM" => self.mod_form(self.inside(around, mark)?, mark),
            _ => Err((2, mark)),
        }
    }

    fn bodies(&mut self, count: u8, around: Around) -> Read<()> {
        for _ in 0..count {
            self.body(around)?;
        }
        Ok(())
    }

    fn call(&mut self, inside: Around, mark: usize) -> Read<()> {
        self.loc(mark)?;
        let count = self.count(mark)?;
        self.bodies(count, inside)?;
        let tails = self.choice(1, mark)?;
        self.bodies(tails, inside)
    }

    /// A let after its mark, of a kind byte that is at least `least`.
    fn let_form(&mut self, inside: Around, mark: usize, least: u8) -> Read<()> {
        let kind = self.choice(2, mark)?;
        if kind < least {
            return Err((2, mark));
        }
        self.loc(mark)?;
        self.keyword(mark)?;
        self.hint(mark)?;
        let count = self.count(mark)?;
        let more = if kind == 1 { usize::from(count).saturating_sub(1) } else { 0 };
        let inside = Around { levels: inside.levels + more, ..inside };
        if inside.levels > MAX_LEVELS {
            return Err((3, mark));
        }
        let in_binding = Around { in_binding: inside.in_binding || kind == 2, ..inside };
        for _ in 0..count {
            self.binding(in_binding)?;
        }
        self.body(inside)
    }

    fn assign(&mut self) -> Read<()> {
        match self.mark()? {
            (mark, b"BL") => self.let_form(self.inside(OUTSIDE, mark)?, mark, 2),
            (mark, _) => Err((2, mark)),
        }
    }

    fn binding(&mut self, around: Around) -> Read<()> {
        let (mark, b"BB") = self.mark()? else {
            return Err((2, self.at - 2));
        };
        self.loc(mark)?;
        self.loc(mark)?;
        match self.choice(1, mark)? {
            0 => drop(self.name(mark)?),
            _ => self.sexp(0)?,
        }
        self.body(around)
    }

    fn lambda(&mut self, inside: Around, mark: usize) -> Read<()> {
        if inside.lambdas == MAX_LAMBDAS {
            return Err((3, mark));
        }
        let inside = Around { lambdas: inside.lambdas + 1, ..inside };
        self.loc(mark)?;
        self.keyword(mark)?;
        self.sexp(0)?;
        self.body(inside)?;
        self.sexp(0)?;
        self.body(inside)
    }

    fn mod_form(&mut self, inside: Around, mark: usize) -> Read<()> {
        if inside.in_binding && !inside.in_mod {
            self.first_mod.get_or_insert(mark);
        }
        self.loc(mark)?;
        self.form(Around { in_mod: true, ..inside })
    }

    fn helper(&mut self, around: Around) -> Read<()> {
        let (mark, which) = self.mark()?;
        if !matches!(which, b"HC" | b"HM" | b"HD" | b"HN" | b"HR") {
            return Err((2, mark));
        }
        let inside = self.inside(around, mark)?;
        self.loc(mark)?;
        if which == b"HD" {
            self.choice(1, mark)?;
        }
        self.name(mark)?;
        self.rest(mark)?;
        match which {
            b"HC" => self.body(inside),
            b"HM" => {
                self.sexp(0)?;
                self.form(inside)
            }
            b"HD" => {
                self.sexp(0)?;
                self.body(inside)
            }
            b"HN" => self.helpers(inside, mark),
            _ => Ok(()),
        }
    }

    fn helpers(&mut self, inside: Around, mark: usize) -> Read<()> {
        for _ in 0..self.count(mark)? {
            self.helper(inside)?;
        }
        Ok(())
    }

    fn form(&mut self, around: Around) -> Read<()> {
        let (mark, which) = self.mark()?;
        if which != b"CF" {
            return Err((2, mark));
        }
        let inside = self.inside(around, mark)?;
        self.loc(mark)?;
        self.rest(mark)?;
        self.sexp(0)?;
        self.helpers(inside, mark)?;
        self.body(inside)
    }
}
