//! An independent model of the walk, with what the Rust does not have: refusal 6 (a made name passes 255 bytes) and refusal 7 (a
//! running sum, or a finished record, passes F). Each function is one rule; `held` is what its step holds for its answer.

use crate::ordering::{toposort_assign_bindings, turns, Toposorted};
use crate::reader::Refusal;
use crate::records::{Binding, Body, Bytes, Form, Head, Helper, Hint, Kind, Lambda, Let, Pattern, Record, Sexp};
use std::collections::HashMap;
use std::rc::Rc;

const MAX_NAME: usize = 255;

type Map = HashMap<Bytes, Bytes>;
type Out<T> = Result<T, Refusal>;

fn refuse<T>(number: u64, place: u64) -> Out<T> {
    Err(Refusal { number, place })
}

/// A walk from a counter. Without a limit (F) neither sums nor made names are tested, as in the Rust.
pub struct Walk {
    pub counter: u64,
    limit: Option<usize>,
    /// The largest sum or record that was tested: the least F for which no 7 is met.
    pub peak: usize,
    /// About how much the prover computes: all sums and records that were tested, added up, and the turns of each assign.
    pub cost: usize,
}

impl Walk {
    pub fn limited(counter: u64, limit: usize) -> Walk {
        Walk { counter, limit: Some(limit), peak: 0, cost: 0 }
    }

    pub fn unlimited(counter: u64) -> Walk {
        Walk { counter, limit: None, peak: 0, cost: 0 }
    }

    fn fits(&mut self, size: usize) -> Out<()> {
        self.peak = self.peak.max(size);
        self.cost = self.cost.saturating_add(size);
        match self.limit {
            Some(limit) if size > limit => refuse(7, 0),
            _ => Ok(()),
        }
    }

    fn size(&self, record: &impl Record) -> usize {
        self.limit.map_or(0, |_| record.size())
    }

    /// A child's result comes back and is held.
    fn hold<R: Record>(&mut self, held: &mut usize, result: R) -> Out<R> {
        *held += self.size(&result);
        self.fits(*held)?;
        Ok(result)
    }

    /// A result that is taken further, or put back, is held no more.
    fn release(&mut self, held: &mut usize, result: &impl Record) {
        *held -= self.size(result);
    }

    fn finished<R: Record>(&mut self, record: R) -> Out<R> {
        let size = self.size(&record);
        self.fits(size)?;
        Ok(record)
    }

    /// A made name; the counter goes up by one.
    pub fn gensym(&mut self, name: &[u8]) -> Out<Bytes> {
        self.counter += 1;
        let made = [name, b"_$_", self.counter.to_string().as_bytes()].concat();
        match self.limit {
            Some(_) if made.len() > MAX_NAME => refuse(6, 0),
            _ => Ok(made),
        }
    }

    /// Invent: the new names go into the map; the last of a repeated name stays.
    fn invent_new_names_sexp(&mut self, sexp: &Sexp, map: &mut Map) -> Out<()> {
        match sexp {
            Sexp::SA(_, name) if name != b"@" => {
                let made = self.gensym(name)?;
                map.insert(name.clone(), made);
            }
            Sexp::SC(_, head, tail) => {
                self.invent_new_names_sexp(head, map)?;
                self.invent_new_names_sexp(tail, map)?;
            }
            _ => {}
        }
        Ok(())
    }

    /// Substitute; `qq` says whether a `qq` list is looked into.
    fn rename_in_cons(&mut self, map: &Map, sexp: &Sexp, qq: bool) -> Out<Sexp> {
        match sexp {
            Sexp::SA(_, _) => self.finished(rename_atom(map, sexp)),
            Sexp::SC(loc, head, tail) => match &**head {
                Sexp::SA(_, word) if word == b"q" => Ok(sexp.clone()),
                Sexp::SA(_, word) if word == b"quote" => match proper_list(tail).as_deref() {
                    Some([element]) => self.finished(requoted(*loc, head, element)),
                    _ => Ok(sexp.clone()),
                },
                Sexp::SA(_, word) if word == b"qq" && qq => match proper_list(tail).as_deref() {
                    Some([element]) => self.rename_in_qq(map, element),
                    _ => Ok(sexp.clone()),
                },
                _ => {
                    let mut held = 0;
                    let head = self.rename_in_cons(map, head, qq)?;
                    let head = self.hold(&mut held, head)?;
                    let tail = self.rename_in_cons(map, tail, qq)?;
                    let tail = self.hold(&mut held, tail)?;
                    self.finished(Sexp::SC(*loc, Rc::new(head), Rc::new(tail)))
                }
            },
            _ => Ok(sexp.clone()),
        }
    }

    /// Inside `qq`: only what stands in an `unquote` is substituted.
    fn rename_in_qq(&mut self, map: &Map, sexp: &Sexp) -> Out<Sexp> {
        if let Some([Sexp::SA(_, word), element]) = proper_list(sexp).as_deref() {
            if word == b"unquote" {
                return self.rename_in_cons(map, element, true);
            }
        }
        let Sexp::SC(loc, head, tail) = sexp else {
            return Ok(sexp.clone());
        };
        let mut held = 0;
        let head = self.rename_in_qq(map, head)?;
        let head = self.hold(&mut held, head)?;
        let tail = self.rename_in_qq(map, tail)?;
        let tail = self.hold(&mut held, tail)?;
        self.finished(Sexp::SC(*loc, Rc::new(head), Rc::new(tail)))
    }

    /// In-body.
    fn rename_in_bodyform(&mut self, map: &Map, body: &Body) -> Out<Body> {
        let result = match body {
            Body::BL(data) => self.in_let(map, data)?,
            Body::BQ(sexp) => Body::BQ(rename_atom(map, sexp)),
            Body::BV(sexp) => Body::BV(rename_atom(map, sexp)),
            Body::BC(loc, elements, tail) => self.in_call(map, *loc, elements, tail)?,
            Body::BM(_, _) => body.clone(),
            Body::BF(data) => self.in_lambda(map, data)?,
        };
        self.finished(result)
    }

    fn in_bodyform_held(&mut self, held: &mut usize, map: &Map, body: &Body) -> Out<Body> {
        let result = self.rename_in_bodyform(map, body)?;
        self.hold(held, result)
    }

    fn in_let(&mut self, map: &Map, data: &Let) -> Out<Body> {
        let mut held = 0;
        let mut result = data.clone();
        for binding in &mut result.bindings {
            binding.body = self.in_bodyform_held(&mut held, map, &binding.body)?;
        }
        result.body = self.in_bodyform_held(&mut held, map, &data.body)?;
        Ok(Body::BL(Box::new(result)))
    }

    fn in_call(&mut self, map: &Map, loc: u32, elements: &[Body], tail: &Option<Box<Body>>) -> Out<Body> {
        let mut held = 0;
        let mut results = Vec::new();
        for (index, element) in elements.iter().enumerate() {
            let result = self.in_bodyform_held(&mut held, map, element)?;
            results.push(match index {
                0 => {
                    self.release(&mut held, &result);
                    self.hold(&mut held, element.clone())?
                }
                _ => result,
            });
        }
        let tail = match tail {
            Some(tail) => Some(Box::new(self.in_bodyform_held(&mut held, map, tail)?)),
            None => None,
        };
        Ok(Body::BC(loc, results, tail))
    }

    fn in_lambda(&mut self, map: &Map, data: &Lambda) -> Out<Body> {
        let mut held = 0;
        let captures = self.in_bodyform_held(&mut held, map, &data.captures)?;
        let capture_args = self.rename_in_cons(map, &data.capture_args, false)?;
        let capture_args = self.hold(&mut held, capture_args)?;
        let body = self.args_then_in(&mut held, map, &data.body)?;
        Ok(Body::BF(Box::new(Lambda { captures, capture_args, body, ..data.clone() })))
    }

    /// Own, and In-body of what it gives.
    fn args_then_in(&mut self, held: &mut usize, map: &Map, body: &Body) -> Out<Body> {
        let own = self.args_bodyform_held(held, body)?;
        self.release(held, &own);
        self.in_bodyform_held(held, map, &own)
    }

    fn args_bodyform_held(&mut self, held: &mut usize, body: &Body) -> Out<Body> {
        let result = self.rename_args_bodyform(body)?;
        self.hold(held, result)
    }

    /// Own.
    fn rename_args_bodyform(&mut self, body: &Body) -> Out<Body> {
        let result = match body {
            Body::BL(data) => match data.kind {
                Kind::Sequential => self.args_sequential(data)?,
                Kind::Parallel => self.args_parallel(data)?,
                Kind::Assign => self.args_assign(data)?,
            },
            Body::BC(loc, elements, tail) => self.args_call(*loc, elements, tail)?,
            Body::BF(data) => self.args_lambda(data)?,
            Body::BQ(_) | Body::BV(_) | Body::BM(_, _) => body.clone(),
        };
        self.finished(result)
    }

    fn args_sequential(&mut self, data: &Let) -> Out<Body> {
        let mut held = 0;
        let nested = self.hold(&mut held, desugar_sequential_let_bindings(&data.bindings, &data.body))?;
        self.release(&mut held, &nested);
        self.args_bodyform_held(&mut held, &nested)
    }

    fn args_parallel(&mut self, data: &Let) -> Out<Body> {
        let mut held = 0;
        let mut result = data.clone();
        let mut joined = Map::new();
        for binding in &mut result.bindings {
            let mut own_map = Map::new();
            binding.pattern = match &binding.pattern {
                Pattern::Name(name) => {
                    let made = self.gensym(name)?;
                    own_map.insert(name.clone(), made.clone());
                    Pattern::Name(made)
                }
                Pattern::Complex(sexp) => {
                    self.invent_new_names_sexp(sexp, &mut own_map)?;
                    let sexp = self.rename_in_cons(&own_map, sexp, false)?;
                    Pattern::Complex(self.hold(&mut held, sexp)?)
                }
            };
            joined.extend(own_map);
        }
        for binding in &mut result.bindings {
            binding.body = self.args_bodyform_held(&mut held, &binding.body)?;
        }
        result.body = self.args_then_in(&mut held, &joined, &data.body)?;
        Ok(Body::BL(Box::new(result)))
    }

    fn args_assign(&mut self, data: &Let) -> Out<Body> {
        self.cost = self.cost.saturating_add(order_cost(&data.bindings));
        let order = match toposort_assign_bindings(&data.bindings) {
            Toposorted::Ordered(order) => order,
            Toposorted::Deadlock(_) => return refuse(5, data.loc.into()),
        };
        let mut held = 0;
        let mut map = Map::new();
        let mut written = Vec::new();
        for index in order {
            written.push(self.rename_assign_binding(&mut held, &mut map, &data.bindings[index])?);
        }
        written.reverse();
        let body = self.args_then_in(&mut held, &map, &data.body)?;
        Ok(Body::BL(Box::new(Let { bindings: written, body, ..data.clone() })))
    }

    fn rename_assign_binding(&mut self, held: &mut usize, map: &mut Map, binding: &Binding) -> Out<Binding> {
        let Pattern::Complex(sexp) = &binding.pattern else {
            return Ok(binding.clone());
        };
        self.invent_new_names_sexp(sexp, map)?;
        let own = self.args_bodyform_held(held, &binding.body)?;
        let sexp = self.rename_in_cons(map, sexp, false)?;
        let pattern = Pattern::Complex(self.hold(held, sexp)?);
        self.release(held, &own);
        let body = self.in_bodyform_held(held, map, &own)?;
        Ok(Binding { pattern, body, ..binding.clone() })
    }

    fn args_call(&mut self, loc: u32, elements: &[Body], tail: &Option<Box<Body>>) -> Out<Body> {
        let mut held = 0;
        let mut results = Vec::new();
        for element in elements {
            results.push(self.args_bodyform_held(&mut held, element)?);
        }
        let tail = match tail {
            Some(tail) => Some(Box::new(self.args_bodyform_held(&mut held, tail)?)),
            None => None,
        };
        Ok(Body::BC(loc, results, tail))
    }

    fn args_lambda(&mut self, data: &Lambda) -> Out<Body> {
        let mut held = 0;
        let (args, map) = self.new_args(&mut held, &data.args, false)?;
        let body = self.args_then_in(&mut held, &map, &data.body)?;
        Ok(Body::BF(Box::new(Lambda { args, body, ..data.clone() })))
    }

    /// Args invented and substituted, with the map for what is below them.
    fn new_args(&mut self, held: &mut usize, args: &Sexp, qq: bool) -> Out<(Sexp, Map)> {
        let mut map = Map::new();
        self.invent_new_names_sexp(args, &mut map)?;
        let args = self.rename_in_cons(&map, args, qq)?;
        Ok((self.hold(held, args)?, map))
    }

    pub fn rename_args_helperform(&mut self, helper: &Helper) -> Out<Helper> {
        let mut held = 0;
        let result = match helper {
            Helper::HC(head, body) => Helper::HC(head.clone(), self.args_bodyform_held(&mut held, body)?),
            Helper::HM(head, args, form) => self.args_macro(head, args, form)?,
            Helper::HD(head, inline, args, body) => {
                let (args, map) = self.new_args(&mut held, args, true)?;
                let body = self.args_then_in(&mut held, &map, body)?;
                Helper::HD(head.clone(), *inline, args, body)
            }
            Helper::HN(head, helpers) => Helper::HN(head.clone(), self.args_helpers_held(&mut held, helpers)?),
            Helper::HR(_) => helper.clone(),
        };
        self.finished(result)
    }

    fn args_macro(&mut self, head: &Head, args: &Sexp, form: &Form) -> Out<Helper> {
        let mut held = 0;
        let (args, map) = self.new_args(&mut held, args, true)?;
        let own = self.rename_args_compileform(form)?;
        let own = self.hold(&mut held, own)?;
        self.release(&mut held, &own);
        let form = self.rename_in_compileform(&map, &own)?;
        let form = self.hold(&mut held, form)?;
        Ok(Helper::HM(head.clone(), args, form))
    }

    fn args_helpers_held(&mut self, held: &mut usize, helpers: &[Helper]) -> Out<Vec<Helper>> {
        let mut results = Vec::new();
        for helper in helpers {
            let result = self.rename_args_helperform(helper)?;
            results.push(self.hold(held, result)?);
        }
        Ok(results)
    }

    fn rename_in_helperform(&mut self, map: &Map, helper: &Helper) -> Out<Helper> {
        let mut held = 0;
        let result = match helper {
            Helper::HC(head, body) => Helper::HC(head.clone(), self.in_bodyform_held(&mut held, map, body)?),
            Helper::HD(head, inline, args, body) => {
                Helper::HD(head.clone(), *inline, args.clone(), self.in_bodyform_held(&mut held, map, body)?)
            }
            Helper::HM(head, args, form) => {
                let form = self.rename_in_compileform(map, form)?;
                Helper::HM(head.clone(), args.clone(), self.hold(&mut held, form)?)
            }
            Helper::HN(_, _) | Helper::HR(_) => helper.clone(),
        };
        self.finished(result)
    }

    fn rename_in_compileform(&mut self, map: &Map, form: &Form) -> Out<Form> {
        let mut held = 0;
        let mut result = form.clone();
        for helper in &mut result.helpers {
            let renamed = self.rename_in_helperform(map, helper)?;
            *helper = self.hold(&mut held, renamed)?;
        }
        result.body = self.in_bodyform_held(&mut held, map, &form.body)?;
        self.finished(result)
    }

    pub fn rename_args_compileform(&mut self, form: &Form) -> Out<Form> {
        let mut held = 0;
        let (args, map) = self.new_args(&mut held, &form.args, true)?;
        let mut helpers = self.args_helpers_held(&mut held, &form.helpers)?;
        let own = self.args_bodyform_held(&mut held, &form.body)?;
        for helper in &mut helpers {
            self.release(&mut held, helper);
            let renamed = self.rename_in_helperform(&map, helper)?;
            *helper = self.hold(&mut held, renamed)?;
        }
        self.release(&mut held, &own);
        let body = self.in_bodyform_held(&mut held, &map, &own)?;
        self.finished(Form { args, helpers, body, ..form.clone() })
    }

    pub fn rename_children_compileform(&mut self, form: &Form) -> Out<Form> {
        let mut held = 0;
        let helpers = self.args_helpers_held(&mut held, &form.helpers)?;
        let body = self.args_bodyform_held(&mut held, &form.body)?;
        self.finished(Form { helpers, body, ..form.clone() })
    }
}

/// What the prover computes of an order grows with the turns to a power.
pub fn order_cost(bindings: &[Binding]) -> usize {
    bindings.len().saturating_mul(6usize.saturating_pow(turns(bindings).1))
}

/// An atom by the map; anything else as it is.
fn rename_atom(map: &Map, sexp: &Sexp) -> Sexp {
    match sexp {
        Sexp::SA(loc, name) => Sexp::SA(*loc, map.get(name).unwrap_or(name).clone()),
        _ => sexp.clone(),
    }
}

/// The elements of a proper list.
fn proper_list(sexp: &Sexp) -> Option<Vec<&Sexp>> {
    let mut found = Vec::new();
    let mut rest = sexp;
    while let Sexp::SC(_, head, tail) = rest {
        found.push(&**head);
        rest = tail;
    }
    nilp(rest).then_some(found)
}

fn nilp(sexp: &Sexp) -> bool {
    match sexp {
        Sexp::SN(_) => true,
        Sexp::SC(_, _, _) => false,
        Sexp::SI(_, bytes) => bytes == &[0],
        Sexp::SQ(_, _, bytes) | Sexp::SA(_, bytes) => bytes.is_empty(),
    }
}

/// `(quote element)`, its inner list and closing nil at the element's location.
fn requoted(loc: u32, head: &Rc<Sexp>, element: &Sexp) -> Sexp {
    let at = match element {
        Sexp::SN(at) | Sexp::SC(at, _, _) | Sexp::SI(at, _) | Sexp::SQ(at, _, _) | Sexp::SA(at, _) => *at,
    };
    let inner = Sexp::SC(at, Rc::new(element.clone()), Rc::new(Sexp::SN(at)));
    Sexp::SC(loc, head.clone(), Rc::new(inner))
}

/// Nested parallel lets, the first binding outermost.
fn desugar_sequential_let_bindings(bindings: &[Binding], body: &Body) -> Body {
    match bindings {
        [] => body.clone(),
        [first, rest @ ..] => Body::BL(Box::new(Let {
            kind: Kind::Parallel,
            loc: first.loc,
            keyword: None,
            hint: Hint::Absent,
            bindings: vec![first.clone()],
            body: desugar_sequential_let_bindings(rest, body),
        })),
    }
}
