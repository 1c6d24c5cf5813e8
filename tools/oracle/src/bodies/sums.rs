//! Series of cases directed at the sums and at the sequence of 5, 6 and 7.

use super::series::{helper, Series};
use super::shapes;
use super::slots::{self, Bomb, Fill, Scope, Shape, BOMBS, SCOPES, SHAPES, WAYS};
use crate::answers::{Call, MAX_COUNTER};
use crate::calls::rises;
use crate::cases::nil;
use crate::records::Body;

/// The counter: its numbers are long, and no number of a case gets one digit more.
const COUNTER: u64 = MAX_COUNTER - 50;
/// How often a part that grows has what makes it grow.
const GROWTHS: [usize; 9] = [3, 6, 9, 13, 18, 24, 32, 44, 60];
/// By how much a use more makes what passes F longer, where the use is renamed.
const STEEP: usize = 20;
/// How often a part that stands behind a refusal has what would make it grow.
const BEHIND: usize = 20;

/// A record in a scope, with a part that grows and perhaps one that is refused.
#[derive(Clone, Copy)]
struct Sum {
    scope: Scope,
    shape: Shape,
    grown: usize,
    refused: Option<(usize, Bomb)>,
    way: usize,
}

impl Sum {
    fn body(&self, count: usize) -> Body {
        let mut fills = vec![Fill::Plain; self.shape.places()];
        if let Some((place, bomb)) = self.refused {
            fills[place] = Fill::Refused(bomb);
        }
        fills[self.grown] = WAYS[self.way].1(count);
        self.scope.around(self.shape.filled(&fills, COUNTER))
    }

    fn about(&self) -> String {
        let grows = format!("{} in {} of {}", WAYS[self.way].0, self.shape.place(self.grown), self.shape.words());
        let refused = |(place, bomb): (usize, Bomb)| format!(", {} in {}", bomb.words(), self.shape.place(place));
        format!("sum: {grows}{}, {}", self.refused.map(refused).unwrap_or_default(), self.scope.words())
    }

    /// What passes F last.
    fn last(&self, count: usize) -> Option<usize> {
        rises(Call::Helper, &helper(&self.body(count), 0), COUNTER).last().copied()
    }

    /// The growths at which F is passed.
    fn passing(&self) -> Vec<usize> {
        GROWTHS.into_iter().filter(|count| self.last(*count).is_some()).collect()
    }

    /// The least growth at which F is passed by what grows.
    fn steep(&self) -> Option<usize> {
        let is_steep = |count: &usize| match (self.last(*count), self.last(count + 1)) {
            (Some(rise), Some(next)) => next >= rise + STEEP,
            _ => false,
        };
        GROWTHS.into_iter().find(is_steep)
    }
}

impl Series {
    /// One part that grows and one that is refused, in every two places of every record in every scope.
    pub(super) fn sums(&mut self) {
        for scope in SCOPES {
            for shape in SHAPES {
                for grown in 0..shape.places() {
                    for refused in 0..=shape.places() {
                        if refused != grown {
                            self.sum(scope, shape, grown, refused);
                        }
                    }
                }
            }
        }
        for scope in SCOPES {
            for (first, second) in [(14, 7), (7, 14), (16, 16)] {
                let body = scope.around(shapes::put_back(first, second));
                self.tight(&format!("put back, {}", scope.words()), MAX_COUNTER, &body);
            }
        }
    }

    /// The part in the place `grown` grows; that in the place `refused` is refused, if there is such a place.
    fn sum(&mut self, scope: Scope, shape: Shape, grown: usize, refused: usize) {
        let bombs: Vec<Option<Bomb>> = match refused == shape.places() {
            true => vec![None],
            false if shape.is_sexp(refused) => vec![Some(Bomb::LongName)],
            false if self.full => BOMBS.into_iter().map(Some).collect(),
            // Own does not go into captures
            false if scope == Scope::Captures || shape.is_captures(refused) => vec![Some(Bomb::LambdaDeadlock)],
            false => vec![Some(Bomb::Deadlock), Some(Bomb::SecondDeadlock)],
        };
        let mut ways: Vec<usize> = if shape.is_sexp(grown) { vec![0, 1] } else { vec![0, 1, 2] };
        for bomb in bombs {
            self.maker.random.shuffle(&mut ways);
            let sums: Vec<Sum> = ways
                .iter()
                .map(|way| Sum { scope, shape, grown, refused: bomb.map(|bomb| (refused, bomb)), way: *way })
                .collect();
            if self.full {
                sums.iter().for_each(|sum| self.every(sum));
            } else if !self.left_out(scope, bomb.is_none()) {
                self.one_of(&sums);
            }
        }
    }

    /// In a short series most such cases are left out, but where Own or In-body takes a record directly.
    fn left_out(&mut self, scope: Scope, none: bool) -> bool {
        let direct = matches!(scope, Scope::None | Scope::Let | Scope::Captures);
        let one_in = if direct { 1 } else { 9 } * if none { 4 } else { 1 };
        !self.maker.random.one_in(one_in)
    }

    /// Every growth; where nothing passes F, since a refusal comes first, F is the length of the input.
    fn every(&mut self, sum: &Sum) {
        let counts = sum.passing();
        for count in &counts {
            self.tight(&sum.about(), COUNTER, &sum.body(*count));
        }
        if counts.is_empty() {
            self.plain(&sum.about(), COUNTER, &sum.body(BEHIND));
        }
    }

    /// The first that passes F by what grows, or else by anything.
    fn one_of(&mut self, sums: &[Sum]) {
        let steep = sums.iter().find_map(|sum| Some((sum, sum.steep()?)));
        let any = || sums.iter().find_map(|sum| Some((sum, *sum.passing().first()?)));
        match steep.or_else(any) {
            Some((sum, count)) => self.tight(&sum.about(), COUNTER, &sum.body(count)),
            None if sums[0].shape == Shape::Lambda || self.maker.random.one_in(4) => {
                self.plain(&sums[0].about(), COUNTER, &sums[0].body(BEHIND))
            }
            None => {}
        }
    }

    /// 5, 6 and 7 in every sequence of two and three, in every kind of record.
    pub(super) fn races(&mut self) {
        let sequences: [&[u8]; 12] = [b"57", b"75", b"67", b"76", b"56", b"65", b"567", b"576", b"657", b"675", b"756", b"765"];
        for sequence in sequences {
            for kind in 0..7 {
                let scopes: &[Scope] = if self.full { &SCOPES } else { &[Scope::None, Scope::Let] };
                for scope in scopes {
                    for second in [false, true] {
                        if !self.full && sequence.len() == 3 && !self.maker.random.one_in(4) {
                            continue;
                        }
                        let about = format!("race {}, {}", String::from_utf8_lossy(sequence), scope.words());
                        let body = |count: usize| {
                            let parts: Vec<Body> = sequence.iter().map(|digit| racer(*digit, second, count)).collect();
                            scope.around(shapes::in_sequence(&parts)[kind].clone())
                        };
                        let least =
                            GROWTHS.into_iter().find(|count| !rises(Call::Helper, &helper(&body(*count), 0), COUNTER).is_empty());
                        match least {
                            Some(count) => self.tight(&about, COUNTER, &body(count)),
                            None => self.plain(&about, COUNTER, &body(9)),
                        }
                    }
                }
            }
        }
    }

    /// 5 and 6 in every two places of every record.
    pub(super) fn two_refusals(&mut self) {
        for scope in [Scope::None, Scope::Let, Scope::Captures, Scope::Lambda] {
            for shape in SHAPES {
                for (five, six) in (0..shape.places()).flat_map(|five| (0..shape.places()).map(move |six| (five, six))) {
                    let skipped = !self.full && self.maker.random.below(3) < if scope == Scope::None { 1 } else { 2 };
                    if five == six || shape.is_sexp(five) || skipped {
                        continue;
                    }
                    let again = scope != Scope::None && self.maker.random.one_in(2);
                    let mut fills = vec![Fill::Plain; shape.places()];
                    fills[five] = Fill::Refused(if again { Bomb::SecondDeadlock } else { Bomb::Deadlock });
                    fills[six] = Fill::Refused(if again { Bomb::SecondLongName } else { Bomb::LongName });
                    let about = format!(
                        "race of 5 in {} and 6 in {} of {}, {}",
                        shape.place(five),
                        shape.place(six),
                        shape.words(),
                        scope.words()
                    );
                    self.plain(&about, COUNTER, &scope.around(shape.filled(&fills, COUNTER)));
                }
            }
        }
    }
}

/// A body that is refused with 5 or 6, or that grows.
fn racer(digit: u8, second: bool, count: usize) -> Body {
    let inner = match digit {
        b'5' if second => slots::deadlocked_then(),
        b'5' => slots::deadlocked(),
        b'6' if second => slots::long_name(240),
        b'6' => slots::long_name(slots::TOO_LONG),
        _ => return slots::growing(count),
    };
    match second {
        true => slots::lambda_of(nil(), slots::empty(), nil(), inner),
        false => inner,
    }
}
