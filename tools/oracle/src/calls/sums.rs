//! Cases directed at the sums of H records and CF, and at the sequence of 5, 6 and 7 in them.

use super::gathered::{rises, Gathered};
use super::shapes;
use super::slots::{form_with, Around, Part, Shape, AROUNDS, SHAPES};
use crate::answers::{self, Call, Case, MAX_COUNTER, WORK_PER_F};
use crate::bodies::slots::{Bomb, Fill, WAYS};
use crate::cases::{atom, call, nil, var};
use crate::random::Random;
use crate::records::{Bytes, Form};

/// The counter: its numbers are long, and no number of a case gets one digit more.
const COUNTER: u64 = MAX_COUNTER - 50;
/// How often a part that grows has what makes it grow.
const GROWTHS: [usize; 9] = [1, 3, 6, 9, 13, 18, 24, 32, 44];
/// By how much a use more makes what passes F longer, where the use is renamed.
const STEEP: usize = 20;
/// In a short series one in so many is taken.
const LEFT_OUT: usize = 26;
/// So too of the races.
const RACES_LEFT_OUT: usize = 12;
/// How much a part shrinks that shrinks.
const SHRINKS: usize = 10;
/// What stands in another place: what is refused, early or late, or what shrinks.
const OTHERS: [Fill; 6] = [
    Fill::Refused(Bomb::Deadlock),
    Fill::Refused(Bomb::SecondDeadlock),
    Fill::Refused(Bomb::LateLongName(3)),
    Fill::Refused(Bomb::LateLongName(4)),
    Fill::Refused(Bomb::LateLongName(5)),
    Fill::Shrinks(SHRINKS),
];

/// A record with a part that grows, and one in another place.
#[derive(Clone)]
struct Sum {
    around: Around,
    shape: Shape,
    grown: usize,
    way: usize,
    other: usize,
    fill: Fill,
}

impl Sum {
    /// The call and its input at a growth.
    fn input(&self, count: usize) -> (Call, Bytes) {
        let mut fills = vec![Fill::Plain; self.shape.places().len()];
        fills[self.grown] = WAYS[self.way].1(count);
        if self.other < fills.len() {
            fills[self.other] = self.fill.clone();
        }
        let (call, part) = self.around.around(self.shape.filled(&fills, COUNTER));
        (call, part.placed(0))
    }

    /// What the case is about.
    fn about(&self) -> String {
        let places = self.shape.places();
        let grows = format!("{} in {} of {}", WAYS[self.way].0, places[self.grown], self.shape.words());
        let what = match &self.fill {
            Fill::Refused(bomb) => bomb.words(),
            _ => "what shrinks",
        };
        let other = places.get(self.other).map_or(String::new(), |place| format!(", {what} in {place}"));
        format!("sum: {grows}{other}, {}", self.around.words())
    }

    /// What passes F last.
    fn last(&self, count: usize) -> Option<usize> {
        let (call, input) = self.input(count);
        rises(call, &input, COUNTER).last().copied()
    }

    /// The least growth at which F is passed by what grows.
    fn growth(&self) -> Option<usize> {
        let is_steep = |count: &usize| match (self.last(*count), self.last(count + 1)) {
            (Some(rise), Some(next)) => next >= rise + STEEP,
            _ => false,
        };
        GROWTHS.into_iter().find(is_steep)
    }

    /// Whether the call takes the record itself, and its other part decides once F is enough, or shrinks.
    fn is_direct(&self) -> bool {
        let itself = self.around == Around::Alone || (self.shape == Shape::Form && self.around == Around::Children);
        let shrinks = matches!(self.fill, Fill::Shrinks(_));
        itself && (shrinks || self.growth().is_some_and(|count| self.decides(count)))
    }

    /// Whether something else than the finished record of the call passes F last.
    fn decides(&self, count: usize) -> bool {
        let (call, input) = self.input(count);
        let f = self.last(count).unwrap_or(0);
        let case = Case { call, f: f as u64, work: WORK_PER_F * f as u64, counter: COUNTER, buffer: f, input };
        answers::answer(&case).is_ok_and(|answer| answer.number != 0 || answer.output.len() < f)
    }
}

/// One part that grows and another, in every two places of every record with everything around it.
pub fn sums(gathered: &mut Gathered, random: &mut Random, full: bool) {
    for around in AROUNDS {
        for shape in SHAPES {
            let places = shape.places().len();
            for grown in 0..places {
                for other in (0..=places).filter(|other| *other != grown) {
                    others(gathered, random, full, &Sum { around, shape, grown, way: 0, other, fill: Fill::Plain });
                }
            }
        }
    }
}

/// With each other part that may stand there, in every way to grow; in a short series most of those in another record are left out.
fn others(gathered: &mut Gathered, random: &mut Random, full: bool, sum: &Sum) {
    let fills: Vec<Fill> = match sum.other == sum.shape.places().len() {
        true => vec![Fill::Plain],
        false if sum.shape.is_sexp(sum.other) => vec![Fill::Refused(Bomb::LongName)],
        false => OTHERS.to_vec(),
    };
    let ways = if sum.shape.is_sexp(sum.grown) { 0..1 } else { 0..3 };
    for fill in fills {
        for way in ways.clone() {
            let sum = Sum { way, fill: fill.clone(), ..sum.clone() };
            let taken = full || sum.is_direct() || random.one_in(LEFT_OUT);
            if let Some(count) = sum.growth().filter(|_| taken) {
                let (call, input) = sum.input(count);
                gathered.tight(&sum.about(), call, COUNTER, input);
            }
        }
    }
}

/// F at the length of what a call makes of each kind of record, and one below.
pub fn finished(gathered: &mut Gathered) {
    for (what, helper) in shapes::kinds(&call(vec![var("x"); 4])) {
        let form = Form { args: atom("x"), ..form_with(nil(), helper.clone()) };
        let about = format!("finished record, {what}");
        gathered.tight(&about, Call::Helper, MAX_COUNTER, Part::Helper(helper).placed(0));
        gathered.tight(&about, Call::Whole, MAX_COUNTER, Part::Form(form.clone()).placed(0));
        gathered.tight(&about, Call::Children, MAX_COUNTER, Part::Form(form).placed(0));
    }
}

/// 5 and 6 in every two places of every record.
pub fn two_refusals(gathered: &mut Gathered, random: &mut Random, full: bool) {
    let pairs =
        [(Bomb::Deadlock, Bomb::LongName), (Bomb::SecondDeadlock, Bomb::SecondLongName), (Bomb::SecondDeadlock, Bomb::LongName)];
    for around in AROUNDS {
        for shape in SHAPES {
            let places = shape.places();
            for (five, six) in (0..places.len()).flat_map(|five| (0..places.len()).map(move |six| (five, six))) {
                if five == six || shape.is_sexp(five) {
                    continue;
                }
                for (first, second) in pairs {
                    if full || random.one_in(RACES_LEFT_OUT) {
                        let mut fills = vec![Fill::Plain; places.len()];
                        fills[five] = Fill::Refused(first);
                        fills[six] = Fill::Refused(second);
                        let words = [places[five], places[six], shape.words(), around.words()];
                        let about = format!("race of 5 in {} and 6 in {} of {}, {}", words[0], words[1], words[2], words[3]);
                        let (call, part) = around.around(shape.filled(&fills, COUNTER));
                        gathered.plain(&about, call, COUNTER, part.placed(0));
                    }
                }
            }
        }
    }
}
