//! The directed cases of Own and In-body: at a rule, a sum or a race each.

use super::places::Places;
use super::shapes::{self, KINDS};
use super::slots::{self, Scope, SCOPES};
use crate::answers::{self, Call, MAX_COUNTER, MAX_F, MIN_F};
use crate::calls::{least_f, Gathered, COUNTERS, LOCS};
use crate::cases::{atom, nil};
use crate::generate::Maker;
use crate::orders::shapes as needs;
use crate::records::{Body, Bytes, Head, Helper, Record};

/// The cases as they are made; the full ones have every place and growth.
pub struct Series {
    pub(super) maker: Maker,
    pub gathered: Gathered,
    pub(super) full: bool,
}

pub(super) fn helper(body: &Body, from: u32) -> Bytes {
    let body = Places(from).body(body);
    Helper::HC(Head { loc: from, name: Bytes::new(), rest: Bytes::new() }, body).bytes()
}

impl Series {
    /// Directed cases of some sizes, or all.
    pub fn seeded(seed: u64, full: bool) -> Series {
        let mut series = Series { maker: Maker::seeded(seed), gathered: Gathered::default(), full };
        series.rules();
        series.names();
        series.depths();
        series.orders();
        series.finished();
        series.sums();
        series.races();
        series.two_refusals();
        series.limits();
        series
    }

    /// A case of Single helper.
    pub(super) fn push(&mut self, about: &str, f: usize, counter: u64, input: Bytes) {
        self.gathered.push(about, Call::Helper, f, counter, input);
    }

    fn some_counter(&mut self) -> u64 {
        self.maker.random.pick(COUNTERS)
    }

    pub(super) fn placed(&mut self, body: &Body) -> Bytes {
        let from = self.maker.random.pick(LOCS);
        helper(body, from)
    }

    /// A case in which F is enough.
    pub(super) fn plain(&mut self, about: &str, counter: u64, body: &Body) {
        let input = self.placed(body);
        self.gathered.plain(about, Call::Helper, counter, input);
    }

    /// With F at what passes it last, and one below.
    pub(super) fn tight(&mut self, about: &str, counter: u64, body: &Body) {
        let input = self.placed(body);
        self.gathered.tight(about, Call::Helper, counter, input);
    }

    /// Every rule on every kind of record, in every scope.
    fn rules(&mut self) {
        for scope in SCOPES {
            for (about, body) in shapes::rules() {
                let counter = self.some_counter();
                self.plain(&format!("{about}, {}", scope.words()), counter, &scope.around(body));
            }
        }
        for body in shapes::hinted() {
            for scope in [Scope::None, Scope::Let, Scope::Lambda] {
                self.plain(&format!("hint, {}", scope.words()), 0, &scope.around(body.clone()));
            }
        }
        for body in shapes::captured() {
            for scope in [Scope::None, Scope::Let, Scope::AssignBinding, Scope::Lambda] {
                let counter = self.some_counter();
                self.tight(&format!("captures, {}", scope.words()), counter, &scope.around(body.clone()));
            }
        }
    }

    /// Patterns, and made names of 254 to 256 bytes, for the first time and the second.
    fn names(&mut self) {
        for body in shapes::drawn() {
            let counter = self.some_counter();
            self.plain("pattern", counter, &body);
            let scope = self.maker.random.pick(&[Scope::Let, Scope::Lambda, Scope::Captures, Scope::AssignBinding]);
            self.plain(&format!("pattern, {}", scope.words()), counter, &scope.around(body));
        }
        for counter in [0, 9, MAX_COUNTER - 1] {
            let join = 3 + (counter + 1).to_string().len();
            for made in 254..=256 {
                for body in shapes::long(made - join) {
                    self.plain(&format!("made name of {made} bytes"), counter, &body);
                }
            }
        }
        for made in 254..=256 {
            for body in shapes::long(made - 8) {
                let again = Scope::Lambda.around(body);
                self.plain(&format!("name of {made} bytes made twice"), 0, &again);
            }
        }
    }

    /// Lambdas, sequential lets and levels up to their limits, and past them.
    fn depths(&mut self) {
        for count in 1..=7 {
            for (index, inner) in shapes::in_lambdas().into_iter().enumerate() {
                if count < 5 || self.full || index == count % 3 || index == 4 {
                    let args = if index % 2 == count % 2 { nil() } else { atom("x") };
                    self.tight(&format!("{count} lambdas"), 7, &shapes::nested_lambdas(count, &args, inner));
                }
            }
        }
        for count in [0, 1, 2, 3, 5, 29, 30, 31] {
            for complex in [false, true] {
                let body = shapes::sequential(count, complex);
                self.tight(&format!("sequential of {count}"), 0, &body);
                if count < 6 {
                    SCOPES.iter().for_each(|scope| {
                        self.plain(&format!("sequential of {count}, {}", scope.words()), 5, &scope.around(body.clone()))
                    });
                }
            }
        }
        for levels in [30, 31, 32] {
            for body in shapes::deep(levels) {
                self.plain(&format!("{} levels", levels + 1), 0, &body);
            }
        }
    }

    /// Assigns by what their bindings need, small and of 64; such that read otherwise the second time.
    fn orders(&mut self) {
        for (index, body) in shapes::otherwise().into_iter().enumerate() {
            for scope in SCOPES {
                let counter = self.some_counter();
                let inner = slots::lambda_of(nil(), slots::empty(), atom("z"), body.clone());
                self.plain(&format!("assign read otherwise {index}, {}", scope.words()), counter, &scope.around(body.clone()));
                self.tight(
                    &format!("assign read otherwise {index} in a lambda, {}", scope.words()),
                    counter,
                    &scope.around(inner),
                );
            }
        }
        for number in 0..6 {
            for count in 1..=3 {
                let body = shapes::nested_lambdas(count, &atom("z"), shapes::foreseen(number));
                self.plain(&format!("number {number} foreseen in {count} lambdas"), 0, &body);
            }
        }
        for count in [1, 2, 3, 4, 5] {
            for way in [Some(0), Some(1), None] {
                let random = &mut self.maker.random;
                let all = [
                    needs::forward(count),
                    needs::backward(count),
                    needs::shuffled(random, count),
                    needs::random_dag(random, count, 2),
                    needs::ring(random, count, count.min(2)),
                ];
                for shape in all {
                    let scope = self.maker.random.pick(&SCOPES);
                    let counter = self.some_counter();
                    self.tight(
                        &format!("assign of {count}, {}", scope.words()),
                        counter,
                        &scope.around(shapes::assign(&shape, way)),
                    );
                }
            }
        }
        for way in [Some(1), None] {
            let shuffled = needs::shuffled(&mut self.maker.random, 64);
            for shape in [needs::forward(64), needs::backward(64), shuffled, vec![vec![]; 64]] {
                self.plain("assign of 64", 0, &shapes::assign(&shape, way));
            }
        }
        self.plain("assign of 65", 0, &shapes::assign(&vec![vec![]; 65], Some(1)));
        self.tight("assign of 64, in a lambda in a let", 0, &Scope::Lambda.around(shapes::assign(&vec![vec![]; 64], Some(1))));
    }

    /// F at the length of what Own makes of a body, and one below: the sums pass nothing.
    fn finished(&mut self) {
        for (about, body) in shapes::rules() {
            let input = self.placed(&body);
            let around = input.len() - body.size();
            let peak = answers::walked(Call::Helper, &input, MAX_COUNTER).peak;
            if (least_f(&input) + around + 1..MAX_F as usize).contains(&peak) {
                for f in [peak - around - 1, peak - around] {
                    self.push(&format!("finished record of {about}"), f, MAX_COUNTER, input.clone());
                }
            }
        }
    }

    /// F and the counter at their limits and past them; inputs that are cut off or changed.
    fn limits(&mut self) {
        let body = Scope::Let.around(slots::growing(2));
        let input = helper(&body, 0);
        let length = input.len();
        for f in [0, MIN_F as usize - 1, length - 1, length, length + 1, MAX_F as usize, MAX_F as usize + 1, 65535] {
            self.push("limit of F", f, 0, input.clone());
        }
        for counter in [MAX_COUNTER, MAX_COUNTER + 1, u64::MAX] {
            self.push("limit of the counter", 1000, counter, input.clone());
        }
        for cut in (0..length).step_by(9) {
            self.push("cut off", length, 0, input[..cut].to_vec());
        }
        self.push("left over", length + 1, 0, [&input[..], b"\x00"].concat());
        for kind in KINDS {
            let a_macro = Body::BM(0, Box::new(crate::cases::form_of(slots::empty())));
            self.plain("BM in a binding", 0, &slots::let_body(kind, vec![slots::name_binding(b"x", a_macro)], slots::empty()));
        }
    }
}
