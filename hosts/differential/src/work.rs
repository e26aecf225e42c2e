//! All families, on some threads. What comes out does not depend on the number of threads.

use std::fmt;
use std::sync::atomic::{AtomicU64, Ordering};
use std::thread;

use crate::case::{hex, Case};
use crate::compare::differences;
use crate::draw::draw;
use crate::expect::{expected, Effect, Expected};
use crate::family::Family;
use crate::lend::Library;
use crate::opinion;
use crate::oracle::Oracle;
use crate::random::Random;
use crate::tally::Tally;

/// The cases of a family.
pub const FAMILY: u64 = 128;

/// One family in so many has pages. They are slow: it takes 84 blocks to seal one.
const PAGED: u64 = 64;

/// The cases that are kept to be printed, if they differ.
pub const KEPT: usize = 10;

/// One case in so many is put to the independent program as a whole too, which is slow; fewer of those
/// with which it is slower, and all of those with which it is not.
const OPINION_STEP: u64 = 16;

/// What is to be done.
#[derive(Clone, Copy, Debug)]
pub struct Plan {
    pub cases: u64,
    pub seed: u64,
    pub threads: usize,
}

/// A case in which something differs.
#[derive(Clone, Debug, PartialEq, Eq)]
pub struct Difference {
    /// The number of the case, from 0 on.
    pub number: u64,
    pub case: Case,
    pub found: Vec<String>,
}

impl fmt::Display for Difference {
    fn fmt(&self, out: &mut fmt::Formatter<'_>) -> fmt::Result {
        write!(out, "case {}: {}", self.number, self.case)?;
        for found in &self.found {
            write!(out, "\n    {found}")?;
        }
        Ok(())
    }
}

/// What came out.
#[derive(Clone, Debug, Default, PartialEq, Eq)]
pub struct Outcome {
    pub tally: Tally,
    /// The cases in which something differs.
    pub different: u64,
    /// The first of them.
    pub first: Vec<Difference>,
}

impl Outcome {
    /// Whether nothing differs, and everything occurred that can.
    pub fn is_good(&self) -> bool {
        self.different == 0 && self.tally.missing().is_empty()
    }

    fn add(&mut self, other: Outcome) {
        self.tally.add(&other.tally);
        self.different += other.different;
        self.first.extend(other.first);
        self.first.sort_by_key(|difference| difference.number);
        self.first.truncate(KEPT);
    }

    fn note(&mut self, number: u64, case: Case, found: Vec<String>) {
        self.different += 1;
        if self.first.len() < KEPT {
            self.first.push(Difference {
                number,
                case,
                found,
            });
        }
    }
}

/// Does what is planned.
pub fn work(plan: &Plan, library: &Library<'_>) -> Outcome {
    let next = AtomicU64::new(0);
    let worker = || {
        let mut outcome = Outcome::default();
        loop {
            let family = next.fetch_add(1, Ordering::Relaxed);
            if family * FAMILY >= plan.cases {
                return outcome;
            }
            work_family(plan, family, library, &mut outcome);
        }
    };
    let mut outcome = Outcome::default();
    thread::scope(|scope| {
        let workers: Vec<_> = (0..plan.threads.max(1))
            .map(|_| scope.spawn(worker))
            .collect();
        for worker in workers {
            outcome.add(worker.join().expect("a worker does not panic"));
        }
    });
    outcome
}

/// The first cases of a family, and what is expected of each.
pub fn family_cases(seed: u64, family: u64, cases: u64) -> Vec<(Case, Expected)> {
    let mut random = Random::new(seed, 2 * family);
    let mut oracle = Oracle::new();
    let family = match (family + 1) % PAGED {
        0 => Family::with_pages(&mut oracle, &mut random),
        _ => Family::new(&mut oracle, &mut random),
    };
    let one = |_| {
        let case = draw(&family, &mut oracle, &mut random);
        let expected = expected(&case, &mut oracle);
        (case, expected)
    };
    (0..cases).map(one).collect()
}

/// The cases of a family with pages, and what is expected of each. They are counted from 0 among such
/// families.
pub fn page_cases(seed: u64, paged: u64) -> Vec<(Case, Expected)> {
    family_cases(seed, PAGED * (paged + 1) - 1, FAMILY)
}

/// Draws the cases of one family, makes their calls and compares.
fn work_family(plan: &Plan, family: u64, library: &Library<'_>, outcome: &mut Outcome) {
    let first = family * FAMILY;
    let cases = FAMILY.min(plan.cases - first);
    let mut random = Random::new(plan.seed, 2 * family + 1);
    for (number, (case, expected)) in (first..).zip(family_cases(plan.seed, family, cases)) {
        outcome.tally.count(case.call, &expected);
        let mut found = differences(&case, &expected.effect, library, &mut random);
        if is_due(number, opinion::cost(&case, &expected.effect)) {
            found.extend(compare_opinions(&case, &expected, &mut outcome.tally));
        }
        if !found.is_empty() {
            outcome.note(number, case, found);
        }
    }
}

/// Whether the independent program as a whole is asked too about the case of a number, if that costs
/// so much.
fn is_due(number: u64, cost: u64) -> bool {
    cost == 0 || number % (OPINION_STEP * cost) == 0
}

/// Compares what is expected with what the independent program as a whole does.
fn compare_opinions(case: &Case, expected: &Expected, tally: &mut Tally) -> Option<String> {
    let second = opinion::second(case)?;
    tally.second_opinions += 1;
    (second != expected.effect).then(|| {
        let texts = [text(&expected.effect), text(&second)];
        format!(
            "expected were {}, but the independent program as a whole has {}",
            texts[0], texts[1]
        )
    })
}

fn text(effect: &Effect) -> String {
    let Effect {
        answer,
        written,
        roll,
        holder,
        scratch,
    } = effect;
    let bytes = [written, roll, holder, scratch].map(|bytes| hex(bytes));
    let [written, roll, holder, scratch] = bytes;
    format!("answer {answer}, out {written}, roll {roll}, holder {holder}, scratch {scratch}")
}
