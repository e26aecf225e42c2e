//! Counts cases by call and answer, and the grants in queues by their byte, and prints them as a
//! table.

use std::collections::BTreeMap;
use std::fmt;

use crate::call::Call;
use crate::expect::{Expected, SEEN_IN_A_GRANT};
use crate::order::{self, LATE_11};

/// The reasons that have a column. 0 stands for every answer that is no refusal.
const COLUMNS: [u32; 22] = [
    0, 1, 2, 3, 4, 5, 6, 7, 8, 9, 10, 11, 12, 13, LATE_11, 14, 20, 21, 22, 23, 24, 25,
];

/// A line of the table: a call, or a grant in a queue that is not refused as a whole, with its byte
/// as the answer.
#[derive(Clone, Copy, Debug, PartialEq, Eq, PartialOrd, Ord)]
pub enum Line {
    Of(Call),
    Queued,
}

impl Line {
    /// All lines, in their order.
    fn all() -> Vec<Line> {
        let line = |call| match call {
            Call::CheckQueue => vec![Line::Of(call), Line::Queued],
            _ => vec![Line::Of(call)],
        };
        Call::ALL.into_iter().flat_map(line).collect()
    }

    fn name(self) -> &'static str {
        match self {
            Line::Of(call) => call.name(),
            Line::Queued => "grant in a queue",
        }
    }

    /// The reasons that can be the answer, in their order.
    fn reasons(self) -> Vec<u32> {
        match self {
            Line::Of(call) => call.reasons().to_vec(),
            Line::Queued => SEEN_IN_A_GRANT.to_vec(),
        }
    }

    /// The reasons that can hold together, the one that is given first. In a queue they are those
    /// of a single check, as far as they are seen in the grant.
    pub fn pairs(self) -> Vec<(u32, u32)> {
        let seen = |reason: &u32| SEEN_IN_A_GRANT.contains(reason);
        match self {
            Line::Of(call) => call.pairs(),
            Line::Queued => {
                let pairs = Call::Check.pairs().into_iter();
                pairs.filter(|(a, b)| seen(a) && seen(b)).collect()
            }
        }
    }
}

/// Numbers of cases, and of grants in queues.
#[derive(Clone, Debug, Default, PartialEq, Eq)]
pub struct Tally {
    /// By the line and the reason that is given.
    answers: BTreeMap<(Line, u32), u64>,
    /// By the line, the reason that is given, and another one that holds too.
    pairs: BTreeMap<(Line, u32, u32), u64>,
    /// Cases on which the independent program as a whole was asked too.
    pub second_opinions: u64,
}

impl Tally {
    /// Counts a case.
    pub fn count(&mut self, call: Call, expected: &Expected) {
        self.count_line(Line::Of(call), &expected.reasons);
        for reasons in &expected.grants {
            self.count_line(Line::Queued, reasons);
        }
    }

    fn count_line(&mut self, line: Line, reasons: &[u32]) {
        let answer = reasons.first().copied().unwrap_or(0);
        *self.answers.entry((line, answer)).or_default() += 1;
        for (first, other) in pairs_of(reasons) {
            *self.pairs.entry((line, first, other)).or_default() += 1;
        }
    }

    /// Adds the numbers of another tally.
    pub fn add(&mut self, other: &Tally) {
        for (key, number) in &other.answers {
            *self.answers.entry(*key).or_default() += number;
        }
        for (key, number) in &other.pairs {
            *self.pairs.entry(*key).or_default() += number;
        }
        self.second_opinions += other.second_opinions;
    }

    /// How often a line has an answer.
    pub fn answered(&self, line: Line, answer: u32) -> u64 {
        *self.answers.get(&(line, answer)).unwrap_or(&0)
    }

    /// How often one reason is given in a line and another one holds too.
    pub fn together(&self, line: Line, first: u32, other: u32) -> u64 {
        *self.pairs.get(&(line, first, other)).unwrap_or(&0)
    }

    /// The cases of a call, or the grants in queues.
    fn of(&self, line: Line) -> u64 {
        COLUMNS
            .iter()
            .map(|&answer| self.answered(line, answer))
            .sum()
    }

    /// All cases.
    pub fn total(&self) -> u64 {
        Call::ALL.iter().map(|&call| self.of(Line::Of(call))).sum()
    }

    /// What can occur and did not: answers of calls, bytes of grants in queues, and reasons that
    /// hold together.
    pub fn missing(&self) -> Vec<String> {
        let mut missing = Vec::new();
        for line in Line::all() {
            let name = line.name();
            for answer in [vec![0], line.reasons()].concat() {
                if self.answered(line, answer) == 0 {
                    missing.push(format!("{name} with answer {}", order::name(answer)));
                }
            }
            for (first, other) in line.pairs() {
                if self.together(line, first, other) == 0 {
                    let [first, other] = [first, other].map(order::name);
                    missing.push(format!("{name} with reasons {first} and {other} together"));
                }
            }
        }
        missing
    }

    /// The pairs of reasons that held together and are not among those of their line. There are
    /// none, or `Call::pairs` is wrong.
    pub fn unlisted(&self) -> Vec<(Line, u32, u32)> {
        let seen = self.pairs.keys().copied();
        seen.filter(|&(line, first, other)| !line.pairs().contains(&(first, other)))
            .collect()
    }

    /// How many of the pairs of reasons occurred that can hold together in these lines, and how many
    /// there are.
    fn pairs_seen(&self, lines: &[Line]) -> (usize, usize) {
        let all = lines.iter().flat_map(|&line| {
            let pairs = line.pairs().into_iter();
            pairs.map(move |(first, other)| self.together(line, first, other))
        });
        let all: Vec<u64> = all.collect();
        (all.iter().filter(|&&cases| cases > 0).count(), all.len())
    }

    /// A line of the table.
    fn row(&self, line: Line) -> String {
        let mut row = format!("{:<20}", line.name());
        let reasons = line.reasons();
        for answer in COLUMNS {
            let possible = answer == 0 || reasons.contains(&answer);
            let text = match possible {
                true => self.answered(line, answer).to_string(),
                false => "-".to_string(),
            };
            row.push_str(&format!("{text:>9}"));
        }
        format!("{row}{:>11}", self.of(line))
    }
}

impl fmt::Display for Tally {
    fn fmt(&self, out: &mut fmt::Formatter<'_>) -> fmt::Result {
        write!(out, "{:<20}{:>9}", "call", "done")?;
        for &answer in &COLUMNS[1..] {
            write!(out, "{:>9}", order::name(answer))?;
        }
        writeln!(out, "{:>11}", "cases")?;
        for line in Line::all() {
            writeln!(out, "{}", self.row(line))?;
        }
        let (seen, all) = self.pairs_seen(&Call::ALL.map(Line::Of));
        writeln!(out, "pairs of reasons together: {seen} of {all}")?;
        let (seen, all) = self.pairs_seen(&[Line::Queued]);
        writeln!(out, "the same in a grant in a queue: {seen} of {all}")?;
        writeln!(out, "second opinions: {}", self.second_opinions)?;
        write!(out, "total: {} cases", self.total())
    }
}

/// The reason that is given, with each other one that holds.
fn pairs_of(reasons: &[u32]) -> impl Iterator<Item = (u32, u32)> + '_ {
    let others = reasons.iter().skip(1);
    others.map(|&other| (reasons[0], other))
}
