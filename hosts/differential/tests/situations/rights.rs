//! What matters of highest rights occurs among the cases.

use std::collections::BTreeSet;

use gordzila_differential::rolls::in_standing;

use super::*;

/// Figures, of which 2 alone stands for overwriting. Those from 6 on differ from it in one bit.
const FIGURES: [u8; 11] = [0, 1, 2, 3, 255, 6, 10, 18, 34, 66, 130];

/// Each figure, in standing and not; and the first five with each right that is given or asked for.
#[test]
fn every_figure_occurs_in_every_situation() {
    let situation = |case: &Case| {
        let (count, figure) = entry(case)?;
        Some((in_standing(count), figure))
    };
    for standing in [true, false] {
        let all = FIGURES.map(|figure| Some((standing, figure)));
        occur(&NAMING, &all, situation);
        for right in [1, 2] {
            occur(&NAMING[..3], &all[..5], |case| {
                situation(case).filter(|_| case.right == right)
            });
        }
    }
}

/// The figure before, the right that is given, and whether the call is done.
#[test]
fn changes_of_right_of_every_kind_occur() {
    let done: BTreeSet<(u8, u32)> = cases()
        .iter()
        .filter(|pair| pair.0.call == Call::ChangeRight && pair.1.effect.answer == 0)
        .filter_map(|(case, _)| Some((entry(case)?.1, case.right)))
        .collect();
    for figure in FIGURES {
        for right in [1, 2] {
            assert!(done.contains(&(figure, right)), "{figure} to {right}");
        }
    }
}

/// The contractor of the grant of a check, if it is whole.
fn contractor(case: &Case) -> Option<u32> {
    let grant = case.block.as_slice().try_into().ok()?;
    let plain = gordzila::decipher(&case.key, case.rounds, grant).ok()?;
    Some(u32::from(plain[0]) << 8 | u32::from(plain[1])).filter(|&one| is_contractor(one))
}

/// The figure of the contractor of each grant that is checked, the right in the grant, the right asked
/// for, and the answer, with 0 for all that open.
fn checks() -> BTreeSet<(u8, u8, u32, u64)> {
    let checks = cases().iter().filter(|pair| pair.0.call == Call::Check);
    let whole = checks.filter(|pair| pair.0.roll.len() == ROLL_BYTES);
    let seen = whole.filter_map(|(case, expected)| {
        let figure = figure(&case.roll, contractor(case)?);
        let answer = match expected.effect.answer {
            1000.. => 0,
            refusal => refusal,
        };
        Some((figure, right_in_grant(case)?, case.right, answer))
    });
    seen.collect()
}

/// A grant to overwrite opens for reading whatever the figure is, and for overwriting with 2 alone.
#[test]
fn every_figure_occurs_in_checks_of_either_right() {
    let seen = checks();
    for figure in FIGURES {
        let overwriting = if figure == 2 { 0 } else { 25 };
        for wanted in [
            (figure, 1, 1, 0),
            (figure, 2, 1, 0),
            (figure, 2, 2, overwriting),
        ] {
            assert!(seen.contains(&wanted), "{wanted:?}");
        }
    }
    assert!(seen
        .iter()
        .all(|&(figure, .., answer)| figure != 2 || answer != 25));
}

/// Queues in which one grant opens for overwriting and another is refused with 25 alone.
#[test]
fn queues_with_both_kinds_of_contractors_occur() {
    let both = |queue: &(&Case, &[u8])| queue.1.contains(&0) && queue.1.contains(&25);
    let both = queues().filter(both);
    assert!(both.filter(|queue| queue.0.right == 2).count() > 30);
}

#[test]
fn rolls_of_every_kind_occur() {
    let empty = [vec![0; 400], vec![1; 200]].concat();
    let zeros = vec![0; ROLL_BYTES];
    for roll in [empty, zeros] {
        occur(&NAMING, &[true], |case| case.roll == roll);
    }
    // After a life of calls there is no figure but 1 and 2, and some have each.
    occur(&NAMING, &[true], |case| {
        let figures: BTreeSet<u8> = case.roll.iter().skip(400).copied().collect();
        figures == BTreeSet::from([1, 2])
    });
}
