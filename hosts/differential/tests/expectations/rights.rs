//! What is expected of a roll with highest rights, against examples that were worked out by hand.

use super::*;

/// The figures that are tried, and whether each stands for overwriting.
const FIGURES: [(u8, bool); 8] = [
    (0, false),
    (1, false),
    (2, true),
    (3, false),
    (4, false),
    (18, false),
    (130, false),
    (255, false),
];

/// Numbers that are no right.
const NO_RIGHTS: [u32; 9] = [0, 3, 4, 255, 256, 257, 258, 65_538, u32::MAX];

/// The case of `roll_case` for contractor 7, with a figure and a right.
fn right_case(call: Call, count: u16, figure: u8, right: u32) -> Case {
    let mut case = roll_case(call, 7, count);
    set_figure(&mut case.roll, 7, figure);
    case.right = right;
    case
}

#[test]
fn an_empty_roll_has_400_zeros_and_200_ones() {
    let mut case = right(Call::EmptyRoll);
    for out in [600, 601, 1000] {
        case.out = out;
        assert_eq!(effect(&case).answer, 0);
        assert_eq!(effect(&case).written.len(), 600);
        assert_eq!(effect(&case).written[..400], [0; 400]);
        assert_eq!(effect(&case).written[400..], [1; 200]);
    }
    for out in [0, 1, 88, 200, 400, 599] {
        case.out = out;
        assert_eq!(effect(&case).answer, 4);
        assert_eq!(effect(&case).written, []);
    }
}

/// A contractor, and the places of the two bytes of the count and of the figure.
#[test]
fn an_entry_stands_in_its_three_bytes() {
    let table = [
        (1, 0, 1, 400),
        (2, 2, 3, 401),
        (7, 12, 13, 406),
        (199, 396, 397, 598),
        (200, 398, 399, 599),
    ];
    for (contractor, high, low, figure) in table {
        let mut case = roll_case(Call::Enter, contractor, 0);
        case.roll = vec![0; 600];
        (case.roll[high], case.roll[low], case.roll[figure]) = (1, 2, 9);
        let mut roll = case.roll.clone();
        (roll[low], roll[figure]) = (3, 2);
        assert_eq!(effect(&case).roll, roll, "{case}");
        (case.call, case.right) = (Call::ChangeRight, 1);
        case.roll = roll.clone();
        roll[figure] = 1;
        assert_eq!(effect(&case).roll, roll, "{case}");
        case.call = Call::Withdraw;
        (roll[low], roll[figure]) = (4, 1);
        assert_eq!(effect(&case).roll, roll, "{case}");
    }
}

/// A count, and the numbers of entering, changing and withdrawing.
const BY_COUNT: [(u16, u64, u64, u64); 8] = [
    (0, 0, 20, 20),
    (1, 21, 0, 0),
    (2, 0, 20, 20),
    (65_531, 21, 0, 0),
    (65_532, 0, 20, 20),
    (65_533, 21, 0, 0),
    (65_534, 22, 20, 20),
    (65_535, 22, 20, 20),
];

/// A call for contractor 7, who has a count and a figure, answers a number, and leaves another count
/// and figure if that is 0, and nothing changed otherwise.
fn leaves(case: &Case, number: u64, count: u16, figure: u8) {
    let mut roll = case.roll.clone();
    if number == 0 {
        set_count(&mut roll, 7, count);
        set_figure(&mut roll, 7, figure);
    }
    assert_eq!(answer(case), number, "{case}");
    assert_eq!(effect(case).roll, roll, "{case}");
}

#[test]
fn calls_on_the_roll_by_count_and_figure_and_right() {
    for (count, enter, change, withdraw) in BY_COUNT {
        let next = count.wrapping_add(1);
        for (figure, _) in FIGURES {
            for right in [READING, OVERWRITING] {
                let case = |call| right_case(call, count, figure, right);
                leaves(&case(Call::Enter), enter, next, right as u8);
                leaves(&case(Call::ChangeRight), change, count, right as u8);
                leaves(&case(Call::Withdraw), withdraw, next, 1);
            }
        }
    }
}

/// What is no right is refused whatever the count is: 7 comes before 20, 21 and 22, and after 6.
#[test]
fn a_right_that_is_none_is_not_given() {
    for right in NO_RIGHTS {
        for count in [0, 1, 2, 65_533, 65_534, 65_535] {
            for call in [Call::Enter, Call::ChangeRight, Call::Issue] {
                let mut case = right_case(call, count, 255, right);
                assert_eq!(answer(&case), 7, "{case}");
                assert_eq!(effect(&case).roll, case.roll, "{case}");
                case.contractor = 201;
                assert_eq!(answer(&case), 6, "{case}");
            }
        }
    }
}

#[test]
fn a_roll_has_600_bytes() {
    for length in (0..700).chain([1000, 66_136]) {
        for call in [Call::Enter, Call::ChangeRight, Call::Withdraw] {
            let mut case = right(call);
            case.roll.resize(length, 0);
            let number = if length == 600 { 0 } else { 3 };
            let effect = expected(&case, &mut Oracle::new()).effect;
            assert_eq!(effect.answer, number, "{} {length}", call.name());
        }
    }
    for length in [0, 399, 400, 401, 599, 600, 601, 1000] {
        for (call, done) in [(Call::Issue, 0), (Call::Check, 2007)] {
            let mut case = right(call);
            case.roll.resize(length, 0);
            let number = if length == 600 { done } else { 3 };
            assert_eq!(answer(&case), number, "{} {length}", call.name());
        }
    }
}

/// Issuing and checking look at the figure where overwriting is asked for, and at no other time. It
/// is the right asked for that is compared, and never that of the grant.
#[test]
fn each_figure_with_each_right_in_a_grant_and_each_right_asked_for() {
    for (figure, overwrites) in FIGURES {
        for (in_grant, asked, open, other) in [
            (1, 1, 1007, 1007),
            (1, 2, 10, 10),
            (2, 1, 1007, 1007),
            (2, 2, 2007, 25),
            (3, 2, 8, 8),
            (2, 3, 7, 7),
        ] {
            let mut case = right_case(Call::Check, 1, figure, asked);
            case.block = grant_with(in_grant);
            let number = if overwrites { open } else { other };
            assert_eq!(answer(&case), number, "{figure}: {in_grant} for {asked}");
        }
        for (asked, other) in [(1, 0), (2, 25)] {
            let case = right_case(Call::Issue, 1, figure, asked);
            let number = if overwrites { 0 } else { other };
            assert_eq!(answer(&case), number, "{figure}: issue for {asked}");
        }
    }
}

/// The figure that is looked at is the contractor's own.
#[test]
fn the_figures_of_others_do_not_matter() {
    for own in [1, 2] {
        for others in [1, 2] {
            let mut case = right(Call::Check);
            case.roll[400..].fill(others);
            set_figure(&mut case.roll, 7, own);
            assert_eq!(answer(&case), if own == 2 { 2007 } else { 25 });
            case.call = Call::Issue;
            assert_eq!(answer(&case), if own == 2 { 0 } else { 25 });
        }
    }
}

/// The right in the grant, the right asked for, and all reasons that hold of a check for another
/// size block on a roll on which the contractor was withdrawn; and of an issue.
#[test]
fn twenty_five_holds_where_overwriting_is_asked_and_comes_last() {
    let table: [(u8, u32, &[u32], &[u32]); 5] = [
        (1, 1, &[9, 20, 23], &[20]),
        (1, 2, &[9, 10, 20, 23, 25], &[20, 25]),
        (2, 1, &[9, 20, 23], &[20]),
        (2, 2, &[9, 20, 23, 25], &[20, 25]),
        (2, 3, &[7, 9, 20, 23], &[7, 20]),
    ];
    for (in_grant, asked, check, issue) in table {
        let mut case = right_case(Call::Check, 2, 1, asked);
        case.block = grant_with(in_grant);
        case.size_block = 301;
        assert_eq!(expected(&case, &mut Oracle::new()).reasons, check);
        assert_eq!(answer(&case), u64::from(check[0]));
        case.call = Call::Issue;
        assert_eq!(expected(&case, &mut Oracle::new()).reasons, issue);
        assert_eq!(answer(&case), u64::from(issue[0]));
    }
}

/// Makes a call on the roll of a case, with a right, and keeps what it leaves. Its answer.
fn step(case: &mut Case, call: Call, right: u32) -> u64 {
    (case.call, case.right) = (call, right);
    let effect = effect(case);
    case.roll = effect.roll;
    effect.answer
}

/// The first life of the independent log, from an empty roll on. A demotion ends no grant: the same
/// one opens again after a raise. A withdrawal does end it.
#[test]
fn the_first_life_of_the_independent_log() {
    let mut case = roll_case(Call::Issue, 125, 0);
    case.roll = effect(&right(Call::EmptyRoll)).written;
    case.key = hex("c67e816b4bfbe2fb54f6bddf");
    case.size_block = 484_542_209;
    assert_eq!(step(&mut case, Call::Issue, 2), 20);
    assert_eq!(step(&mut case, Call::ChangeRight, 2), 20);
    assert_eq!(step(&mut case, Call::Enter, 2), 0);
    (case.call, case.right) = (Call::Issue, 2);
    assert_eq!(effect(&case).written, hex("d32576330e4c32e359c52ef4"));
    case.block = hex("d32576330e4c32e359c52ef4");
    assert_eq!(step(&mut case, Call::Check, 2), 2125);
    assert_eq!(step(&mut case, Call::Check, 1), 1125);
    assert_eq!(step(&mut case, Call::ChangeRight, 1), 0);
    assert_eq!(step(&mut case, Call::Check, 2), 25);
    assert_eq!(step(&mut case, Call::Check, 1), 1125);
    assert_eq!(step(&mut case, Call::Issue, 2), 25);
    assert_eq!(step(&mut case, Call::ChangeRight, 2), 0);
    assert_eq!(step(&mut case, Call::Check, 2), 2125);
    assert_eq!(step(&mut case, Call::ChangeRight, 3), 7);
    assert_eq!(step(&mut case, Call::Enter, 2), 21);
    assert_eq!(step(&mut case, Call::Withdraw, 0), 0);
    assert_eq!(step(&mut case, Call::Check, 2), 20);
    assert_eq!(step(&mut case, Call::Withdraw, 0), 20);
    assert_eq!(step(&mut case, Call::ChangeRight, 1), 20);
    assert_eq!(step(&mut case, Call::Enter, 2), 0);
    assert_eq!(step(&mut case, Call::Check, 2), 23);
    (case.call, case.right) = (Call::Issue, 2);
    assert_eq!(effect(&case).written, hex("b9ef82f60e66d228f92aa435"));
}
