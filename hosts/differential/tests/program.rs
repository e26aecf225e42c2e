//! The program, and the run of a plan: repeatable, the same on any number of threads, and failing
//! where it has to.

use std::process::{Command, Output};

use gordzila_differential::archive::archive;
use gordzila_differential::call::Call;
use gordzila_differential::lend::Lent;
use gordzila_differential::work::{work, Plan, FAMILY, KEPT};

/// So many cases are enough for everything to occur that can.
const ENOUGH: u64 = 40_000;

fn program(arguments: &[&str]) -> Output {
    let mut command = Command::new(env!("CARGO_BIN_EXE_differential"));
    command.args(arguments).output().expect("the program runs")
}

fn plan(cases: u64, threads: usize) -> Plan {
    Plan {
        cases,
        seed: 5,
        threads,
    }
}

#[test]
fn the_program_finds_no_difference() {
    let output = program(&[&ENOUGH.to_string(), "3"]);
    let text = String::from_utf8(output.stdout).expect("the program prints text");
    assert_eq!(output.status.code(), Some(0), "{text}");
    assert!(
        text.ends_with("total: 40000 cases\n0 differences\n"),
        "{text}"
    );
    for pairs in [
        "\npairs of reasons together: 130 of 130\n",
        "\nthe same in a grant in a queue: 10 of 10\n",
    ] {
        assert!(text.contains(pairs), "{text}");
    }
}

#[test]
fn the_program_prints_the_same_again() {
    let first = program(&["3000", "4"]).stdout;
    assert_eq!(first, program(&["3000", "4"]).stdout);
    assert_ne!(first, program(&["3000", "5"]).stdout);
}

#[test]
fn the_program_fails_if_something_never_occurs() {
    let output = program(&["5"]);
    let text = String::from_utf8(output.stdout).expect("the program prints text");
    assert_eq!(output.status.code(), Some(1));
    for missing in [
        "check with answer 23",
        "check_queue with reasons 3 and 4 together",
        "check with reasons 14 and 8 together",
        "seal_page with reasons 14 and 12 together",
        "open_page with answer late 11",
        "open_page with reasons 11 and late 11 together",
        "change_right with answer 20",
        "grant in a queue with answer 10",
        "grant in a queue with answer 25",
        "grant in a queue with reasons 20 and 23 together",
    ] {
        assert!(
            text.contains(&format!("never occurred: {missing}\n")),
            "{text}"
        );
    }
    assert!(text.ends_with("\n0 differences\n"), "{text}");
}

#[test]
fn the_program_refuses_bad_usage() {
    for arguments in [&["x"][..], &["1", "y"], &["1", "2", "3"], &["-1"]] {
        assert_eq!(program(arguments).status.code(), Some(2), "{arguments:?}");
    }
}

#[test]
fn the_number_of_threads_does_not_matter() {
    // In some cases this library differs.
    let library = |call: Call, lent: &Lent| archive(call, lent) + u64::from(lent.contractor / 200);
    let one = work(&plan(1000, 1), &library);
    assert!(one.different > KEPT as u64);
    assert_eq!(one.first.len(), KEPT);
    for threads in [2, 3, 8] {
        assert_eq!(work(&plan(1000, threads), &library), one);
    }
}

#[test]
fn any_number_of_cases_is_done() {
    for cases in [0, 1, 127, 128, 129, 300] {
        assert_eq!(work(&plan(cases, 2), &archive).tally.total(), cases);
    }
}

#[test]
fn everything_that_can_occur_occurs_and_nothing_else() {
    let outcome = work(&plan(ENOUGH, 2), &archive);
    assert_eq!(outcome.tally.missing(), Vec::<String>::new());
    assert_eq!(outcome.tally.unlisted(), Vec::new());
    assert!(outcome.is_good());
    assert!(outcome.tally.second_opinions > ENOUGH / 20);
}

#[test]
fn a_difference_of_a_holder_is_printed_in_full() {
    let library = |call: Call, lent: &Lent| {
        let answer = archive(call, lent);
        if call == Call::HolderWalk && answer >= 1000 {
            unsafe { *lent.holder.start ^= 0x40 };
        }
        answer
    };
    let outcome = work(&plan(500, 2), &library);
    let text = outcome.first[0].to_string();
    assert!(text.contains(": holder_walk holder=26:"), "{text}");
    assert!(text.contains(" stage="), "{text}");
    assert!(text.contains("\n    holder is 26:"), "{text}");
    assert!(text.contains(", but has to be 26:"), "{text}");
}

#[test]
fn a_difference_of_a_queue_is_printed_in_full() {
    let library = |call: Call, lent: &Lent| {
        let answer = archive(call, lent);
        if call == Call::CheckQueue && answer == 0 && lent.out.length > 0 {
            unsafe { *lent.out.start ^= 0x40 };
        }
        answer
    };
    let outcome = work(&plan(500, 2), &library);
    let text = outcome.first[0].to_string();
    assert!(text.contains(": check_queue key="), "{text}");
    assert!(text.contains(" grants="), "{text}");
    assert!(text.contains(" out_length="), "{text}");
    assert!(text.contains("\n    out is "), "{text}");
}

#[test]
fn a_difference_of_a_page_is_printed_in_full() {
    let library = |call: Call, lent: &Lent| {
        let answer = archive(call, lent);
        if call == Call::OpenPage && lent.scratch.length > 0 {
            unsafe { *lent.scratch.start ^= 0x40 };
        }
        answer
    };
    // The 64th family is the first with pages.
    let outcome = work(&plan(64 * FAMILY, 2), &library);
    let text = outcome.first[0].to_string();
    assert!(text.contains(": open_page key="), "{text}");
    assert!(text.contains(" second_key="), "{text}");
    assert!(text.contains(" page="), "{text}");
    assert!(text.contains(" scratch_length="), "{text}");
    assert!(text.contains("\n    scratch is "), "{text}");
}

#[test]
fn a_difference_is_printed_in_full() {
    let library = |call: Call, lent: &Lent| match call {
        Call::Enter => archive(call, lent) ^ 64,
        _ => archive(call, lent),
    };
    let outcome = work(&plan(500, 2), &library);
    assert!(outcome.different > 0);
    assert!(!outcome.is_good());
    let text = outcome.first[0].to_string();
    assert!(text.contains(": enter roll=600:"), "{text}");
    assert!(text.contains(" contractor="), "{text}");
    assert!(text.contains(" right="), "{text}");
    assert!(text.contains("\n    answer is "), "{text}");
    assert!(text.contains(", but has to be "), "{text}");
}
