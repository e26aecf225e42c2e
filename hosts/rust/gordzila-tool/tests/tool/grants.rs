//! `issue` and `check`.

use crate::running::{on_roll, Room, Run, KEY};
use std::path::Path;

/// Options of a grant to contractor 7.
fn options(rest: &str) -> String {
    format!("--key {KEY} --rounds 10 {rest}")
}

/// Issues contractor 7 a grant for size block 300.
fn issued(roll: &Path, right: &str) -> String {
    let rest = options(&format!("--contractor 7 --block 300 --right {right}"));
    on_roll("issue", roll, &rest).done()
}

/// Checks a grant for size block 300.
fn checked(roll: &Path, grant: &str, right: &str) -> Run {
    let rest = options(&format!("--block 300 --right {right} --grant {grant}"));
    on_roll("check", roll, &rest)
}

#[test]
fn a_grant_lives_and_dies() {
    let room = Room::new("life");
    let roll = room.path("roll");
    let asked = options("--block 300 --right overwriting");
    on_roll("roll make", &roll, "").done();
    on_roll("enter", &roll, "--contractor 7 --right overwriting").done();
    let issued = on_roll("issue", &roll, &format!("{asked} --contractor 7")).done();
    let check = || on_roll("check", &roll, &format!("{asked} --grant {issued}"));
    assert_eq!(check().done(), "opens: contractor 7, overwriting\n");

    on_roll("withdraw", &roll, "--contractor 7").done();
    assert_eq!(check().refused(), 20);
    on_roll("enter", &roll, "--contractor 7 --right overwriting").done();
    assert_eq!(check().refused(), 23);

    let again = on_roll("issue", &roll, &format!("{asked} --contractor 7")).done();
    assert_ne!(again, issued);
    let opens = on_roll("check", &roll, &format!("{asked} --grant {again}"));
    assert_eq!(opens.done(), "opens: contractor 7, overwriting\n");
}

#[test]
fn an_overwriting_grant_also_opens_for_reading() {
    let room = Room::new("look");
    let roll = room.roll(&[(7, 1)]);
    let grant = issued(&roll, "overwriting");
    let check = |right| checked(&roll, &grant, right);
    // First a look at the size block, then it is overwritten: one grant does for both.
    assert_eq!(check("reading").done(), "opens: contractor 7, reading\n");
    assert_eq!(
        check("overwriting").done(),
        "opens: contractor 7, overwriting\n"
    );
    // Looking ends with the standing too.
    on_roll("withdraw", &roll, "--contractor 7").done();
    assert_eq!(check("reading").refused(), 20);
    on_roll("enter", &roll, "--contractor 7 --right overwriting").done();
    assert_eq!(check("reading").refused(), 23);
}

#[test]
fn a_reading_grant_does_not_overwrite() {
    let room = Room::new("reading");
    let roll = room.roll(&[(7, 1)]);
    let grant = issued(&roll, "reading");
    let check = |right| checked(&roll, &grant, right);
    assert_eq!(check("reading").done(), "opens: contractor 7, reading\n");
    let run = check("overwriting");
    assert_eq!(
        run.err,
        "refused with 10: overwriting asked of a reading grant\n"
    );
    assert_eq!(run.refused(), 10);
}

#[test]
fn a_right_is_a_word_or_a_number() {
    let room = Room::new("rights");
    let roll = room.roll(&[(7, 1)]);
    let issue = |right: &str| {
        let rest = options(&format!("--block 1 --contractor 7 --right {right}"));
        on_roll("issue", &roll, &rest).done()
    };
    assert_eq!(issue("reading"), issue("1"));
    assert_eq!(issue("overwriting"), issue("2"));
    let rest = options(&format!("--block 1 --right 1 --grant {}", issue("1")));
    let opens = on_roll("check", &roll, &rest).done();
    assert_eq!(opens, "opens: contractor 7, reading\n");
}

#[test]
fn issuing_refuses_with_1_2_6_7_14_20_25() {
    let room = Room::new("issue-refusals");
    let roll = room.roll_with(&[(7, 1, 1), (8, 2, 1), (9, 65_535, 2)]);
    let number = |key: &str, rounds: u32, contractor: u32, right: &str, block: u32| {
        let asked = format!("--contractor {contractor} --block {block} --right {right}");
        let rest = format!("--key {key} --rounds {rounds} {asked}");
        on_roll("issue", &roll, &rest).refused()
    };
    for block in [1, 0] {
        assert_eq!(number("00", 10, 7, "1", block), 1);
        assert_eq!(number(KEY, 12, 7, "1", block), 2);
        assert_eq!(number(KEY, 10, 0, "1", block), 6);
        assert_eq!(number(KEY, 10, 201, "1", block), 6);
        assert_eq!(number(KEY, 10, 65_543, "1", block), 6);
        assert_eq!(number(KEY, 10, 7, "0", block), 7);
        assert_eq!(number(KEY, 10, 7, "257", block), 7);
    }
    for (contractor, right, expected) in [(8, "1", 20), (9, "1", 20), (8, "2", 20), (7, "2", 25)] {
        assert_eq!(number(KEY, 10, contractor, right, 0), 14);
        assert_eq!(number(KEY, 10, contractor, right, 1), expected);
    }
    assert_eq!(number(KEY, 10, 7, "1", 0), 14);
}

#[test]
fn checking_refuses_with_1_2_3_7_14_8_9_10_20_23_25() {
    let room = Room::new("check-refusals");
    let roll = room.roll(&[(7, 1)]);
    let (grant, reading) = (issued(&roll, "2"), issued(&roll, "1"));
    let number = |key: &str, rounds: u32, grant: &str, block: u32, right: u32| {
        let rest = format!(
            "--key {key} --rounds {rounds} --grant {grant} --block {block} --right {right}"
        );
        on_roll("check", &roll, &rest).refused()
    };
    for block in [300, 0] {
        assert_eq!(number("00", 10, &grant, block, 2), 1);
        assert_eq!(number(KEY, 18, &grant, block, 2), 2);
        assert_eq!(number(KEY, 10, "00", block, 2), 3);
        let longer = format!("{}00", grant.trim());
        assert_eq!(number(KEY, 10, &longer, block, 2), 3);
        assert_eq!(number(KEY, 10, &grant, block, 3), 7);
    }
    for grant in [&grant, &reading, KEY] {
        assert_eq!(number(KEY, 10, grant, 0, 2), 14);
    }
    assert_eq!(number(KEY, 11, &grant, 300, 2), 8);
    assert_eq!(number(KEY, 10, &grant, 301, 2), 9);
    assert_eq!(number(KEY, 10, &reading, 300, 2), 10);
    room.roll_with(&[(7, 2, 1)]);
    assert_eq!(number(KEY, 10, &grant, 300, 2), 20);
    room.roll_with(&[(7, 3, 1)]);
    assert_eq!(number(KEY, 10, &grant, 300, 2), 23);
    assert_eq!(number(KEY, 10, &grant, 0, 2), 14);
    for highest in [0, 1, 3, 255] {
        room.roll_with(&[(7, 1, highest)]);
        assert_eq!(number(KEY, 10, &reading, 300, 2), 10);
        assert_eq!(number(KEY, 10, &grant, 300, 2), 25);
    }
}

#[test]
fn a_demoted_contractor_looks_and_does_not_overwrite() {
    let room = Room::new("demoted");
    let roll = room.roll(&[(7, 1)]);
    let grant = issued(&roll, "overwriting");
    let check = |right| checked(&roll, &grant, right);
    on_roll("right", &roll, "--contractor 7 --right reading").done();
    assert_eq!(check("reading").done(), "opens: contractor 7, reading\n");
    let run = check("overwriting");
    assert_eq!(
        run.err,
        "refused with 25: right asked for above the contractor's highest\n"
    );
    assert_eq!(run.refused(), 25);
    // The grant from before overwrites again once its contractor is raised.
    on_roll("right", &roll, "--contractor 7 --right overwriting").done();
    assert_eq!(
        check("overwriting").done(),
        "opens: contractor 7, overwriting\n"
    );
    // What ends it is a withdrawal, whatever right its contractor is entered with.
    on_roll("right", &roll, "--contractor 7 --right reading").done();
    on_roll("withdraw", &roll, "--contractor 7").done();
    on_roll("enter", &roll, "--contractor 7 --right overwriting").done();
    assert_eq!(check("reading").refused(), 23);
    assert_eq!(check("overwriting").refused(), 23);
}

#[test]
fn a_check_leaves_the_roll_alone() {
    let room = Room::new("check-reads");
    let roll = room.roll(&[(7, 1)]);
    let before = std::fs::read(&roll).unwrap();
    let grant = issued(&roll, "2");
    checked(&roll, &grant, "2").done();
    assert_eq!(std::fs::read(&roll).unwrap(), before);
    assert_eq!(room.names(), ["roll"]);
}
