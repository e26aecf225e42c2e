//! `queue`.

use crate::running::{on_roll, run, run_fed, Room, Run, KEY};
use std::fs;
use std::path::Path;

/// What a grant is asked for, under a key.
fn asked(right: &str) -> String {
    format!("--key {KEY} --rounds 10 --block 300 --right {right}")
}

/// Issues a grant, as a line.
fn issued(roll: &Path, contractor: u32, block: u32, right: &str) -> String {
    let rest = format!("--block {block} --right {right} --contractor {contractor}");
    on_roll("issue", roll, &format!("--key {KEY} --rounds 10 {rest}")).done()
}

/// Checks the grants in a file.
fn queued(roll: &Path, grants: &Path, right: &str) -> Run {
    let grants = grants.to_str().unwrap();
    on_roll(
        "queue",
        roll,
        &format!("{} --grants {grants}", asked(right)),
    )
}

/// Checks the grants in a text on standard input.
fn queued_from_input(roll: &Path, text: &str, right: &str) -> Run {
    let options = asked(right);
    let mut words = vec!["queue", "--grants", "-", "--roll", roll.to_str().unwrap()];
    words.extend(options.split(' '));
    run_fed(&words, text.as_bytes())
}

/// A grant of each verdict, as lines: contractor 7 is in standing, contractor 8 was
/// withdrawn, contractor 9 is in another standing than the grant was issued in, and
/// contractor 10 was demoted.
fn pile(room: &Room) -> String {
    let roll = room.roll(&[(7, 1), (8, 1), (9, 1), (10, 1)]);
    let lines = [
        issued(&roll, 7, 300, "overwriting"),
        issued(&roll, 7, 300, "reading"),
        issued(&roll, 7, 301, "overwriting"),
        issued(&roll, 8, 300, "overwriting"),
        issued(&roll, 9, 300, "overwriting"),
        format!("{KEY}\n"),
        issued(&roll, 10, 300, "overwriting"),
        issued(&roll, 7, 300, "overwriting"),
    ];
    room.roll_with(&[(7, 1, 2), (8, 2, 1), (9, 3, 2), (10, 1, 1)]);
    lines.concat()
}

const FOR_OVERWRITING: &str = "\
1: opens
2: refused with 10: overwriting asked of a reading grant
3: refused with 9: grant for another size block
4: refused with 20: contractor not in standing
5: refused with 23: the grant's count differs from the roll's
6: refused with 8: the deciphered bytes have a wrong mark, contractor or right
7: refused with 25: right asked for above the contractor's highest
8: opens
";

const FOR_READING: &str = "\
1: opens
2: opens
3: refused with 9: grant for another size block
4: refused with 20: contractor not in standing
5: refused with 23: the grant's count differs from the roll's
6: refused with 8: the deciphered bytes have a wrong mark, contractor or right
7: opens
8: opens
";

#[test]
fn each_grant_gets_a_line_with_its_verdict() {
    let room = Room::new("queue");
    let text = pile(&room);
    let (roll, grants) = (room.path("roll"), room.file("grants", text.as_bytes()));
    for (right, expected) in [("overwriting", FOR_OVERWRITING), ("reading", FOR_READING)] {
        assert_eq!(queued(&roll, &grants, right).done(), expected);
        assert_eq!(queued_from_input(&roll, &text, right).done(), expected);
    }
}

#[test]
fn each_verdict_is_that_of_check() {
    let room = Room::new("queue-check");
    let text = pile(&room);
    let (roll, grants) = (room.path("roll"), room.file("grants", text.as_bytes()));
    for right in ["overwriting", "reading"] {
        let verdicts = queued(&roll, &grants, right).done();
        assert_eq!(verdicts.lines().count(), text.lines().count());
        for ((n, verdict), grant) in (1..).zip(verdicts.lines()).zip(text.lines()) {
            let options = format!("{} --grant {grant}", asked(right));
            let single = on_roll("check", &roll, &options);
            match single.status {
                Some(0) => assert_eq!(verdict, format!("{n}: opens")),
                _ => assert_eq!(verdict, format!("{n}: {}", single.err.trim_end())),
            }
        }
    }
}

#[test]
fn blank_lines_are_left_out() {
    let room = Room::new("queue-blank");
    let text = pile(&room).replace('\n', " \r\n\n");
    let roll = room.path("roll");
    let run = queued_from_input(&roll, &format!("\n  {text}"), "overwriting");
    assert_eq!(run.done(), FOR_OVERWRITING);
}

#[test]
fn an_empty_queue_is_done_and_prints_nothing() {
    let room = Room::new("queue-empty");
    let roll = room.roll(&[]);
    for text in ["", "\n", " \n\r\n"] {
        let grants = room.file("grants", text.as_bytes());
        assert_eq!(queued(&roll, &grants, "1").done(), "");
        assert_eq!(queued_from_input(&roll, text, "2").done(), "");
        // What is wrong is refused all the same.
        assert_eq!(queued_from_input(&roll, text, "3").refused(), 7);
        let asked = format!("--key {KEY} --rounds 10 --block 0 --right 2");
        let options = format!("{asked} --grants {}", grants.to_str().unwrap());
        assert_eq!(on_roll("queue", &roll, &options).refused(), 14);
    }
}

#[test]
fn a_queue_has_64_grants_at_most() {
    let room = Room::new("queue-long");
    let roll = room.roll(&[(7, 1)]);
    let grant = issued(&roll, 7, 300, "overwriting");
    let all_open: String = (1..=64).map(|n| format!("{n}: opens\n")).collect();
    let queue = |n| queued_from_input(&roll, &grant.repeat(n), "reading");
    assert_eq!(queue(64).done(), all_open);
    for n in [65, 128, 2000] {
        assert_eq!(queue(n).refused(), 3, "{n}");
    }
}

#[test]
fn the_whole_queue_is_refused_with_1_2_3_7_14() {
    let room = Room::new("queue-refusals");
    let roll = room.roll(&[(7, 1)]);
    let number = |key: &str, rounds: u32, n: usize, right: u32, block: u32| {
        let grants = room.file("grants", format!("{KEY}\n").repeat(n).as_bytes());
        let rest = format!("--key {key} --rounds {rounds} --block {block} --right {right}");
        let rest = format!("{rest} --grants {}", grants.to_str().unwrap());
        on_roll("queue", &roll, &rest).refused()
    };
    for block in [300, 0] {
        for n in [0, 1, 64] {
            assert_eq!(number("00", 10, n, 2, block), 1);
            assert_eq!(number(KEY, 12, n, 2, block), 2);
            assert_eq!(number(KEY, 10, n, 3, block), 7);
            assert_eq!(number("00", 12, n, 3, block), 1);
            assert_eq!(number(KEY, 12, n, 0, block), 2);
            assert_eq!(number(KEY, 10, n, 2, 0), 14);
        }
        assert_eq!(number(KEY, 10, 65, 2, block), 3);
        assert_eq!(number(KEY, 10, 65, 3, block), 3);
        assert_eq!(number(KEY, 12, 65, 3, block), 2);
        assert_eq!(number("00", 12, 65, 3, block), 1);
    }
}

#[test]
fn a_line_that_is_no_grant_is_named() {
    let room = Room::new("queue-lines");
    let roll = room.roll(&[(7, 1)]);
    for (wrong, why) in [
        ("0011", "2 bytes, and a grant has 12"),
        (&KEY[2..], "11 bytes, and a grant has 12"),
        (&format!("{KEY}00")[..], "13 bytes, and a grant has 12"),
        (&format!("{KEY}{KEY}"), "24 bytes, and a grant has 12"),
        (&KEY[1..], "23 hexadecimal digits, an odd number"),
        (
            &format!("{KEY} {KEY}"),
            "character 25 is not a hexadecimal digit",
        ),
        ("1: opens", "character 2 is not a hexadecimal digit"),
    ] {
        let text = format!("{KEY}\n\n{wrong}\n{KEY}\n");
        let grants = room.file("grants", text.as_bytes());
        let named = format!("--grants: {}: line 3: {why}", grants.display());
        queued(&roll, &grants, "2").stopped(&named);
        let run = queued_from_input(&roll, &text, "2");
        // A grant opens for whoever has it: the message does not show any.
        assert!(!run.err.contains(&KEY[4..20]), "{run:?}");
        run.stopped(&format!("--grants: standard input: line 3: {why}"));
        // It cannot be used, also where the library would refuse the right.
        queued(&roll, &grants, "3").stopped("line 3: ");
    }
}

#[test]
fn grants_that_cannot_be_read_are_named() {
    let room = Room::new("queue-files");
    let roll = room.roll(&[]);
    let missing = room.path("missing");
    queued(&roll, &missing, "2").stopped(&format!("--grants: {}: ", missing.display()));
    let directory = missing.parent().unwrap();
    queued(&roll, directory, "2").stopped(&format!("--grants: {}: ", directory.display()));
    // What has no end is not read to it.
    queued(&roll, Path::new("/dev/zero"), "2").stopped("more than 65536 bytes");
    let blank = |n| queued_from_input(&roll, &"\n".repeat(n), "2");
    assert_eq!(blank(65_536).done(), "");
    blank(65_537).stopped("--grants: standard input: more than 65536 bytes");
}

#[test]
fn a_roll_of_another_size_cannot_be_used() {
    let room = Room::new("queue-roll");
    for length in [0, 399, 401, 599, 601] {
        let roll = room.file("roll", &vec![0; length]);
        for text in ["", KEY] {
            queued_from_input(&roll, text, "2").stopped("not 600 bytes long");
        }
    }
}

#[test]
fn a_queue_leaves_its_files_alone() {
    let room = Room::new("queue-reads");
    let text = pile(&room);
    let (roll, grants) = (room.path("roll"), room.file("grants", text.as_bytes()));
    let before = fs::read(&roll).unwrap();
    queued(&roll, &grants, "2").done();
    assert_eq!(fs::read(&roll).unwrap(), before);
    assert_eq!(fs::read(&grants).unwrap(), text.as_bytes());
    assert_eq!(room.names(), ["grants", "roll"]);
}

#[test]
fn the_key_may_stand_in_a_file() {
    let room = Room::new("queue-key-file");
    let text = pile(&room);
    let (roll, grants) = (room.path("roll"), room.file("grants", text.as_bytes()));
    let key = room.file("key", KEY.as_bytes());
    let files = [&key, &roll, &grants].map(|path| path.to_str().unwrap());
    let [key, roll, grants] = files;
    let mut words = vec![
        "queue",
        "--key-file",
        key,
        "--roll",
        roll,
        "--grants",
        grants,
    ];
    words.extend(["--rounds", "10", "--block", "300", "--right", "overwriting"]);
    assert_eq!(run(&words).done(), FOR_OVERWRITING);
}
