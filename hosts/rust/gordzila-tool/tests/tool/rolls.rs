//! `roll`, `enter`, `right` and `withdraw`.

use crate::running::{empty_roll, on_roll, Room};
use std::fs;

#[test]
fn an_empty_roll_is_made() {
    let room = Room::new("make");
    let roll = room.path("roll");
    let printed = on_roll("roll make", &roll, "").done();
    assert_eq!(printed, "made: a roll on which nobody was ever entered\n");
    assert_eq!(fs::read(&roll).unwrap(), empty_roll());
    let listed = on_roll("roll list", &roll, "").done();
    assert_eq!(listed, "nobody is in standing\n");
    assert_eq!(room.names(), ["roll"]);
}

#[test]
fn a_file_is_not_replaced_by_an_empty_roll() {
    let room = Room::new("make-over");
    let roll = room.roll(&[(7, 2)]);
    let before = fs::read(&roll).unwrap();
    on_roll("roll make", &roll, "").stopped("exists, and is not replaced");
    assert_eq!(fs::read(&roll).unwrap(), before);
    let link = room.path("link");
    std::os::unix::fs::symlink("nowhere", &link).unwrap();
    on_roll("roll make", &link, "").stopped("exists, and is not replaced");
    assert_eq!(room.names(), ["link", "roll"]);
}

#[test]
fn a_roll_cannot_be_made_in_no_directory() {
    let room = Room::new("make-nowhere");
    on_roll("roll make", &room.path("none/roll"), "").stopped("--roll: ");
    on_roll("roll make", &room.path(".."), "").stopped("not the name of a file");
    assert!(room.names().is_empty());
}

#[test]
fn those_in_standing_are_listed() {
    let room = Room::new("list");
    let entries = [
        (1, 3, 2),
        (2, 2, 2),
        (3, 1, 0),
        (4, 1, 1),
        (5, 1, 3),
        (6, 1, 255),
        (7, 65_533, 2),
        (8, 65_534, 2),
        (9, 65_535, 2),
        (200, 1, 2),
    ];
    let roll = room.roll_with(&entries);
    let listed = on_roll("roll list", &roll, "").done();
    // Every figure but 2 means reading.
    let expected = "\
contractor 1, count 3, overwriting
contractor 3, count 1, reading
contractor 4, count 1, reading
contractor 5, count 1, reading
contractor 6, count 1, reading
contractor 7, count 65533, overwriting
contractor 200, count 1, overwriting
";
    assert_eq!(listed, expected);
}

/// Changes of one contractor in their order, with the rights by word and by number, and what
/// each prints; `N` stands for the contractor.
const CHANGES: [(&str, &str); 7] = [
    (
        "enter --right 2",
        "entered: contractor N, count 1, overwriting\n",
    ),
    (
        "right --right reading",
        "changed: contractor N, count 1, reading\n",
    ),
    (
        "right --right 1",
        "changed: contractor N, count 1, reading\n",
    ),
    (
        "right --right 2",
        "changed: contractor N, count 1, overwriting\n",
    ),
    ("withdraw", "withdrawn: contractor N, count 2\n"),
    (
        "enter --right reading",
        "entered: contractor N, count 3, reading\n",
    ),
    (
        "right --right overwriting",
        "changed: contractor N, count 3, overwriting\n",
    ),
];

#[test]
fn contractors_are_entered_changed_and_withdrawn() {
    let room = Room::new("changes");
    let roll = room.roll(&[]);
    for contractor in ["1", "200"] {
        for (line, expected) in CHANGES {
            let (subcommand, right) = line.split_once(' ').unwrap_or((line, ""));
            let rest = format!("--contractor {contractor} {right}");
            let printed = on_roll(subcommand, &roll, &rest).done();
            assert_eq!(printed, expected.replace('N', contractor));
        }
    }
    let mut expected = empty_roll();
    (expected[1], expected[399]) = (3, 3);
    (expected[400], expected[599]) = (2, 2);
    assert_eq!(fs::read(&roll).unwrap(), expected);
    assert_eq!(room.names(), ["roll"]);
}

/// Also the bytes of others that are no right.
#[test]
fn a_change_writes_one_entry() {
    let room = Room::new("entries");
    let entries = [(1, 1, 0), (2, 1, 3), (3, 2, 255), (4, 1, 2), (5, 1, 255)];
    for (line, contractor, count, highest) in [
        ("right --contractor 1 --right reading", 1, 1, 1),
        ("right --contractor 2 --right overwriting", 2, 1, 2),
        ("enter --contractor 3 --right overwriting", 3, 3, 2),
        ("right --contractor 4 --right reading", 4, 1, 1),
        ("withdraw --contractor 5", 5, 2, 1),
    ] {
        let roll = room.roll_with(&entries);
        let mut expected = fs::read(&roll).unwrap();
        (expected[2 * contractor - 1], expected[399 + contractor]) = (count, highest);
        let (subcommand, rest) = line.split_once(' ').unwrap();
        on_roll(subcommand, &roll, rest).done();
        assert_eq!(fs::read(&roll).unwrap(), expected, "{line}");
    }
}

#[test]
fn changes_refuse_with_6_7_20_21_22() {
    let room = Room::new("change-refusals");
    let roll = room.roll_with(&[(1, 1, 3), (2, 2, 2), (3, 65_534, 0), (4, 65_535, 255)]);
    let before = fs::read(&roll).unwrap();
    let number = |subcommand: &str, contractor: &str, right: &str| {
        let rest = format!("--contractor {contractor} {right}");
        on_roll(subcommand, &roll, &rest).refused()
    };
    for outside in ["0", "201", "257", "65537", "4294967295"] {
        assert_eq!(number("enter", outside, "--right 3"), 6);
        assert_eq!(number("right", outside, "--right 3"), 6);
        assert_eq!(number("withdraw", outside, ""), 6);
    }
    for right in [
        "--right 0",
        "--right 3",
        "--right 257",
        "--right 4294967295",
    ] {
        for contractor in ["1", "2", "3", "4"] {
            assert_eq!(number("enter", contractor, right), 7);
            assert_eq!(number("right", contractor, right), 7);
        }
    }
    for right in ["--right reading", "--right overwriting"] {
        assert_eq!(number("right", "2", right), 20);
        assert_eq!(number("right", "3", right), 20);
        assert_eq!(number("right", "4", right), 20);
        assert_eq!(number("enter", "1", right), 21);
        assert_eq!(number("enter", "3", right), 22);
        assert_eq!(number("enter", "4", right), 22);
    }
    assert_eq!(number("withdraw", "2", ""), 20);
    assert_eq!(number("withdraw", "4", ""), 20);
    assert_eq!(fs::read(&roll).unwrap(), before);
    assert_eq!(room.names(), ["roll"]);
}

#[test]
fn a_roll_has_600_bytes() {
    let room = Room::new("lengths");
    for length in [0, 399, 401, 599, 601, 4000] {
        let roll = room.file("roll", &vec![0; length]);
        for (subcommand, rest) in [
            ("enter", "--contractor 1 --right 2"),
            ("right", "--contractor 1 --right 2"),
            ("withdraw", "--contractor 1"),
            ("roll list", ""),
        ] {
            on_roll(subcommand, &roll, rest).stopped("not 600 bytes long");
        }
        assert_eq!(fs::read(&roll).unwrap(), vec![0; length]);
    }
    assert_eq!(room.names(), ["roll"]);
}

#[test]
fn a_roll_that_cannot_be_read_is_named() {
    let room = Room::new("unreadable");
    for path in [room.path("none"), room.path(".")] {
        let named = format!("--roll: {}", path.display());
        on_roll("roll list", &path, "").stopped(&named);
        on_roll("enter", &path, "--contractor 1 --right 2").stopped(&named);
        on_roll("right", &path, "--contractor 1 --right 2").stopped(&named);
        on_roll("roll convert", &path, "--right 2").stopped(&named);
    }
    assert!(room.names().is_empty());
}
