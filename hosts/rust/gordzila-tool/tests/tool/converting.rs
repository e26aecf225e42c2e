//! `roll convert`, and what the other subcommands say of a roll from before version 0.6.

use crate::running::{on_roll, run, Room, KEY};
use std::fs::{self, Permissions};
use std::os::unix::fs::{symlink, PermissionsExt};

/// Contractors and counts; 1, 7 and 200 are in standing.
const COUNTS: [(usize, u16); 6] = [
    (1, 3),
    (2, 2),
    (7, 65_533),
    (8, 65_534),
    (9, 65_535),
    (200, 1),
];

/// What an old roll of these has to become: the same counts, then this right for those in
/// standing, and 1 for all others.
fn converted(room: &Room, right: u8) -> Vec<u8> {
    let roll = room.roll_with(&COUNTS.map(|(contractor, count)| {
        let in_standing = [1, 7, 200].contains(&contractor);
        (contractor, count, if in_standing { right } else { 1 })
    }));
    fs::read(roll).unwrap()
}

#[test]
fn an_old_roll_is_converted() {
    let room = Room::new("convert");
    for (given, word, right) in [
        ("reading", "reading", 1),
        ("1", "reading", 1),
        ("overwriting", "overwriting", 2),
        ("2", "overwriting", 2),
    ] {
        let old = room.old_roll(&COUNTS);
        let printed = on_roll("roll convert", &old, &format!("--right {given}")).done();
        let expected =
            format!("converted: 600 bytes, contractors in standing: 3, highest right: {word}\n");
        assert_eq!(printed, expected);
        assert_eq!(fs::read(&old).unwrap(), converted(&room, right));
        let listed = on_roll("roll list", &old, "").done();
        let expected = format!(
            "contractor 1, count 3, {word}\n\
             contractor 7, count 65533, {word}\n\
             contractor 200, count 1, {word}\n"
        );
        assert_eq!(listed, expected);
    }
    assert_eq!(room.names(), ["old", "roll"]);
}

#[test]
fn only_400_bytes_are_converted() {
    let room = Room::new("convert-lengths");
    for (length, why) in [
        (600, "it has 600 bytes already, and is not converted"),
        (0, "not 400 bytes long"),
        (399, "not 400 bytes long"),
        (401, "not 400 bytes long"),
        (599, "not 400 bytes long"),
        (601, "not 400 bytes long"),
        (4000, "not 400 bytes long"),
    ] {
        let roll = room.file("roll", &vec![1; length]);
        on_roll("roll convert", &roll, "--right 2").stopped(why);
        assert_eq!(fs::read(&roll).unwrap(), vec![1; length]);
    }
    assert_eq!(room.names(), ["roll"]);
}

/// A second conversion would give those in standing another right.
#[test]
fn a_roll_is_converted_once() {
    let room = Room::new("convert-twice");
    let old = room.old_roll(&[(7, 1)]);
    on_roll("roll convert", &old, "--right reading").done();
    let once = fs::read(&old).unwrap();
    on_roll("roll convert", &old, "--right overwriting").stopped("has 600 bytes already");
    assert_eq!(fs::read(&old).unwrap(), once);
}

#[test]
fn a_right_is_needed_and_there_are_two() {
    let room = Room::new("convert-rights");
    let old = room.old_roll(&[(7, 1)]);
    let before = fs::read(&old).unwrap();
    on_roll("roll convert", &old, "").stopped("--right is missing");
    on_roll("roll convert", &old, "--right both").stopped("--right: ");
    for right in ["0", "3", "258"] {
        let run = on_roll("roll convert", &old, &format!("--right {right}"));
        assert_eq!(run.refused(), 7, "{right}");
    }
    assert_eq!(fs::read(&old).unwrap(), before);
    assert_eq!(room.names(), ["old"]);
}

#[test]
fn every_other_subcommand_names_the_one_that_converts() {
    let room = Room::new("convert-first");
    let old = room.old_roll(&[(7, 1)]);
    let before = fs::read(&old).unwrap();
    let grants = room.file("grants", KEY.as_bytes());
    let asked = format!("--key {KEY} --rounds 10 --block 300 --right 2");
    for (subcommand, rest) in [
        ("issue", format!("{asked} --contractor 7")),
        ("check", format!("{asked} --grant {KEY}")),
        ("queue", format!("{asked} --grants {}", grants.display())),
        ("enter", "--contractor 8 --right 2".to_string()),
        ("right", "--contractor 7 --right 2".to_string()),
        ("withdraw", "--contractor 7".to_string()),
        ("roll list", String::new()),
    ] {
        let run = on_roll(subcommand, &old, &rest);
        let named = format!("--roll: {}: 400 bytes", old.display());
        assert!(run.err.contains(&named), "{run:?}");
        run.stopped("`gordzila roll convert`");
    }
    on_roll("roll make", &old, "").stopped("exists, and is not replaced");
    assert_eq!(fs::read(&old).unwrap(), before);
    assert_eq!(room.names(), ["grants", "old"]);
}

/// With overwriting for all in standing, a grant opens for what it opened for; with reading,
/// it does not overwrite until its contractor is raised.
#[test]
fn a_grant_opens_as_the_right_says() {
    let room = Room::new("convert-opens");
    let roll = room.roll(&[(7, 1)]);
    let options = format!("--key {KEY} --rounds 10 --block 300");
    let issue = format!("{options} --contractor 7 --right 2");
    let grant = on_roll("issue", &roll, &issue).done();
    let old = room.old_roll(&[(7, 1)]);
    let overwrites = || {
        on_roll(
            "check",
            &old,
            &format!("{options} --right 2 --grant {grant}"),
        )
    };
    on_roll("roll convert", &old, "--right overwriting").done();
    assert_eq!(overwrites().done(), "opens: contractor 7, overwriting\n");
    room.old_roll(&[(7, 1)]);
    on_roll("roll convert", &old, "--right reading").done();
    assert_eq!(overwrites().refused(), 25);
    on_roll("right", &old, "--contractor 7 --right overwriting").done();
    assert_eq!(overwrites().done(), "opens: contractor 7, overwriting\n");
}

/// As with the other changes: the lock, the names and the permissions.
#[test]
fn a_conversion_replaces_the_file_as_a_change_does() {
    let room = Room::new("convert-replaces");
    let old = room.old_roll(&[(7, 1)]);
    let before = fs::read(&old).unwrap();
    fs::set_permissions(&old, Permissions::from_mode(0o640)).unwrap();
    let lock = room.file("old.lock", b"");
    on_roll("roll convert", &old, "--right 2").stopped("old.lock exists");
    fs::remove_file(lock).unwrap();
    let second = room.path("second");
    fs::hard_link(&old, &second).unwrap();
    on_roll("roll convert", &old, "--right 2").stopped("more than one name");
    assert_eq!(fs::read(&old).unwrap(), before);
    fs::remove_file(second).unwrap();

    let link = room.path("link");
    symlink("old", &link).unwrap();
    on_roll("roll convert", &link, "--right 2").done();
    assert!(fs::symlink_metadata(&link).unwrap().is_symlink());
    let mode = fs::metadata(&old).unwrap().permissions().mode();
    assert_eq!((fs::read(&old).unwrap().len(), mode & 0o777), (600, 0o640));
    assert_eq!(room.names(), ["link", "old"]);
}

#[test]
fn the_words_stand_in_their_order() {
    let room = Room::new("convert-words");
    let old = room.old_roll(&[]);
    let name = old.to_str().unwrap();
    run(&["convert", "--roll", name, "--right", "2"]).stopped("`convert` is no subcommand");
    run(&["roll", "--roll", name, "convert"]).stopped("`make`, `list` or `convert`");
    assert_eq!(fs::read(&old).unwrap(), [0; 400]);
}
