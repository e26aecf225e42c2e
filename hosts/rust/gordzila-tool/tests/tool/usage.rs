//! Bad usage, help and the version.

use crate::running::{line, run, run_unheard, sealed, Room, KEY, OTHER_KEY};
use std::ffi::OsStr;
use std::fs;
use std::os::unix::ffi::OsStrExt;
use std::path::{Path, PathBuf};

/// Each subcommand with all its options, `ROLL` for the name of a roll, `GRANTS` for that
/// of a file with one line, `OLD` for that of a roll from before version 0.6, `PAGE` for that
/// of a page, and names that end in 2 for those of files that are made.
const COMPLETE: [&str; 15] = [
    "issue --key KEY --rounds 10 --roll ROLL --contractor 7 --block 300 --right 2",
    "check --key KEY --rounds 10 --roll ROLL --grant KEY --block 300 --right 2",
    "queue --key KEY --rounds 10 --roll ROLL --grants GRANTS --block 300 --right 2",
    "seal --first-key KEY --second-key OTHER --rounds 10 --block 300 --page-number 4 \
     --payload GRANTS --page PAGE2",
    "open --first-key KEY --second-key OTHER --rounds 10 --page PAGE --payload PAYLOAD2",
    "encipher --key KEY --rounds 10 --block KEY",
    "decipher --key KEY --rounds 10 --block KEY",
    "stage --key KEY --stage 3",
    "walk --key KEY --from 3 --to 5",
    "enter --roll ROLL --contractor 8 --right 2",
    "right --roll ROLL --contractor 7 --right 2",
    "withdraw --roll ROLL --contractor 7",
    "roll list --roll ROLL",
    "roll make --roll ROLL2",
    "roll convert --roll OLD --right 2",
];

/// The words of a complete line, over a roll on which contractor 7 is in standing.
fn words(complete: &str, room: &Room) -> Vec<String> {
    let named = |path: PathBuf| path.to_str().unwrap().to_string();
    let roll = named(room.roll(&[(7, 1)]));
    let old = named(room.old_roll(&[(7, 1)]));
    let grants = named(room.file("grants", KEY.as_bytes()));
    let page = named(room.file("page", &sealed(b"front panel")));
    complete
        .split(' ')
        .map(|word| match word {
            "KEY" => KEY.to_string(),
            "OTHER" => OTHER_KEY.to_string(),
            "ROLL" => roll.clone(),
            "OLD" => old.clone(),
            "GRANTS" => grants.clone(),
            "PAGE" => page.clone(),
            "ROLL2" | "PAGE2" | "PAYLOAD2" => named(room.path(word)),
            _ => word.to_string(),
        })
        .collect()
}

/// Where the first option of the words stands.
fn first_option(words: &[String]) -> usize {
    words
        .iter()
        .position(|word| word.starts_with("--"))
        .unwrap()
}

#[test]
fn complete_lines_are_done_or_refused() {
    let room = Room::new("complete");
    for complete in COMPLETE {
        let run = run(&words(complete, &room));
        match complete.starts_with("check") {
            true => assert_eq!(run.refused(), 8),
            false => assert!(!run.done().is_empty()),
        }
    }
}

#[test]
fn every_option_is_needed() {
    let room = Room::new("missing");
    for complete in COMPLETE {
        let words = words(complete, &room);
        for at in (first_option(&words)..words.len()).step_by(2) {
            let mut fewer = words.clone();
            fewer.drain(at..at + 2);
            let option = &words[at];
            let needed = match option.ends_with("-key") {
                true => format!("{option} or {option}-file"),
                false => option.clone(),
            };
            run(&fewer).stopped(&format!("{needed} is missing"));
        }
    }
}

#[test]
fn every_option_stands_once_with_a_value() {
    let room = Room::new("repeated");
    for complete in COMPLETE {
        let words = words(complete, &room);
        for at in (first_option(&words)..words.len()).step_by(2) {
            let option = &words[at];
            let mut more = words.clone();
            more.extend_from_slice(&words[at..at + 2]);
            run(&more).stopped(&format!("{option} is given twice"));
            let mut valueless = words.clone();
            valueless.remove(at + 1);
            run(&valueless).stopped(&format!("{option} needs a value"));
        }
    }
}

#[test]
fn options_stand_in_any_order() {
    let room = Room::new("order");
    let words = words(COMPLETE[0], &room);
    let mut turned = words[..1].to_vec();
    for pair in words[1..].chunks(2).rev() {
        turned.extend_from_slice(pair);
    }
    assert_eq!(run(&turned), run(&words));
}

#[test]
fn no_other_option_is_taken() {
    let room = Room::new("unknown");
    for complete in COMPLETE {
        for (other, named) in [
            ("--other 1", "`--other`"),
            ("--Key 00", "`--Key`"),
            ("-k 00", "`-k`"),
            ("extra", "`extra`"),
            ("--key=00112233", "`--key=`"),
        ] {
            let mut words = words(complete, &room);
            words.extend(other.split(' ').map(str::to_string));
            let run = run(&words);
            assert!(!run.err.contains("00112233"), "{run:?}");
            run.stopped(named);
        }
    }
    line("enter --roll x --contractor 1 --key 00").stopped("`--key` is no option");
    line("withdraw --right 1").stopped("`--right` is no option");
    line("roll make --right 1").stopped("`--right` is no option");
    line("roll list --right 1").stopped("`--right` is no option");
    line("roll convert --contractor 1").stopped("`--contractor` is no option");
    line("stage --rounds 10").stopped("`--rounds` is no option");
    line("walk --stage 3").stopped("`--stage` is no option");
    line("queue --grant 00").stopped("`--grant` is no option");
    line("check --grants x").stopped("`--grants` is no option");
    line("seal --key 00").stopped("`--key` is no option");
    line("open --block 300").stopped("`--block` is no option");
}

#[test]
fn numbers_are_not_cut() {
    let room = Room::new("numbers");
    let options = [
        "--rounds",
        "--contractor",
        "--block",
        "--page-number",
        "--right",
        "--stage",
        "--from",
        "--to",
    ];
    for complete in COMPLETE {
        let words = words(complete, &room);
        // The block of a cipher call is no number.
        let is_number = |at: &usize| options.contains(&&words[*at][..]) && words[at + 1] != KEY;
        for at in (0..words.len()).filter(is_number) {
            for wrong in [
                "4294967296",
                "4294967306",
                "-1",
                "+1",
                "",
                "1.0",
                "0x1",
                "1 ",
            ] {
                let mut words = words.clone();
                words[at + 1] = wrong.to_string();
                run(&words).stopped(&format!("{}: ", words[at]));
            }
        }
    }
}

#[test]
fn bytes_are_whole_hexadecimal_digits() {
    let room = Room::new("digits");
    for complete in COMPLETE {
        let words = words(complete, &room);
        let is_key = |at: &usize| [KEY, OTHER_KEY].contains(&&words[*at][..]);
        for at in (0..words.len()).filter(is_key) {
            for wrong in ["0", "0g", "0x00", "00 11", "00-11", "\u{661}\u{661}"] {
                let mut words = words.clone();
                words[at] = wrong.to_string();
                run(&words).stopped(&format!("{}: ", words[at - 1]));
            }
        }
    }
}

#[test]
fn a_key_comes_from_one_place() {
    let both = format!("stage --stage 0 --key {KEY} --key-file x");
    line(&both).stopped("--key and --key-file are given");
    for name in ["--first-key", "--second-key"] {
        let both = format!("seal --first-key {KEY} --second-key {KEY} {name}-file x");
        line(&both).stopped(&format!("{name} and {name}-file are given"));
    }
}

#[test]
fn a_page_number_has_16_bits() {
    let room = Room::new("page-number");
    for (number, is_right) in [
        ("0", true),
        ("65535", true),
        ("65536", false),
        ("131076", false),
    ] {
        let mut words = words(COMPLETE[3], &room);
        let at = words.iter().position(|word| word == "4").unwrap();
        words[at] = number.to_string();
        let page = words.last_mut().unwrap();
        page.push_str(number);
        match is_right {
            true => assert!(run(&words).done().contains(&format!(" page {number},"))),
            false => run(&words).stopped("--page-number: a number above 65535"),
        }
    }
}

#[test]
fn words_may_be_no_text() {
    let broken = OsStr::from_bytes(b"\xff\xfe");
    let key = OsStr::new(KEY);
    let stage = |key: &OsStr, n: &OsStr| {
        let words = ["stage", "--key", "", "--stage", ""].map(OsStr::new);
        run(&[words[0], words[1], key, words[3], n])
    };
    stage(broken, OsStr::new("0")).stopped("--key: ");
    stage(key, broken).stopped("--stage: ");
    run(&[broken]).stopped("is no subcommand");
    run(&[OsStr::new("stage"), broken]).stopped("is no option");
}

#[test]
fn a_subcommand_is_needed() {
    run::<&str>(&[]).stopped("a subcommand is missing");
    line("close").stopped("`close` is no subcommand");
    line("--key 00").stopped("`--key` is no subcommand");
    line("roll").stopped("`make`, `list` or `convert`");
    line("roll mend --roll x").stopped("`mend`");
    line("roll --roll x").stopped("`make`, `list` or `convert`");
}

#[test]
fn help_is_there_for_all() {
    let tool = line("--help").done();
    assert_eq!(line("help").done(), tool);
    for name in [
        "issue", "check", "queue", "seal", "open", "encipher", "decipher", "stage", "walk",
        "enter", "right", "withdraw", "roll",
    ] {
        let help = line(&format!("help {name}")).done();
        assert!(help.contains(&format!("usage: gordzila {name} ")), "{help}");
        assert!(tool.contains(&format!("\n  {name} ")), "{tool}");
        for other in ["--help", "help", "--key 00 --help", "--other --help"] {
            assert_eq!(line(&format!("{name} {other}")).done(), help);
        }
        assert!(help.lines().all(|line| line.len() <= 80), "{help}");
    }
    assert!(tool.lines().all(|line| line.len() <= 80), "{tool}");
    line("help close").stopped("`close` is no subcommand");
    line("help issue check").stopped("help takes one subcommand");
}

#[test]
fn help_names_every_option() {
    for complete in COMPLETE {
        let mut words = complete.split(' ');
        let help = line(&format!("help {}", words.next().unwrap())).done();
        let mut keys = 0;
        for option in words.filter(|word| word.starts_with("--")) {
            assert!(help.contains(&format!("  {option} ")), "{option}: {help}");
            if option.ends_with("-key") {
                let file = format!("  {option}-file FILE ");
                assert!(help.contains(&file), "{option}: {help}");
                keys += 1;
            }
        }
        assert_eq!(help.matches("-file FILE").count(), keys, "{help}");
    }
}

#[test]
fn help_tells_what_a_grant_opens() {
    let opens = "A grant for overwriting also opens its size block for reading";
    let refused = "one for reading does not open it for overwriting";
    let answer = "if it opens, prints its contractor and the right asked for";
    for (name, all) in [
        ("issue", &[opens][..]),
        ("check", &[opens, refused, answer]),
        ("queue", &[opens]),
    ] {
        let help = line(&format!("help {name}")).done();
        for words in all {
            assert!(help.replace('\n', " ").contains(words), "{words}: {help}");
        }
    }
}

/// Status 0 of a queue must not be taken for grants that open.
#[test]
fn help_tells_what_the_status_of_a_queue_says() {
    for (name, words) in [
        (
            "",
            "With `queue`, 0 says that each grant has its verdict, not that one opens",
        ),
        (
            "queue",
            "Exit status 0 says that each grant has its verdict, and not that one opens",
        ),
        ("queue", "- stands for standard input"),
        ("queue", "more than 64 grants are with 3"),
    ] {
        let help = line(&format!("help {name}")).done();
        assert!(help.replace('\n', " ").contains(words), "{words}: {help}");
    }
}

/// A page that opens must not be taken for the one that was wanted.
#[test]
fn help_tells_what_a_page_is_not() {
    for (name, words) in [
        ("seal", "These three stand in the page for all to read"),
        ("seal", "- stands for standard input"),
        ("seal", "one that exists is not replaced"),
        ("open", "see that the numbers are those that you wanted"),
        ("open", "An older page with the same numbers opens too"),
        ("open", "- stands for standard input"),
        ("open", "one that exists is not replaced"),
    ] {
        let help = line(&format!("help {name}")).done();
        assert!(help.replace('\n', " ").contains(words), "{words}: {help}");
    }
}

/// A blank form must not be taken for a grant that is wrong.
#[test]
fn help_tells_of_size_block_0() {
    for (name, words) in [
        ("issue", "the number of the size block, not 0"),
        ("issue", "size block 0, as a blank form sends it, with 14"),
        ("check", "the number of the size block asked for, not 0"),
        (
            "check",
            "is refused with 14, which says nothing of the grant",
        ),
        (
            "check",
            "Grants that were issued for 0, before version 0.7, open nothing",
        ),
        ("queue", "the number of the size block asked for, not 0"),
        (
            "queue",
            "size block 0 is with 14, the status is 1 and there is no verdict",
        ),
        ("seal", "the number of the size block, not 0"),
        ("seal", "size block 0 is with 14, no file is made"),
        (
            "open",
            "So does one that was sealed for size block 0, before version 0.7",
        ),
        ("open", "seal that for another size block"),
    ] {
        let help = line(&format!("help {name}")).done();
        assert!(help.replace('\n', " ").contains(words), "{words}: {help}");
    }
}

/// A demotion must not be taken for the end of grants.
#[test]
fn help_tells_what_a_highest_right_does() {
    for (name, words) in [
        (
            "issue",
            "refused with 25 where the roll lets the contractor only read",
        ),
        ("check", "overwriting is refused with 25"),
        ("queue", "overwriting is refused with 25"),
        ("withdraw", "their highest right becomes reading"),
        ("right", "A demotion ends no grant"),
        (
            "right",
            "To end them, withdraw the contractor and enter them again",
        ),
        ("roll", "replaces a file of 400 bytes by one of 600"),
        (
            "roll",
            "With overwriting, each grant opens for what it opened for",
        ),
        (
            "roll",
            "Hosts from before version 0.6 refuse the converted file with 3",
        ),
        (
            "roll",
            "cut it to its first 400 bytes; then all who were demoted overwrite again",
        ),
    ] {
        let help = line(&format!("help {name}")).done();
        assert!(help.replace('\n', " ").contains(words), "{words}: {help}");
    }
}

#[test]
fn help_tells_of_the_lock() {
    for name in ["enter", "right", "withdraw", "roll"] {
        let help = line(&format!("help {name}")).done();
        let text = help.replace('\n', " ");
        assert!(text.contains("there is a file FILE.lock"), "{help}");
        let words = "remove it if you are sure that no change is under way";
        assert!(text.contains(words), "{help}");
    }
}

#[test]
fn the_version_is_told() {
    let version = Path::new(env!("CARGO_MANIFEST_DIR")).join("../../../VERSION");
    let expected = format!("gordzila {}", fs::read_to_string(version).unwrap());
    assert_eq!(line("--version").done(), expected);
    line("--version now").stopped("--version stands alone");
}

#[test]
fn output_that_gets_lost_is_told() {
    let room = Room::new("unheard");
    for complete in [
        "--version",
        "help",
        "help issue",
        COMPLETE[0],
        COMPLETE[2],
        COMPLETE[12],
    ] {
        let run = run_unheard(&words(complete, &room));
        // These change nothing.
        assert!(!run.err.contains("change"), "{run:?}");
        run.stopped("standard output: ");
    }
}
