//! `encipher`, `decipher` and `stage`.

use crate::running::{line, run, Room, KEY};

/// The worked examples of reference/README.md: key, rounds, result.
const EXAMPLES: [(&str, u32, &str); 3] = [
    (KEY, 10, "6edf4c9cc8219ec403e58ec8"),
    (
        "000102030405060708090a0b0c0d0e0f1011",
        14,
        "e4b4f601476b7acb9ff43006",
    ),
    (
        "000102030405060708090a0b0c0d0e0f1011121314151617",
        23,
        "98051dd95a030654913b231c",
    ),
];

const BLOCK: &str = "00112233445566778899aabb";

#[test]
fn blocks_are_enciphered_and_deciphered() {
    for (key, rounds, result) in EXAMPLES {
        let options = format!("--key {key} --rounds {rounds}");
        let there = line(&format!("encipher {options} --block {BLOCK}"));
        assert_eq!(there.done(), format!("{result}\n"));
        let back = line(&format!("decipher --block {result} {options}"));
        assert_eq!(back.done(), format!("{BLOCK}\n"));
    }
}

#[test]
fn digits_may_be_upper_case() {
    let (key, block) = (KEY.to_uppercase(), BLOCK.to_uppercase());
    let there = line(&format!("encipher --key {key} --rounds 10 --block {block}"));
    assert_eq!(there.done(), "6edf4c9cc8219ec403e58ec8\n");
}

#[test]
fn the_cipher_refuses_with_1_2_3() {
    for subcommand in ["encipher", "decipher"] {
        let number = |key: &str, rounds: &str, block: &str| {
            run(&[
                subcommand, "--key", key, "--rounds", rounds, "--block", block,
            ])
            .refused()
        };
        assert_eq!(number("00", "10", BLOCK), 1);
        assert_eq!(number("", "10", BLOCK), 1);
        assert_eq!(number(KEY, "9", BLOCK), 2);
        assert_eq!(number(KEY, "4294967295", BLOCK), 2);
        assert_eq!(number(KEY, "10", "0011"), 3);
        assert_eq!(number(KEY, "10", ""), 3);
    }
}

#[test]
fn a_key_may_stand_in_a_file() {
    let room = Room::new("key-file");
    for (name, text) in [
        ("bare", KEY.to_string()),
        ("line", format!("{KEY}\n")),
        ("spaced", format!("\r\n \t{}\r\n\n", KEY.to_uppercase())),
    ] {
        let file = room.file(name, text.as_bytes());
        let file = file.to_str().unwrap();
        let there = run(&[
            "encipher",
            "--key-file",
            file,
            "--rounds",
            "10",
            "--block",
            BLOCK,
        ]);
        assert_eq!(there.done(), "6edf4c9cc8219ec403e58ec8\n");
    }
}

#[test]
fn a_key_file_that_is_wrong_is_named_and_not_repeated() {
    let room = Room::new("key-file-wrong");
    for (name, text) in [
        ("inside", format!("{} {}", &KEY[..12], &KEY[12..])),
        ("odd", KEY[1..].to_string()),
        ("letter", KEY.replace('b', "g")),
        ("long", " ".repeat(5000)),
    ] {
        let file = room.file(name, text.as_bytes());
        let run = run(&[
            "stage",
            "--stage",
            "0",
            "--key-file",
            file.to_str().unwrap(),
        ]);
        assert!(!run.err.contains(&KEY[..12]), "{run:?}");
        run.stopped(&format!("--key-file: {}", file.display()));
    }
    let none = room.path("none");
    run(&[
        "stage",
        "--stage",
        "0",
        "--key-file",
        none.to_str().unwrap(),
    ])
    .stopped("No such file");
    line("stage --stage 0 --key-file /").stopped("--key-file: /: ");
}

#[test]
fn a_stage_is_shown_with_its_subkey() {
    let key = "c67e816b4bfbe2fb54f6bddf";
    let shown = line(&format!("stage --key {key} --stage 0")).done();
    let zeros = "0".repeat(24);
    let subkey = "d07e812a4bfb24fb546abddf";
    assert_eq!(
        shown,
        format!("stage 0: {key}{zeros}\nsubkey 0: {subkey}\n")
    );
}

#[test]
fn a_stage_refuses_with_1_5() {
    let number = |options: &str| line(&format!("stage {options}")).refused();
    assert_eq!(number("--key 0011 --stage 99"), 1);
    assert_eq!(number(&format!("--key {KEY} --stage 12")), 5);
    assert_eq!(number(&format!("--key {KEY} --stage 4294967295")), 5);
    line(&format!("stage --key {KEY} --stage 11")).done();
}
