//! What README.md says about the log of size block 0. The numbers in a life are worked out
//! by hand. Grants are compared with what the decryption keys of Theorem 1 (section 3.10)
//! decipher, and pages are chained again here on bytes.

use std::sync::Mutex;

use curupira_reference::cipher::{decryption_keys, encrypt_with};
use curupira_reference::matrix::{Matrix, State};
use curupira_reference::schedule::round_subkeys;
use curupira_reference::vectors::hex;
use curupira_reference::zero::zero_text;

/// The lines for one life.
const LINES_PER_LIFE: usize = 33;

/// Where the old and the new grant stand among the lines of a life, counted from 0.
const GRANTS: [usize; 2] = [1, 7];

/// Where the new and the old page stand.
const PAGES: [usize; 2] = [29, 30];

/// Where the old and the new page are opened.
const OPENED: [usize; 2] = [31, 32];

/// A life after its first line, as worked out by hand, without the pages. GRANT stands for
/// a grant, WHO for the contractor, B for the size block and R for the right of the life.
/// The count is 0, then 1 from the first enter on, 2 from the withdrawal on and 3 from the
/// last enter on. The figure is 1, then R, then 1 from the change on, and R again from the
/// last enter on. Both grants have count 1 and right R, and only their size blocks differ.
const CALLS: [&str; 28] = [
    "old GRANT",
    "issue 0 R 14",
    "check old 0 R 14 0 0",
    "check old B R 9 0 0",
    "enter R 0",
    "issue 0 R 14",
    "issue B R 0 GRANT",
    "check old 0 R 14 0 0",
    "check old B R 9 0 0",
    "check new 0 R 14 0 0",
    "check new B R 0 WHO R",
    "queue 0 R 14 255 255",
    "queue B R 0 9 0",
    "right 1 0",
    "issue 0 2 14",
    "check old 0 2 14 0 0",
    "check old B 2 9 0 0",
    "withdraw 0",
    "issue 0 R 14",
    "check old 0 R 14 0 0",
    "check old B R 9 0 0",
    "check new B R 20 0 0",
    "enter R 0",
    "check old 0 R 14 0 0",
    "check old B R 9 0 0",
    "check new B R 23 0 0",
    "entry 3 R",
    "seal 0 14",
];

/// The text of the log. It is made once for all tests, because that takes long.
static TEXT: Mutex<Option<String>> = Mutex::new(None);

/// The text of the log.
fn log_text() -> String {
    let mut made = TEXT.lock().expect("the text could be made");
    let make = || zero_text().expect("all keys have allowed lengths");
    made.get_or_insert_with(make).clone()
}

/// The lines of the log, each split into its fields.
fn log_lines() -> Vec<Vec<String>> {
    let text = log_text();
    assert!(text.ends_with('\n'));
    text.lines()
        .map(|line| line.split(' ').map(String::from).collect())
        .collect()
}

/// A field that is a decimal number, without signs and leading zeros.
fn number(field: &str) -> u64 {
    let value: u64 = field.parse().expect("a decimal number");
    assert_eq!(value.to_string(), field);
    value
}

/// The bytes that lowercase hexadecimal digits stand for.
fn bytes(digits: &str) -> Vec<u8> {
    let value: Vec<u8> = (0..digits.len() / 2)
        .map(|k| u8::from_str_radix(&digits[2 * k..2 * k + 2], 16).expect("hex digits"))
        .collect();
    assert_eq!(hex(&value), digits);
    value
}

/// The lists of subkeys of the first and of the second key of a life.
fn lists(life: &[String]) -> [Vec<State>; 2] {
    let rounds: usize = life[3].parse().expect("a number of rounds");
    [1, 2].map(|k| round_subkeys(&bytes(&life[k]), rounds).expect("an allowed key"))
}

/// Bytes enciphered with a list of subkeys.
fn enciphered(list: &[State], block: &[u8]) -> Vec<u8> {
    let state = Matrix::from_bytes(block).expect("12 bytes");
    let result = encrypt_with(list, &state).expect("there are subkeys");
    result.to_bytes()
}

/// A block of a chain: bytes added to the block before, and enciphered.
fn next_block(list: &[State], block: &[u8], previous: &[u8]) -> Vec<u8> {
    let sum: Vec<u8> = block.iter().zip(previous).map(|(a, b)| a ^ b).collect();
    enciphered(list, &sum)
}

#[test]
fn the_log_starts_as_documented() {
    let documented = [
        "zero c67e816b4bfbe2fb54f6bddf 7c1ce18701bf31de56720f47 10 104 1509949440 1 43656 166",
        "old b1d217317d72abae797a6b09",
        "issue 0 1 14",
        "check old 0 1 14 0 0",
        "check old 1509949440 1 9 0 0",
        "enter 1 0",
        "issue 0 1 14",
        "issue 1509949440 1 0 21dce77cbb7a0a2a30e69af5",
        "check old 0 1 14 0 0",
        "check old 1509949440 1 9 0 0",
        "check new 0 1 14 0 0",
        "check new 1509949440 1 0 104 1",
        "queue 0 1 14 255 255",
        "queue 1509949440 1 0 9 0",
    ];
    let text = log_text();
    let first: Vec<&str> = text.lines().take(documented.len()).collect();
    assert_eq!(first, documented);
    let readme = include_str!("../README.md");
    assert!(readme.contains(&format!("\n\n    {}\n\n", documented.join("\n    "))));
}

#[test]
fn the_log_has_33_lines_for_each_of_12_lives() {
    let lines = log_lines();
    assert_eq!(lines.len(), 396);
    let mut lives = lines.chunks(LINES_PER_LIFE);
    for (key_length, least, greatest) in [(12, 10, 11), (18, 14, 17), (24, 18, 23)] {
        for rounds in least..=greatest {
            let life = &lives.next().expect("there are more lives")[0];
            assert_eq!((life.len(), life[0].as_str()), (9, "zero"));
            assert_eq!([1, 2].map(|k| bytes(&life[k]).len()), [key_length; 2]);
            assert_eq!(number(&life[3]), rounds);
            assert!((1..=200).contains(&number(&life[4])));
            assert!((1..=2).contains(&number(&life[6])));
            assert!(number(&life[7]) < 65_536 && number(&life[8]) <= 492);
        }
    }
    assert!(lives.next().is_none());
}

/// One byte of the size block is not zero, and three are.
#[test]
fn the_size_blocks_have_one_byte_that_is_not_zero() {
    for log in log_lines().chunks(LINES_PER_LIFE) {
        let block: u32 = log[0][5].parse().expect("a size block");
        let bytes = block.to_be_bytes();
        assert_eq!(bytes.iter().filter(|byte| **byte != 0).count(), 1);
    }
}

#[test]
fn the_calls_of_every_life_end_as_worked_out_by_hand() {
    for log in log_lines().chunks(LINES_PER_LIFE) {
        let [who, block, right] = [4, 5, 6].map(|k| log[0][k].as_str());
        for (k, words) in CALLS.iter().enumerate() {
            let mut line = log[k + 1].clone();
            if GRANTS.contains(&(k + 1)) {
                let grant = line.last_mut().expect("there are fields");
                assert_eq!(grant.len(), 24);
                *grant = String::from("GRANT");
            }
            let words: Vec<&str> = words
                .split(' ')
                .map(|word| match word {
                    "B" => block,
                    "R" => right,
                    "WHO" => who,
                    other => other,
                })
                .collect();
            assert_eq!(line, words);
        }
    }
}

/// The plain bytes are contractor, count 1, size block, right and mark. The size block of
/// the old grant is 0.
#[test]
fn the_grants_decipher_to_plain_bytes_that_differ_in_the_size_block() {
    for log in log_lines().chunks(LINES_PER_LIFE) {
        let [first, _] = lists(&log[0]);
        let turned = decryption_keys(&first).expect("there are subkeys");
        let [who, block, right] = [4, 5, 6].map(|k| number(&log[0][k]));
        for (line, block) in GRANTS.iter().zip([0, block]) {
            let grant = log[*line].last().expect("there are fields");
            let plain = hex(&enciphered(&turned, &bytes(grant)));
            let written = format!("{:04x}0001{:08x}{:02x}475244", who, block, right);
            assert_eq!(plain, written);
        }
    }
}

/// The page of a header and a payload under the keys of a life.
fn page_by_words(life: &[String], plain: &[u8]) -> Vec<u8> {
    let [first, second] = lists(life);
    let mut page = plain[..12].to_vec();
    let mut previous = enciphered(&first, &plain[..12]);
    for block in plain[12..].chunks(12) {
        previous = next_block(&first, block, &previous);
        page.extend(&previous);
    }
    let mut last = vec![0; 12];
    for block in page.chunks(12) {
        last = next_block(&second, block, &last);
    }
    page.extend(&last[..8]);
    page
}

/// The header of a page of a life with this size block, as hexadecimal digits.
fn header_digits(life: &[String], block: u64) -> String {
    let [page_number, used] = [7, 8].map(|k| number(&life[k]));
    format!("{:08x}{:04x}{:04x}00000000", block, page_number, used)
}

/// Both pages have the same payload, page number and used count. The old one has size block
/// 0, and is opened with that.
#[test]
fn the_pages_are_those_of_the_words_and_open() {
    for log in log_lines().chunks(LINES_PER_LIFE) {
        let life = &log[0];
        let block = number(&life[5]);
        assert_eq!(log[PAGES[0]][..3], ["seal", &life[5], "0"]);
        assert_eq!(log[PAGES[1]][0], "oldpage");
        let [old, new] = [&log[PAGES[1]][1], &log[PAGES[0]][3]];
        for (page, (line, size)) in [old, new].iter().zip(OPENED.iter().zip([0, block])) {
            let opened = &log[*line];
            let which = if size == 0 { "old" } else { "new" };
            let numbers = format!("open {} 0 {} {} {}", which, size, life[7], life[8]);
            assert_eq!(opened[..6].join(" "), numbers);
            let payload = bytes(&opened[6]);
            assert_eq!(payload.len(), 492);
            let used = number(&life[8]) as usize;
            assert!(payload[used..].iter().all(|byte| *byte == 0));
            let plain = [bytes(&header_digits(life, size)), payload].concat();
            assert_eq!(bytes(page), page_by_words(life, &plain));
        }
        assert_eq!(log[OPENED[0]][6], log[OPENED[1]][6]);
    }
}
