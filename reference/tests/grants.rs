//! What README.md says about the log of a roll and its grants. The numbers in a
//! life are worked out by hand. Grants are written out in hexadecimal digits and
//! compared with what the decryption keys of Theorem 1 (section 3.10) decipher.

use std::sync::Mutex;

use curupira_reference::cipher::{decryption_keys, encrypt_with};
use curupira_reference::grants::grants_text;
use curupira_reference::matrix::Matrix;
use curupira_reference::schedule::round_subkeys;
use curupira_reference::vectors::hex;

/// The lines for one life: life, 32 calls, 12 damaged grants.
const LINES_PER_LIFE: usize = 45;

/// Where grants A, C and B stand among the lines of a life, counted from 0.
const GRANTS: [usize; 3] = [4, 15, 29];

/// Where the issue for the other right stands.
const OTHER_ISSUE: usize = 8;

/// Where the first damaged grant stands.
const DAMAGED: usize = 33;

/// The calls of a life whose RIGHT is 2, as worked out by hand. GRANT stands for a grant
/// and WHO for the contractor. The count is 0, then 1 from the first enter on, 2 from the
/// withdrawal on and 3 from the last enter on. The figure is 1, then 2 from the first
/// enter on, and then what the changes say: 1, 2, 1. The withdrawal leaves 1, and the last
/// enter 2. Grants A and C have count 1, grant B has count 3, and all three are for
/// overwriting.
const OVERWRITING_LIFE: [&str; 32] = [
    "issue 2 20",
    "right 2 20",
    "enter 2 0",
    "issue 2 0 GRANT",
    "check 2 0 WHO 2",
    "check 2 9 0 0",
    "check 1 0 WHO 1",
    "issue 1 0 GRANT",
    "right 1 0",
    "check 2 25 0 0",
    "check 1 0 WHO 1",
    "issue 2 25",
    "right 2 0",
    "check 2 0 WHO 2",
    "issue 2 0 GRANT",
    "check 2 0 WHO 2",
    "right 1 0",
    "check 2 25 0 0",
    "check 1 0 WHO 1",
    "right 3 7",
    "enter 2 21",
    "withdraw 0",
    "check 2 20 0 0",
    "withdraw 20",
    "right 1 20",
    "enter 2 0",
    "check 2 23 0 0",
    "check 2 23 0 0",
    "issue 2 0 GRANT",
    "check 2 0 WHO 2",
    "check 2 23 0 0",
    "check 2 0 WHO 2",
];

/// The same for a life whose RIGHT is 1. Only grant C is for overwriting. The figure is 2
/// only between the two changes around it.
const READING_LIFE: [&str; 32] = [
    "issue 1 20",
    "right 2 20",
    "enter 1 0",
    "issue 1 0 GRANT",
    "check 1 0 WHO 1",
    "check 1 9 0 0",
    "check 2 10 0 0",
    "issue 2 25",
    "right 1 0",
    "check 2 10 0 0",
    "check 1 0 WHO 1",
    "issue 2 25",
    "right 2 0",
    "check 1 0 WHO 1",
    "issue 2 0 GRANT",
    "check 2 0 WHO 2",
    "right 1 0",
    "check 2 25 0 0",
    "check 1 0 WHO 1",
    "right 3 7",
    "enter 1 21",
    "withdraw 0",
    "check 1 20 0 0",
    "withdraw 20",
    "right 1 20",
    "enter 1 0",
    "check 1 23 0 0",
    "check 2 23 0 0",
    "issue 1 0 GRANT",
    "check 1 0 WHO 1",
    "check 1 23 0 0",
    "check 2 10 0 0",
];

/// The text of the log. It is made once for all tests, because that takes long.
static TEXT: Mutex<Option<String>> = Mutex::new(None);

/// The key lengths with their least and greatest numbers of rounds (Table 2).
const SIZES: [(usize, usize, usize); 3] = [(12, 10, 11), (18, 14, 17), (24, 18, 23)];

/// The text of the log.
fn log_text() -> String {
    let mut made = TEXT.lock().expect("the text could be made");
    let make = || grants_text().expect("all keys have allowed lengths");
    made.get_or_insert_with(make).clone()
}

/// The lines of the log, each split into its fields.
fn log_lines() -> Vec<Vec<String>> {
    let text = log_text();
    assert!(text.ends_with('\n'));
    text.lines()
        .map(|line| line.split(' ').map(String::from).collect())
        .collect()
}

/// A field that is a decimal number, without signs and leading zeros.
fn number(field: &str) -> u64 {
    let value: u64 = field.parse().expect("a decimal number");
    assert_eq!(value.to_string(), field);
    value
}

/// The bytes that lowercase hexadecimal digits stand for.
fn bytes(digits: &str) -> Vec<u8> {
    let value: Vec<u8> = (0..digits.len() / 2)
        .map(|k| u8::from_str_radix(&digits[2 * k..2 * k + 2], 16).expect("hex digits"))
        .collect();
    assert_eq!(hex(&value), digits);
    value
}

/// A grant deciphered by the decryption keys of Theorem 1, under the key and the
/// number of rounds in the first line of a life.
fn deciphered(life: &[String], grant: &[u8]) -> Vec<u8> {
    let rounds: usize = life[2].parse().expect("a number of rounds");
    let subkeys = round_subkeys(&bytes(&life[1]), rounds).expect("an allowed key");
    let turned = decryption_keys(&subkeys).expect("there are subkeys");
    let block = Matrix::from_bytes(grant).expect("a grant has 12 bytes");
    let plain = encrypt_with(&turned, &block).expect("there are subkeys");
    plain.to_bytes()
}

/// The plain bytes of a grant of a life with this count and this right, as hexadecimal
/// digits.
fn plain_digits(life: &[String], count: u16, right: &str) -> String {
    format!(
        "{:04x}{:04x}{:08x}{:02x}475244",
        number(&life[3]),
        count,
        number(&life[4]),
        number(right)
    )
}

/// The first life as far as its first damaged grant. README.md prints it.
const FIRST_LINES: [&str; 34] = [
    "life c67e816b4bfbe2fb54f6bddf 10 125 484542209 2",
    "issue 2 20",
    "right 2 20",
    "enter 2 0",
    "issue 2 0 d32576330e4c32e359c52ef4",
    "check 2 0 125 2",
    "check 2 9 0 0",
    "check 1 0 125 1",
    "issue 1 0 5dbad68915f22b46c5b3da7b",
    "right 1 0",
    "check 2 25 0 0",
    "check 1 0 125 1",
    "issue 2 25",
    "right 2 0",
    "check 2 0 125 2",
    "issue 2 0 d32576330e4c32e359c52ef4",
    "check 2 0 125 2",
    "right 1 0",
    "check 2 25 0 0",
    "check 1 0 125 1",
    "right 3 7",
    "enter 2 21",
    "withdraw 0",
    "check 2 20 0 0",
    "withdraw 20",
    "right 1 20",
    "enter 2 0",
    "check 2 23 0 0",
    "check 2 23 0 0",
    "issue 2 0 b9ef82f60e66d228f92aa435",
    "check 2 0 125 2",
    "check 2 23 0 0",
    "check 2 0 125 2",
    "damaged 0 8 0 0",
];

#[test]
fn the_log_starts_as_documented() {
    let text = log_text();
    let first: Vec<&str> = text.lines().take(FIRST_LINES.len()).collect();
    assert_eq!(first, FIRST_LINES);
    let readme = include_str!("../README.md");
    assert!(readme.contains(&format!("    {}\n", FIRST_LINES.join("\n    "))));
}

#[test]
fn the_log_has_45_lines_for_each_of_48_lives() {
    let lines = log_lines();
    assert_eq!(lines.len(), 2160);
    let mut lives = lines.chunks(LINES_PER_LIFE);
    for (key_length, least, greatest) in SIZES {
        for rounds in least..=greatest {
            for _ in 0..4 {
                let life = &lives.next().expect("there are more lives")[0];
                assert_eq!((life.len(), life[0].as_str()), (6, "life"));
                assert_eq!(bytes(&life[1]).len(), key_length);
                assert_eq!(life[2], rounds.to_string());
                assert!((1..=200).contains(&number(&life[3])));
                assert!(number(&life[4]) < 4_294_967_296);
                assert!((1..=2).contains(&number(&life[5])));
            }
        }
    }
    assert!(lives.next().is_none());
}

/// A line of a life in which its grant is replaced by GRANT, and the contractor of an
/// accepted check by WHO.
fn without_grant_and_contractor(line: &[String], contractor: &str) -> String {
    let mut fields = line.to_vec();
    match line[0].as_str() {
        "issue" if line.len() == 4 => {
            assert_eq!(line[3].len(), 24);
            fields[3] = String::from("GRANT");
        }
        "check" if line[2] == "0" => {
            assert_eq!(line[3], contractor);
            fields[3] = String::from("WHO");
        }
        _ => {}
    }
    fields.join(" ")
}

#[test]
fn the_calls_of_every_life_end_as_worked_out_by_hand() {
    for log in log_lines().chunks(LINES_PER_LIFE) {
        let worked_out = match log[0][5].as_str() {
            "1" => READING_LIFE,
            "2" => OVERWRITING_LIFE,
            other => panic!("{} is no right", other),
        };
        for (line, words) in log[1..DAMAGED].iter().zip(worked_out) {
            assert_eq!(without_grant_and_contractor(line, &log[0][3]), words);
        }
    }
}

/// Grants A and B have the right of the life, grant C is for overwriting.
#[test]
fn the_grants_have_counts_1_1_and_3() {
    for log in log_lines().chunks(LINES_PER_LIFE) {
        let right = log[0][5].as_str();
        for (line, (count, right)) in GRANTS.iter().zip([(1, right), (1, "2"), (3, right)]) {
            let plain = deciphered(&log[0], &bytes(&log[*line][3]));
            assert_eq!(hex(&plain), plain_digits(&log[0], count, right));
        }
    }
}

/// It is there only in the lives for overwriting, and it is for reading. There, grant C
/// is grant A once more.
#[test]
fn the_grant_for_the_other_right_has_count_1() {
    for log in log_lines().chunks(LINES_PER_LIFE) {
        let [grant_a, grant_c, _] = GRANTS.map(|line| &log[line][3]);
        let overwriting = log[0][5] == "2";
        assert_eq!(log[OTHER_ISSUE].len() == 4, overwriting);
        assert_eq!(grant_a == grant_c, overwriting);
        if overwriting {
            let plain = deciphered(&log[0], &bytes(&log[OTHER_ISSUE][3]));
            assert_eq!(hex(&plain), plain_digits(&log[0], 1, "1"));
        }
    }
}

/// The fields NUMBER, CONTRACTOR and RIGHT for deciphered bytes, in a roll where
/// only the contractor of the life is in standing, with count 3 and the right of the life
/// as the highest, so that it is not below the right asked for.
fn answer_for(life: &[String], plain: &[u8]) -> String {
    let digits = hex(plain);
    let contractor = 256 * u64::from(plain[0]) + u64::from(plain[1]);
    let no_grant = !digits.ends_with("475244")
        || contractor == 0
        || contractor > 200
        || plain[8] == 0
        || plain[8] > 2;
    let wanted = plain_digits(life, 3, &life[5]);
    let refused = if no_grant {
        "8"
    } else if digits[8..16] != wanted[8..16] {
        "9"
    } else if (&digits[16..18], &wanted[16..18]) == ("01", "02") {
        "10"
    } else if digits[..4] != wanted[..4] {
        "20"
    } else if digits[4..8] != wanted[4..8] {
        "23"
    } else {
        return format!("0 {} {}", life[3], life[5]);
    };
    format!("{} 0 0", refused)
}

#[test]
fn the_damaged_grants_are_checked_as_deciphered() {
    for log in log_lines().chunks(LINES_PER_LIFE) {
        let grant = bytes(&log[GRANTS[2]][3]);
        for (position, line) in log[DAMAGED..].iter().enumerate() {
            let mut damaged = grant.clone();
            damaged[position] = if grant[position] % 2 == 0 {
                grant[position] + 1
            } else {
                grant[position] - 1
            };
            let answer = answer_for(&log[0], &deciphered(&log[0], &damaged));
            let words = format!("damaged {} {}", position, answer);
            assert_eq!(line.join(" "), words);
        }
    }
}

/// Damage spreads over the whole block, and no damaged grant has the mark.
#[test]
fn every_damaged_grant_is_refused_with_8() {
    for log in log_lines().chunks(LINES_PER_LIFE) {
        let damaged = &log[DAMAGED..];
        assert_eq!(damaged.len(), 12);
        assert!(damaged.iter().all(|line| line[2..] == ["8", "0", "0"]));
    }
}

/// 22 of the 48 lives are for overwriting. In each of the other 26, grants A and B are
/// reading grants and are asked for overwriting three times. 25 is the number of two
/// checks and an issue in a life for overwriting, and of a check and two issues in one for
/// reading.
#[test]
fn the_refusals_with_10_and_25_are_as_many_as_documented() {
    let lines = log_lines();
    let lives = |right| {
        let of_right = |log: &&[Vec<String>]| log[0][5] == right;
        lines.chunks(LINES_PER_LIFE).filter(of_right).count()
    };
    assert_eq!((lives("1"), lives("2")), (26, 22));
    let count = |words: &str| lines.iter().filter(|line| line.join(" ") == words).count();
    assert_eq!(count("check 2 10 0 0"), 3 * 26);
    assert_eq!(count("check 2 25 0 0"), 2 * 22 + 26);
    assert_eq!(count("issue 2 25"), 22 + 2 * 26);
    let readme = include_str!("../README.md");
    let documented =
        "RIGHT is 1 in 26 lives and 2 in 22 lives, so that 78 checks are refused with 10.";
    assert!(readme.contains(documented));
    assert!(readme.contains("70 checks and 74 issues are refused with 25."));
}

/// Then neither the size block of a life nor the one after it is 0, for which there would
/// be other numbers.
#[test]
fn no_life_is_for_size_block_0_or_the_one_before_it() {
    for log in log_lines().chunks(LINES_PER_LIFE) {
        let block = number(&log[0][4]);
        assert!(block > 0 && block < 4_294_967_295);
    }
}

#[test]
fn both_rights_occur_for_each_key_length() {
    let lines = log_lines();
    for (key_length, _, _) in SIZES {
        for right in ["1", "2"] {
            let found = lines.iter().any(|line| {
                line[0] == "life" && line[1].len() == 2 * key_length && line[5] == right
            });
            assert!(found, "right {} with {} bytes", right, key_length);
        }
    }
}
