//! What README.md says about the worked answers. Where an answer can be worked out
//! by hand, it is written out here. Stages are taken from the closed form of section
//! 3.7, subkeys from the published S-box, and the turned list has to decipher. Pages
//! with toys are taken from a closed form too.

use std::sync::Mutex;

use curupira_reference::answers::{
    answers_text, change_with, check_with, enter_with, issue_with, queue_with, withdraw_with,
};
use curupira_reference::cipher::{encrypt, encrypt_with};
use curupira_reference::generator::Generator;
use curupira_reference::holder::{back, forward, make, subkey, walk_to};
use curupira_reference::layers::inverse_theta;
use curupira_reference::matrix::{Matrix, State};
use curupira_reference::page_answers::{open_with, seal_with};
use curupira_reference::pages::{old_zero_page, open, page_under, seal};
use curupira_reference::roll::{
    counts_from_bytes, counts_to_bytes, in_standing, old_zero_grant, Grant, Refusal, Roll,
};
use curupira_reference::schedule::{accumulated_constant, cipher_key, omega, omega_power};
use curupira_reference::vectors::{constants_text, hex};

/// The keys of 12, 18 and 24 bytes.
const KEYS: [&str; 3] = [
    "0f1e2d3c4b5a69788796a5b4",
    "0f1e2d3c4b5a69788796a5b4c3d2e1f00112",
    "0f1e2d3c4b5a69788796a5b4c3d2e1f00112233445566770",
];

/// The plain bytes of the grants in the queue, in their order, and the answers if
/// overwriting and if reading is asked for. 300 is hex 12C. The roll has count 1 for
/// contractor 1, 2 for contractor 2 and 3 for contractor 3, and only contractor 1 may
/// overwrite. README.md prints them.
const QUEUE: [(&str, [&str; 2]); 5] = [
    ("000100010000012c02475244", ["0", "0"]),
    ("000100010000012c01475244", ["10", "0"]),
    ("000200020000012c02475244", ["20", "20"]),
    ("000300010000012c02475244", ["23", "23"]),
    ("000300030000012c02475244", ["25", "0"]),
];

/// The text of the answers. It is made once for all tests, because that takes long.
static TEXT: Mutex<Option<String>> = Mutex::new(None);

/// The text of the answers.
fn text_of_answers() -> String {
    let mut made = TEXT.lock().expect("the text could be made");
    let make = || answers_text().expect("all keys have allowed lengths");
    made.get_or_insert_with(make).clone()
}

/// The lines of a name, as they are printed.
fn lines_of(name: &str) -> Vec<String> {
    let text = text_of_answers();
    let start = format!("{} ", name);
    text.lines()
        .filter(|line| line.starts_with(&start))
        .map(String::from)
        .collect()
}

/// The lines of a name, each split into its fields, the name being the first.
fn fields_of(name: &str) -> Vec<Vec<String>> {
    lines_of(name)
        .iter()
        .map(|line| line.split(' ').map(String::from).collect())
        .collect()
}

/// A field that is a decimal number, without signs and leading zeros.
fn number(field: &str) -> usize {
    let value: usize = field.parse().expect("a decimal number");
    assert_eq!(value.to_string(), field);
    value
}

/// The bytes that lowercase hexadecimal digits stand for.
fn bytes(digits: &str) -> Vec<u8> {
    let value: Vec<u8> = (0..digits.len() / 2)
        .map(|k| u8::from_str_radix(&digits[2 * k..2 * k + 2], 16).expect("hex digits"))
        .collect();
    assert_eq!(hex(&value), digits);
    value
}

/// The matrix that hexadecimal digits stand for, by columns.
fn matrix<const N: usize>(digits: &str) -> Matrix<N> {
    Matrix::from_bytes(&bytes(digits)).expect("3N bytes")
}

/// The states that hexadecimal digits stand for, one after the other.
fn states(digits: &str) -> Vec<State> {
    let all = bytes(digits);
    assert_eq!(all.len() % 12, 0);
    all.chunks(12)
        .map(|part| Matrix::from_bytes(part).expect("12 bytes"))
        .collect()
}

/// The names of the lines in their order, with how many there are of each.
const GROUPS: [(&str, usize); 37] = [
    ("limits", 3),
    ("roll", 1),
    ("rollbytes", 1),
    ("empty", 1),
    ("entry", 5),
    ("placed", 3),
    ("block", 1),
    ("stage", 9),
    ("closing", 3),
    ("constant", 18),
    ("list", 1),
    ("turned", 1),
    ("plain", 2),
    ("covers", 16),
    ("highest", 10),
    ("judged", 20),
    ("walk", 11),
    ("lent", 9),
    ("walked", 14),
    ("broken", 10),
    ("standing", 7),
    ("changed", 25),
    ("queued", 11),
    ("queue", 2),
    ("order", 27),
    ("chain", 1),
    ("pair", 9),
    ("form", 16),
    ("pagewith", 5),
    ("altered", 14),
    ("padded", 19),
    ("order", 9),
    ("sized", 30),
    ("both", 31),
    ("oldgrant", 23),
    ("oldqueue", 9),
    ("oldpage", 6),
];

#[test]
fn the_lines_stand_in_the_documented_order() {
    let text = text_of_answers();
    assert!(text.ends_with('\n'));
    let names = text.lines().map(|line| line.split(' ').next());
    let documented = GROUPS
        .iter()
        .flat_map(|(name, count)| vec![Some(*name); *count]);
    assert!(names.eq(documented));
    assert_eq!(text.lines().count(), 383);
    let readme = include_str!("../README.md");
    assert!(readme.contains("There are 383 lines in all."));
}

/// The lines that README.md prints.
#[test]
fn the_answers_start_as_documented() {
    let text = text_of_answers();
    let first: Vec<&str> = text.lines().take(16).collect();
    let documented = [
        "limits 12 10 11",
        "limits 18 14 17",
        "limits 24 18 23",
        "roll 01020304fffe0001 258 772 65534 1",
        "rollbytes 1 256 4660 65534 000101001234fffe",
        "empty 600 0 0 1 1",
        "entry 1 1 149 1",
        "entry 2 515 150 1",
        "entry 105 53457 2 2",
        "entry 126 64000 23 1",
        "entry 200 37780 97 1",
        "placed 1 258 2 1 2 2",
        "placed 2 772 255 3 4 255",
        "placed 200 65534 2 255 254 2",
        "block 000102030405060708090a0b 00030609 0104070a 0205080b",
        "stage 0f1e2d3c4b5a69788796a5b4 1 c33dc23e2e7b71926d52ae37 343dc26c2e7b65926d0dae37",
    ];
    assert_eq!(first, documented);
    let readme = include_str!("../README.md");
    assert!(readme.contains(&format!("    {}\n", documented.join("\n    "))));
}

/// Table 2, and the formulas that fit it: 4t + 2 and 6t - 1.
#[test]
fn the_limits_are_those_of_table_2() {
    let written = ["limits 12 10 11", "limits 18 14 17", "limits 24 18 23"];
    assert_eq!(lines_of("limits"), written);
    for (line, t) in fields_of("limits").iter().zip(2..) {
        let numbers: Vec<usize> = line[1..].iter().map(|field| number(field)).collect();
        assert_eq!(numbers, [6 * t, 4 * t + 2, 6 * t - 1]);
    }
}

/// 258 is 256 + 2, 772 is 3 * 256 + 4, and 4660 is hex 1234.
#[test]
fn the_rolls_are_as_written_by_hand() {
    assert_eq!(lines_of("roll"), ["roll 01020304fffe0001 258 772 65534 1"]);
    assert_eq!(
        lines_of("rollbytes"),
        ["rollbytes 1 256 4660 65534 000101001234fffe"]
    );
}

#[test]
fn a_roll_that_was_written_is_read_again() {
    let mut generator = Generator::new(40);
    let mut counts: Vec<u16> = vec![0, 1, 255, 256, 65_280, 65_534, 65_535];
    while counts.len() < 200 {
        let [high, low] = [(); 2].map(|_| u16::from(generator.byte()));
        counts.push(high << 8 | low);
    }
    let written = counts_to_bytes(&counts);
    let digits: String = counts
        .iter()
        .map(|count| format!("{:04x}", count))
        .collect();
    assert_eq!((written.len(), hex(&written)), (400, digits));
    assert_eq!(counts_from_bytes(&written), Some(counts));
}

#[test]
fn half_a_count_is_not_read() {
    assert_eq!(counts_from_bytes(&[]), Some(vec![]));
    assert_eq!(counts_from_bytes(&[1]), None);
    assert_eq!(counts_from_bytes(&[0; 399]), None);
    assert_eq!(counts_from_bytes(&[0; 401]), None);
    assert_eq!(counts_to_bytes(&[]), []);
}

#[test]
fn the_counts_read_are_those_of_contractors_1_and_on() {
    let mut in_bytes = vec![0; 400];
    in_bytes[0] = 0x12;
    in_bytes[1] = 0x34;
    in_bytes[398] = 0x56;
    in_bytes[399] = 0x78;
    let counts = counts_from_bytes(&in_bytes).expect("the number of bytes is even");
    let roll = Roll::with_entries(counts.try_into().expect("there are 200 counts"), [1; 200]);
    assert_eq!(roll.to_bytes()[..400], in_bytes);
    assert_eq!(roll.count(1), Ok(0x1234));
    assert_eq!(roll.count(2), Ok(0));
    assert_eq!(roll.count(199), Ok(0));
    assert_eq!(roll.count(200), Ok(0x5678));
}

/// Bytes 0 to 399 of an empty roll are 0, bytes 400 to 599 are 1.
#[test]
fn the_empty_roll_is_as_written_by_hand() {
    assert_eq!(lines_of("empty"), ["empty 600 0 0 1 1"]);
    let bytes = Roll::new().to_bytes();
    assert_eq!(bytes.len(), 600);
    assert!(bytes[..400].iter().all(|byte| *byte == 0));
    assert!(bytes[400..].iter().all(|byte| *byte == 1));
}

/// Byte i is i mod 251, so that byte 251 is 0 and byte 502 is 0 again. Contractor 1 has
/// bytes 0, 1 and 400, which are 0, 1 and 149. Contractor 2 has 2, 3 and 150; 515 is
/// 2 * 256 + 3. Contractor 105 has bytes 208, 209 and 504, the last of which is 2; 53457 is
/// 208 * 256 + 209. Contractor 126 has bytes 250, 251 and 525, which are 250, 0 and 23;
/// 64000 is 250 * 256. Contractor 200 has bytes 398, 399 and 599, which are 147, 148 and
/// 97; 37780 is 147 * 256 + 148.
#[test]
fn the_entries_are_as_worked_out_by_hand() {
    let written = [
        "entry 1 1 149 1",
        "entry 2 515 150 1",
        "entry 105 53457 2 2",
        "entry 126 64000 23 1",
        "entry 200 37780 97 1",
    ];
    assert_eq!(lines_of("entry"), written);
}

/// In the roll of `entry`, the places of all entries by the words of README.md. The
/// figures are 149 to 250 for contractors 1 to 102, and from there on 0, 1, 2, ...; so 2 is
/// the figure of contractor 105 alone.
#[test]
fn the_entries_are_those_of_their_places() {
    let in_bytes: Vec<u8> = (0..600).map(|i| (i % 251) as u8).collect();
    let roll = Roll::from_bytes(&in_bytes).expect("600 bytes");
    let printed = lines_of("entry");
    for contractor in 1..=200 {
        let c = usize::from(contractor);
        let count = 256 * ((2 * (c - 1)) % 251) + (2 * (c - 1) + 1) % 251;
        let figure = if c <= 102 { 148 + c } else { c - 103 };
        assert_eq!(roll.count(contractor), Ok(count as u16));
        assert_eq!(roll.figure(contractor), Ok(figure as u8));
        assert_eq!(figure == 2, c == 105);
        let highest = if c == 105 { 2 } else { 1 };
        let line = format!("entry {} {} {} {}", c, count, figure, highest);
        let named = [1, 2, 105, 126, 200].contains(&c);
        assert_eq!(printed.contains(&line), named);
    }
}

/// 258 is hex 0102, 772 is hex 0304, and 65534 is hex FFFE.
#[test]
fn the_placed_entries_are_as_written_by_hand() {
    let written = [
        "placed 1 258 2 1 2 2",
        "placed 2 772 255 3 4 255",
        "placed 200 65534 2 255 254 2",
    ];
    assert_eq!(lines_of("placed"), written);
}

/// The bytes stand at 2(c-1), 2(c-1) + 1 and 400 + c - 1, and all others are those of an
/// empty roll.
#[test]
fn the_placed_entries_leave_all_other_bytes_as_in_an_empty_roll() {
    for line in fields_of("placed") {
        let [c, count, figure] = [1, 2, 3].map(|k| number(&line[k]));
        let (mut counts, mut figures) = ([0; 200], [1; 200]);
        counts[c - 1] = count as u16;
        figures[c - 1] = figure as u8;
        let in_bytes = Roll::with_entries(counts, figures).to_bytes();
        let mut written = [vec![0; 400], vec![1; 200]].concat();
        let places = [2 * (c - 1), 2 * (c - 1) + 1, 400 + c - 1];
        for (place, field) in places.iter().zip(&line[4..]) {
            written[*place] = number(field) as u8;
        }
        assert_eq!(in_bytes, written);
    }
}

#[test]
fn the_rows_of_the_block_are_as_written_by_hand() {
    let written = ["block 000102030405060708090a0b 00030609 0104070a 0205080b"];
    assert_eq!(lines_of("block"), written);
}

/// The stage of a key by the closed form of section 3.7: omega^s(K) + Q^(s).
fn closed_form<const N: usize>(key: &str, s: usize) -> Matrix<N> {
    let key: Matrix<N> = cipher_key(&bytes(key)).expect("a key of N columns");
    omega_power(s, &key).plus(&accumulated_constant(s))
}

/// The subkey of a stage, as hexadecimal digits: the first 12 bytes, of which bytes
/// 0, 3, 6 and 9 are replaced by those of the published S-box (section 3.8).
fn subkey_digits(stage: &str) -> String {
    let table: Vec<&str> = include_str!("../published/sbox.txt")
        .split_whitespace()
        .collect();
    assert_eq!(table.len(), 256);
    let first = &bytes(stage)[..12];
    let digits = first.iter().enumerate().map(|(k, byte)| {
        if k % 3 == 0 {
            table[usize::from(*byte)].to_lowercase()
        } else {
            hex(&[*byte])
        }
    });
    digits.collect()
}

/// The lines for the stages of the key of N columns.
fn check_stages<const N: usize>(key: &str, lines: &[Vec<String>]) {
    for (line, s) in lines.iter().zip([1, 2, 3 * N - 1]) {
        let stage = hex(&closed_form::<N>(key, s).to_bytes());
        assert_eq!(stage.len(), key.len());
        let subkey = subkey_digits(&stage);
        assert_eq!(line[..], ["stage", key, &s.to_string(), &stage, &subkey]);
    }
}

#[test]
fn the_stages_are_those_of_the_closed_form() {
    let lines = fields_of("stage");
    check_stages::<4>(KEYS[0], &lines[..3]);
    check_stages::<6>(KEYS[1], &lines[3..6]);
    check_stages::<8>(KEYS[2], &lines[6..]);
}

/// Stage 1 of the short key by the words of sections 3.6 and 3.7. Row 0 of the key is
/// 0F 3C 69 96, and with S[0] to S[3], which are BA 54 2F 74, it becomes B5 68 46 E2.
/// Row 1 is 1E 4B 78 A5, rotated to the left 4B 78 A5 1E. Row 2 is 2D 5A 87 B4,
/// rotated to the right B4 2D 5A 87. The sums of the columns are 4A 3D B9 7B, and c
/// times these is 76 56 37 B0. All bytes of a column get that added.
#[test]
fn a_first_stage_is_as_derived_by_hand() {
    let rows = [
        [0xB5, 0x68, 0x46, 0xE2],
        [0x4B, 0x78, 0xA5, 0x1E],
        [0xB4, 0x2D, 0x5A, 0x87],
    ];
    let added = [0x76, 0x56, 0x37, 0xB0];
    let derived: State = Matrix::from_rule(|i, j| rows[i][j] ^ added[j]);
    assert_eq!(fields_of("stage")[0][3], hex(&derived.to_bytes()));
}

/// The closing sum for keys of N columns. It is the constant Q^(6t-1), and omega takes
/// the last stage plus the sum to the key.
fn check_closing<const N: usize>(key: &str, sum: &str, last_stage: &str) {
    let sum: Matrix<N> = matrix(sum);
    assert_eq!(sum, accumulated_constant(3 * N - 1));
    let next = omega(&matrix(last_stage).plus(&sum));
    assert_eq!(next, matrix(key));
}

#[test]
fn the_closing_sums_take_the_last_stages_to_the_keys() {
    let sums = fields_of("closing");
    let stages = fields_of("stage");
    check_closing::<4>(KEYS[0], &sums[0][2], &stages[2][3]);
    check_closing::<6>(KEYS[1], &sums[1][2], &stages[5][3]);
    check_closing::<8>(KEYS[2], &sums[2][2], &stages[8][3]);
}

/// They are the constants Q^(6t-1) that README.md prints elsewhere.
#[test]
fn the_closing_sums_are_the_constants_of_the_readme() {
    let sums = [
        (12, "129b2e3b5b649eae1b0a310e"),
        (18, "1377e3aabf5ad61138c08949fdae13124e6b"),
        (24, "de830c3728881ad6223f464e18ed167cad899c8707980488"),
    ];
    let readme = include_str!("../README.md");
    for (line, (length, sum)) in lines_of("closing").iter().zip(sums) {
        assert_eq!(*line, format!("closing {} {}", length, sum));
        assert!(readme.contains(&format!("| {} | {} |", length / 6, sum)));
    }
}

/// Section 3.6: step 1 has S[0], S[1], ... in row 0. The indices of step 6t - 1 start
/// with 2t(6t-2), which is 40, 96 and 176, or hex 28, 60 and B0. Step 6t has the closing
/// sum. The numbers 0, 6t + 1 and 65 are those of no step.
#[test]
fn the_constants_are_as_written_by_hand() {
    let written = [
        "constant 12 0 000000000000000000000000",
        "constant 12 1 ba00005400002f0000740000",
        "constant 12 11 a50000cb00006b0000950000",
        "constant 12 12 129b2e3b5b649eae1b0a310e",
        "constant 12 13 000000000000000000000000",
        "constant 12 65 000000000000000000000000",
        "constant 18 0 000000000000000000000000000000000000",
        "constant 18 1 ba00005400002f0000740000530000d30000",
        "constant 18 17 b90000730000e90000350000550000710000",
        "constant 18 18 1377e3aabf5ad61138c08949fdae13124e6b",
        "constant 18 19 000000000000000000000000000000000000",
        "constant 18 65 000000000000000000000000000000000000",
        "constant 24 0 000000000000000000000000000000000000000000000000",
        "constant 24 1 ba00005400002f0000740000530000d30000d200004d0000",
        "constant 24 23 e100002e0000e40000e00000eb0000900000a400001e0000",
        "constant 24 24 de830c3728881ad6223f464e18ed167cad899c8707980488",
        "constant 24 25 000000000000000000000000000000000000000000000000",
        "constant 24 65 000000000000000000000000000000000000000000000000",
    ];
    assert_eq!(lines_of("constant"), written);
}

/// All of them are lines of `constants` too, and those of step 6t have the closing sums.
#[test]
fn the_constants_are_those_of_the_other_lines() {
    let text = constants_text().expect("all key lengths are allowed");
    let constants = lines_of("constant");
    for line in &constants {
        assert!(text.lines().any(|other| other == line));
    }
    for sum in fields_of("closing") {
        let line = format!("constant {} {} {}", sum[1], sum[1], sum[2]);
        assert!(constants.contains(&line));
    }
}

/// Stage 1 of a key is omega of the key plus the constant of step 1, and the key is
/// omega of stage 6t - 1 plus the constant of step 6t.
fn check_constants<const N: usize>(key: &str, constants: &[Vec<String>], stages: &[Vec<String>]) {
    let first = matrix::<N>(key).plus(&matrix(&constants[1][3]));
    assert_eq!(hex(&omega(&first).to_bytes()), stages[0][3]);
    let last = matrix::<N>(&stages[2][3]).plus(&matrix(&constants[3][3]));
    assert_eq!(hex(&omega(&last).to_bytes()), key);
}

#[test]
fn the_constants_take_stages_to_stages() {
    let constants = fields_of("constant");
    let stages = fields_of("stage");
    check_constants::<4>(KEYS[0], &constants[..6], &stages[..3]);
    check_constants::<6>(KEYS[1], &constants[6..12], &stages[3..6]);
    check_constants::<8>(KEYS[2], &constants[12..], &stages[6..]);
}

#[test]
fn the_list_has_the_subkeys_of_the_stages() {
    let subkeys: String = (0..=10)
        .map(|s| subkey_digits(&hex(&closed_form::<4>(KEYS[0], s).to_bytes())))
        .collect();
    let line = &fields_of("list")[0];
    assert_eq!(line[..], ["list", KEYS[0], "10", &subkeys]);
    let stages = fields_of("stage");
    assert_eq!(line[3].len(), 11 * 24);
    assert_eq!(line[3][24..48], stages[0][4]);
    assert_eq!(line[3][48..72], stages[1][4]);
}

#[test]
fn the_turned_list_is_the_list_from_its_end() {
    let list = states(&fields_of("list")[0][3]);
    let turned = &fields_of("turned")[0];
    assert_eq!(turned[..3], ["turned", KEYS[0], "10"]);
    let turned = states(&turned[3]);
    assert_eq!((list.len(), turned.len()), (11, 11));
    assert_eq!((turned[0], turned[10]), (list[10], list[0]));
    for r in 1..10 {
        assert_eq!(inverse_theta(&turned[r]), list[10 - r]);
    }
}

#[test]
fn the_list_enciphers_and_the_turned_list_deciphers() {
    let list = states(&fields_of("list")[0][3]);
    let turned = states(&fields_of("turned")[0][3]);
    let mut generator = Generator::new(41);
    for _ in 0..32 {
        let block = generator.bytes(12);
        let state = Matrix::from_bytes(&block).expect("12 bytes");
        let enciphered = encrypt_with(&list, &state).expect("there are subkeys");
        let by_key = encrypt(&bytes(KEYS[0]), 10, &block);
        assert_eq!(by_key, Ok(enciphered.to_bytes()));
        assert_eq!(encrypt_with(&turned, &enciphered), Ok(state));
    }
}

/// 200 is hex C8, 4661 is hex 1235, 16909060 is hex 01020304, and 300 is hex 12C.
#[test]
fn the_plain_bytes_are_as_written_by_hand() {
    let written = [
        "plain 200 4661 16909060 1 00c812350102030401475244",
        "plain 7 1 300 2 000700010000012c02475244",
    ];
    assert_eq!(lines_of("plain"), written);
}

#[test]
fn the_plain_bytes_are_read_again() {
    for line in fields_of("plain") {
        let read = Grant::from_plain_bytes(&bytes(&line[5])).expect("a grant");
        let said = format!(
            "plain {} {} {} {} {}",
            read.contractor, read.count, read.block, read.right, line[5]
        );
        assert_eq!(line.join(" "), said);
    }
}

/// Right 1 is reading, right 2 is overwriting, and 0 and 3 are none. Overwriting
/// covers both rights, reading covers itself, and there are no other cases.
#[test]
fn what_a_right_covers_is_as_written_by_hand() {
    let written = [
        "covers 0 0 0",
        "covers 0 1 0",
        "covers 0 2 0",
        "covers 0 3 0",
        "covers 1 0 0",
        "covers 1 1 1",
        "covers 1 2 0",
        "covers 1 3 0",
        "covers 2 0 0",
        "covers 2 1 1",
        "covers 2 2 1",
        "covers 2 3 0",
        "covers 3 0 0",
        "covers 3 1 0",
        "covers 3 2 0",
        "covers 3 3 0",
    ];
    assert_eq!(lines_of("covers"), written);
}

/// The figure 2 means overwriting, and 0, 1, 3 and 255 mean reading.
#[test]
fn what_is_not_above_the_highest_is_as_written_by_hand() {
    let written = [
        "highest 0 1 1",
        "highest 0 2 0",
        "highest 1 1 1",
        "highest 1 2 0",
        "highest 2 1 1",
        "highest 2 2 1",
        "highest 3 1 1",
        "highest 3 2 0",
        "highest 255 1 1",
        "highest 255 2 0",
    ];
    assert_eq!(lines_of("highest"), written);
}

/// An issue to a contractor in standing, by the long key with the most rounds, is refused
/// just where `highest` says so, and then with 25.
#[test]
fn what_is_not_above_the_highest_shows_in_an_issue() {
    let key = bytes(KEYS[2]);
    for line in fields_of("highest") {
        let [figure, asked] = [1, 2].map(|k| number(&line[k]) as u8);
        let roll = Roll::with_entries([1; 200], [figure; 200]);
        let issued = roll.issue(&key, 23, 200, 1, asked).map(|_| ());
        let said = match line[3].as_str() {
            "1" => Ok(()),
            _ => Err(Refusal::AboveHighest),
        };
        assert_eq!(issued, said);
    }
}

/// Contractor 7, count 1 and size block 300, which is hex 12C, are in all grants.
/// README.md prints these lines.
#[test]
fn the_judgements_are_as_written_by_hand() {
    let written = [
        "judged 000700010000012c02475244 1 2 300 1 0 7 1",
        "judged 000700010000012c02475244 1 2 300 2 0 7 2",
        "judged 000700010000012c01475244 1 2 300 1 0 7 1",
        "judged 000700010000012c01475244 1 2 300 2 10 0 0",
        "judged 000700010000012c02475244 1 2 301 1 9 0 0",
        "judged 000700010000012c02475244 2 2 300 1 20 0 0",
        "judged 000700010000012c02475244 3 2 300 1 23 0 0",
        "judged 000700010000012c03475244 1 2 300 1 8 0 0",
        "judged 000700010000012c03475244 1 2 300 2 8 0 0",
        "judged 000700010000012c00475244 1 2 300 1 8 0 0",
        "judged 000700010000012c02475244 1 0 300 2 25 0 0",
        "judged 000700010000012c02475244 1 1 300 2 25 0 0",
        "judged 000700010000012c02475244 1 3 300 2 25 0 0",
        "judged 000700010000012c02475244 1 255 300 2 25 0 0",
        "judged 000700010000012c02475244 1 0 300 1 0 7 1",
        "judged 000700010000012c02475244 1 1 300 1 0 7 1",
        "judged 000700010000012c02475244 1 255 300 1 0 7 1",
        "judged 000700010000012c01475244 1 1 300 2 10 0 0",
        "judged 000700010000012c02475244 3 1 300 2 23 0 0",
        "judged 000700010000012c02475244 2 1 300 2 20 0 0",
    ];
    assert_eq!(lines_of("judged"), written);
    let readme = include_str!("../README.md");
    assert!(readme.contains(&format!("    {}\n", written.join("\n    "))));
}

/// A judgement does not hang on the key: the long key with the most rounds, and a
/// roll in which everyone has the count and the figure, give the same fields.
#[test]
fn the_judgements_are_the_same_under_another_key() {
    let key = bytes(KEYS[2]);
    for line in fields_of("judged") {
        let count = line[2].parse().expect("a count");
        let figure = line[3].parse().expect("a figure");
        let block = line[4].parse().expect("a size block");
        let right = line[5].parse().expect("a right");
        let grant = encrypt(&key, 23, &bytes(&line[1])).expect("12 bytes");
        let roll = Roll::with_entries([count; 200], [figure; 200]);
        let said = match roll.check(&key, 23, &grant, block, right) {
            Ok(accepted) => format!("0 {} {}", accepted.contractor, accepted.right),
            Err(refusal) => format!("{} 0 0", refusal.number()),
        };
        assert_eq!(line[6..].join(" "), said);
    }
}

/// Where only the rights matter, because the count and the size block are those of
/// the grant, `judged` accepts just what both `covers` and `highest` say. Every figure
/// there is one of `highest`.
#[test]
fn the_judgements_agree_with_what_the_rights_cover_and_the_highest_right() {
    let (covers, highest) = (lines_of("covers"), lines_of("highest"));
    let judged = fields_of("judged");
    let by_rights = judged
        .iter()
        .filter(|line| (line[2].as_str(), line[4].as_str()) == ("1", "300"));
    let mut compared = 0;
    for line in by_rights {
        let granted = bytes(&line[1])[8];
        let covered = covers.contains(&format!("covers {} {} 1", granted, line[5]));
        let not_above = highest.contains(&format!("highest {} {} 1", line[3], line[5]));
        assert_eq!(line[6] == "0", covered && not_above, "{:?}", line);
        compared += 1;
    }
    assert_eq!(compared, 15);
}

#[test]
fn the_walks_are_as_counted_by_hand() {
    let counted = [
        "walk 12 0 0 0 forward",
        "walk 12 0 6 6 forward",
        "walk 12 0 7 5 back",
        "walk 12 11 0 1 forward",
        "walk 12 0 11 1 back",
        "walk 18 0 9 9 forward",
        "walk 18 0 10 8 back",
        "walk 24 0 12 12 forward",
        "walk 24 0 13 11 back",
        "walk 24 23 1 2 forward",
        "walk 24 1 23 2 back",
    ];
    assert_eq!(lines_of("walk"), counted);
}

/// The place after single steps one way, going round at the ends.
fn place_after(turn: usize, from: usize, steps: usize, way: &str) -> usize {
    let mut place = from;
    for _ in 0..steps {
        place = match way {
            "forward" if place == turn - 1 => 0,
            "forward" => place + 1,
            "back" if place == 0 => turn - 1,
            "back" => place - 1,
            other => panic!("{} is no way", other),
        };
    }
    place
}

/// No walk is longer than half a turn, and one of half a turn goes forward.
#[test]
fn the_walks_arrive_by_the_shorter_way() {
    for line in fields_of("walk") {
        let [turn, from, to, steps] = [1, 2, 3, 4].map(|k| number(&line[k]));
        assert_eq!(place_after(turn, from, steps, &line[5]), to);
        assert!(2 * steps < turn || (2 * steps == turn && line[5] == "forward"));
        assert!(steps > 0 || line[5] == "forward");
    }
}

/// The lent holders of a key: its length and the number of the stage, two digits
/// each; the key, or the stage that a line `stage` has; zeros up to 52 digits.
#[test]
fn the_lent_holders_have_the_keys_and_the_stages() {
    let stages = fields_of("stage");
    let mut written = Vec::new();
    for (k, key) in KEYS.iter().enumerate() {
        let length = ["0c", "12", "18"][k];
        let (last, last_digits) = [("11", "0b"), ("17", "11"), ("23", "17")][k];
        let parts = [
            ("0", "00", *key),
            ("1", "01", &stages[3 * k][3]),
            (last, last_digits, &stages[3 * k + 2][3]),
        ];
        let zeros = "00".repeat(12 - 6 * k);
        for (s, digits, stage) in parts {
            let lent = [length, digits, stage, &zeros].concat();
            assert_eq!(lent.len(), 52);
            written.push(format!("lent {} {} {}", key, s, lent));
        }
    }
    assert_eq!(lines_of("lent"), written);
}

/// The lines that README.md prints.
#[test]
fn the_lent_holders_start_as_documented() {
    let documented = [
        "lent 0f1e2d3c4b5a69788796a5b4 0 0c000f1e2d3c4b5a69788796a5b4000000000000000000000000",
        "lent 0f1e2d3c4b5a69788796a5b4 1 0c01c33dc23e2e7b71926d52ae37000000000000000000000000",
        "lent 0f1e2d3c4b5a69788796a5b4 11 0c0b6bfc82f133a1b5136d5e0b55000000000000000000000000",
    ];
    assert_eq!(lines_of("lent")[..3], documented);
    let readme = include_str!("../README.md");
    assert!(readme.contains(&format!("    {}\n", documented.join("\n    "))));
}

/// The same bytes by the calls: made from the key, then walked to the stage.
#[test]
fn the_lent_holders_are_those_that_are_made_and_walked() {
    for line in fields_of("lent") {
        let mut lent = [0xFF; 26];
        assert_eq!(make(&bytes(&line[1]), &mut lent), 0);
        assert!(walk_to(number(&line[2]), &mut lent) >= 1_000);
        assert_eq!(hex(&lent), line[3]);
    }
}

#[test]
fn the_answers_of_walks_are_as_counted_by_hand() {
    let counted = [
        "walked 12 0 0 1000",
        "walked 12 0 6 1006",
        "walked 12 0 7 2005",
        "walked 12 11 0 1001",
        "walked 12 0 11 2001",
        "walked 18 0 9 1009",
        "walked 18 0 10 2008",
        "walked 24 0 12 1012",
        "walked 24 0 13 2011",
        "walked 24 23 1 1002",
        "walked 24 1 23 2002",
        "walked 12 0 12 5",
        "walked 18 0 18 5",
        "walked 24 0 24 5",
    ];
    assert_eq!(lines_of("walked"), counted);
}

#[test]
fn the_answers_of_walks_say_what_the_walks_report() {
    let answered = fields_of("walked");
    let reported = fields_of("walk");
    for (answer, report) in answered.iter().zip(&reported) {
        assert_eq!(answer[1..4], report[1..4]);
        let way = if report[5] == "forward" { 1_000 } else { 2_000 };
        assert_eq!(number(&answer[4]), way + number(&report[4]));
    }
    for refused in &answered[reported.len()..] {
        assert_eq!(refused[1], refused[3]);
    }
}

/// The whole holders are those of the lines `lent` at the last stages. The others
/// are without the last byte, with one more, and empty; then come key length 13,
/// stage number 12, and byte 14 or 20 changed to 1.
#[test]
fn the_broken_holders_are_as_written_by_hand() {
    let lent = fields_of("lent");
    let [short, middle, long] = [2, 5, 8].map(|line| lent[line][3].as_str());
    let written = [
        format!("broken {} 24", &short[..50]),
        format!("broken {}00 24", short),
        String::from("broken - 24"),
        format!("broken 0d0b{} 24", &short[4..]),
        format!("broken 0c0c{} 24", &short[4..]),
        format!("broken {}01{} 24", &short[..28], &short[30..]),
        format!("broken {}01{} 24", &middle[..40], &middle[42..]),
        format!("broken {} 0", short),
        format!("broken {} 0", middle),
        format!("broken {} 0", long),
    ];
    assert_eq!(lines_of("broken"), written);
}

/// All calls on a lent holder agree on which bytes are a whole one. From the last
/// stage a step forward comes to the key.
#[test]
fn the_broken_holders_are_refused_by_every_call() {
    for line in fields_of("broken") {
        let lent = if line[1] == "-" {
            Vec::new()
        } else {
            bytes(&line[1])
        };
        let whole = line[2] == "0";
        let mut stepped = lent.clone();
        assert_eq!(forward(&mut stepped).to_string(), line[2]);
        assert_eq!(back(&mut stepped).to_string(), line[2]);
        assert_eq!(stepped, lent);
        assert_eq!(subkey(&lent, &mut [0; 12]).to_string(), line[2]);
        let answer = walk_to(0, &mut stepped);
        assert_eq!(answer, if whole { 1_001 } else { 24 });
        if whole {
            let key = &stepped[2..2 + usize::from(lent[0])];
            assert!(KEYS.contains(&hex(key).as_str()));
        }
    }
}

#[test]
fn the_standings_are_as_worked_out_by_hand() {
    let written = [
        "standing 0 no",
        "standing 1 yes",
        "standing 2 no",
        "standing 65532 no",
        "standing 65533 yes",
        "standing 65534 no",
        "standing 65535 no",
    ];
    assert_eq!(lines_of("standing"), written);
}

/// A contractor can be withdrawn and the right be changed only if in standing, and is
/// refused for being in standing only when entered.
#[test]
fn the_standings_show_in_the_calls_of_the_roll() {
    for line in fields_of("standing") {
        let count = line[1].parse().expect("a count");
        let roll = Roll::with_entries([count; 200], [1; 200]);
        let entered = roll.clone().enter(7, 2);
        assert_eq!(entered == Err(Refusal::InStanding), line[2] == "yes");
        assert_eq!(roll.clone().withdraw(7).is_ok(), line[2] == "yes");
        assert_eq!(roll.clone().change_right(7, 2).is_ok(), line[2] == "yes");
    }
}

/// The fields of the lines `changed`: the call, the contractor, the right that is given;
/// the count and the figure before; the number; the count and the figure after. README.md
/// prints these lines.
#[test]
fn the_changes_are_as_worked_out_by_hand() {
    let written = [
        "changed enter 7 1 0 1 0 1 1",
        "changed enter 7 2 0 1 0 1 2",
        "changed enter 7 1 2 255 0 3 1",
        "changed enter 7 2 2 255 0 3 2",
        "changed enter 7 0 2 255 7 2 255",
        "changed enter 7 3 2 255 7 2 255",
        "changed enter 7 2 1 255 21 1 255",
        "changed enter 7 2 65534 3 22 65534 3",
        "changed enter 7 2 65535 3 22 65535 3",
        "changed right 200 1 1 1 0 1 1",
        "changed right 200 2 1 1 0 1 2",
        "changed right 200 1 1 2 0 1 1",
        "changed right 200 2 1 2 0 1 2",
        "changed right 200 1 1 255 0 1 1",
        "changed right 200 2 1 255 0 1 2",
        "changed right 200 2 65533 1 0 65533 2",
        "changed right 200 0 1 3 7 1 3",
        "changed right 200 3 1 2 7 1 2",
        "changed right 200 2 0 3 20 0 3",
        "changed right 200 2 2 3 20 2 3",
        "changed right 200 2 65535 3 20 65535 3",
        "changed withdraw 1 - 1 2 0 2 1",
        "changed withdraw 1 - 1 255 0 2 1",
        "changed withdraw 1 - 65533 2 0 65534 1",
        "changed withdraw 1 - 2 2 20 2 2",
    ];
    assert_eq!(lines_of("changed"), written);
    let readme = include_str!("../README.md");
    assert!(readme.contains(&format!("    {}\n\n", written.join("\n    "))));
}

/// The calls are made on a roll that is read from bytes. No other byte of it changes. The
/// right `-` of a withdrawal becomes a number that is not looked at.
#[test]
fn the_changes_are_those_of_the_bytes_of_a_roll() {
    for line in fields_of("changed") {
        let c = number(&line[2]);
        let right = line[3].parse().unwrap_or(0);
        let mut in_bytes = [vec![0; 400], vec![1; 200]].concat();
        let mut put = |count: &str, figure: &str| {
            in_bytes[2 * (c - 1)] = (number(count) / 256) as u8;
            in_bytes[2 * (c - 1) + 1] = (number(count) % 256) as u8;
            in_bytes[400 + c - 1] = number(figure) as u8;
            in_bytes.clone()
        };
        let before = put(&line[4], &line[5]);
        let after = put(&line[7], &line[8]);
        let mut roll = Roll::from_bytes(&before).expect("600 bytes");
        let made = match line[1].as_str() {
            "enter" => roll.enter(c as u16, right),
            "right" => roll.change_right(c as u16, right),
            _ => roll.withdraw(c as u16),
        };
        let said = made.map_or_else(|refusal| refusal.number(), |_| 0);
        assert_eq!(
            (said.to_string(), roll.to_bytes()),
            (line[6].clone(), after)
        );
    }
}

/// 64 grants of 12 bytes are 768 bytes, 63 are 756, and 65 are 780.
#[test]
fn the_lengths_of_a_queue_are_as_counted_by_hand() {
    let written = [
        "queued 0 yes",
        "queued 1 no",
        "queued 11 no",
        "queued 12 yes",
        "queued 13 no",
        "queued 24 yes",
        "queued 756 yes",
        "queued 767 no",
        "queued 768 yes",
        "queued 769 no",
        "queued 780 no",
    ];
    assert_eq!(lines_of("queued"), written);
}

#[test]
fn the_lengths_of_a_queue_show_in_the_call() {
    let key = bytes(KEYS[0]);
    for line in fields_of("queued") {
        let grants = vec![0; number(&line[1])];
        let called = Roll::new().check_queue(&key, 10, &grants, 300, 1, &mut [0; 65]);
        let said = match line[2].as_str() {
            "yes" => Ok(()),
            _ => Err(Refusal::GrantLength),
        };
        assert_eq!(called, said, "{} bytes", line[1]);
    }
}

/// The answers of the queue, if 2 and if 1 is asked for.
#[test]
fn the_answers_of_the_queue_are_as_worked_out_by_hand() {
    let lines = fields_of("queue");
    assert_eq!(lines.len(), 2);
    for (k, right) in ["2", "1"].iter().enumerate() {
        let line = &lines[k];
        assert_eq!(line[1..5], [KEYS[0], "10", "1,2,3", "2,1,255"]);
        assert_eq!(line[5], lines[0][5]);
        assert_eq!(line[6..8], ["300", *right]);
        let answers: Vec<&str> = QUEUE.iter().map(|(_, answers)| answers[k]).collect();
        assert_eq!(line[8..], answers);
    }
}

#[test]
fn the_queue_is_that_of_the_readme() {
    let rows: Vec<String> = QUEUE
        .iter()
        .map(|(plain, [first, second])| format!("| {} | {} | {} |", plain, first, second))
        .collect();
    let readme = include_str!("../README.md");
    assert!(readme.contains(&format!("|\n{}\n\n", rows.join("\n"))));
}

/// The grants of the queue, deciphered by the decryption keys of the line `turned`.
#[test]
fn the_grants_of_the_queue_decipher_to_the_plain_bytes() {
    let turned = states(&fields_of("turned")[0][3]);
    let plain: Vec<String> = states(&fields_of("queue")[0][5])
        .iter()
        .map(|grant| encrypt_with(&turned, grant).expect("there are subkeys"))
        .map(|state| hex(&state.to_bytes()))
        .collect();
    let written = QUEUE.map(|(digits, _)| digits);
    assert_eq!(plain, written);
}

/// The roll of a line `queue`: the counts of its fourth field and the figures of its
/// fifth, and count 0 and figure 1 for all later contractors.
fn queue_roll(line: &[String]) -> Roll {
    let (mut counts, mut figures) = ([0; 200], [1; 200]);
    for (place, count) in line[3].split(',').enumerate() {
        counts[place] = count.parse().expect("a count");
    }
    for (place, figure) in line[4].split(',').enumerate() {
        figures[place] = figure.parse().expect("a figure");
    }
    Roll::with_entries(counts, figures)
}

#[test]
fn the_answers_of_the_queue_are_those_of_single_checks() {
    for line in fields_of("queue") {
        let roll = queue_roll(&line);
        let grants = bytes(&line[5]);
        let [block, right] = [6, 7].map(|k| number(&line[k]));
        assert_eq!(grants.len(), 12 * line[8..].len());
        for (grant, answer) in grants.chunks(12).zip(&line[8..]) {
            let key = bytes(&line[1]);
            let checked = roll.check(&key, 10, grant, block as u32, right as u8);
            let said = checked.map_or_else(|refusal| refusal.number(), |_| 0);
            assert_eq!(said.to_string(), *answer);
        }
    }
}

/// The answers do not hang on the key: the long key with the most rounds gives the same
/// for the same plain bytes.
#[test]
fn the_answers_of_the_queue_are_the_same_under_another_key() {
    let key = bytes(KEYS[2]);
    let grants: Vec<u8> = QUEUE
        .iter()
        .flat_map(|(plain, _)| encrypt(&key, 23, &bytes(plain)).expect("12 bytes"))
        .collect();
    for line in fields_of("queue") {
        let right = number(&line[7]) as u8;
        let mut answers = [0xFF; 5];
        let called = queue_roll(&line).check_queue(&key, 23, &grants, 300, right, &mut answers);
        assert_eq!(called, Ok(()));
        assert_eq!(answers.map(|answer| answer.to_string()), line[8..]);
    }
}

/// The lines `order`: the call, the two reasons, and the one that is given.
const ORDERS: [&str; 36] = [
    "order enter 6 7 6",
    "order enter 7 21 7",
    "order enter 7 22 7",
    "order right 6 7 6",
    "order right 7 20 7",
    "order withdraw 6 20 6",
    "order issue 1 2 1",
    "order issue 2 6 2",
    "order issue 6 7 6",
    "order issue 7 14 7",
    "order issue 14 20 14",
    "order issue 20 25 20",
    "order check 1 2 1",
    "order check 2 3 2",
    "order check 3 7 3",
    "order check 7 14 7",
    "order check 14 8 14",
    "order check 8 9 8",
    "order check 9 10 9",
    "order check 10 20 10",
    "order check 20 23 20",
    "order check 23 25 23",
    "order queue 1 2 1",
    "order queue 2 3 2",
    "order queue 3 4 3",
    "order queue 4 7 4",
    "order queue 7 14 7",
    "order seal 1 2 1",
    "order seal 2 4 2",
    "order seal 4 14 4",
    "order seal 14 12 14",
    "order open 1 2 1",
    "order open 2 4 2",
    "order open 4 11 4",
    "order open 11 13 11",
    "order open 13 11 13",
];

#[test]
fn the_orders_are_as_written_by_hand() {
    assert_eq!(lines_of("order"), ORDERS);
}

/// That both reasons of a pair hold: with nothing wrong the call is not refused, and
/// what makes one reason hold is enough to have it refused with this reason.
fn check_reasons(order: &[u8], call_with: fn(&[u8]) -> String) {
    assert_eq!(call_with(&[]), "0");
    for reason in order {
        assert_eq!(call_with(&[*reason]), reason.to_string());
    }
    for pair in order.windows(2) {
        assert_eq!(call_with(pair), pair[0].to_string());
    }
}

#[test]
fn each_reason_of_a_pair_holds_by_itself() {
    check_reasons(&[6, 7, 21], enter_with);
    check_reasons(&[6, 7, 22], enter_with);
    check_reasons(&[6, 7, 20], change_with);
    check_reasons(&[6, 20], withdraw_with);
    check_reasons(&[1, 2, 6, 7, 14, 20, 25], issue_with);
    check_reasons(&[1, 2, 3, 7, 14, 8, 9, 10, 20, 23, 25], check_with);
    check_reasons(&[1, 2, 3, 4, 7, 14], queue_with);
    check_reasons(&[1, 2, 4, 14, 12], seal_with);
    check_reasons(&[1, 2, 4, 11, 13], open_with);
}

/// Why there is no line `order enter 21 22`: no count is both one in standing and one that
/// is full.
#[test]
fn the_reasons_21_and_22_for_enter_do_not_hold_together() {
    for count in 0..=65_535 {
        assert!(!in_standing(count) || count < 65_534);
    }
    for full in [65_534, 65_535] {
        let mut roll = Roll::with_entries([full; 200], [2; 200]);
        assert_eq!(roll.enter(7, 2), Err(Refusal::Full));
        assert_eq!(roll.withdraw(7), Err(Refusal::NotInStanding));
    }
}

/// The page of the line for 13 and 11: size block 300 is hex 12C, page number 7, 17 used
/// bytes, and a 1 after them. With a right check it is refused with 11, with a wrong one
/// with 13, so that both reasons hold in that line.
#[test]
fn the_last_reason_for_opening_holds_by_itself() {
    let mut plain = [0; 504];
    plain[..8].copy_from_slice(&[0, 0, 0x01, 0x2C, 0, 7, 0, 17]);
    for (i, byte) in plain[12..29].iter_mut().enumerate() {
        *byte = 7 * i as u8 + 1;
    }
    plain[29] = 1;
    let [first, second] = [KEYS[0], "0f1e2d3c4b5a69788796a5b5"].map(bytes);
    let mut page = page_under(&first, &second, 10, &plain).expect("two keys");
    for number in [11, 13] {
        let opened = open(&first, &second, 10, &page, &mut [0; 576], &mut [0; 492]);
        assert_eq!(opened.map_err(|refusal| refusal.number()), Err(number));
        page[511] ^= 1;
    }
    assert_eq!(open_with(&[13, 11]), "13");
}

/// 01 xor 00 is 01, 02 xor 11 is 13, 03 xor 22 is 21, and so on: that is enciphered first.
/// The turned list deciphers, so it comes to the sums.
#[test]
fn the_chain_deciphers_to_sums() {
    let line = &fields_of("chain")[0];
    let start = "00112233445566778899aabb";
    let blocks = "0102030405060708090a0b0c0c0b0a090807060504030201";
    assert_eq!(line[..5], ["chain", KEYS[0], "10", start, blocks]);
    let turned = states(&fields_of("turned")[0][3]);
    let [first, second]: [State; 2] = states(&line[5]).try_into().expect("two blocks");
    let sum = encrypt_with(&turned, &first).expect("there are subkeys");
    assert_eq!(hex(&sum.to_bytes()), "011321374153617f8193a1b7");
    let sum = encrypt_with(&turned, &second).expect("there are subkeys");
    assert_eq!(hex(&sum.plus(&first).to_bytes()), blocks[24..]);
}

#[test]
fn the_pairs_of_keys_are_as_judged_by_hand() {
    let [short, middle, _] = KEYS;
    let written = [
        format!("pair {} {} no", short, short),
        format!("pair {} 0f1e2d3c4b5a69788796a5b5 yes", short),
        format!("pair {} 1f1e2d3c4b5a69788796a5b4 yes", short),
        format!("pair {} {}00 no", short, short),
        format!("pair {} {} no", short, middle),
        format!("pair {} {} no", middle, short),
        format!("pair {} 0f1e2d3c4b5a69788796a5b4c3d2e1f00113 yes", middle),
        format!("pair {}00 {}01 no", short, short),
        String::from("pair - - no"),
    ];
    assert_eq!(lines_of("pair"), written);
}

/// The least number of rounds for the length of the first key, which is refused with 1 if
/// the pair is. A page of no bytes is refused with 11 if the pair is not.
#[test]
fn the_pairs_of_keys_show_in_the_calls() {
    for line in fields_of("pair") {
        let [first, second] = [1, 2].map(|k| match line[k].as_str() {
            "-" => Vec::new(),
            digits => bytes(digits),
        });
        let rounds = if first.len() == 18 { 14 } else { 10 };
        let (mut scratch, mut out) = ([0; 576], [0; 512]);
        let sealed = seal(&first, &second, rounds, 1, 2, &[3], &mut scratch, &mut out);
        let opened = open(&first, &second, rounds, &[], &mut scratch, &mut out);
        let numbers = [
            sealed.map_or_else(|refusal| refusal.number(), |_| 0),
            opened.map_or_else(|refusal| refusal.number(), |_| 0),
        ];
        let good = line[3] == "yes";
        assert_eq!(numbers, if good { [0, 11] } else { [1, 1] });
    }
}

/// 492 is the greatest used count, and only bytes 8 to 11 have to be zero.
#[test]
fn the_forms_are_as_judged_by_hand() {
    let written = [
        "form 512 0 0 0 yes",
        "form 511 0 0 0 no",
        "form 513 0 0 0 no",
        "form 0 0 0 0 no",
        "form 512 1 0 0 yes",
        "form 512 492 0 0 yes",
        "form 512 493 0 0 no",
        "form 512 256 0 0 yes",
        "form 512 65535 0 0 no",
        "form 512 0 8 1 no",
        "form 512 0 9 1 no",
        "form 512 0 10 1 no",
        "form 512 0 11 128 no",
        "form 512 0 12 1 yes",
        "form 512 0 5 1 yes",
        "form 512 0 511 1 yes",
    ];
    assert_eq!(lines_of("form"), written);
}

/// Such bytes have no right check. If they have the form of a page, opening comes as far
/// as that.
#[test]
fn the_forms_show_in_the_call() {
    let [first, second] = [KEYS[0], "0f1e2d3c4b5a69788796a5b5"].map(bytes);
    for line in fields_of("form") {
        let [length, count, index, value] = [1, 2, 3, 4].map(|k| number(&line[k]));
        let mut page = vec![0; length];
        if length > 0 {
            page[6] = (count / 256) as u8;
            page[7] = (count % 256) as u8;
            page[index] = value as u8;
        }
        let opened = open(&first, &second, 10, &page, &mut [0; 576], &mut [0; 492]);
        let number = if line[5] == "yes" { 13 } else { 11 };
        assert_eq!(opened.map_err(|refusal| refusal.number()), Err(number));
    }
}

/// The constants of the toys in the places of the first and of the second key.
const TOYS: [&str; 2] = ["a0a1a2a3a4a5a6a7a8a9aaab", "5f4e3d2c1b0a998877665544"];

/// The fields of a line about the page that is altered, up to the used count.
const TOY_PAGE: &str = "a0a1a2a3a4a5a6a7a8a9aaab 5f4e3d2c1b0a998877665544 16909060 1286";

/// The layer pi on the bytes of a block (section 3.2): byte k becomes byte PI[k]. In row 1
/// columns 0 and 1 and columns 2 and 3 change places, in row 2 columns 0 and 2 and columns
/// 1 and 3. So it is undone by itself.
const PI: [usize; 12] = [0, 4, 8, 3, 1, 11, 6, 10, 2, 9, 7, 5];

/// A block after pi was applied so many times.
fn moved(block: &[u8], times: usize) -> Vec<u8> {
    if times % 2 == 0 {
        block.to_vec()
    } else {
        PI.map(|k| block[k]).to_vec()
    }
}

/// Adds a block to another.
fn add_to(sum: &mut [u8], block: &[u8]) {
    for (byte, other) in sum.iter_mut().zip(block) {
        *byte ^= other;
    }
}

/// Block n of a chain with a toy from zero, in closed form. Block i went through pi n - i + 1
/// times. The constant that was added after block i went through pi n - i times.
fn toy_chained(constant: &str, bytes_before: &[u8], n: usize) -> Vec<u8> {
    let constant = bytes(constant);
    let mut sum = vec![0; 12];
    for (i, block) in bytes_before.chunks(12).take(n + 1).enumerate() {
        add_to(&mut sum, &moved(block, n - i + 1));
        add_to(&mut sum, &moved(&constant, n - i));
    }
    sum
}

/// The page of plain bytes with the toys. Chained from zero, header and payload together
/// give the blocks of the payload, because the header enciphered is the first block then.
fn toy_page(plain: &[u8]) -> Vec<u8> {
    let mut page = plain[..12].to_vec();
    for n in 1..42 {
        page.extend(toy_chained(TOYS[0], plain, n));
    }
    let last = toy_chained(TOYS[1], &page, 41);
    page.extend(&last[..8]);
    page
}

/// The plain bytes of a page with these numbers in decimal. Byte i of the payload is 7i + 1.
fn toy_plain(size_block: &str, page_number: &str, used: &str) -> Vec<u8> {
    let numbers = [size_block, page_number, used].map(number);
    let digits = format!("{:08x}{:04x}{:04x}", numbers[0], numbers[1], numbers[2]);
    let mut plain = bytes(&digits);
    plain.resize(12, 0);
    plain.extend((0..numbers[2]).map(|i| (7 * i + 1) as u8));
    plain.resize(504, 0);
    plain
}

/// What opening with the toys answers for a page of 512 bytes.
fn toy_answer(page: &[u8]) -> usize {
    let used = 256 * usize::from(page[6]) + usize::from(page[7]);
    if used > 492 || page[8..12] != [0; 4] {
        return 11;
    }
    if toy_chained(TOYS[1], page, 41)[..8] != page[504..] {
        return 13;
    }
    // Before block n of the payload there is block n - 1, and before block 0 the header,
    // which has to be enciphered first.
    let mut previous = toy_chained(TOYS[0], page, 0);
    let mut payload = Vec::new();
    for block in page[12..504].chunks(12) {
        let mut sum = block.to_vec();
        add_to(&mut sum, &bytes(TOYS[0]));
        let mut plain = moved(&sum, 1);
        add_to(&mut plain, &previous);
        payload.extend(plain);
        previous = block.to_vec();
    }
    if payload[used..].iter().all(|byte| *byte == 0) {
        0
    } else {
        11
    }
}

/// Page 0 of size block 0 without a used byte. Let P be pi(A), where A is the constant in
/// the place of the first key. The header enciphered is A. The stored blocks of the payload
/// are A + P, P, 0, A, and these again and again, so that the last one, of 41, is A + P. In
/// the sum for the check, of the blocks that go through pi an even number of times P and A
/// are there 10 times each; of the others A + P is there 11 times, and pi leaves that as it
/// is. The constant B went through pi 0, 1, ..., 41 times, so the last block is
/// A + P + B + pi(B).
#[test]
fn an_empty_page_with_toys_is_as_derived_by_hand() {
    let [constant, check_constant] = TOYS.map(bytes);
    let p = "a0a4a8a3a1aba6aaa2a9a7a5";
    assert_eq!(hex(&moved(&constant, 1)), p);
    let a_and_p = "00050a00050e000d0a000d0e";
    let b_and_pi_b = "00554a00554e00dd4a00dd4e";
    let mut sum = moved(&check_constant, 1);
    add_to(&mut sum, &check_constant);
    assert_eq!(hex(&sum), b_and_pi_b);
    let check = "00504000504000d0";
    let start = ["00".repeat(12).as_str(), a_and_p, p].concat();
    let end = ["ab", a_and_p, check].concat();
    let toys = TOYS.join(" ");
    let line = format!("pagewith {} 0 0 0 {} {}", toys, start, end);
    assert_eq!(lines_of("pagewith")[1], line);
}

#[test]
fn the_pages_with_toys_are_those_of_the_closed_form() {
    let numbers = [
        ["16909060", "1286", "17"],
        ["0", "0", "0"],
        ["4294967295", "65535", "492"],
        ["258", "772", "12"],
        ["1", "1", "491"],
    ];
    let mut written = Vec::new();
    for [block, page_number, used] in numbers {
        let page = toy_page(&toy_plain(block, page_number, used));
        assert_eq!(toy_answer(&page), 0);
        let shown = [&page[..36], &page[491..]].map(hex).join(" ");
        let toys = TOYS.join(" ");
        let line = format!(
            "pagewith {} {} {} {} {}",
            toys, block, page_number, used, shown
        );
        written.push(line);
    }
    assert_eq!(lines_of("pagewith"), written);
}

/// Position, value and answer. The bytes of the page are 01 at 0, 04 at 3, 06 at 5 and 00 11,
/// which is 17, at 6. Count 273 is a good one, 529 is not. Byte 12 is 0, which is why it
/// becomes 1. Byte 35 is the last of its block, and so is what it becomes in the last block of
/// the check, where only the first 8 bytes count; it is an unused byte of the payload.
const ALTERED: [(usize, u8, usize); 14] = [
    (0, 1, 0),
    (0, 2, 13),
    (3, 5, 13),
    (5, 7, 13),
    (6, 1, 13),
    (6, 2, 11),
    (7, 16, 13),
    (8, 1, 11),
    (11, 255, 11),
    (12, 1, 13),
    (35, 0, 11),
    (503, 0, 13),
    (504, 0, 13),
    (511, 0, 13),
];

#[test]
fn the_altered_pages_are_answered_as_worked_out_by_hand() {
    let page = toy_page(&toy_plain("16909060", "1286", "17"));
    assert_eq!(page[..12], [1, 2, 3, 4, 5, 6, 0, 17, 0, 0, 0, 0]);
    assert_eq!(page[12], 0);
    let mut written = Vec::new();
    for (index, value, answer) in ALTERED {
        let mut altered = page.clone();
        altered[index] = value;
        assert_eq!(altered == page, answer == 0);
        assert_eq!(toy_answer(&altered), answer, "byte {}", index);
        let line = format!("altered {} 17 {} {} {}", TOY_PAGE, index, value, answer);
        written.push(line);
    }
    assert_eq!(lines_of("altered"), written);
}

/// Used count, position in the payload, value and answer. A page opens if the position is
/// below the used count or the value is zero.
const PADDED: [(usize, usize, u8, usize); 19] = [
    (17, 16, 0, 0),
    (17, 16, 1, 0),
    (17, 17, 0, 0),
    (17, 17, 1, 11),
    (17, 18, 128, 11),
    (17, 23, 1, 11),
    (17, 24, 1, 11),
    (17, 35, 255, 11),
    (17, 480, 1, 11),
    (17, 491, 1, 11),
    (492, 491, 0, 0),
    (0, 0, 0, 0),
    (0, 0, 1, 11),
    (0, 491, 1, 11),
    (12, 11, 0, 0),
    (12, 12, 1, 11),
    (480, 479, 0, 0),
    (480, 480, 1, 11),
    (480, 491, 1, 11),
];

#[test]
fn the_padded_pages_are_answered_as_worked_out_by_hand() {
    let mut written = Vec::new();
    for (used, index, value, answer) in PADDED {
        let mut plain = toy_plain("16909060", "1286", &used.to_string());
        plain[12 + index] = value;
        assert_eq!(toy_answer(&toy_page(&plain)), answer);
        assert_eq!(answer == 0, index < used || value == 0);
        let numbers = format!("{} {} {} {}", used, index, value, answer);
        written.push(format!("padded {} {}", TOY_PAGE, numbers));
    }
    assert_eq!(lines_of("padded"), written);
}

/// The answers to altered and to padded pages stand in README.md in tables of their own.
#[test]
fn the_answers_about_pages_are_those_of_the_readme() {
    let altered =
        ALTERED.map(|(index, value, answer)| format!("| {} | {} | {} |", index, value, answer));
    let padded = PADDED.map(|(used, index, value, answer)| {
        format!("| {} | {} | {} | {} |", used, index, value, answer)
    });
    let readme = include_str!("../README.md");
    assert!(readme.contains(&format!("|\n{}\n\n", altered.join("\n"))));
    assert!(readme.contains(&format!("|\n{}\n\n", padded.join("\n"))));
}

/// The lines `chain`, `form` and `order` for pages stand in README.md as they are printed,
/// and those of `pagewith` in a table without the constants.
#[test]
fn the_lines_about_pages_are_those_of_the_readme() {
    let readme = include_str!("../README.md");
    let orders = lines_of("order");
    for lines in [&lines_of("chain")[..], &lines_of("form"), &orders[27..]] {
        assert!(readme.contains(&format!("    {}\n\n", lines.join("\n    "))));
    }
    let rows: Vec<String> = fields_of("pagewith")
        .iter()
        .map(|line| format!("| {} |", line[3..].join(" | ")))
        .collect();
    assert!(readme.contains(&format!("|\n{}\n\n", rows.join("\n"))));
}

/// 256, 65536 and 16777216 are 1 followed by one, two and three zero bytes.
#[test]
fn the_calls_for_size_blocks_are_as_written_by_hand() {
    let blocks = ["0", "1", "256", "65536", "16777216", "4294967295"];
    let mut written = Vec::new();
    for call in ["issue", "check", "queue", "seal", "open"] {
        for block in blocks {
            let refused = block == "0" && call != "open";
            let number = if refused { "14" } else { "0" };
            written.push(format!("sized {} {} {}", call, block, number));
        }
    }
    assert_eq!(lines_of("sized"), written);
    let refused: Vec<&String> = written.iter().filter(|l| l.ends_with(" 14")).collect();
    let part: String = refused
        .iter()
        .map(|line| format!("    {}\n", line))
        .collect();
    assert_eq!(refused.len(), 4);
    assert!(include_str!("../README.md").contains(&format!("\n\n{}\n", part)));
}

/// The numbers of a call, by the long keys with the most rounds. Everyone has count 1 and
/// may overwrite. The grants and the page are made by the ways that are not refused.
#[test]
fn the_calls_for_size_blocks_are_the_same_under_other_keys() {
    let key = bytes(KEYS[2]);
    let second = vec![0xEE; 24];
    let roll = Roll::with_entries([1; 200], [2; 200]);
    for line in fields_of("sized") {
        let block: u32 = line[2].parse().expect("a size block");
        let digits = format!("00c80001{:08x}02475244", block);
        let grant = encrypt(&key, 23, &bytes(&digits)).expect("12 bytes");
        let mut answer = [0xFF];
        let (mut scratch, mut out) = ([0; 576], [0; 512]);
        let mut plain = [0; 504];
        plain[..4].copy_from_slice(&block.to_be_bytes());
        let page = page_under(&key, &second, 23, &plain).expect("two keys");
        let refusal = match line[1].as_str() {
            "issue" => said(roll.issue(&key, 23, 200, block, 2)),
            "check" => said(roll.check(&key, 23, &grant, block, 2)),
            "queue" => said(roll.check_queue(&key, 23, &grant, block, 2, &mut answer)),
            "seal" => seal(&key, &second, 23, block, 0, &[], &mut scratch, &mut out)
                .map_or_else(|refusal| refusal.number(), |_| 0),
            _ => open(&key, &second, 23, &page, &mut scratch, &mut out)
                .map_or_else(|refusal| refusal.number(), |_| 0),
        };
        assert_eq!(refusal.to_string(), line[3], "{:?}", line);
        let answered = line[1] == "queue" && block != 0;
        assert_eq!(answer, if answered { [0] } else { [0xFF] });
    }
}

/// The number of a call on a roll.
fn said<T>(called: Result<T, Refusal>) -> u8 {
    called.map_or_else(|refusal| refusal.number(), |_| 0)
}

/// The orders are those of README.md. For a queue, the reasons of its grants are tried
/// after those of the whole call.
#[test]
fn the_reasons_with_14_are_as_written_by_hand() {
    let orders: [(&str, &[u8]); 4] = [
        ("issue", &[1, 2, 6, 7, 14, 20, 25]),
        ("check", &[1, 2, 3, 7, 14, 8, 9, 10, 20, 23, 25]),
        ("queue", &[1, 2, 3, 4, 7, 14, 8, 9, 10, 20, 23, 25]),
        ("seal", &[1, 2, 4, 14, 12]),
    ];
    let mut written = Vec::new();
    for (call, order) in orders {
        let place = order.iter().position(|reason| *reason == 14);
        let (before, after) = order.split_at(place.expect("14 is there"));
        for first in before {
            written.push(format!("both {} {} 14 {}", call, first, first));
        }
        for later in &after[1..] {
            written.push(format!("both {} 14 {} 14", call, later));
        }
    }
    assert_eq!(lines_of("both"), written);
    let readme = include_str!("../README.md");
    assert!(readme.contains(&format!("\n\n    {}\n\n", written.join("\n    "))));
}

/// The other reason of each pair holds by itself. That 14 does is tested with the orders.
/// The reasons of the grants in a queue do not refuse it: then a check shows them.
#[test]
fn the_other_reason_of_a_pair_with_14_holds_by_itself() {
    for line in fields_of("both") {
        let other = if line[2] == "14" { &line[3] } else { &line[2] };
        let reasons = [number(other) as u8];
        let given = match line[1].as_str() {
            "issue" => issue_with(&reasons),
            "check" => check_with(&reasons),
            "queue" if line[2] != "14" => queue_with(&reasons),
            "queue" => {
                assert_eq!(queue_with(&reasons), "0");
                check_with(&reasons)
            }
            _ => seal_with(&reasons),
        };
        assert_eq!(given, *other, "{:?}", line);
    }
}

/// Contractor 7, count 1 and size block 0 are in all grants. README.md prints these lines.
#[test]
fn the_judgements_of_old_grants_are_as_written_by_hand() {
    let written = [
        "oldgrant 000700010000000002475244 1 2 0 2 14 0 0",
        "oldgrant 000700010000000002475244 1 2 0 1 14 0 0",
        "oldgrant 000700010000000001475244 1 2 0 1 14 0 0",
        "oldgrant 000700010000000001475244 1 2 0 2 14 0 0",
        "oldgrant 000700010000000002475244 1 2 1 2 9 0 0",
        "oldgrant 000700010000000002475244 1 2 256 2 9 0 0",
        "oldgrant 000700010000000002475244 1 2 65536 2 9 0 0",
        "oldgrant 000700010000000002475244 1 2 16777216 2 9 0 0",
        "oldgrant 000700010000000002475244 1 2 4294967295 2 9 0 0",
        "oldgrant 000700010000000002475244 1 2 300 2 9 0 0",
        "oldgrant 000700010000000002475244 1 2 300 1 9 0 0",
        "oldgrant 000700010000000001475244 1 2 300 1 9 0 0",
        "oldgrant 000700010000000001475244 1 2 300 2 9 0 0",
        "oldgrant 000700010000000002475244 2 2 0 2 14 0 0",
        "oldgrant 000700010000000002475244 2 2 300 2 9 0 0",
        "oldgrant 000700010000000002475244 3 2 0 2 14 0 0",
        "oldgrant 000700010000000002475244 3 2 300 2 9 0 0",
        "oldgrant 000700010000000002475244 1 1 0 2 14 0 0",
        "oldgrant 000700010000000002475244 1 1 300 2 9 0 0",
        "oldgrant 000700010000000003475244 1 2 0 2 14 0 0",
        "oldgrant 000700010000000003475244 1 2 300 2 8 0 0",
        "oldgrant 000700010000000002475244 1 2 0 3 7 0 0",
        "oldgrant 000700010000000002475244 1 2 300 3 7 0 0",
    ];
    assert_eq!(lines_of("oldgrant"), written);
    let readme = include_str!("../README.md");
    assert!(readme.contains(&format!("\n\n    {}\n\n", written.join("\n    "))));
}

/// Under the key of 18 bytes, by the way that is named for old grants.
#[test]
fn the_judgements_of_old_grants_are_the_same_under_another_key() {
    let key = bytes(KEYS[1]);
    for line in fields_of("oldgrant") {
        let granted = bytes(&line[1])[8];
        let [count, figure, block, asked] = [2, 3, 4, 5].map(|k| number(&line[k]));
        let grant = old_zero_grant(&key, 16, 7, 1, granted).expect("an allowed key");
        let plain = encrypt(&key, 16, &bytes(&line[1])).expect("12 bytes");
        assert_eq!(grant, plain);
        let roll = Roll::with_entries([count as u16; 200], [figure as u8; 200]);
        let checked = roll.check(&key, 16, &grant, block as u32, asked as u8);
        assert_eq!(format!("{} 0 0", said(checked)), line[6..].join(" "));
    }
}

/// The plain bytes of the grants in the queue with old ones. README.md prints them.
const OLD_QUEUE: [&str; 6] = [
    "000100010000000002475244",
    "000100010000012c02475244",
    "000100010000000001475244",
    "000200020000000002475244",
    "000100010000010002475244",
    "000300030000000002475244",
];

/// What the lines `oldqueue` have from the size block on. README.md prints them. The last
/// two are for no grants. Size block 256 is hex 100.
const OLD_QUEUE_ANSWERS: [&str; 9] = [
    "300 2 0 9 0 9 9 9 9",
    "300 1 0 9 0 9 9 9 9",
    "256 2 0 9 9 9 9 0 9",
    "1 2 0 9 9 9 9 9 9",
    "0 2 14 255 255 255 255 255 255",
    "0 1 14 255 255 255 255 255 255",
    "0 3 7 255 255 255 255 255 255",
    "300 2 0",
    "0 2 14",
];

#[test]
fn the_queues_with_old_grants_are_as_worked_out_by_hand() {
    let turned = states(&fields_of("turned")[0][3]);
    let lines = fields_of("oldqueue");
    assert_eq!(lines.len(), OLD_QUEUE_ANSWERS.len());
    for (k, line) in lines.iter().enumerate() {
        assert_eq!(line[1..5], [KEYS[0], "10", "1,2,3", "2,1,255"]);
        assert_eq!(line[6..].join(" "), OLD_QUEUE_ANSWERS[k]);
        if k >= 7 {
            assert_eq!(line[5], "-");
            continue;
        }
        let plain: Vec<String> = states(&line[5])
            .iter()
            .map(|grant| encrypt_with(&turned, grant).expect("there are subkeys"))
            .map(|state| hex(&state.to_bytes()))
            .collect();
        assert_eq!(plain, OLD_QUEUE);
    }
}

#[test]
fn the_queues_with_old_grants_are_those_of_the_readme() {
    let readme = include_str!("../README.md");
    let plain = OLD_QUEUE.map(|digits| format!("    {}\n", digits));
    assert!(readme.contains(&format!("\n\n{}\n", plain.concat())));
    let mut fields: Vec<String> = OLD_QUEUE_ANSWERS[..7]
        .iter()
        .map(|answers| format!("    ... {}\n", answers))
        .collect();
    let empty = OLD_QUEUE_ANSWERS[7..].iter();
    fields.extend(empty.map(|answers| format!("    - {}\n", answers)));
    assert!(readme.contains(&format!("\n\n{}\n", fields.concat())));
}

/// An answer that was written is the number of a check of the grant alone. In a queue that
/// is refused, all bytes are as they were, and a check of any grant is refused with the same
/// number.
#[test]
fn the_queues_with_old_grants_are_those_of_single_checks() {
    for line in fields_of("oldqueue") {
        let roll = queue_roll(&line);
        let key = bytes(&line[1]);
        let [block, right, whole] = [6, 7, 8].map(|k| number(&line[k]));
        let grants = if line[5] == "-" {
            Vec::new()
        } else {
            bytes(&line[5])
        };
        assert_eq!(grants.len(), 12 * line[9..].len());
        for (grant, answer) in grants.chunks(12).zip(&line[9..]) {
            let alone = said(roll.check(&key, 10, grant, block as u32, right as u8));
            if whole == 0 {
                assert_eq!(*answer, alone.to_string());
            } else {
                assert_eq!((usize::from(alone), answer.as_str()), (whole, "255"));
            }
        }
    }
}

/// A row of the table of old pages in README.md: the bytes of the first key, the rounds,
/// the page number, how many bytes are used, the number and the words for the page.
type OldPage = (usize, usize, u16, usize, u8, &'static str);

/// The old pages.
const OLD_PAGES: [OldPage; 6] = [
    (12, 10, 7, 17, 0, "page 7, 17 bytes used"),
    (18, 17, 65_535, 492, 0, "page 65535, 492 bytes used"),
    (24, 23, 0, 0, 0, "page 0, no byte used"),
    (
        12,
        10,
        7,
        17,
        13,
        "the first one with the last byte of its check xored with 1",
    ),
    (
        12,
        10,
        7,
        17,
        11,
        "the first one with byte 17 of the payload 1 before it was made",
    ),
    (
        12,
        10,
        7,
        17,
        11,
        "the first one with byte 8 of the page 1, and a check that is right for that",
    ),
];

/// The header and the payload of an old page, written out: byte i of the payload is 7i + 1.
fn old_plain(page_number: u16, used: usize) -> [u8; 504] {
    let mut plain = [0; 504];
    plain[4..6].copy_from_slice(&page_number.to_be_bytes());
    plain[6] = (used / 256) as u8;
    plain[7] = (used % 256) as u8;
    for (i, byte) in plain[12..12 + used].iter_mut().enumerate() {
        *byte = (7 * i + 1) as u8;
    }
    plain
}

/// The fourth page has a wrong check, the fifth a byte after the used ones, and the sixth a
/// byte of the header that has to be zero. The last two are made with a right check.
#[test]
fn the_old_pages_are_as_worked_out_by_hand() {
    let seconds = [KEYS[0], KEYS[1], KEYS[2]].map(|key| {
        let mut second = bytes(key);
        *second.last_mut().expect("a key has bytes") ^= 1;
        hex(&second)
    });
    let mut written = Vec::new();
    for (k, (length, rounds, page_number, used, refused, _)) in OLD_PAGES.iter().enumerate() {
        let (first, second) = (KEYS[length / 6 - 2], &seconds[length / 6 - 2]);
        let mut plain = old_plain(*page_number, *used);
        let payload = hex(&plain[12..]);
        match k {
            4 => plain[12 + 17] = 1,
            5 => plain[8] = 1,
            _ => {}
        }
        let page = page_under(&bytes(first), &bytes(second), *rounds, &plain);
        let mut page = page.expect("two keys");
        page[511] ^= u8::from(k == 3);
        let opened = match refused {
            0 => format!("0 0 {} {} {}", page_number, used, payload),
            _ => format!("{} 0 0 0 -", refused),
        };
        let page = hex(&page);
        let fields = [first, second, &rounds.to_string(), &page, &opened].join(" ");
        written.push(format!("oldpage {}", fields));
    }
    assert_eq!(lines_of("oldpage"), written);
}

/// The pages that open are those that the way named for old pages makes.
#[test]
fn the_old_pages_that_open_are_made_by_their_own_call() {
    for (line, (_, rounds, page_number, used, _, _)) in
        fields_of("oldpage")[..3].iter().zip(OLD_PAGES)
    {
        let [first, second] = [1, 2].map(|k| bytes(&line[k]));
        let plain = old_plain(page_number, used);
        let payload = &plain[12..12 + used];
        let page = old_zero_page(&first, &second, rounds, page_number, payload);
        assert_eq!(page, Ok(bytes(&line[4])));
        let (mut scratch, mut out) = ([0; 576], [0; 512]);
        let sealed = seal(
            &first,
            &second,
            rounds,
            0,
            page_number,
            payload,
            &mut scratch,
            &mut out,
        );
        assert_eq!(sealed.map_err(|refusal| refusal.number()), Err(14));
    }
}

#[test]
fn the_old_pages_are_those_of_the_readme() {
    let rows = OLD_PAGES.map(|(length, rounds, page_number, used, refused, words)| {
        let answered = match refused {
            0 => format!("0 | 0 | {} | {}", page_number, used),
            _ => format!("{} | 0 | 0 | 0", refused),
        };
        format!("| {} | {} | {} | {} |", length, rounds, words, answered)
    });
    let readme = include_str!("../README.md");
    assert!(readme.contains(&format!("|\n{}\n\n", rows.join("\n"))));
}
