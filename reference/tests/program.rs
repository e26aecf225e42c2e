//! Runs the program. Its inputs are drawn again here, with another copy of the
//! generator and from the words of README.md, so that those words are tested.

use std::process::{Command, Output};

use curupira_reference::cipher::{decrypt, encrypt};
use curupira_reference::pages::open;

/// The generator of README.md, starting from x = 1.
struct Draw {
    x: u64,
}

impl Draw {
    fn new() -> Self {
        Draw { x: 1 }
    }

    /// The next `count` bytes, as lowercase hex.
    fn hex(&mut self, count: usize) -> String {
        let mut text = String::new();
        for _ in 0..count {
            self.x = (self.x * 1103515245 + 12345) % 2147483648;
            text.push_str(&format!("{:02x}", (self.x / 65536) % 256));
        }
        text
    }
}

/// Runs the program with the given arguments.
fn run(arguments: &[&str]) -> Output {
    Command::new(env!("CARGO_BIN_EXE_reference"))
        .args(arguments)
        .output()
        .expect("the program can be started")
}

/// The lines that a subcommand prints, each split into its fields.
fn lines(subcommand: &str) -> Vec<Vec<String>> {
    let output = run(&[subcommand]);
    assert_eq!(output.status.code(), Some(0));
    assert!(output.stderr.is_empty());
    let text = String::from_utf8(output.stdout).expect("the output is text");
    assert!(text.ends_with('\n'));
    text.lines()
        .map(|line| line.split(' ').map(String::from).collect())
        .collect()
}

/// The bytes that hexadecimal digits stand for.
fn bytes(hex: &str) -> Vec<u8> {
    (0..hex.len() / 2)
        .map(|k| u8::from_str_radix(&hex[2 * k..2 * k + 2], 16).expect("hex digits"))
        .collect()
}

/// The key lengths with their least and greatest numbers of rounds (Table 2).
const SIZES: [(usize, usize, usize); 3] = [(12, 10, 11), (18, 14, 17), (24, 18, 23)];

#[test]
fn the_generator_starts_as_documented() {
    assert_eq!(Draw::new().hex(8), "c67e816b4bfbe2fb");
}

#[test]
fn bad_usage_ends_with_status_two() {
    let wrong: [&[&str]; 14] = [
        &[],
        &["other"],
        &[""],
        &["SBOX"],
        &["sbox", "layers"],
        &["answer"],
        &["answers", "grants"],
        &["page"],
        &["pages", "answers"],
        &["constant"],
        &["constants", "12"],
        &["zeros"],
        &["0"],
        &["zero", "grants"],
    ];
    for arguments in wrong {
        let output = run(arguments);
        assert_eq!(output.status.code(), Some(2));
        assert!(output.stdout.is_empty());
        assert!(!output.stderr.is_empty());
    }
}

#[test]
fn sbox_prints_the_published_table() {
    let printed: Vec<String> = lines("sbox").iter().map(|line| line.join(" ")).collect();
    let published = include_str!("../published/sbox.txt").to_lowercase();
    assert_eq!(printed, published.lines().collect::<Vec<&str>>());
}

#[test]
fn layers_draws_its_inputs_as_documented() {
    let mut draw = Draw::new();
    let printed = lines("layers");
    assert_eq!(printed.len(), 32 * 4 + 97);
    for group in printed[..32 * 4].chunks(4) {
        let (state, key) = (draw.hex(12), draw.hex(12));
        for (line, name) in group.iter().zip(["gamma", "pi", "theta"]) {
            assert_eq!(line[..2], [name, &state]);
            assert_eq!((line.len(), line[2].len()), (3, 24));
        }
        assert_eq!(group[3][..3], ["sigma", &state, &key]);
        assert_eq!((group[3].len(), group[3][3].len()), (4, 24));
    }
}

/// Section 2.1: the product of a field element and a number from 0 to 7, which is a
/// polynomial of degree 2 at most. Each shift is reduced by 14D at once.
fn product(element: u8, small: u8) -> u8 {
    let mut shifted = u16::from(element);
    let mut sum = 0;
    for k in 0..3 {
        if (small >> k) & 1 == 1 {
            sum ^= shifted;
        }
        shifted <<= 1;
        if shifted & 0x100 != 0 {
            shifted ^= 0x14D;
        }
    }
    sum as u8
}

/// Section 3.3: a single byte d in row i becomes d times column i of D in its own
/// column, and zero in the others. D is written here as it is printed there.
#[test]
fn layers_ends_with_theta_on_every_single_bit() {
    let rows = [[3, 2, 2], [4, 5, 4], [6, 6, 7]];
    let printed = lines("layers");
    let mut rest = printed[32 * 4..].iter();
    let mut sum = vec![0; 12];
    for d in [0x01, 0x02, 0x04, 0x08, 0x10, 0x20, 0x40, 0x80] {
        for p in 0..12 {
            let (i, first) = (p % 3, p - p % 3);
            let input = format!("{}{:02x}{}", "00".repeat(p), d, "00".repeat(11 - p));
            let mut output = vec![0; 12];
            for (k, row) in rows.iter().enumerate() {
                output[first + k] = product(d, row[i]);
            }
            let line = rest.next().expect("there are more lines");
            assert_eq!(line[..2], ["theta", &input]);
            assert_eq!((line.len(), line[2].len()), (3, 24));
            assert_eq!(bytes(&line[2]), output);
            for (total, byte) in sum.iter_mut().zip(bytes(&line[2])) {
                *total ^= byte;
            }
        }
    }
    let line = rest.next().expect("there is one more line");
    assert_eq!(line[..2], ["theta", &"ff".repeat(12)]);
    assert_eq!((line.len(), line[2].len()), (3, 24));
    assert_eq!(bytes(&line[2]), sum);
    assert!(rest.next().is_none());
}

#[test]
fn rounds_draws_its_inputs_as_documented() {
    let mut draw = Draw::new();
    let printed = lines("rounds");
    let mut groups = printed.chunks(3);
    for rounds in 1..=23 {
        for _ in 0..4 {
            let (list, input) = (draw.hex(12 * (rounds + 1)), draw.hex(12));
            let group = groups.next().expect("there are more lines");
            let number = rounds.to_string();
            let output = &group[0][4];
            assert_eq!(group[0], ["rounds", &number, &list, &input, output]);
            assert_eq!(group[1], ["inverse", &number, &list, output, &input]);
            assert_eq!(group[2][..3], ["turned", &number, &list]);
            assert_eq!((group[2].len(), group[2][3].len()), (4, list.len()));
        }
    }
    assert!(groups.next().is_none());
}

#[test]
fn blocks_draws_its_inputs_as_documented() {
    let mut draw = Draw::new();
    let printed = lines("blocks");
    let mut pairs = printed.chunks(2);
    for (key_length, least, greatest) in SIZES {
        for rounds in least..=greatest {
            for _ in 0..16 {
                let (key, plain, block) = (draw.hex(key_length), draw.hex(12), draw.hex(12));
                let pair = pairs.next().expect("there are more lines");
                let number = rounds.to_string();
                let (cipher, result) = (&pair[0][4], &pair[1][4]);
                assert_eq!(pair[0], ["encrypt", &key, &number, &plain, cipher]);
                assert_eq!(pair[1], ["decrypt", &key, &number, &block, result]);
                let key = bytes(&key);
                assert_eq!(decrypt(&key, rounds, &bytes(cipher)), Ok(bytes(&plain)));
                assert_eq!(encrypt(&key, rounds, &bytes(result)), Ok(bytes(&block)));
            }
        }
    }
    assert!(pairs.next().is_none());
}

#[test]
fn stages_draws_its_inputs_as_documented() {
    let mut draw = Draw::new();
    let printed = lines("stages");
    let mut rest = printed.iter();
    for (key_length, _, _) in SIZES {
        for number in 0..4 {
            let key = if number == 0 {
                "00".repeat(key_length)
            } else {
                draw.hex(key_length)
            };
            for r in 0..key_length {
                let line = rest.next().expect("there are more lines");
                assert_eq!(line[..3], ["stage", &key, &r.to_string()]);
                assert_eq!(line.len(), 5);
                assert_eq!((line[3].len(), line[4].len()), (2 * key_length, 24));
                if r == 0 {
                    assert_eq!(line[3], key);
                }
            }
        }
    }
    assert!(rest.next().is_none());
}

/// The closing sums that README.md prints, for keys of 12, 18 and 24 bytes.
const CLOSING_SUMS: [&str; 3] = [
    "129b2e3b5b649eae1b0a310e",
    "1377e3aabf5ad61138c08949fdae13124e6b",
    "de830c3728881ad6223f464e18ed167cad899c8707980488",
];

/// The constant of step s for keys of the given length, by the words of README.md and
/// with the published S-box.
fn documented_constant(key_length: usize, s: usize) -> String {
    let published = include_str!("../published/sbox.txt").to_lowercase();
    let table: Vec<&str> = published.split_whitespace().collect();
    let columns = key_length / 3;
    if s == key_length {
        CLOSING_SUMS[key_length / 6 - 2].to_string()
    } else if (1..key_length).contains(&s) {
        let first = columns * (s - 1);
        let row = &table[first..first + columns];
        row.iter().map(|entry| format!("{}0000", entry)).collect()
    } else {
        "00".repeat(key_length)
    }
}

#[test]
fn constants_prints_the_documented_lines() {
    let printed = lines("constants");
    assert_eq!(printed.len(), 81);
    let mut rest = printed.iter();
    for (key_length, _, _) in SIZES {
        let turn = 0..=key_length + 1;
        for s in turn.chain([33, 43, 44, 65, 257, 65537, 4294967295]) {
            let line = rest.next().expect("there are more lines");
            let (length, number) = (key_length.to_string(), s.to_string());
            let constant = documented_constant(key_length, s);
            assert_eq!(constant.len(), 2 * key_length);
            assert_eq!(line[..], ["constant", &length, &number, &constant]);
        }
    }
    assert!(rest.next().is_none());
}

/// The entries of the S-box are looked up by hand in the table that `sbox` prints. The
/// indices start with 2t(s-1), which for these lines is hex 00, 04 and 28 for t = 2,
/// hex 00, 42 and 60 for t = 3, and hex 00, 08 and B0 for t = 4.
#[test]
fn constants_has_the_lines_worked_out_by_hand() {
    let worked_out = [
        "constant 12 1 ba00005400002f0000740000",
        "constant 12 2 530000d30000d200004d0000",
        "constant 12 11 a50000cb00006b0000950000",
        "constant 18 1 ba00005400002f0000740000530000d30000",
        "constant 18 12 ff0000ed0000e800009d00006f00008e0000",
        "constant 18 17 b90000730000e90000350000550000710000",
        "constant 24 1 ba00005400002f0000740000530000d30000d200004d0000",
        "constant 24 2 500000ac00008d0000bf00007000005200009a00004c0000",
        "constant 24 23 e100002e0000e40000e00000eb0000900000a400001e0000",
    ];
    let printed: Vec<String> = lines("constants")
        .iter()
        .map(|line| line.join(" "))
        .collect();
    for line in worked_out {
        assert_eq!(printed.iter().filter(|other| *other == line).count(), 1);
    }
}

/// README.md prints the first lines and those around step 6t, for keys of 12 bytes.
#[test]
fn constants_has_the_lines_of_the_readme() {
    let printed: Vec<String> = lines("constants")
        .iter()
        .map(|line| line.join(" "))
        .collect();
    let readme = include_str!("../README.md");
    for part in [&printed[..3], &printed[11..14]] {
        assert!(readme.contains(&format!("\n\n    {}\n\n", part.join("\n    "))));
    }
}

/// The name of a drawn call, and the destination if it is a walk.
fn drawn_call(draw: &mut Draw) -> Vec<String> {
    let drawn = bytes(&draw.hex(2));
    match drawn[0] % 8 {
        0 | 1 => vec!["forward".to_string()],
        2 | 3 => vec!["back".to_string()],
        4 => vec!["subkey".to_string()],
        _ => vec!["walk".to_string(), (drawn[1] % 32).to_string()],
    }
}

#[test]
fn routes_draws_its_inputs_as_documented() {
    let mut draw = Draw::new();
    let printed = lines("routes");
    let mut rest = printed.iter();
    for (key_length, _, _) in SIZES {
        for _ in 0..4 {
            let mut next = || rest.next().expect("there are more lines");
            assert_eq!(*next(), ["route", &draw.hex(key_length)]);
            for _ in 0..200 {
                let call = drawn_call(&mut draw);
                assert_eq!(next()[..call.len()], call);
            }
            let length = key_length.to_string();
            assert_eq!(next()[..2], ["holder", &length]);
            assert_eq!(next()[..3], ["straight", "0", &length]);
        }
    }
    assert!(rest.next().is_none());
}

/// The calls of a life in their order, as far as they are the same in every life: R is the
/// right of the life, and O the other one.
const LIFE: [&str; 32] = [
    "issue R", "right 2", "enter R", "issue R", "check R", "check R", "check O", "issue O",
    "right 1", "check 2", "check 1", "issue 2", "right 2", "check R", "issue 2", "check 2",
    "right 1", "check 2", "check 1", "right 3", "enter R", "withdraw", "check R", "withdraw",
    "right 1", "enter R", "check R", "check 2", "issue R", "check R", "check R", "check 2",
];

/// The number that hexadecimal digits stand for.
fn value(hex: &str) -> u64 {
    u64::from_str_radix(hex, 16).expect("hex digits")
}

#[test]
fn grants_draws_its_inputs_as_documented() {
    let mut draw = Draw::new();
    let printed = lines("grants");
    let mut rest = printed.iter();
    for (key_length, least, greatest) in SIZES {
        for rounds in least..=greatest {
            for _ in 0..4 {
                let mut next = || rest.next().expect("there are more lines");
                let key = draw.hex(key_length);
                let contractor = 1 + value(&draw.hex(1)) % 200;
                let block = value(&draw.hex(4));
                assert!(block != 0 && block != 4294967295);
                let right = 1 + value(&draw.hex(1)) % 2;
                let numbers = format!("{} {} {} {}", rounds, contractor, block, right);
                assert_eq!(next().join(" "), format!("life {} {}", key, numbers));
                for call in LIFE {
                    let call = call.replace('R', &right.to_string());
                    let call = call.replace('O', &(3 - right).to_string());
                    assert!(next().join(" ").starts_with(&format!("{} ", call)));
                }
                for position in 0..12 {
                    assert_eq!(next()[..2], ["damaged", &position.to_string()]);
                }
            }
        }
    }
    assert!(rest.next().is_none());
}

#[test]
fn pages_draws_its_inputs_as_documented() {
    let mut draw = Draw::new();
    let printed = lines("pages");
    assert_eq!(printed.len(), 12);
    let mut rest = printed.iter();
    for (key_length, least, greatest) in SIZES {
        for rounds in least..=greatest {
            let line = rest.next().expect("there are more lines");
            let (first, second) = (draw.hex(key_length), draw.hex(key_length));
            let (block, number) = (draw.hex(4), draw.hex(2));
            let used = value(&draw.hex(2)) % 493;
            let [block, number] = [block, number].map(|digits| value(&digits));
            assert_ne!(block, 0);
            let numbers = format!("{} {} {} {}", rounds, block, number, used);
            let inputs = format!("page {} {} {}", first, second, numbers);
            assert_eq!(line[..7].join(" "), inputs);
            assert_eq!((line.len(), line[7].len()), (8, 1024));
            let payload = bytes(&draw.hex(used as usize));
            let opened = opened(&[&first, &second], rounds, &line[7]);
            assert_eq!(opened[..payload.len()], payload);
        }
    }
    assert!(rest.next().is_none());
}

/// What the lines of a life of `zero` start with, after its first one: B is the size block
/// of the life, and R its right.
const ZERO_LIFE: [&str; 32] = [
    "old",
    "issue 0 R",
    "check old 0 R",
    "check old B R",
    "enter R",
    "issue 0 R",
    "issue B R",
    "check old 0 R",
    "check old B R",
    "check new 0 R",
    "check new B R",
    "queue 0 R",
    "queue B R",
    "right 1",
    "issue 0 2",
    "check old 0 2",
    "check old B 2",
    "withdraw",
    "issue 0 R",
    "check old 0 R",
    "check old B R",
    "check new B R",
    "enter R",
    "check old 0 R",
    "check old B R",
    "check new B R",
    "entry",
    "seal 0",
    "seal B",
    "oldpage",
    "open old",
    "open new",
];

/// Each of the four places of the byte that is not zero in BLOCK is drawn, and both rights.
#[test]
fn zero_draws_its_inputs_as_documented() {
    let mut draw = Draw::new();
    let printed = lines("zero");
    assert_eq!(printed.len(), 12 * 33);
    let mut rest = printed.iter();
    let (mut places, mut rights) = ([0; 4], [0; 2]);
    for (key_length, least, greatest) in SIZES {
        for rounds in least..=greatest {
            let mut next = || rest.next().expect("there are more lines").join(" ");
            let (first, second) = (draw.hex(key_length), draw.hex(key_length));
            let [x, y, z, w] = [(); 4].map(|_| value(&draw.hex(1)));
            let (contractor, right) = (1 + x % 200, 1 + y % 2);
            let place = z % 4;
            let block = (1 + w % 255) << (8 * place);
            places[place as usize] += 1;
            rights[right as usize - 1] += 1;
            let (page_number, used) = (value(&draw.hex(2)), value(&draw.hex(2)) % 493);
            let keys = format!("zero {} {} {}", first, second, rounds);
            let numbers = format!("{} {} {} {}", contractor, block, right, page_number);
            assert_eq!(next(), format!("{} {} {}", keys, numbers, used));
            let payload = format!(" {}", draw.hex(used as usize));
            for call in ZERO_LIFE {
                let line = next();
                let words = call.replace('B', &block.to_string());
                let words = words.replace('R', &right.to_string());
                assert!(line.starts_with(&format!("{} ", words)));
                assert!(!call.starts_with("open") || line.contains(&payload));
            }
        }
    }
    assert!(rest.next().is_none());
    assert!(places.iter().all(|count| *count > 0));
    assert_eq!(rights, [5, 7]);
    let documented = "RIGHT is 1 in 5 lives and 2 in 7 lives.";
    assert!(include_str!("../README.md").contains(documented));
}

/// The payload of a page, as it is opened.
fn opened(keys: &[&str; 2], rounds: usize, page: &str) -> Vec<u8> {
    let [first, second] = keys.map(bytes);
    let mut payload = vec![0; 492];
    let page = bytes(page);
    let header = open(&first, &second, rounds, &page, &mut [0; 576], &mut payload);
    assert!(header.is_ok());
    payload
}

/// The names of the lines of answers, each with how many there are of it and how many
/// fields they have, the name being one of them.
const ANSWERS: [(&str, usize, usize); 38] = [
    ("limits", 3, 4),
    ("roll", 1, 6),
    ("rollbytes", 1, 6),
    ("empty", 1, 6),
    ("entry", 5, 5),
    ("placed", 3, 7),
    ("block", 1, 5),
    ("stage", 9, 5),
    ("closing", 3, 3),
    ("constant", 18, 4),
    ("list", 1, 4),
    ("turned", 1, 4),
    ("plain", 2, 6),
    ("covers", 16, 4),
    ("highest", 10, 4),
    ("judged", 20, 9),
    ("walk", 11, 6),
    ("lent", 9, 4),
    ("walked", 14, 5),
    ("broken", 10, 3),
    ("standing", 7, 3),
    ("changed", 25, 9),
    ("queued", 11, 3),
    ("queue", 2, 13),
    ("order", 27, 5),
    ("chain", 1, 6),
    ("pair", 9, 4),
    ("form", 16, 6),
    ("pagewith", 5, 8),
    ("altered", 14, 9),
    ("padded", 19, 9),
    ("order", 9, 5),
    ("sized", 30, 4),
    ("both", 31, 5),
    ("oldgrant", 23, 9),
    ("oldqueue", 7, 15),
    ("oldqueue", 2, 9),
    ("oldpage", 6, 10),
];

#[test]
fn answers_prints_the_documented_lines() {
    let printed = lines("answers");
    let mut rest = printed.iter();
    for (name, count, fields) in ANSWERS {
        for _ in 0..count {
            let line = rest.next().expect("there are more lines");
            assert_eq!((line[0].as_str(), line.len()), (name, fields));
        }
    }
    assert!(rest.next().is_none());
}

#[test]
fn answers_has_the_keys_of_the_documentation() {
    let longest = "0f1e2d3c4b5a69788796a5b4c3d2e1f00112233445566770";
    let printed = lines("answers");
    let mut rest = printed.iter().filter(|line| line[0] == "stage");
    for (key_length, _, _) in SIZES {
        for s in [1, 2, key_length - 1] {
            let line = rest.next().expect("there are more stages");
            let key = &longest[..2 * key_length];
            assert_eq!(line[1..3], [key, &s.to_string()]);
            assert_eq!((line[3].len(), line[4].len()), (2 * key_length, 24));
        }
    }
    assert!(rest.next().is_none());
    for name in ["list", "turned"] {
        let line = printed.iter().find(|line| line[0] == name);
        let line = line.expect("there is such a line");
        assert_eq!(line[1..3], [&longest[..24], "10"]);
        assert_eq!(line[3].len(), 11 * 24);
    }
}

#[test]
fn answers_lends_holders_of_the_keys_of_the_documentation() {
    let longest = "0f1e2d3c4b5a69788796a5b4c3d2e1f00112233445566770";
    let printed = lines("answers");
    let mut rest = printed.iter().filter(|line| line[0] == "lent");
    for (key_length, _, _) in SIZES {
        for s in [0, 1, key_length - 1] {
            let line = rest.next().expect("there are more holders");
            let key = &longest[..2 * key_length];
            assert_eq!(line[1..3], [key, &s.to_string()]);
            let lent = bytes(&line[3]);
            assert_eq!(lent.len(), 26);
            assert_eq!(lent[..2], [key_length as u8, s as u8]);
            assert!(lent[2 + key_length..].iter().all(|byte| *byte == 0));
        }
    }
    assert!(rest.next().is_none());
}

/// The grants of the queue in the documentation: contractor, count, size block and right.
const QUEUE: [(u16, u16, u32, u8); 5] = [
    (1, 1, 300, 2),
    (1, 1, 300, 1),
    (2, 2, 300, 2),
    (3, 1, 300, 2),
    (3, 3, 300, 2),
];

#[test]
fn answers_queues_the_grants_of_the_documentation() {
    let key = "0f1e2d3c4b5a69788796a5b4";
    let mut grants = Vec::new();
    for (contractor, count, block, right) in QUEUE {
        let numbers = format!("{:04x}{:04x}{:08x}{:02x}", contractor, count, block, right);
        let plain = bytes(&format!("{}475244", numbers));
        grants.extend(encrypt(&bytes(key), 10, &plain).expect("12 bytes"));
    }
    let printed = lines("answers");
    let queues: Vec<&Vec<String>> = printed.iter().filter(|line| line[0] == "queue").collect();
    for (line, right) in queues.iter().zip(["2", "1"]) {
        assert_eq!(line[1..5], [key, "10", "1,2,3", "2,1,255"]);
        assert_eq!(bytes(&line[5]), grants);
        assert_eq!(line[6..8], ["300", right]);
    }
    assert_eq!(queues[0][8..].join(" "), "0 10 20 23 25");
    assert_eq!(queues[1][8..].join(" "), "0 0 20 23 0");
}
