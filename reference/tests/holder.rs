//! What README.md says about the lent holder. Stages are taken from the closed form
//! of section 3.7 or straight from the key, subkeys from the published S-box. Which
//! bytes are a whole holder is judged here in other words, and the steps of walks
//! are counted one place at a time.

use curupira_reference::error::Error;
use curupira_reference::generator::Generator;
use curupira_reference::holder::{
    back, forward, holder_bytes, make, subkey, walk_to, Refusal, HOLDER_LENGTH,
};
use curupira_reference::matrix::Matrix;
use curupira_reference::routes::{place_back, place_forward, routes_text, walk};
use curupira_reference::schedule::{
    accumulated_constant, cipher_key, key_stage, omega, omega_power,
};
use curupira_reference::vectors::hex;

/// The turns 6t for t = 2, 3, 4, which are also the key lengths.
const TURNS: [usize; 3] = [12, 18, 24];

/// What stands in a byte before a call.
const BEFORE: u8 = 0xA7;

/// The lines of the log of `routes` for one key: route, 200 calls, holder, straight.
const LINES_PER_KEY: usize = 203;

/// A few keys of a length: all bits 0, all bits 1, and pseudo-random ones.
fn some_keys(length: usize) -> Vec<Vec<u8>> {
    let mut generator = Generator::new(50);
    let mut keys = vec![vec![0; length], vec![0xFF; length]];
    keys.extend((0..3).map(|_| generator.bytes(length)));
    keys
}

/// A pseudo-random key of a length, in which no byte is zero.
fn drawn_key(length: usize) -> Vec<u8> {
    let mut generator = Generator::new(51);
    (0..length).map(|_| generator.byte() | 1).collect()
}

/// The bytes that hexadecimal digits stand for.
fn bytes(hex: &str) -> Vec<u8> {
    (0..hex.len() / 2)
        .map(|k| u8::from_str_radix(&hex[2 * k..2 * k + 2], 16).expect("hex digits"))
        .collect()
}

/// The 26 bytes of a holder with the given stage at the given place.
fn written(stage: &[u8], place: usize) -> Vec<u8> {
    let mut all = [0; 26];
    all[0] = stage.len() as u8;
    all[1] = place as u8;
    all[2..2 + stage.len()].copy_from_slice(stage);
    all.to_vec()
}

/// The matrix of N columns that bytes stand for.
fn matrix<const N: usize>(bytes: &[u8]) -> Matrix<N> {
    cipher_key(bytes).expect("N columns have 3N bytes")
}

/// The stage of a key of N columns by the closed form of section 3.7.
fn closed_form<const N: usize>(key: &[u8], s: usize) -> Vec<u8> {
    let stage = omega_power(s, &matrix::<N>(key)).plus(&accumulated_constant(s));
    stage.to_bytes()
}

/// The holder of a key at a place, with the stage from the closed form.
fn holder_at(key: &[u8], place: usize) -> Vec<u8> {
    let stage = match key.len() {
        12 => closed_form::<4>(key, place),
        18 => closed_form::<6>(key, place),
        _ => closed_form::<8>(key, place),
    };
    written(&stage, place)
}

/// The holders of a key at all its places.
fn whole_turn(key: &[u8]) -> Vec<Vec<u8>> {
    (0..key.len()).map(|place| holder_at(key, place)).collect()
}

/// The stage of a key straight from it, by steps of the schedule.
fn straight(key: &[u8], place: usize) -> Vec<u8> {
    match key.len() {
        12 => key_stage(&matrix::<4>(key), place).to_bytes(),
        18 => key_stage(&matrix::<6>(key), place).to_bytes(),
        _ => key_stage(&matrix::<8>(key), place).to_bytes(),
    }
}

/// The subkey of a holder: the first 12 bytes of the stage, of which bytes 0, 3, 6
/// and 9 are replaced by those of the published S-box (section 3.8).
fn subkey_of(holder: &[u8]) -> Vec<u8> {
    let table: Vec<&str> = include_str!("../published/sbox.txt")
        .split_whitespace()
        .collect();
    let mut subkey = holder[2..14].to_vec();
    for k in [0, 3, 6, 9] {
        subkey[k] = bytes(table[usize::from(subkey[k])])[0];
    }
    subkey
}

/// Whether bytes are a whole holder.
fn is_whole(lent: &[u8]) -> bool {
    match lent {
        [12, 0..=11, rest @ ..] => rest.len() == 24 && rest[12..] == [0; 12],
        [18, 0..=17, rest @ ..] => rest.len() == 24 && rest[18..] == [0; 6],
        [24, 0..=23, rest @ ..] => rest.len() == 24,
        _ => false,
    }
}

#[test]
fn the_numbers_are_those_of_the_rules() {
    assert_eq!(HOLDER_LENGTH, 26);
    assert_eq!(Refusal::KeyLength.number(), 1);
    assert_eq!(Refusal::TooShort.number(), 4);
    assert_eq!(Refusal::NoSuchStage.number(), 5);
    assert_eq!(Refusal::NoHolder.number(), 24);
}

/// The holder of the zero key. Stage 1 is derived by hand in `tests/routes.rs`,
/// before the S-box is applied: BA + 13 = A9, 54 + 53 = 07, 2F + E3 = CC and
/// 74 + 04 = 70. Stage 11 is the constant Q^(11) of README.md.
#[test]
fn a_short_life_of_the_zero_key_is_as_derived_by_hand() {
    let zeros = "00".repeat(12);
    let mut lent = [BEFORE; 26];
    assert_eq!(make(&[0; 12], &mut lent), 0);
    assert_eq!(hex(&lent), format!("0c00{}{}", zeros, zeros));
    assert_eq!(forward(&mut lent), 0);
    let stage = "a91313075353cce3e3700404";
    assert_eq!(hex(&lent), format!("0c01{}{}", stage, zeros));
    let mut output = [BEFORE; 12];
    assert_eq!(subkey(&lent, &mut output), 0);
    assert_eq!(hex(&output), "8b13134d535330e3e30c0404");
    assert_eq!(walk_to(12, &mut lent), 5);
    assert_eq!(walk_to(7, &mut lent), 1_006);
    assert_eq!(walk_to(1, &mut lent), 1_006);
    assert_eq!(walk_to(1, &mut lent), 1_000);
    assert_eq!(hex(&lent), format!("0c01{}{}", stage, zeros));
    assert_eq!(back(&mut lent), 0);
    assert_eq!(hex(&lent), format!("0c00{}{}", zeros, zeros));
    assert_eq!(back(&mut lent), 0);
    assert_eq!(hex(&lent), format!("0c0b129b2e3b5b649eae1b0a310e{}", zeros));
    assert_eq!(walk_to(9, &mut lent), 2_002);
}

#[test]
fn a_made_holder_has_the_key_and_zeros() {
    for length in TURNS {
        for key in some_keys(length) {
            for before in [0, BEFORE, 0xFF] {
                let mut lent = [before; 26];
                assert_eq!(make(&key, &mut lent), 0);
                let digits = format!("{:02x}00{}{}", length, hex(&key), "00".repeat(24 - length));
                assert_eq!(hex(&lent), digits);
                assert!(is_whole(&lent));
            }
        }
    }
}

#[test]
fn make_leaves_what_stands_after_the_26() {
    for length in TURNS {
        let key = drawn_key(length);
        for more in 0..40 {
            let mut lent = vec![BEFORE; 26 + more];
            assert_eq!(make(&key, &mut lent), 0);
            assert_eq!(lent[..26], written(&key, 0));
            assert_eq!(lent[26..], vec![BEFORE; more]);
        }
    }
}

/// A new holder in the bytes of an old one is as in any other bytes.
#[test]
fn nothing_of_an_old_holder_is_left() {
    let mut lent = holder_at(&drawn_key(24), 23);
    for length in [18, 12, 24, 12, 18] {
        let key = drawn_key(length);
        assert_eq!(make(&key, &mut lent), 0);
        assert_eq!(lent, written(&key, 0));
        assert_eq!(back(&mut lent), 0);
        assert_eq!(lent, holder_at(&key, length - 1));
    }
}

/// Reason 1 comes before reason 4, and neither changes a byte.
#[test]
fn make_is_refused_in_the_stated_order() {
    for key_length in 0..=64 {
        let wrong_key = !TURNS.contains(&key_length);
        for lent_length in 0..=40 {
            let expected = match (wrong_key, lent_length < 26) {
                (true, _) => 1,
                (false, true) => 4,
                (false, false) => 0,
            };
            let mut lent = vec![BEFORE; lent_length];
            assert_eq!(make(&vec![0x5C; key_length], &mut lent), expected);
            if expected > 0 {
                assert_eq!(lent, vec![BEFORE; lent_length]);
            }
        }
    }
}

#[test]
fn steps_go_through_all_stages_either_way() {
    for length in TURNS {
        for key in some_keys(length) {
            let turn = whole_turn(&key);
            let mut lent = turn[0].clone();
            for place in (1..length).chain([0]) {
                assert_eq!(forward(&mut lent), 0);
                assert_eq!(lent, turn[place]);
            }
            for place in (0..length).rev() {
                assert_eq!(back(&mut lent), 0);
                assert_eq!(lent, turn[place]);
            }
        }
    }
}

#[test]
fn a_full_turn_either_way_brings_the_same_bytes() {
    for length in TURNS {
        for holder in whole_turn(&drawn_key(length)) {
            for step in [forward, back] {
                let mut lent = holder.clone();
                for _ in 1..length {
                    assert_eq!(step(&mut lent), 0);
                    assert_ne!(lent, holder);
                }
                assert_eq!(step(&mut lent), 0);
                assert_eq!(lent, holder);
            }
        }
    }
}

/// The closing step of README.md: omega(K^(m-1) + Q^(m-1)) is the key, with m = 6t.
fn check_closing_step<const N: usize>() {
    let m = 3 * N;
    for key in some_keys(m) {
        let mut lent = holder_at(&key, m - 1);
        let last: Matrix<N> = matrix(&lent[2..2 + m]);
        assert_eq!(forward(&mut lent), 0);
        let closed = omega(&last.plus(&accumulated_constant(m - 1)));
        assert_eq!(lent, written(&closed.to_bytes(), 0));
        assert_eq!(lent, written(&key, 0));
    }
}

#[test]
fn the_closing_step_comes_to_the_key() {
    check_closing_step::<4>();
    check_closing_step::<6>();
    check_closing_step::<8>();
}

/// The answer of a walk that is not refused, from steps counted one by one.
fn counted_answer(turn: usize, from: usize, to: usize) -> u32 {
    let steps_ahead = |from: usize, to: usize| {
        let mut place = from;
        let mut steps = 0;
        while place != to {
            place = if place == turn - 1 { 0 } else { place + 1 };
            steps += 1;
        }
        steps
    };
    let (ahead, behind) = (steps_ahead(from, to), steps_ahead(to, from));
    if ahead <= behind {
        1_000 + ahead
    } else {
        2_000 + behind
    }
}

#[test]
fn every_walk_arrives_and_answers_its_steps() {
    for length in TURNS {
        let turn = whole_turn(&drawn_key(length));
        for (from, to) in (0..length).flat_map(|s| (0..length).map(move |d| (s, d))) {
            let mut lent = turn[from].clone();
            let answer = walk_to(to, &mut lent);
            assert_eq!(answer, counted_answer(length, from, to));
            assert_eq!(lent, turn[to]);
        }
    }
}

#[test]
fn a_walk_brings_the_same_bytes_as_its_steps() {
    for length in TURNS {
        let turn = whole_turn(&drawn_key(length));
        for (from, to) in [(0, length / 2), (length - 3, 4), (5, length - 2)] {
            let mut walked = turn[from].clone();
            let answer = walk_to(to, &mut walked);
            let mut stepped = turn[from].clone();
            for _ in 0..answer % 1_000 {
                let step = if answer < 2_000 { forward } else { back };
                assert_eq!(step(&mut stepped), 0);
            }
            assert_eq!(walked, stepped);
        }
    }
}

#[test]
fn a_walk_to_no_stage_is_refused_from_everywhere() {
    for length in TURNS {
        for holder in whole_turn(&drawn_key(length)) {
            for to in [length, length + 1, 2 * length, 255, 256, usize::MAX] {
                let mut lent = holder.clone();
                assert_eq!(walk_to(to, &mut lent), 5);
                assert_eq!(lent, holder);
            }
        }
    }
}

#[test]
fn the_subkey_is_given_in_the_first_12_bytes() {
    for length in TURNS {
        for holder in whole_turn(&drawn_key(length)) {
            for more in [0, 1, 12, 30] {
                let mut output = vec![BEFORE; 12 + more];
                assert_eq!(subkey(&holder, &mut output), 0);
                assert_eq!(output[..12], subkey_of(&holder));
                assert_eq!(output[12..], vec![BEFORE; more]);
            }
        }
    }
}

#[test]
fn a_subkey_for_too_few_bytes_is_refused() {
    for length in TURNS {
        let holder = holder_at(&drawn_key(length), 3);
        for short in 0..12 {
            let mut output = vec![BEFORE; short];
            assert_eq!(subkey(&holder, &mut output), 4);
            assert_eq!(output, vec![BEFORE; short]);
        }
    }
}

/// That all calls but make refuse the bytes with 24 and change none, also if reason
/// 4 or 5 holds.
fn check_refused(lent: &[u8]) {
    let mut after = lent.to_vec();
    assert_eq!(forward(&mut after), 24);
    assert_eq!(back(&mut after), 24);
    for to in [0, 11, 12, 18, 24, usize::MAX] {
        assert_eq!(walk_to(to, &mut after), 24);
    }
    for length in [0, 11, 12, 13] {
        let mut output = vec![BEFORE; length];
        assert_eq!(subkey(&after, &mut output), 24);
        assert_eq!(output, vec![BEFORE; length]);
    }
    assert_eq!(after, lent);
}

/// The key of N columns that has the given stage at the given place, by the closed
/// form: omega^(6t-s)(K^(s) + Q^(s)).
fn key_by_closed_form<const N: usize>(stage: &[u8], s: usize) -> Vec<u8> {
    let sum = matrix::<N>(stage).plus(&accumulated_constant(s));
    omega_power(3 * N - s, &sum).to_bytes()
}

/// That all calls go by what the bytes of a whole holder say, wherever they are
/// from.
fn check_allowed(lent: &[u8]) {
    let (length, place) = (usize::from(lent[0]), usize::from(lent[1]));
    let stage = &lent[2..2 + length];
    let key = match length {
        12 => key_by_closed_form::<4>(stage, place),
        18 => key_by_closed_form::<6>(stage, place),
        _ => key_by_closed_form::<8>(stage, place),
    };
    let mut after = lent.to_vec();
    assert_eq!(forward(&mut after), 0);
    assert_eq!(after, holder_at(&key, (place + 1) % length));
    assert_eq!(back(&mut after), 0);
    assert_eq!(after, lent);
    assert_eq!(walk_to(0, &mut after), counted_answer(length, place, 0));
    assert_eq!(after, written(&key, 0));
    let mut output = [BEFORE; 12];
    assert_eq!(subkey(lent, &mut output), 0);
    assert_eq!(output[..], subkey_of(lent));
}

/// A whole holder with one byte more or less, or with any other number of bytes.
#[test]
fn only_26_bytes_are_a_holder() {
    for length in TURNS {
        let mut holder = holder_at(&drawn_key(length), length - 1);
        check_allowed(&holder);
        holder.resize(64, 0);
        for other in (0..=64).filter(|other| *other != 26) {
            assert!(!is_whole(&holder[..other]));
            check_refused(&holder[..other]);
        }
    }
}

/// Tries every other value for every byte of the length, the number and the zeros of
/// a whole holder. It returns how many of these changes leave a whole holder.
fn try_all_changes(holder: &[u8]) -> usize {
    assert!(is_whole(holder));
    let zeros = 2 + usize::from(holder[0])..26;
    let mut allowed = 0;
    for position in [0, 1].into_iter().chain(zeros) {
        for value in (0..=255).filter(|value| *value != holder[position]) {
            let mut lent = holder.to_vec();
            lent[position] = value;
            if is_whole(&lent) {
                check_allowed(&lent);
                allowed += 1;
            } else {
                check_refused(&lent);
            }
        }
    }
    allowed
}

/// Every other number below 6t leaves a whole holder, and so does a greater key
/// length. A smaller one does not: at stage 0 a byte of the key stands past it, and at
/// the last stage the number is not below it. No zero can be changed.
#[test]
fn every_change_of_a_single_byte_is_handled_by_the_rule() {
    for (length, longer) in [(12, 2), (18, 1), (24, 0)] {
        let key = drawn_key(length);
        for place in [0, length - 1] {
            let allowed = try_all_changes(&holder_at(&key, place));
            assert_eq!(allowed, longer + length - 1);
        }
    }
}

/// At stage 0 of the zero key all lengths are good, and all numbers below the length.
#[test]
fn every_change_of_a_holder_of_zeros_is_handled_by_the_rule() {
    for length in TURNS {
        let holder = written(&vec![0; length], 0);
        assert_eq!(try_all_changes(&holder), 2 + length - 1);
    }
}

/// Of 12 bytes and zeros, any key length makes a whole holder, as long as the number
/// of the stage is below this very length.
#[test]
fn the_number_of_the_stage_has_to_be_below_the_key_length() {
    for length in TURNS {
        let mut lent = written(&drawn_key(12), 0);
        lent[0] = length as u8;
        for place in 0..=255 {
            lent[1] = place;
            if usize::from(place) < length {
                check_allowed(&lent);
            } else {
                check_refused(&lent);
            }
        }
    }
}

/// The bytes of the stage may be any.
#[test]
fn any_stage_is_that_of_some_key() {
    let mut generator = Generator::new(52);
    for length in TURNS {
        for place in [0, 1, length / 2, length - 1] {
            check_allowed(&written(&generator.bytes(length), place));
            check_allowed(&written(&vec![0; length], place));
        }
    }
}

/// Bytes that are drawn are handled by the rule, whole holder or not.
#[test]
fn drawn_bytes_are_handled_by_the_rule() {
    let mut generator = Generator::new(53);
    for _ in 0..2_000 {
        let mut lent = generator.bytes(26);
        if generator.byte() % 2 == 0 {
            lent[0] = [12, 18, 24][usize::from(generator.byte() % 3)];
            lent[1] %= 32;
        }
        if is_whole(&lent) {
            let mut after = lent.clone();
            assert_eq!((forward(&mut after), back(&mut after)), (0, 0));
            assert_eq!(after, lent);
        } else {
            check_refused(&lent);
        }
    }
}

/// What the answer of a walk says, as the fields NUMBER, STEPS and WAY of the log of
/// `routes`.
fn walk_fields(answer: u32) -> String {
    match answer {
        1_000..=1_999 => format!("0 {} forward", answer - 1_000),
        2_000..=2_999 => format!("0 {} back", answer - 2_000),
        number => format!("{} 0 forward", number),
    }
}

/// Makes a call of the log of `routes` on a lent holder, and writes the line for it.
fn replayed(call: &str, lent: &mut [u8]) -> String {
    let fields: Vec<&str> = call.split(' ').collect();
    let answer = match fields[0] {
        "forward" => forward(lent).to_string(),
        "back" => back(lent).to_string(),
        "walk" => {
            let to = fields[1].parse().expect("a decimal number");
            format!("{} {}", to, walk_fields(walk_to(to, lent)))
        }
        "subkey" => {
            let mut output = [BEFORE; 12];
            format!("{} {}", subkey(lent, &mut output), hex(&output))
        }
        other => panic!("{} is no call", other),
    };
    format!("{} {} {}", fields[0], answer, lent[1])
}

/// The whole log of `routes.rs`, which computes every stage from the key, comes out
/// again if its calls are made on a lent holder.
#[test]
fn the_log_of_routes_is_that_of_a_lent_holder() {
    let text = routes_text().expect("all keys have allowed lengths");
    let lines: Vec<&str> = text.lines().collect();
    for log in lines.chunks(LINES_PER_KEY) {
        let key = bytes(log[0].strip_prefix("route ").expect("a key"));
        let stages: Vec<Vec<u8>> = (0..key.len()).map(|s| straight(&key, s)).collect();
        let mut lent = [BEFORE; 26];
        assert_eq!(make(&key, &mut lent), 0);
        for call in &log[1..201] {
            assert_eq!(replayed(call, &mut lent), *call);
            let place = usize::from(lent[1]);
            assert_eq!(lent[..], written(&stages[place], place));
        }
        let last = format!("{} {} {}", lent[0], lent[1], hex(&lent[2..]));
        assert_eq!(log[201], format!("holder {}", last));
        assert_eq!(log[202], format!("straight 0 {}", last));
    }
}

/// Makes calls that are refused on a whole holder and on broken copies of it. None
/// changes a byte.
fn make_refused_calls(lent: &mut [u8], generator: &mut Generator) {
    let before = lent.to_vec();
    let far = usize::from(lent[0]) + usize::from(generator.byte());
    assert_eq!(walk_to(far, lent), 5);
    let short = usize::from(generator.byte() % 12);
    assert_eq!(subkey(lent, &mut vec![BEFORE; short]), 4);
    assert_eq!(make(&[0x5C; 13], lent), 1);
    assert_eq!(make(&[0x5C; 24], &mut lent[..25]), 4);
    let part = usize::from(generator.byte() % 26);
    check_refused(&lent[..part]);
    assert_eq!(lent, before);
}

/// Routes with refused calls before every call. The places are counted by
/// `routes.rs`, and the stages come straight from the key.
#[test]
fn drawn_routes_go_by_the_places_and_the_stages() {
    let mut generator = Generator::new(54);
    for length in TURNS {
        let key = generator.bytes(length);
        let mut lent = written(&key, 0);
        let mut place = 0;
        for _ in 0..100 {
            make_refused_calls(&mut lent, &mut generator);
            let [x, y] = [(); 2].map(|_| usize::from(generator.byte()));
            let (number, expected) = match x % 3 {
                0 => (forward(&mut lent), place_forward(length, place)),
                1 => (back(&mut lent), place_back(length, place)),
                _ => {
                    let walked = walk(length, place, y % length);
                    let answer = walk_to(y % length, &mut lent);
                    assert_eq!(answer, counted_answer(length, place, y % length));
                    assert_eq!(answer % 1_000, walked.steps as u32);
                    (u32::from(walked.number), walked.place)
                }
            };
            assert_eq!(number, 0);
            place = expected;
            assert_eq!(lent, written(&straight(&key, place), place));
        }
    }
}

#[test]
fn the_bytes_straight_from_a_key_are_those_of_its_holder() {
    for length in TURNS {
        for key in some_keys(length) {
            for (place, holder) in whole_turn(&key).into_iter().enumerate() {
                assert_eq!(holder_bytes(&key, place), Ok(holder));
            }
        }
    }
    for other in [0, 11, 13, 25] {
        let refusal = holder_bytes(&vec![0; other], 0);
        assert_eq!(refusal, Err(Error::KeyLength(other)));
    }
}
