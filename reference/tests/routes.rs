//! What README.md says about a key holder and its log. The log is checked line by
//! line: places and walks are counted again here, one place at a time, and stages
//! are taken from the closed form of section 3.7.

use curupira_reference::error::Error;
use curupira_reference::matrix::Matrix;
use curupira_reference::routes::{
    place_back, place_forward, route_text, routes_text, walk, Call, Walked, Way,
};
use curupira_reference::schedule::{accumulated_constant, cipher_key, omega_power, select};
use curupira_reference::vectors::hex;

/// The turns 6t for t = 2, 3, 4, which are also the key lengths.
const TURNS: [usize; 3] = [12, 18, 24];

/// The lines for one key: route, 200 calls, holder, straight.
const LINES_PER_KEY: usize = 203;

/// A walk that is not refused.
fn walked(steps: usize, way: Way, place: usize) -> Walked {
    Walked {
        number: 0,
        steps,
        way,
        place,
    }
}

/// A walk that is refused at the given place.
fn refused(place: usize) -> Walked {
    Walked {
        number: 5,
        steps: 0,
        way: Way::Forward,
        place,
    }
}

#[test]
fn walks_for_t_2_are_as_counted_by_hand() {
    assert_eq!(walk(12, 0, 6), walked(6, Way::Forward, 6));
    assert_eq!(walk(12, 0, 7), walked(5, Way::Back, 7));
    assert_eq!(walk(12, 11, 0), walked(1, Way::Forward, 0));
    assert_eq!(walk(12, 0, 11), walked(1, Way::Back, 11));
    assert_eq!(walk(12, 5, 5), walked(0, Way::Forward, 5));
    assert_eq!(walk(12, 6, 0), walked(6, Way::Forward, 0));
    assert_eq!(walk(12, 10, 3), walked(5, Way::Forward, 3));
    assert_eq!(walk(12, 3, 10), walked(5, Way::Back, 10));
    assert_eq!(walk(12, 4, 12), refused(4));
    assert_eq!(walk(12, 0, 31), refused(0));
}

#[test]
fn walks_for_t_3_are_as_counted_by_hand() {
    assert_eq!(walk(18, 0, 9), walked(9, Way::Forward, 9));
    assert_eq!(walk(18, 0, 10), walked(8, Way::Back, 10));
    assert_eq!(walk(18, 17, 0), walked(1, Way::Forward, 0));
    assert_eq!(walk(18, 0, 17), walked(1, Way::Back, 17));
    assert_eq!(walk(18, 5, 5), walked(0, Way::Forward, 5));
    assert_eq!(walk(18, 9, 0), walked(9, Way::Forward, 0));
    assert_eq!(walk(18, 14, 4), walked(8, Way::Forward, 4));
    assert_eq!(walk(18, 4, 14), walked(8, Way::Back, 14));
    assert_eq!(walk(18, 4, 18), refused(4));
    assert_eq!(walk(18, 0, 31), refused(0));
}

#[test]
fn walks_for_t_4_are_as_counted_by_hand() {
    assert_eq!(walk(24, 0, 12), walked(12, Way::Forward, 12));
    assert_eq!(walk(24, 0, 13), walked(11, Way::Back, 13));
    assert_eq!(walk(24, 23, 0), walked(1, Way::Forward, 0));
    assert_eq!(walk(24, 0, 23), walked(1, Way::Back, 23));
    assert_eq!(walk(24, 5, 5), walked(0, Way::Forward, 5));
    assert_eq!(walk(24, 12, 0), walked(12, Way::Forward, 0));
    assert_eq!(walk(24, 20, 6), walked(10, Way::Forward, 6));
    assert_eq!(walk(24, 6, 20), walked(10, Way::Back, 20));
    assert_eq!(walk(24, 4, 24), refused(4));
    assert_eq!(walk(24, 0, 31), refused(0));
}

#[test]
fn every_walk_arrives_by_the_shorter_way() {
    for turn in TURNS {
        for (place, destination) in (0..turn).flat_map(|s| (0..turn).map(move |d| (s, d))) {
            let report = walk(turn, place, destination);
            assert_eq!((report.number, report.place), (0, destination));
            let (step, most): (fn(usize, usize) -> usize, usize) = match report.way {
                Way::Forward => (place_forward, turn / 2),
                Way::Back => (place_back, turn / 2 - 1),
            };
            assert!(report.steps <= most);
            let end = (0..report.steps).fold(place, |at, _| step(turn, at));
            assert_eq!(end, destination);
        }
    }
}

#[test]
fn a_walk_to_no_place_is_refused_from_everywhere() {
    for turn in TURNS {
        for place in 0..turn {
            for destination in [turn, turn + 1, 2 * turn, 255, usize::MAX] {
                assert_eq!(walk(turn, place, destination), refused(place));
            }
        }
    }
}

#[test]
fn forward_and_back_go_round() {
    for turn in TURNS {
        assert_eq!(place_forward(turn, turn - 1), 0);
        assert_eq!(place_back(turn, 0), turn - 1);
        for place in 1..turn {
            assert_eq!(place_forward(turn, place - 1), place);
            assert_eq!(place_back(turn, place), place - 1);
        }
    }
}

/// The zero key is stage 0, and S[0] = BA. Stage 1 comes by sections 3.6 and 3.7
/// from the row BA 54 2F 74: a column (a, 0, 0) becomes (a + ca, ca, ca), and the
/// products with c are 13 53 E3 04. Stage 11 is the constant Q^(11) of README.md.
#[test]
fn a_short_route_of_the_zero_key_is_as_derived_by_hand() {
    let calls = [
        Call::Subkey,
        Call::Forward,
        Call::Subkey,
        Call::Walk(12),
        Call::Walk(7),
        Call::Walk(1),
        Call::Back,
        Call::Back,
    ];
    let log = "route 000000000000000000000000\n\
        subkey 0 ba0000ba0000ba0000ba0000 0\n\
        forward 0 1\n\
        subkey 0 8b13134d535330e3e30c0404 1\n\
        walk 12 5 0 forward 1\n\
        walk 7 0 6 forward 7\n\
        walk 1 0 6 forward 1\n\
        back 0 0\n\
        back 0 11\n\
        holder 12 11 129b2e3b5b649eae1b0a310e000000000000000000000000\n\
        straight 0 12 11 129b2e3b5b649eae1b0a310e000000000000000000000000\n";
    assert_eq!(route_text(&[0; 12], &calls), Ok(log.to_string()));
}

#[test]
fn a_route_without_calls_ends_at_the_key() {
    for length in TURNS {
        let key: Vec<u8> = (1..).take(length).collect();
        let full = hex(&key) + &"00".repeat(24 - length);
        let log = format!(
            "route {}\nholder {} 0 {}\nstraight 0 {} 0 {}\n",
            hex(&key),
            length,
            full,
            length,
            full
        );
        assert_eq!(route_text(&key, &[]), Ok(log));
    }
}

#[test]
fn a_key_of_another_length_has_no_route() {
    for length in [0, 11, 13, 25] {
        let refusal = route_text(&vec![0; length], &[Call::Forward]);
        assert_eq!(refusal, Err(Error::KeyLength(length)));
    }
}

/// The lines of the log, each split into its fields.
fn log_lines() -> Vec<Vec<String>> {
    let text = routes_text().expect("all keys have allowed lengths");
    assert!(text.ends_with('\n'));
    text.lines()
        .map(|line| line.split(' ').map(String::from).collect())
        .collect()
}

/// The length of the key of the log of the given number, from 0 on.
fn key_length(log_number: usize) -> usize {
    TURNS[log_number / 4]
}

/// A field that is a decimal number.
fn number(field: &str) -> usize {
    field.parse().expect("a decimal number")
}

/// The bytes that hexadecimal digits stand for.
fn bytes(hex: &str) -> Vec<u8> {
    (0..hex.len() / 2)
        .map(|k| u8::from_str_radix(&hex[2 * k..2 * k + 2], 16).expect("hex digits"))
        .collect()
}

/// The place after a call on a holder at `place`, from the name of the call and
/// the destination of a walk alone.
fn place_after(turn: usize, place: usize, call: &[String]) -> usize {
    match call[0].as_str() {
        "forward" if place == turn - 1 => 0,
        "forward" => place + 1,
        "back" if place == 0 => turn - 1,
        "back" => place - 1,
        "walk" if number(&call[1]) < turn => number(&call[1]),
        "walk" | "subkey" => place,
        other => panic!("{} is no call", other),
    }
}

/// How many single steps forward there are from one place to another.
fn steps_ahead(turn: usize, from: usize, to: usize) -> usize {
    let mut place = from;
    let mut steps = 0;
    while place != to {
        place = if place == turn - 1 { 0 } else { place + 1 };
        steps += 1;
    }
    steps
}

/// The fields NUMBER, STEPS and WAY of a walk, from counted steps.
fn walk_report(turn: usize, place: usize, destination: usize) -> [String; 3] {
    if destination >= turn {
        return ["5", "0", "forward"].map(String::from);
    }
    let ahead = steps_ahead(turn, place, destination);
    let behind = steps_ahead(turn, destination, place);
    if ahead <= behind {
        ["0", &ahead.to_string(), "forward"].map(String::from)
    } else {
        ["0", &behind.to_string(), "back"].map(String::from)
    }
}

#[test]
fn the_log_starts_as_documented() {
    let text = routes_text().expect("all keys have allowed lengths");
    let first: Vec<&str> = text.lines().take(10).collect();
    let documented = [
        "route c67e816b4bfbe2fb54f6bddf",
        "subkey 0 d07e812a4bfb24fb546abddf 0",
        "forward 0 1",
        "forward 0 2",
        "forward 0 3",
        "walk 18 5 0 forward 3",
        "walk 7 0 4 forward 7",
        "walk 6 0 1 back 6",
        "walk 25 5 0 forward 6",
        "back 0 5",
    ];
    assert_eq!(first, documented);
    let readme = include_str!("../README.md");
    assert!(readme.contains(&format!("    {}\n", documented.join("\n    "))));
}

#[test]
fn the_log_has_203_lines_for_each_of_12_keys() {
    let lines = log_lines();
    assert_eq!(lines.len(), 2436);
    for (k, log) in lines.chunks(LINES_PER_KEY).enumerate() {
        assert_eq!((log[0].len(), log[0][0].as_str()), (2, "route"));
        assert_eq!(log[0][1].len(), 2 * key_length(k));
        for call in &log[1..201] {
            let fields = match call[0].as_str() {
                "walk" => 6,
                "subkey" => 4,
                _ => 3,
            };
            assert_eq!(call.len(), fields);
        }
        assert_eq!((log[201].len(), log[201][0].as_str()), (4, "holder"));
        assert_eq!((log[202].len(), log[202][0].as_str()), (5, "straight"));
    }
}

#[test]
fn the_places_follow_from_the_calls_alone() {
    for (k, log) in log_lines().chunks(LINES_PER_KEY).enumerate() {
        let turn = key_length(k);
        let mut place = 0;
        for call in &log[1..201] {
            place = place_after(turn, place, call);
            assert_eq!(call.last(), Some(&place.to_string()));
        }
        let length_and_place = [turn.to_string(), place.to_string()];
        assert_eq!(log[201][1..3], length_and_place);
        assert_eq!(log[202][2..4], length_and_place);
    }
}

#[test]
fn the_reports_follow_from_the_calls_alone() {
    for (k, log) in log_lines().chunks(LINES_PER_KEY).enumerate() {
        let turn = key_length(k);
        let mut place = 0;
        for call in &log[1..201] {
            if call[0] == "walk" {
                let report = walk_report(turn, place, number(&call[1]));
                assert_eq!(call[2..5], report);
            } else {
                assert_eq!(call[1], "0");
            }
            place = place_after(turn, place, call);
        }
        assert_eq!(log[202][1], "0");
    }
}

/// The stage of a key by the closed form of section 3.7: omega^r(K) + Q^(r).
fn closed_form<const N: usize>(key: &Matrix<N>, r: usize) -> Matrix<N> {
    omega_power(r, key).plus(&accumulated_constant(r))
}

/// Every subkey and every last stage in the log of a key of N columns.
fn check_stages<const N: usize>(log: &[Vec<String>]) {
    let key: Matrix<N> = cipher_key(&bytes(&log[0][1])).expect("a key of N columns");
    for call in log[1..201].iter().filter(|call| call[0] == "subkey") {
        let stage = closed_form(&key, number(&call[3]));
        assert_eq!(call[2], hex(&select(&stage).to_bytes()));
    }
    let stage = closed_form(&key, number(&log[201][2])).to_bytes();
    let full = hex(&stage) + &"00".repeat(24 - stage.len());
    assert_eq!(full.len(), 48);
    assert_eq!((&log[201][3], &log[202][4]), (&full, &full));
}

#[test]
fn the_stages_are_those_of_the_closed_form() {
    for (k, log) in log_lines().chunks(LINES_PER_KEY).enumerate() {
        match key_length(k) {
            12 => check_stages::<4>(log),
            18 => check_stages::<6>(log),
            _ => check_stages::<8>(log),
        }
    }
}

/// What can be told of a call on a holder at `place` from its line.
fn kinds_of(turn: usize, place: usize, call: &[String]) -> Vec<String> {
    let after = place_after(turn, place, call);
    let (way, steps) = match call[0].as_str() {
        "walk" if call[2] == "5" => return vec![String::from("refused")],
        "walk" => (call[4].as_str(), number(&call[3])),
        name => (name, 1),
    };
    let mut kinds = vec![format!("{} {} by {}", call[0], way, steps)];
    if (way == "forward" && after < place) || (way == "back" && after > place) {
        kinds.push(format!("{} {} over the end", call[0], way));
    }
    kinds
}

/// What has to occur in the logs of each key length: a walk of every number of
/// steps in either way, everything over the end, a refusal, a subkey.
fn kinds_needed(turn: usize) -> Vec<String> {
    let mut kinds = vec![String::from("refused"), String::from("subkey subkey by 1")];
    kinds.extend((0..=turn / 2).map(|steps| format!("walk forward by {}", steps)));
    kinds.extend((1..turn / 2).map(|steps| format!("walk back by {}", steps)));
    for name in ["forward forward", "back back", "walk forward", "walk back"] {
        kinds.push(format!("{} over the end", name));
    }
    kinds
}

#[test]
fn every_kind_of_call_occurs_for_each_key_length() {
    for (logs, turn) in log_lines().chunks(4 * LINES_PER_KEY).zip(TURNS) {
        let mut found = Vec::new();
        for log in logs.chunks(LINES_PER_KEY) {
            let mut place = 0;
            for call in &log[1..201] {
                found.extend(kinds_of(turn, place, call));
                place = place_after(turn, place, call);
            }
        }
        for kind in kinds_needed(turn) {
            assert!(found.contains(&kind), "{} with a turn of {}", kind, turn);
        }
    }
}
