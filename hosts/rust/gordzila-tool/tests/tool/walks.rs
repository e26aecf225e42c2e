//! `walk`.

use crate::running::{line, run, Room, Run, KEY};
use std::collections::HashMap;
use std::fs;
use std::path::Path;

/// How many lines a route has in the stored output of the independent program.
/// reference/README.md says what they are.
const LINES: usize = 203;

/// Which routes are walked: one of each key length. The wrapper's tests have them all.
const ROUTES: [usize; 3] = [0, 4, 8];

fn walk(key: &str, from: &str, to: &str) -> Run {
    line(&format!("walk --key {key} --from {from} --to {to}"))
}

#[test]
fn the_tool_walks_as_the_independent_program_does() {
    let stored = Path::new(env!("CARGO_MANIFEST_DIR")).join("../../../crates/route_log/stdout");
    let text = fs::read_to_string(stored).unwrap();
    let lines: Vec<&str> = text.lines().collect();
    let compared: usize = ROUTES
        .into_iter()
        .map(|number| compare(&lines[LINES * number..LINES * (number + 1)]))
        .sum();
    // The steps of each walk, and the subkeys and stages that the routes have.
    assert_eq!(compared, 115 + 83 + 11);
}

/// Makes the walks of a route, and gives how many printed lines were compared.
fn compare(lines: &[&str]) -> usize {
    let key = lines[0].strip_prefix("route ").unwrap();
    let mut known = known(lines);
    let (mut from, mut compared) = ("0", 0);
    for line in &lines[1..LINES - 2] {
        let fields: Vec<&str> = line.split(' ').collect();
        match fields[..] {
            ["walk", to, "0", steps, way, _] => {
                known.insert("steps".to_string(), format!("{steps} {way}"));
                compared += agreeing(&walk(key, from, to).done(), &known);
            }
            ["walk", to, "5", ..] => assert_eq!(walk(key, from, to).refused(), 5),
            _ => (),
        }
        from = fields[fields.len() - 1];
    }
    compared
}

/// How many printed lines have a known value; it has to be theirs.
fn agreeing(printed: &str, known: &HashMap<String, String>) -> usize {
    let values = printed.lines().filter_map(|line| {
        let (name, value) = line.split_once(": ").unwrap();
        Some((value, known.get(name)?))
    });
    values
        .inspect(|(value, expected)| assert_eq!(value, expected))
        .count()
}

/// The subkeys and the stage that a route has, by the names that the tool gives them.
fn known(lines: &[&str]) -> HashMap<String, String> {
    let mut known = HashMap::new();
    for line in lines {
        let fields: Vec<&str> = line.split(' ').collect();
        match fields[..] {
            ["subkey", "0", subkey, n] => known.insert(format!("subkey {n}"), subkey.to_string()),
            ["straight", "0", _, n, stage] => known.insert(format!("stage {n}"), stage.to_string()),
            _ => None,
        };
    }
    known
}

/// A worked answer of reference/README.md.
#[test]
fn a_walk_is_shown_with_the_stage_and_its_subkey() {
    let key = "0f1e2d3c4b5a69788796a5b4";
    let (stage, subkey) = ("c33dc23e2e7b71926d52ae37", "343dc26c2e7b65926d0dae37");
    let zeros = "0".repeat(24);
    for (from, steps) in [
        ("1", "0 forward"),
        ("10", "3 forward"),
        ("7", "6 forward"),
        ("6", "5 back"),
        ("2", "1 back"),
    ] {
        let expected = format!("steps: {steps}\nstage 1: {stage}{zeros}\nsubkey 1: {subkey}\n");
        assert_eq!(walk(key, from, "1").done(), expected);
    }
}

#[test]
fn a_walk_ends_where_stage_shows() {
    for (from, to) in [("0", "11"), ("11", "0"), ("3", "9")] {
        let walked = walk(KEY, from, to).done();
        let shown = line(&format!("stage --key {KEY} --stage {to}")).done();
        assert!(walked.ends_with(&format!("\n{shown}")), "{walked}");
    }
}

#[test]
fn the_key_may_stand_in_a_file() {
    let room = Room::new("walk-key-file");
    let file = room.file("key", KEY.as_bytes());
    let file = file.to_str().unwrap();
    let walked = run(&["walk", "--key-file", file, "--from", "3", "--to", "9"]);
    assert_eq!(walked, walk(KEY, "3", "9"));
}

#[test]
fn a_walk_refuses_with_1_5() {
    let number = |key: &str, from: &str, to: &str| walk(key, from, to).refused();
    assert_eq!(number("0011", "99", "99"), 1);
    assert_eq!(number(KEY, "12", "0"), 5);
    assert_eq!(number(KEY, "0", "12"), 5);
    assert_eq!(number(KEY, "4294967295", "0"), 5);
    assert_eq!(number(KEY, "0", "4294967295"), 5);
    // Bad usage comes before what the library refuses.
    walk("0011", "0", "x").stopped("--to: ");
    walk(KEY, "99", "x").stopped("--to: ");
}
