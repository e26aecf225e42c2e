//! The key holder, against the stored output of the independent program.

use crate::{bytes_of, digits_of, number_of, repository_file};
use gordzila::{stage, KeyHolder, Reason, Walked};

/// How many lines a route has.
const LINES: usize = 203;

/// A key and its holder, which goes the route.
struct Route {
    key: Vec<u8>,
    holder: KeyHolder,
}

#[test]
fn routes_are_those_of_the_independent_program() {
    let text = repository_file("crates/route_log/stdout");
    let lines: Vec<&str> = text.lines().collect();
    assert_eq!(lines.len(), 12 * LINES);
    for lines in lines.chunks(LINES) {
        let mut route = Route::new(lines[0]);
        for line in &lines[1..] {
            assert_eq!(route.line_for(line), *line, "{}", lines[0]);
        }
    }
}

impl Route {
    fn new(line: &str) -> Route {
        let key = bytes_of(line.strip_prefix("route ").unwrap());
        let holder = KeyHolder::new(&key).unwrap();
        Route { key, holder }
    }

    /// Makes the call of a line, and gives the line for what it answers, as
    /// reference/README.md has it.
    fn line_for(&mut self, line: &str) -> String {
        let fields: Vec<&str> = line.split(' ').collect();
        let told = match fields[0] {
            "forward" => self.stepped("forward", KeyHolder::forward),
            "back" => self.stepped("back", KeyHolder::back),
            "walk" => self.walked(number_of(fields[1])),
            "subkey" => format!("subkey 0 {}", digits_of(&self.holder.subkey())),
            "holder" => return self.held(),
            "straight" => return self.straight(),
            _ => panic!("{line}"),
        };
        format!("{told} {}", self.holder.stage_number())
    }

    fn stepped(&mut self, name: &str, step: fn(&mut KeyHolder)) -> String {
        step(&mut self.holder);
        format!("{name} 0")
    }

    /// A walk that is refused leaves the holder as it was.
    fn walked(&mut self, n: u32) -> String {
        let before = self.holder.clone();
        match self.holder.walk(n) {
            Ok(Walked { steps, way }) => format!("walk {n} 0 {steps} {way}"),
            Err(reason) => {
                assert_eq!((reason, &self.holder), (Reason::StageOrList, &before));
                format!("walk {n} {} 0 forward", reason.number())
            }
        }
    }

    fn held(&self) -> String {
        let (length, n) = (self.holder.key_length(), self.holder.stage_number());
        format!("holder {length} {n} {}", digits_of(self.holder.stage()))
    }

    fn straight(&self) -> String {
        let (length, n) = (self.key.len(), self.holder.stage_number());
        let stage = stage(&self.key, n).unwrap();
        format!("straight 0 {length} {n} {}", digits_of(&stage))
    }
}
