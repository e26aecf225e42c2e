//! The order in which a call gives its reasons: read from the table that the stored outputs of the
//! test programs are made from too, so that it stands in one place.

use std::sync::Mutex;

use crate::call::Call;

/// What is added to the number of a reason that stands a second time in an order. It is a reason of its
/// own, which is tried later and given by the same number.
const LATE: u32 = 100;

/// The reason that a page is refused for after its check was tried: 11, for the second time.
pub const LATE_11: u32 = LATE + 11;

/// The number by which a reason is given.
pub fn number(reason: u32) -> u32 {
    reason % LATE
}

/// The name of a reason: its number, and whether it is the later one with that number.
pub fn name(reason: u32) -> String {
    match reason < LATE {
        true => reason.to_string(),
        false => format!("late {}", number(reason)),
    }
}

/// A line for each call: its name, its order by value, and its order in C.
const TABLE: &str = include_str!("../../../tools/orders.txt");

/// The order of a call in C.
pub fn of(call: Call) -> &'static [u32] {
    static ORDERS: Mutex<Option<&[Vec<u32>]>> = Mutex::new(None);
    let mut orders = ORDERS.lock().expect("the table can be read");
    let orders = orders.get_or_insert_with(|| {
        let read = Call::ALL.map(|call| read(TABLE, call.name()));
        read.to_vec().leak()
    });
    &orders[call.place()]
}

/// The order that a table gives a call in C. No number in it is as high as `LATE`.
pub fn read(table: &str, name: &str) -> Vec<u32> {
    let mut lines = table.lines().filter(|line| !line.starts_with('#'));
    let line = lines.find(|line| line.split('|').next().map(str::trim) == Some(name));
    let line = line.unwrap_or_else(|| panic!("{name} has no line"));
    let fields: Vec<&str> = line.split('|').map(str::trim).collect();
    let order = match fields[..] {
        [_, by_value, "same"] => by_value,
        [_, _, in_c] => in_c,
        _ => panic!("{name} has another number of fields than three"),
    };
    let numbers = order.split_whitespace().map(str::parse);
    let numbers: Vec<u32> = numbers
        .collect::<Result<_, _>>()
        .unwrap_or_else(|error| panic!("{name}: {order}: {error}"));
    assert!(numbers.iter().all(|&one| one < LATE), "{name}: {order}");
    let reason = |(place, number): (usize, &u32)| match numbers[..place].contains(number) {
        true => LATE + number,
        false => *number,
    };
    numbers.iter().enumerate().map(reason).collect()
}
