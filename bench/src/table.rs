//! Prints the tables: for each size the median times, and the library's times as
//! multiples of the others.

use crate::cases::{contenders, Contender, Operation, Size, SINGLES, SIZES};
use crate::interface::{BEFORE, PLAIN};
use crate::timing::{measure, Times};

/// The width of the names of the rows.
const NAMES: usize = 38;

/// A time of one implementation, and the bytes of its block.
struct Cell {
    times: Times,
    block_bytes: usize,
}

/// A row: the cells of one implementation, in the order of `Operation::ALL`.
struct Row {
    name: String,
    cells: Vec<Option<Cell>>,
}

pub fn print(samples: usize) {
    println!("{samples} samples of each, taken in turn; a sample is a batch of calls");
    for size in SIZES {
        let rows = rows(size, samples);
        println!();
        let title = format!("{}-byte key, {} rounds", size.key_length, size.rounds);
        print_line(&title, Operation::ALL.map(|one| one.heading()[0]));
        print_line("", Operation::ALL.map(|one| one.heading()[1]));
        print_times(&rows);
        print_ratios("library's time / this time, medians", &rows, |t| t.median);
        print_ratios("library's time / this time, least", &rows, |t| t.least);
        print_queue(&rows);
        print_pages(&rows);
        print_stages(&rows);
    }
}

/// Measures all operations for one size.
fn rows(size: Size, samples: usize) -> Vec<Row> {
    let mut rows = Vec::new();
    for (column, operation) in Operation::ALL.into_iter().enumerate() {
        let mut contenders = contenders(operation, size);
        let times = measure(&mut contenders, samples);
        for (contender, times) in contenders.iter().zip(times) {
            let row = row_of(&mut rows, contender);
            row.cells[column] = Some(Cell {
                times,
                block_bytes: contender.block_bytes,
            });
        }
    }
    rows
}

/// The row of an implementation, which is added if it is new.
fn row_of<'a>(rows: &'a mut Vec<Row>, contender: &Contender) -> &'a mut Row {
    let found = rows.iter().position(|row| row.name == contender.name);
    let index = found.unwrap_or_else(|| {
        rows.push(Row {
            name: contender.name.clone(),
            cells: Operation::ALL.map(|_| None).into(),
        });
        rows.len() - 1
    });
    &mut rows[index]
}

fn print_times(rows: &[Row]) {
    println!("nanoseconds for a call, medians");
    for row in rows {
        let cells = row.cells.iter().map(|cell| match cell {
            Some(cell) => format!("{:.0}", cell.times.median),
            None => String::new(),
        });
        print_line(&format!("  {}", row.name), cells);
    }
}

/// The library's time, divided by that of every other row. Where the blocks have
/// different lengths, it is the times for a byte that are divided.
fn print_ratios(title: &str, rows: &[Row], time: impl Fn(&Times) -> f64) {
    println!("{title}");
    let per_byte = |cell: &Cell| time(&cell.times) / cell.block_bytes as f64;
    let (library, others) = rows.split_first().expect("the library has a row");
    for row in others {
        let pairs = library.cells.iter().zip(&row.cells);
        let cells = pairs.map(|pair| match pair {
            (Some(own), Some(other)) => ratio(per_byte(own) / per_byte(other)),
            _ => String::new(),
        });
        print_line(&format!("  {}", row.name), cells);
    }
}

/// The ratios of a queue for which there is a target, with the target. They stand in
/// the ratios above too.
fn print_queue(rows: &[Row]) {
    println!("the library's queue of 64 / this, by medians and by least times, and the target");
    for (name, target) in [(SINGLES, "0.6"), (PLAIN, "1.0")] {
        print_target(name, rows, Operation::Queue, name, target);
    }
}

/// The same of pages, and, for scale, the time for each byte of a full page.
fn print_pages(rows: &[Row]) {
    println!("the library's page / plain C's, by medians and by least times, and the target");
    for operation in Operation::ON_PAGES {
        let [call, payload] = operation.heading();
        let title = format!("{call}, {payload} bytes of payload");
        print_target(&title, rows, operation, PLAIN, "1.0");
    }
    println!("nanoseconds for each of the 512 bytes of a full page, medians: seal, open");
    let full = [Operation::SealFull, Operation::OpenFull];
    for row in rows {
        let cells = full.map(|operation| row.cells[operation.column()].as_ref());
        if let [Some(seal), Some(open)] = cells {
            let each = [seal, open].map(|cell| cell.times.median / cell.block_bytes as f64);
            print_line(
                &format!("  {}", row.name),
                each.map(|time| format!("{time:.1}")),
            );
        }
    }
}

/// The same of what is little else than steps of the key schedule, and beside the library
/// before, if there is one.
fn print_stages(rows: &[Row]) {
    for (name, whose) in [
        (PLAIN, "plain C's"),
        (BEFORE, "those of the library before"),
    ] {
        if rows.iter().all(|row| row.name != name) {
            continue;
        }
        println!(
            "the library's walk, stage and lists / {whose}, \
             by medians and by least times, and the target"
        );
        for operation in Operation::ON_STAGES {
            let title = operation.heading().join(", ");
            print_target(&title, rows, operation, name, "1.0");
        }
    }
}

/// A line with the library's time divided by that of the row of a name, and the target.
fn print_target(title: &str, rows: &[Row], operation: Operation, name: &str, target: &str) {
    let times = |row: &Row| {
        row.cells[operation.column()]
            .as_ref()
            .map(|cell| cell.times)
    };
    let own = times(&rows[0]).expect("the library is timed");
    let row = rows.iter().find(|row| row.name == name);
    let other = row.and_then(times).expect("what has a target is timed");
    let ratios = [own.median / other.median, own.least / other.least].map(ratio);
    let cells = ratios.into_iter().chain([format!("<= {target}")]);
    print_line(&format!("  {title}"), cells);
}

/// A ratio, with as many places as say something.
fn ratio(value: f64) -> String {
    if value < 0.1 {
        format!("{value:.4}")
    } else {
        format!("{value:.2}")
    }
}

fn print_line<T: std::fmt::Display>(name: &str, cells: impl IntoIterator<Item = T>) {
    let cells = cells.into_iter().map(|cell| format!("{cell:>10}"));
    let line = format!("{name:<NAMES$}{}", cells.collect::<String>());
    println!("{}", line.trim_end());
}
