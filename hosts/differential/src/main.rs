//! The program: `differential [CASES] [SEED]`.

use std::env;
use std::process::ExitCode;
use std::thread;
use std::time::Instant;

use gordzila_differential::archive::archive;
use gordzila_differential::work::{work, Outcome, Plan};

const CASES: u64 = 1_000_000;
const SEED: u64 = 1;

fn main() -> ExitCode {
    let arguments: Vec<String> = env::args().skip(1).collect();
    match plan(&arguments) {
        Some(plan) => run(&plan),
        None => {
            eprintln!("usage: differential [CASES] [SEED]");
            ExitCode::from(2)
        }
    }
}

/// Does what is planned, and says what came out.
fn run(plan: &Plan) -> ExitCode {
    let start = Instant::now();
    let outcome = work(plan, &archive);
    eprintln!("{} threads, {:.1?}", plan.threads, start.elapsed());
    print(plan, &outcome);
    ExitCode::from(u8::from(!outcome.is_good()))
}

/// The plan that the arguments ask for.
fn plan(arguments: &[String]) -> Option<Plan> {
    let number = |place: usize, default: u64| match arguments.get(place) {
        Some(text) => text.parse().ok(),
        None => Some(default),
    };
    let plan = Plan {
        cases: number(0, CASES)?,
        seed: number(1, SEED)?,
        threads: thread::available_parallelism().map_or(1, usize::from),
    };
    (arguments.len() <= 2).then_some(plan)
}

/// Prints what came out.
fn print(plan: &Plan, outcome: &Outcome) {
    println!("{}, seed {}", env!("DIFFERENTIAL_ARCHIVE"), plan.seed);
    println!("{}", outcome.tally);
    for difference in &outcome.first {
        println!("{difference}");
    }
    for missing in outcome.tally.missing() {
        println!("never occurred: {missing}");
    }
    println!("{} differences", outcome.different);
}
