//! Samples the implementations of an operation in turn.

use std::time::Instant;

use curupira_reference::generator::Generator;

use crate::cases::Contender;

const SEED: u64 = 3;

/// Nanoseconds for one call.
#[derive(Clone, Copy)]
pub struct Times {
    pub median: f64,
    pub least: f64,
}

/// The times of the contenders, in their order. For each round of samples the
/// order in which they are taken is drawn anew, so that none of them always comes
/// after the same other one.
pub fn measure(contenders: &mut [Contender], samples: usize) -> Vec<Times> {
    let mut generator = Generator::new(SEED);
    let mut taken = vec![Vec::with_capacity(samples); contenders.len()];
    for _ in 0..samples {
        for index in draw_order(&mut generator, contenders.len()) {
            taken[index].push(sample(&mut contenders[index]));
        }
    }
    taken.into_iter().map(summary).collect()
}

/// The nanoseconds for a call, from one batch.
fn sample(one: &mut Contender) -> f64 {
    let untimed = one.warm_up();
    (one.batch)(untimed);
    let start = Instant::now();
    (one.batch)(one.calls);
    start.elapsed().as_nanos() as f64 / one.calls as f64
}

/// The numbers below `count`, shuffled.
fn draw_order(generator: &mut Generator, count: usize) -> Vec<usize> {
    let mut order = (0..count).collect::<Vec<_>>();
    for last in (1..count).rev() {
        order.swap(last, usize::from(generator.byte()) % (last + 1));
    }
    order
}

fn summary(mut taken: Vec<f64>) -> Times {
    taken.sort_by(f64::total_cmp);
    Times {
        median: taken[taken.len() / 2],
        least: taken[0],
    }
}
