//! What sections 3.1 to 3.4, 3.10 and 4.1 say about the layers of a round.

use curupira_reference::generator::Generator;
use curupira_reference::layers::{
    gamma, inverse_gamma, inverse_pi, inverse_sigma, inverse_theta, pi, sigma, theta,
};
use curupira_reference::matrix::{Matrix, State};

/// A state drawn from the generator.
fn draw_state(generator: &mut Generator) -> State {
    Matrix::from_bytes(&generator.bytes(12)).expect("a state has 12 bytes")
}

/// Runs a check on 500 pairs of pseudo-random states.
fn for_random_pairs(check: impl Fn(&State, &State)) {
    let mut generator = Generator::new(10);
    for _ in 0..500 {
        let a = draw_state(&mut generator);
        let k = draw_state(&mut generator);
        check(&a, &k);
    }
}

/// Section 2.2: the Hamming weight, the number of nonzero bytes.
fn weight<const N: usize>(a: &Matrix<N>) -> usize {
    a.to_bytes().iter().filter(|byte| **byte != 0).count()
}

/// Every nonzero column, up to a nonzero factor: those whose first nonzero
/// entry is 1.
fn normalised_columns() -> Vec<Matrix<1>> {
    let mut columns = vec![Matrix {
        rows: [[0], [0], [1]],
    }];
    for x in 0..=255 {
        columns.push(Matrix {
            rows: [[0], [1], [x]],
        });
        for y in 0..=255 {
            columns.push(Matrix {
                rows: [[1], [x], [y]],
            });
        }
    }
    columns
}

#[test]
fn the_layers_are_involutions() {
    for_random_pairs(|a, k| {
        assert_eq!(gamma(&gamma(a)), *a);
        assert_eq!(pi(&pi(a)), *a);
        assert_eq!(theta(&theta(a)), *a);
        assert_eq!(sigma(k, &sigma(k, a)), *a);
    });
}

#[test]
fn the_literal_inverses_undo_the_layers() {
    for_random_pairs(|a, k| {
        assert_eq!(inverse_gamma(&gamma(a)), *a);
        assert_eq!(inverse_pi(&pi(a)), *a);
        assert_eq!(inverse_theta(&theta(a)), *a);
        assert_eq!(inverse_sigma(k, &sigma(k, a)), *a);
    });
}

/// Section 3.2, on a state whose entries are all different.
#[test]
fn pi_follows_its_index_rule() {
    let a: State = Matrix {
        rows: [[0, 1, 2, 3], [10, 11, 12, 13], [20, 21, 22, 23]],
    };
    let b: State = Matrix {
        rows: [[0, 1, 2, 3], [11, 10, 13, 12], [22, 23, 20, 21]],
    };
    assert_eq!(pi(&a), b);
}

/// Section 3.2 states pi for matrices of any number n of columns. The rule
/// b_{i,j} = a_{i, i xor j} stays inside the matrix only if n is a multiple of 4.
#[test]
fn the_rule_of_pi_needs_a_multiple_of_four_columns() {
    for n in 1..=64 {
        let stays_inside = (0..3).all(|i| (0..n).all(|j| (i ^ j) < n));
        assert_eq!(stays_inside, n % 4 == 0);
    }
}

/// Section 3.10, proof of Theorem 1.
#[test]
fn gamma_and_pi_commute() {
    for_random_pairs(|a, _| assert_eq!(gamma(&pi(a)), pi(&gamma(a))));
}

/// Section 3.10, proof of Theorem 1.
#[test]
fn theta_passes_a_key_addition() {
    for_random_pairs(|a, k| {
        assert_eq!(theta(&sigma(k, a)), sigma(&theta(k), &theta(a)));
    });
}

/// Section 3.3: theta has branch number 4, counted in bytes. A nonzero factor
/// changes no weight on either side, so that normalised columns are enough; and
/// theta acts on each column of a state on its own.
#[test]
fn the_branch_number_of_theta_is_four() {
    let least = normalised_columns()
        .iter()
        .map(|a| weight(a) + weight(&theta(a)))
        .min();
    assert_eq!(least, Some(4));

    let one_active_byte: State = Matrix::from_rule(|i, j| u8::from((i, j) == (0, 0)));
    assert_eq!(
        weight(&one_active_byte) + weight(&theta(&one_active_byte)),
        4
    );
}

/// Patterns of active bytes: byte i + 3j of a state is active if that bit is 1.
mod patterns {
    /// The number of patterns of a state.
    pub const COUNT: usize = 1 << 12;

    /// Section 3.2 on patterns.
    pub fn pi(pattern: usize) -> usize {
        let mut result = 0;
        for i in 0..3 {
            for j in 0..4 {
                if (pattern >> (i + 3 * (i ^ j))) & 1 == 1 {
                    result |= 1 << (i + 3 * j);
                }
            }
        }
        result
    }

    /// The patterns that theta can make of one column: none from none, else any
    /// that gives the branch number 4.
    fn after_theta_on_column(column: usize) -> Vec<usize> {
        if column == 0 {
            return vec![0];
        }
        (1..8_usize)
            .filter(|next| column.count_ones() + next.count_ones() >= 4)
            .collect()
    }

    /// The patterns that theta can make of a state.
    pub fn after_theta(pattern: usize) -> Vec<usize> {
        let mut results = vec![0];
        for j in 0..4 {
            let columns = after_theta_on_column((pattern >> (3 * j)) & 7);
            results = results
                .iter()
                .flat_map(|result| columns.iter().map(move |next| result | (next << (3 * j))))
                .collect();
        }
        results
    }

    /// The number of active bytes.
    pub fn weight(pattern: usize) -> u32 {
        pattern.count_ones()
    }
}

/// The least number of active S-boxes over so many rounds, for each pattern
/// that can stand at the last of them.
fn fewest_active_sboxes(rounds: usize) -> Vec<Option<u32>> {
    let mut fewest: Vec<Option<u32>> = (0..patterns::COUNT)
        .map(|p| Some(patterns::weight(p)).filter(|_| p != 0))
        .collect();
    for _ in 1..rounds {
        let mut next_fewest: Vec<Option<u32>> = vec![None; patterns::COUNT];
        for (pattern, so_far) in fewest.iter().enumerate() {
            if let Some(so_far) = so_far {
                for next in patterns::after_theta(patterns::pi(pattern)) {
                    let total = so_far + patterns::weight(next);
                    let known = next_fewest[next].unwrap_or(total);
                    next_fewest[next] = Some(std::cmp::min(known, total));
                }
            }
        }
        fewest = next_fewest;
    }
    fewest
}

/// Section 4.1: at least 16 active S-boxes over every four rounds.
#[test]
fn four_rounds_have_at_least_sixteen_active_sboxes() {
    let least = |rounds| fewest_active_sboxes(rounds).into_iter().flatten().min();
    assert_eq!(least(1), Some(1));
    assert_eq!(least(2), Some(4));
    assert_eq!(least(4), Some(16));
}
