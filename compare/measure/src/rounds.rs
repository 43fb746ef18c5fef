//! Time taken round by round, and what many rounds say.

use std::time::Duration;

/// Takes a sample of each contestant in every round, so that a change of the machine's pace meets all alike. Each round begins
/// with another contestant. Gives the seconds of each contestant, round by round.
pub fn interleaved(
    contestants: usize,
    rounds: usize,
    mut sample: impl FnMut(usize) -> Duration,
) -> Vec<Vec<f64>> {
    let mut seconds = vec![Vec::with_capacity(rounds); contestants];
    for round in 0..rounds {
        for turn in 0..contestants {
            let contestant = (round + turn) % contestants;
            seconds[contestant].push(sample(contestant).as_secs_f64());
        }
    }
    seconds
}

/// The middle of many figures, and between which two all lie but the lowest and the highest tenth.
#[derive(Clone, Copy, Debug, PartialEq)]
pub struct Spread {
    pub low: f64,
    pub median: f64,
    pub high: f64,
}

/// How the first contestant's time stands to the second's, round by round.
pub fn ratio(first: &[f64], second: &[f64]) -> Spread {
    spread(first.iter().zip(second).map(|(a, b)| a / b).collect())
}

pub fn spread(mut figures: Vec<f64>) -> Spread {
    figures.sort_by(f64::total_cmp);
    Spread {
        low: quantile(&figures, 0.1),
        median: quantile(&figures, 0.5),
        high: quantile(&figures, 0.9),
    }
}

/// The figure at a share of the way through sorted ones; between two of them, the straight line.
fn quantile(sorted: &[f64], share: f64) -> f64 {
    let place = share * (sorted.len() - 1) as f64;
    let (below, above) = (
        sorted[place.floor() as usize],
        sorted[place.ceil() as usize],
    );
    below + (above - below) * place.fract()
}

#[cfg(test)]
mod tests {
    use super::*;

    #[test]
    fn a_spread_has_the_middle_and_the_tenths() {
        let eleven = (0..11).rev().map(f64::from).collect();
        let wanted = Spread {
            low: 1.0,
            median: 5.0,
            high: 9.0,
        };
        assert_eq!(spread(eleven), wanted);
    }

    #[test]
    fn between_two_figures_lies_a_line() {
        assert_eq!(quantile(&[1.0, 2.0], 0.5), 1.5);
        assert_eq!(quantile(&[1.0, 2.0, 4.0, 8.0], 0.5), 3.0);
        assert_eq!(quantile(&[3.0], 0.9), 3.0);
        assert_eq!(quantile(&[0.0, 10.0], 0.0), 0.0);
        assert_eq!(quantile(&[0.0, 10.0], 1.0), 10.0);
    }

    #[test]
    fn ratios_are_taken_within_a_round() {
        // the second round was slow for both
        let ratio = ratio(&[2.0, 20.0, 2.0], &[1.0, 10.0, 1.0]);
        let wanted = Spread {
            low: 2.0,
            median: 2.0,
            high: 2.0,
        };
        assert_eq!(ratio, wanted);
    }

    #[test]
    fn each_round_begins_with_another_contestant() {
        let mut order = vec![];
        let seconds = interleaved(3, 2, |contestant| {
            order.push(contestant);
            Duration::from_secs(order.len() as u64)
        });
        assert_eq!(order, [0, 1, 2, 1, 2, 0]);
        assert_eq!(seconds, [[1.0, 6.0], [2.0, 4.0], [3.0, 5.0]]);
    }
}
