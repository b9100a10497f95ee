//! Time, and medians of it.

use std::time::Instant;

/// Nanoseconds that a piece of work took.
pub fn nanoseconds(work: impl FnOnce()) -> f64 {
    let begun = Instant::now();
    work();
    begun.elapsed().as_nanos() as f64
}

/// The median of several samples, and how far the middle half of them spreads, as a part of the median.
#[derive(Clone, Copy)]
pub struct Timed {
    pub median: f64,
    pub spread: f64,
}

fn timed(mut samples: Vec<f64>) -> Timed {
    samples.sort_by(f64::total_cmp);
    let at = |part: usize| samples[(samples.len() - 1) * part / 4];
    Timed {
        median: at(2),
        spread: (at(3) - at(1)) / at(2),
    }
}

/// Runs each of the works in turn, round after round, so that a slow moment of the machine falls on all of them. A work answers
/// nanoseconds per call. The first rounds are not counted.
pub fn in_turn(rounds: usize, works: &mut [&mut dyn FnMut() -> f64]) -> Vec<Timed> {
    let warm = rounds / 8 + 1;
    let mut samples = vec![Vec::with_capacity(rounds); works.len()];
    for round in 0..warm + rounds {
        for (work, list) in works.iter_mut().zip(&mut samples) {
            let sample = work();
            if round >= warm {
                list.push(sample);
            }
        }
    }
    samples.into_iter().map(timed).collect()
}
