//! Times the same work by several hands, in turn, and keeps the best time of each.

use std::time::{Duration, Instant};

/// How often everything is timed, and how long a timing lasts at least.
#[derive(Clone, Copy)]
pub struct Effort {
    pub rounds: u32,
    pub least: Duration,
}

pub type Work<'a> = Box<dyn FnMut() + 'a>;

/// The best time of one run of each, in nanoseconds.
pub fn best(effort: Effort, works: &mut [Work]) -> Vec<f64> {
    let runs: Vec<u32> = works.iter_mut().map(|work| runs_needed(effort.least, work)).collect();
    let mut best = vec![f64::INFINITY; works.len()];
    for _ in 0..effort.rounds {
        for (i, work) in works.iter_mut().enumerate() {
            best[i] = best[i].min(one_run(runs[i], work));
        }
    }
    best
}

/// How many runs last long enough; it warms up, too.
fn runs_needed(least: Duration, work: &mut Work) -> u32 {
    let mut runs = 1;
    while one_run(runs, work) * f64::from(runs) < least.as_nanos() as f64 {
        runs *= 2;
    }
    runs
}

fn one_run(runs: u32, work: &mut Work) -> f64 {
    let start = Instant::now();
    for _ in 0..runs {
        work();
    }
    start.elapsed().as_nanos() as f64 / f64::from(runs)
}
