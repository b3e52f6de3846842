//! Times of both sides: the best of many repeats, ours and the Rust by turns. The machine may be busy with other work, which
//! only ever adds time; so the best is the least wrong. Tables are put back before each repeat, outside the timed part.

use crate::nights::Night;
use crate::sides::Sides;
use std::time::Instant;

/// Nanoseconds for the whole list.
#[derive(Clone, Copy)]
pub struct Times {
    pub ours: f64,
    pub rust: f64,
}

impl Times {
    const NONE: Times = Times { ours: f64::INFINITY, rust: f64::INFINITY };

    pub fn per_step(self, length: usize) -> Times {
        Times { ours: self.ours / length as f64, rust: self.rust / length as f64 }
    }
}

/// Nanoseconds that the work takes.
fn timed(work: impl FnOnce()) -> f64 {
    let from = Instant::now();
    work();
    from.elapsed().as_nanos() as f64
}

/// About four million steps on each side, but at least 60 repeats and at most 3000.
fn repeats(length: usize) -> usize {
    (4_000_000 / length.max(1)).clamp(60, 3000)
}

/// The best times of the night's list; the two sides have to agree afterwards, and no step may be refused. Also how many
/// steps took each branch.
pub fn both(night: &Night) -> (Times, [usize; 7]) {
    let mut sides = Sides::new(night);
    let length = sides.length();
    let mut best = Times::NONE;
    for _ in 0..repeats(length) {
        sides.restore_ours();
        let mut done = None;
        best.ours = best.ours.min(timed(|| done = Some(sides.run_ours(length))));
        assert_eq!(done, Some(romaludiv::Done { done: length, refused: 0 }));
        sides.restore_rust();
        best.rust = best.rust.min(timed(|| sides.run_rust()));
    }
    sides.compare();
    (best, sides.branches())
}

/// The best time of a call with budget 0: its checks over the whole list, and no step done.
pub fn checks_alone(night: &Night) -> f64 {
    let mut sides = Sides::new(night);
    let mut best = f64::INFINITY;
    for _ in 0..repeats(sides.length()) {
        best = best.min(timed(|| {
            sides.run_ours(0);
        }));
    }
    best
}
