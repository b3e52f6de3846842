//! Loads never pull (request E10), on the compiled library: after any list each normal impulse is bit for bit what it
//! was, or 0 or above; and 0 or above at points in use of a contact on which a step was done. Proved of the call; here
//! random lists over contacts of all sorts, wild and wrong ones among them.
mod common;
use common::{good, Lent};
use romaludiv::*;

/// xorshift: the same numbers in each run.
struct Random(u64);

impl Random {
    fn below(&mut self, n: u64) -> u64 {
        self.0 ^= self.0 << 13;
        self.0 ^= self.0 >> 7;
        self.0 ^= self.0 << 17;
        (self.0 >> 16) % n
    }

    /// From -3 to 3, in eighths.
    fn tame(&mut self) -> f32 {
        self.below(49) as f32 / 8.0 - 3.0
    }

    /// Now and then one that is huge, tiny, below 0 or no number.
    fn wild(&mut self) -> f32 {
        let odd = [
            3e38,
            -3e38,
            1e-45,
            -1e-45,
            -0.0,
            f32::INFINITY,
            -1.0,
            f32::NAN,
        ];
        match self.below(40) {
            0 => odd[self.below(8) as usize],
            1 => -f32::NAN,
            _ => self.tame(),
        }
    }

    fn body(&mut self) -> Body {
        let (x, y, w) = (self.tame(), self.tame(), self.tame());
        Body { x, y, w }
    }

    fn normal(&mut self, part: &mut NormalPart) {
        (part.torque1, part.torque2) = (self.tame(), self.tame());
        (part.ii1, part.ii2) = (self.tame(), self.tame());
        (part.rhs, part.accumulator, part.seed) = (self.tame(), self.tame(), self.tame());
        part.impulse = if self.below(6) == 0 {
            self.wild()
        } else {
            self.tame().abs()
        };
        part.r = if self.below(30) == 0 {
            self.wild()
        } else {
            self.tame().abs()
        };
        part.cfm = if self.below(30) == 0 {
            self.wild()
        } else {
            (self.below(8) + 1) as f32 / 8.0
        };
    }

    fn contact(&mut self) -> Contact {
        let mut contact = good();
        contact.body2 = 1 + self.below(2) as u16;
        contact.count = 1 + self.below(2) as u16;
        contact.dir = Vec2 {
            x: self.tame(),
            y: self.tame(),
        };
        contact.friction = self.tame().abs();
        contact.k12 = self.wild();
        contact.flag = self.below(2) as f32;
        self.normal(&mut contact.a.normal);
        self.normal(&mut contact.b.normal);
        contact
    }
}

/// What became of a load, of all that the lists have.
#[derive(Default)]
struct Seen {
    changed: usize,
    kept_below: usize,
    kept_nan: usize,
    branches: [usize; 7],
}

/// One list of 40 steps over 6 contacts of 3 bodies.
fn one_list(random: &mut Random, seen: &mut Seen) {
    let bodies = [(); 3].map(|()| random.body());
    let contacts = [(); 6].map(|()| random.contact());
    let steps = [(); 40].map(|()| (random.below(6) as u16, random.below(5) as u16));
    let mut lent = Lent::new(&bodies, &contacts, &steps);
    let before = lent.clone();
    lent.call(steps.len()).expect("the call is not refused");
    for k in 0..contacts.len() {
        let (old, new) = (before.loads(k), lent.loads(k));
        let done = (0..steps.len()).any(|i| usize::from(steps[i].0) == k && lent.answer(i).0 == 0);
        for (place, old, new) in [(0, old.0, new.0), (1, old.1, new.1)] {
            let kept = old.to_bits() == new.to_bits();
            assert!(
                kept || new >= 0.0,
                "contact {k}, point {place}: {old} became {new}"
            );
            if done && place < contacts[k].count {
                assert!(
                    new >= 0.0,
                    "contact {k}, point {place}: {new} after a done step"
                );
            }
            seen.changed += usize::from(!kept);
            seen.kept_below += usize::from(kept && new < 0.0);
            seen.kept_nan += usize::from(kept && new.is_nan());
        }
    }
    for i in 0..steps.len() {
        seen.branches[usize::from(lent.answer(i).1)] += 1;
    }
}

#[test]
fn no_load_pulls() {
    let mut random = Random(0x2026_1116);
    let mut seen = Seen::default();
    for _ in 0..4000 {
        one_list(&mut random, &mut seen);
    }
    // every case of the statement came up, and every branch of a pair
    assert!(seen.changed > 1000, "{}", seen.changed);
    assert!(seen.kept_below > 100, "{}", seen.kept_below);
    assert!(seen.kept_nan > 20, "{}", seen.kept_nan);
    assert!(seen.branches.iter().all(|&n| n > 20), "{:?}", seen.branches);
}
