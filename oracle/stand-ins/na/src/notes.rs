//! Notes on the selects between vectors of two, in the order they are made. The pair routine makes five of them, and
//! together they tell which candidate it took: the branch number, which the Rust itself does not return.
//! With the feature `notes` off nothing is noted.

#[cfg(feature = "notes")]
mod kept {
    use std::cell::Cell;

    thread_local! {
        static KEPT: Cell<(usize, [bool; 8])> = const { Cell::new((0, [false; 8])) };
    }

    pub fn note(cond: bool) {
        KEPT.with(|kept| {
            let (count, mut conds) = kept.get();
            if count < conds.len() {
                conds[count] = cond;
            }
            kept.set((count + 1, conds));
        });
    }

    pub fn take() -> (usize, [bool; 8]) {
        KEPT.with(|kept| kept.replace((0, [false; 8])))
    }
}

#[cfg(not(feature = "notes"))]
mod kept {
    #[inline(always)]
    pub fn note(_: bool) {}

    #[inline(always)]
    pub fn take() -> (usize, [bool; 8]) {
        (0, [false; 8])
    }
}

pub(crate) use kept::note;
/// How many selects were made since the last call, and the conditions of the first eight.
pub use kept::take;
