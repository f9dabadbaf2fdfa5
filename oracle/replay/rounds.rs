//! Counts the rounds of a draw, which takes the absolute value once in each, and stops it when its allowance is used up.
use std::cell::Cell;
use std::panic::{catch_unwind, resume_unwind, AssertUnwindSafe};

pub const MOST_ROUNDS: u32 = 1000;

thread_local! {
    static ROUNDS: Cell<u32> = const { Cell::new(0) };
    static ALLOWANCE: Cell<u32> = const { Cell::new(0) };
}

/// What is thrown when a draw wants a round more than it is allowed.
struct UsedUp;

/// The absolute value, and a round.
pub fn counted_abs(x: f32) -> f32 {
    let rounds = ROUNDS.get() + 1;
    if rounds > ALLOWANCE.get() {
        resume_unwind(Box::new(UsedUp));
    }
    ROUNDS.set(rounds);
    x.abs()
}

/// What is drawn and the rounds made, or none where the allowance is used up.
pub fn within<T>(allowance: u32, draw: impl FnOnce() -> T) -> Option<(T, u32)> {
    ROUNDS.set(0);
    ALLOWANCE.set(allowance);
    match catch_unwind(AssertUnwindSafe(draw)) {
        Ok(drawn) => Some((drawn, ROUNDS.get())),
        Err(thrown) if thrown.is::<UsedUp>() => None,
        Err(thrown) => resume_unwind(thrown),
    }
}
