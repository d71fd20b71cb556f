//! What the schedules are, found by reading their bytes again.

mod bytes;
mod census;
mod classes;
mod damages;
mod reader;

use std::sync::OnceLock;

use crate::{draw, Drawn};

/// The schedules that the tests look at.
pub const SEED: u64 = 1;
pub const COUNT: u64 = 400;

pub fn all_drawn() -> &'static [Drawn] {
    static DRAWN: OnceLock<Vec<Drawn>> = OnceLock::new();
    DRAWN.get_or_init(|| (0..COUNT).map(|number| draw(SEED, number)).collect())
}
