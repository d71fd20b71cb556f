//! Random schedules, good and damaged, to run two trace programs on.
//!
//! A schedule depends on its seed and its number alone: no clock, no order of a
//! hash map, no size of a machine's words. So a difference that is met once can
//! be met again, anywhere, by naming these two.
//!
//! * `dice`: the numbers that look random.
//! * `entries`: entries to bytes.
//! * `plan`: what a schedule is to be like as a whole.
//! * `guess`: what each record is likely to be doing, to choose the next entry by.
//! * `compose`: the entries of a good schedule.
//! * `race`: the same where records race to lock a set.
//! * `odd`: entries that are likely to be refused.
//! * `damage`: what is done to the bytes of a schedule that is not to be good.
//!
//! Nothing here knows what a schedule's trace is. The guess is often wrong, and
//! may be: an entry that is refused is compared like any other.

mod compose;
mod damage;
mod dice;
mod entries;
mod guess;
mod odd;
mod plan;
mod race;
#[cfg(test)]
mod tests;

use damage::Way;
use dice::Dice;
use entries::Schedule;
use plan::{Plan, Purpose};

/// A schedule as it was composed, and what was then made of it, if anything.
struct Drawn {
    composed: Schedule,
    damaged: Option<(Way, Vec<u8>)>,
}

/// One schedule in three is damaged, or somewhat fewer: one whose setup is
/// refused has nothing to damage.
fn draw(seed: u64, number: u64) -> Drawn {
    let mut dice = Dice::new(seed, number);
    let plan = Plan::draw(&mut dice);
    let to_damage = plan.purpose != Purpose::BadSetup && dice.one_in(3);
    let composed = compose::compose(&plan, &mut dice);
    let damaged = to_damage.then(|| {
        let way = Way::draw(&mut dice);
        (way, way.damage(&composed, &mut dice))
    });
    Drawn { composed, damaged }
}

impl Drawn {
    fn bytes(&self) -> &[u8] {
        match &self.damaged {
            Some((_, bytes)) => bytes,
            None => &self.composed.bytes,
        }
    }
}

/// The bytes of the schedule with this number.
pub fn schedule(seed: u64, number: u64) -> Vec<u8> {
    draw(seed, number).bytes().to_vec()
}
