//! What a schedule is to be like as a whole.

use crate::dice::Dice;
use crate::entries::{CAPACITY_LIMIT, PLAIN, ROBUST};

/// What a schedule is mainly for.
#[derive(Clone, Copy, PartialEq, Eq, Debug)]
pub enum Purpose {
    /// Anything may happen.
    Mixture,
    /// The setup is refused, mostly, and often for more than one reason.
    BadSetup,
    /// Records work on few indexes, and some lock what others are still using.
    LockRace,
    /// The set becomes full before anything else is tried.
    Filling,
    /// A mixture that goes on for long, and so must not lock.
    Long,
}

pub struct Plan {
    pub purpose: Purpose,
    pub set: u8,
    pub records: u8,
    pub capacity: u32,
    /// How many entries follow the setup, at the most.
    pub entries: u64,
    /// The owners that come again and again, so that they meet.
    pub owners: Vec<u64>,
    /// One in so many releases and recovers may lock, where locking is not
    /// what is being tried just then.
    pub locks_one_in: u64,
    /// How many deaths there are, more or less.
    pub deaths: u64,
    /// One in so many entries is likely to be refused.
    pub odd_one_in: u64,
}

impl Plan {
    pub fn draw(dice: &mut Dice) -> Plan {
        let purpose = dice.weighted(&[
            (50, Purpose::Mixture),
            (12, Purpose::BadSetup),
            (30, Purpose::LockRace),
            (5, Purpose::Filling),
            (3, Purpose::Long),
        ]);
        match purpose {
            Purpose::Mixture => Plan::mixture(dice),
            Purpose::BadSetup => Plan::bad_setup(dice),
            Purpose::LockRace => Plan::lock_race(dice),
            Purpose::Filling => Plan::filling(dice),
            Purpose::Long => Plan::long(dice),
        }
    }

    fn mixture(dice: &mut Dice) -> Plan {
        let mut plan = Plan {
            purpose: Purpose::Mixture,
            set: dice.pick(&[PLAIN, ROBUST]),
            records: records(dice),
            capacity: capacity(dice),
            entries: entries(dice),
            owners: owners(dice),
            locks_one_in: dice.weighted(&[(4, 1000), (3, 100), (2, 10), (1, 1)]),
            deaths: dice.weighted(&[(4, 0), (3, 1), (2, 2), (1, 5)]),
            odd_one_in: dice.weighted(&[(2, 1000), (5, 40), (2, 12), (1, 3)]),
        };
        if plan.records == 0 {
            plan.entries = dice.between(0, 25);
        } else if plan.has_long_calls() && dice.one_in(2) {
            plan.entries = dice.between(3_000, 6_000);
        }
        plan
    }

    fn bad_setup(dice: &mut Dice) -> Plan {
        let unknown = dice.pick(&[2, 3, 128, 255]);
        let above = dice.pick(&[1026, 4096, 65_536, 65_537, 16_777_217, u32::MAX]);
        let good = dice.between(1, 1024) as u32;
        Plan {
            purpose: Purpose::BadSetup,
            set: dice.weighted(&[(3, PLAIN), (3, ROBUST), (2, unknown)]),
            records: dice.pick(&[0, 1, 17, 17, 17, 255]),
            capacity: dice.weighted(&[(5, 0), (4, CAPACITY_LIMIT + 1), (4, above), (7, good)]),
            entries: dice.between(0, 25),
            ..Plan::mixture(dice)
        }
    }

    fn lock_race(dice: &mut Dice) -> Plan {
        Plan {
            purpose: Purpose::LockRace,
            set: dice.weighted(&[(1, PLAIN), (4, ROBUST)]),
            records: dice.pick(&[2, 3, 4, 4, 6, 9, 16]),
            capacity: dice.weighted(&[(2, 1), (2, 2), (1, 3), (1, 4)]),
            entries: dice.between(60, 500),
            locks_one_in: 2,
            deaths: 0,
            odd_one_in: 1000,
            ..Plan::mixture(dice)
        }
    }

    /// Long enough to fill a set, and somewhat longer: on the robust set an
    /// acquire passes each cell that is taken.
    fn filling(dice: &mut Dice) -> Plan {
        let set = dice.pick(&[PLAIN, ROBUST]);
        let (capacity, entries) = if set == PLAIN {
            let large = dice.between(200, 1023) as u32;
            let capacity = dice.pick(&[large, CAPACITY_LIMIT, CAPACITY_LIMIT]);
            (capacity, 5 * capacity as u64)
        } else {
            let cells = dice.between(20, 150);
            (cells as u32, cells * cells / 2 + 5 * cells)
        };
        Plan {
            purpose: Purpose::Filling,
            set,
            records: dice.pick(&[1, 2, 4, 16]),
            capacity,
            entries: entries + dice.between(1_000, 3_000),
            locks_one_in: 100,
            deaths: 0,
            odd_one_in: 200,
            ..Plan::mixture(dice)
        }
    }

    fn long(dice: &mut Dice) -> Plan {
        Plan {
            purpose: Purpose::Long,
            records: dice.pick(&[2, 4, 16]),
            entries: dice.between(19_000, 21_000),
            locks_one_in: 1_000_000,
            deaths: dice.pick(&[0, 1]),
            ..Plan::mixture(dice)
        }
    }

    pub fn robust(&self) -> bool {
        self.set == ROBUST
    }

    /// Whether some calls have to pass so many cells that they only end if
    /// they are given many turns one after the other.
    pub fn has_long_calls(&self) -> bool {
        self.robust() && self.capacity > 40
    }
}

fn capacity(dice: &mut Dice) -> u32 {
    let small = dice.between(4, 16) as u32;
    let middling = dice.between(17, 40) as u32;
    let large = dice.between(41, 1023) as u32;
    dice.weighted(&[
        (14, 1),
        (18, 2),
        (18, 3),
        (26, small),
        (6, middling),
        (5, large),
        (10, CAPACITY_LIMIT),
    ])
}

fn records(dice: &mut Dice) -> u8 {
    let others = dice.between(5, 15) as u8;
    dice.weighted(&[
        (8, 1),
        (26, 2),
        (16, 3),
        (22, 4),
        (8, others),
        (14, 16),
        (4, 0),
    ])
}

fn entries(dice: &mut Dice) -> u64 {
    let (least, most) = dice.weighted(&[
        (8, (1, 12)),
        (17, (13, 150)),
        (35, (151, 900)),
        (40, (901, 3_000)),
    ]);
    dice.between(least, most)
}

fn owners(dice: &mut Dice) -> Vec<u64> {
    let mut owners = Vec::new();
    for _ in 0..dice.between(1, 4) {
        let any = dice.any() >> 1;
        owners.push(dice.pick(&[0, 1, 7, 8, 313, u64::MAX - 1, any]));
    }
    owners
}
