//! Every interleaving of a few calls, as far as the limits go; beyond them a sample.
//!
//! A path is not followed further where it comes to stand as an earlier one did: the same shared words, and
//! every call has met the same at each of its accesses. Neither side can tell such paths apart, since a call
//! goes on by nothing but what its own accesses met; the earlier one was followed to all its ends.

use std::collections::HashSet;

use oracle_paused::Access;
use simmerhusk::raw::Op;

use super::{ACQUIRE, BORROWED, FIND, LOCKED, RECOVER, RELEASE, drained};
use crate::bench::{Bench, fresh, start};
use crate::random::Random;
use crate::shadow::Kind;

/// A path is cut after so many steps: two counts can put each other off for ever.
const STEP_LIMIT: usize = 40;

#[derive(Clone, Copy, PartialEq, Eq, PartialOrd, Ord)]
struct Asked {
    call: u8,
    mode: u8,
}

const fn asked(call: u8, mode: u8) -> Asked {
    Asked { call, mode }
}

const PLAIN_CALLS: [Asked; 5] = [
    asked(ACQUIRE, 0),
    asked(RELEASE, 0),
    asked(RELEASE, 1),
    asked(BORROWED, 0),
    asked(LOCKED, 0),
];

const ROBUST_CALLS: [Asked; 8] = [
    asked(ACQUIRE, 0),
    asked(RELEASE, 0),
    asked(RELEASE, 1),
    asked(BORROWED, 0),
    asked(LOCKED, 0),
    asked(FIND, 0),
    asked(RECOVER, 0),
    asked(RECOVER, 1),
];

#[derive(Default)]
struct Tally {
    scenes: u64,
    complete: u64,
    paths: u64,
    joined: u64,
    cut: u64,
}

impl Tally {
    fn line(&self, name: &str) -> String {
        let Self {
            scenes,
            complete,
            paths,
            joined,
            cut,
        } = self;
        let sampled = scenes - complete;
        format!(
            "interleavings, {name}: {scenes} scenes, {complete} whole, {sampled} sampled; {paths} paths, {joined} joined, {cut} cut at {STEP_LIMIT} steps"
        )
    }

    fn count(&mut self, ended: Ended) {
        self.paths += 1;
        match ended {
            Ended::Over => {}
            Ended::Joined => self.joined += 1,
            Ended::Cut => self.cut += 1,
        }
    }
}

/// How a path ended: all calls are over, it stands as an earlier one did, or it was cut.
#[derive(Clone, Copy)]
enum Ended {
    Over,
    Joined,
    Cut,
}

/// What the calls of a path have met so far, one list for each record.
struct Met(Vec<Vec<u64>>);

impl Met {
    fn step(&mut self, bench: &mut Bench, who: u8) {
        let oracle = &bench.oracle;
        let met = match oracle.pending(who) {
            Some(Access::LookWord | Access::ExchangeWord { .. }) => oracle.word(),
            Some(Access::Slot { index }) => u64::from(oracle.slots()[index as usize]),
            Some(Access::LoadCell { index } | Access::ExchangeCell { index, .. }) => {
                oracle.cells()[index as usize]
            }
            Some(Access::Elsewhere) | None => panic!("record {who} has no access to make"),
        };
        self.0[who as usize].push(met);
        bench.make(Op::Step { who });
    }

    /// All that either side goes by from here on.
    fn standing(&self, bench: &Bench) -> Vec<u64> {
        let mut standing = vec![bench.word()];
        standing.extend(bench.oracle.slots().iter().map(|slot| u64::from(*slot)));
        standing.extend(bench.oracle.cells());
        standing.extend(bench.shadow.custody.iter().map(|entry| u64::from(*entry)));
        for met in &self.0 {
            standing.push(met.len() as u64);
            standing.extend(met);
        }
        standing
    }
}

/// One scene: who has acquired beforehand, and the calls that are interleaved.
struct Scene {
    kind: Kind,
    capacity: u32,
    calls: Vec<Asked>,
    /// Held by one more record.
    held_beside: u32,
}

impl Scene {
    fn title(&self) -> String {
        let calls: Vec<_> = self
            .calls
            .iter()
            .map(|asked| format!("{}/{}", asked.call, asked.mode))
            .collect();
        format!(
            "interleaved {:?} capacity {} calls {} held beside {}",
            self.kind,
            self.capacity,
            calls.join(" "),
            self.held_beside
        )
    }

    /// Acquires what the calls need, and starts them.
    fn begin(&self, bench: &mut Bench) {
        let beside = self.calls.len() as u8;
        bench.load(
            &self.title(),
            &fresh(self.kind, self.capacity, self.calls.len() + 1),
        );
        let mut held = vec![0; self.calls.len()];
        for (who, asked) in self.calls.iter().enumerate() {
            if asked.call == RELEASE {
                let owner = who as u64;
                held[who] = drained(bench, start(who as u8, ACQUIRE, 0, owner, 0)).value;
            }
        }
        for _ in 0..self.held_beside {
            drained(bench, start(beside, ACQUIRE, 0, u64::from(beside), 0));
        }
        for (who, asked) in self.calls.iter().enumerate() {
            self.start(bench, who as u8, *asked, held[who]);
        }
    }

    fn start(&self, bench: &mut Bench, who: u8, asked: Asked, held: u32) {
        let beside = self.calls.len() as u64;
        let owner = match asked.call {
            FIND => beside,
            _ => u64::from(who),
        };
        let index_or_room = match asked.call {
            RELEASE => held,
            _ => 2,
        };
        if asked.call == RECOVER {
            bench.make(Op::List {
                who,
                owners: vec![0, beside],
            });
        }
        bench.make(start(who, asked.call, index_or_room, owner, asked.mode));
    }

    /// Runs along the choices made before, and the first choice from there on.
    fn follow(
        &self,
        bench: &mut Bench,
        path: &mut Vec<Choice>,
        stood: &mut HashSet<Vec<u64>>,
    ) -> Ended {
        self.begin(bench);
        let mut met = Met(vec![Vec::new(); self.calls.len()]);
        // Only the last of the choices made before is a new one.
        let known = path.len().saturating_sub(1);
        for depth in 0..STEP_LIMIT {
            let busy = bench.shadow.busy();
            if busy.is_empty() {
                return Ended::Over;
            }
            if depth == path.len() {
                path.push(Choice {
                    taken: 0,
                    of: busy.len(),
                });
            }
            met.step(bench, busy[path[depth].taken]);
            if depth >= known && !stood.insert(met.standing(bench)) {
                return Ended::Joined;
            }
        }
        self.ended(bench)
    }

    fn by_chance(&self, bench: &mut Bench, random: &mut Random) -> Ended {
        self.begin(bench);
        for _ in 0..STEP_LIMIT {
            let busy = bench.shadow.busy();
            if busy.is_empty() {
                return Ended::Over;
            }
            let who = random.pick(&busy);
            bench.make(Op::Step { who });
        }
        self.ended(bench)
    }

    fn ended(&self, bench: &Bench) -> Ended {
        if bench.shadow.busy().is_empty() {
            Ended::Over
        } else {
            Ended::Cut
        }
    }

    /// Every path up to the limit; where there are more, as many again by chance.
    fn explore(&self, bench: &mut Bench, limit: u64, random: &mut Random, tally: &mut Tally) {
        tally.scenes += 1;
        let mut path = Vec::new();
        let mut stood = HashSet::new();
        for _ in 0..limit {
            tally.count(self.follow(bench, &mut path, &mut stood));
            if !next(&mut path) {
                tally.complete += 1;
                return;
            }
        }
        for _ in 0..limit {
            tally.count(self.by_chance(bench, random));
        }
    }
}

/// Which of so many busy records was taken.
struct Choice {
    taken: usize,
    of: usize,
}

/// The next path in order; false if that was the last.
fn next(path: &mut Vec<Choice>) -> bool {
    while let Some(choice) = path.last_mut() {
        choice.taken += 1;
        if choice.taken < choice.of {
            return true;
        }
        path.pop();
    }
    false
}

/// All multisets of so many calls.
fn multisets(of: &[Asked], count: usize) -> Vec<Vec<Asked>> {
    if count == 0 {
        return vec![Vec::new()];
    }
    let mut all = Vec::new();
    for (number, first) in of.iter().enumerate() {
        for mut rest in multisets(&of[number..], count - 1) {
            rest.insert(0, *first);
            all.push(rest);
        }
    }
    all
}

fn scenes(kind: Kind, capacities: &[u32], count: usize) -> Vec<Scene> {
    let calls: &[Asked] = match kind {
        Kind::Plain => &PLAIN_CALLS,
        Kind::Robust => &ROBUST_CALLS,
    };
    let mut all = Vec::new();
    for capacity in capacities {
        for calls in multisets(calls, count) {
            let releases = calls.iter().filter(|asked| asked.call == RELEASE).count() as u32;
            if releases > *capacity {
                continue;
            }
            for held_beside in 0..=capacity - releases {
                all.push(Scene {
                    kind,
                    capacity: *capacity,
                    calls: calls.clone(),
                    held_beside,
                });
            }
        }
    }
    all
}

/// Every path of each scene: of the plain set all there are, of the robust set up to the limit, and of three
/// calls up to a twentieth of it.
pub fn all(bench: &mut Bench, limit: u64, seed: u64) {
    let mut random = Random::new(seed);
    let all = u64::MAX;
    let parts = [
        (
            "plain, two calls",
            Kind::Plain,
            [1, 2, 3].as_slice(),
            2,
            all,
        ),
        ("plain, three calls", Kind::Plain, &[1, 2, 3], 3, all),
        ("robust, two calls", Kind::Robust, &[1, 2], 2, limit),
        ("robust, three calls", Kind::Robust, &[2], 3, limit / 20),
    ];
    for (name, kind, capacities, count, limit) in parts {
        let mut tally = Tally::default();
        for scene in &scenes(kind, capacities, count) {
            scene.explore(bench, limit, &mut random, &mut tally);
        }
        bench.comparer().progress.say(&tally.line(name));
    }
}
