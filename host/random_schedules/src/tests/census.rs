//! How often each class of thing is met in schedules, counted from their bytes.

use std::collections::{BTreeMap, BTreeSet};

use super::reader::Read;
use crate::entries::{Ask, Entry, FIND, NOBODY, RECOVER, RELEASE, ROBUST};

#[derive(Default)]
pub struct Census {
    counts: BTreeMap<String, u64>,
}

struct Setup {
    set: u8,
    records: u8,
    capacity: u32,
}

impl Census {
    pub fn of(&self, class: &str) -> u64 {
        self.counts.get(class).copied().unwrap_or(0)
    }

    fn met(&mut self, class: impl Into<String>) {
        *self.counts.entry(class.into()).or_default() += 1;
    }

    pub fn take(&mut self, schedule: &Read) {
        let Some(Entry::Setup {
            set,
            records,
            capacity,
        }) = schedule.entries.first()
        else {
            return self.met("no setup");
        };
        let setup = Setup {
            set: *set,
            records: *records,
            capacity: *capacity,
        };
        let entries = &schedule.entries[1..];
        self.take_setup(&setup);
        self.take_length(entries.len());
        if setup.set > 1 || setup.capacity == 0 || setup.capacity > 1024 || setup.records > 16 {
            return self.met("refused setup");
        }
        for entry in entries {
            self.take_entry(&setup, entry);
        }
        self.take_dead(&setup, entries);
        self.take_alternations(entries);
        self.take_locks(entries);
    }

    fn take_setup(&mut self, setup: &Setup) {
        self.met(match setup.set {
            0 => "plain".to_string(),
            1 => "robust".to_string(),
            _ => "unknown set".to_string(),
        });
        self.met(match setup.capacity {
            4..=16 => "capacity 4 to 16".to_string(),
            17..=1023 => "capacity 17 to 1023".to_string(),
            1026.. => "capacity above 1025".to_string(),
            other => format!("capacity {other}"),
        });
        self.met(match setup.records {
            5..=15 => "records 5 to 15".to_string(),
            18.. => "records above 17".to_string(),
            other => format!("records {other}"),
        });
    }

    fn take_length(&mut self, entries: usize) {
        self.met(match entries {
            0..=9 => "entries 0 to 9",
            10..=99 => "entries 10 to 99",
            100..=999 => "entries 100 to 999",
            1_000..=3_999 => "entries 1000 to 3999",
            4_000..=17_999 => "entries 4000 to 17999",
            _ => "entries 18000 and more",
        });
    }

    fn take_entry(&mut self, setup: &Setup, entry: &Entry) {
        if record_of(entry) >= setup.records {
            self.met("missing record");
        }
        match entry {
            Entry::Setup { .. } => unreachable!("the reader takes one setup"),
            Entry::Start(_, ask) => self.take_ask(setup, ask),
            Entry::Step(_) => self.met("step"),
            Entry::Death(record) if *record < setup.records => self.met("death"),
            Entry::Death(_) => self.met("death of a missing record"),
            Entry::List(_, owners) => self.take_list(setup, owners),
        }
    }

    fn take_ask(&mut self, setup: &Setup, ask: &Ask) {
        let set = if setup.set == ROBUST {
            "robust"
        } else {
            "plain"
        };
        self.met(match ask.call {
            1..=6 => format!("{set} call {}", ask.call),
            _ => format!("{set} unknown call"),
        });
        match ask.owner {
            0 => self.met("owner 0"),
            NOBODY => self.met(format!("{set} owner that no call may name")),
            _ => {}
        }
        if matches!(ask.call, RELEASE | RECOVER) {
            self.met(match ask.mode {
                0 | 1 => format!("{set} call {} mode {}", ask.call, ask.mode),
                _ => format!("{set} call {} unknown mode", ask.call),
            });
        }
        if ask.call == RELEASE {
            let place = if ask.index_or_room < setup.capacity {
                "inside"
            } else {
                "outside"
            };
            self.met(format!("{set} index {place}"));
        }
        if ask.call == FIND {
            self.met(match ask.index_or_room {
                0 | 1 => format!("{set} room {}", ask.index_or_room),
                _ => format!("{set} room for many"),
            });
        }
    }

    fn take_list(&mut self, setup: &Setup, owners: &[u64]) {
        if setup.set != ROBUST {
            return self.met("list on a plain set");
        }
        self.met(match owners.len() {
            10..=254 => "list of 10 to 254".to_string(),
            count => format!("list of {count}"),
        });
        if owners.contains(&NOBODY) {
            self.met("list with the owner that no list may name");
        }
    }

    /// Entries of records that are dead by then.
    fn take_dead(&mut self, setup: &Setup, entries: &[Entry]) {
        let mut dead = BTreeSet::new();
        for entry in entries {
            let record = record_of(entry);
            if dead.contains(&record) {
                self.met(match entry {
                    Entry::Step(_) => "step of a dead record",
                    Entry::Death(_) => "death of a dead record",
                    Entry::List(..) => "list of a dead record",
                    _ => "start of a dead record",
                });
            }
            if matches!(entry, Entry::Death(_)) && record < setup.records {
                dead.insert(record);
            }
        }
    }

    /// Forty starts and steps or more, each of another record than the one
    /// before it.
    fn take_alternations(&mut self, entries: &[Entry]) {
        let mut run: Vec<u8> = Vec::new();
        for entry in entries {
            let works = matches!(entry, Entry::Start(..) | Entry::Step(_));
            if !works || run.last() == Some(&record_of(entry)) {
                self.end_alternation(&mut run);
            }
            if works {
                run.push(record_of(entry));
            }
        }
        self.end_alternation(&mut run);
    }

    fn end_alternation(&mut self, run: &mut Vec<u8>) {
        if run.len() >= 40 {
            let records: BTreeSet<u8> = run.iter().copied().collect();
            self.met(match records.len() {
                2 => "alternation of 2",
                3 => "alternation of 3",
                4..=8 => "alternation of 4 to 8",
                9..=15 => "alternation of 9 to 15",
                _ => "alternation of 16",
            });
        }
        run.clear();
    }

    /// Ten starts or more after a call that may lock.
    fn take_locks(&mut self, entries: &[Entry]) {
        if let Some(first) = entries.iter().position(may_lock) {
            let after = entries[first..].iter();
            if after.filter(|e| matches!(e, Entry::Start(..))).count() > 10 {
                self.met("calls after one that may lock");
            }
        }
    }
}

fn may_lock(entry: &Entry) -> bool {
    match entry {
        Entry::Start(_, ask) => matches!(ask.call, RELEASE | RECOVER) && ask.mode == 1,
        _ => false,
    }
}

fn record_of(entry: &Entry) -> u8 {
    match entry {
        Entry::Setup { .. } => 0,
        Entry::Start(record, _) | Entry::Step(record) => *record,
        Entry::Death(record) | Entry::List(record, _) => *record,
    }
}
