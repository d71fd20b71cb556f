//! A set of either kind, called whole.

use crate::memory::{PlainSet, RobustSet};
use crate::requests::{Answer, Report, Request, call_plain, call_robust};

pub trait WholeSet {
    /// The call from its start to its answer; reports in their order.
    fn call(&mut self, request: &Request, reports: &mut Vec<Report>) -> Answer;
    fn capacity(&self) -> u32;
    fn word(&self) -> u64;
    /// Slots 0 to capacity, or cells, each as 64 bits.
    fn entries(&self) -> Vec<u64>;
}

pub fn plain(capacity: u32) -> Box<dyn WholeSet> {
    Box::new(PlainSet::new(capacity))
}

pub fn robust(capacity: u32) -> Box<dyn WholeSet> {
    Box::new(RobustSet::new(capacity))
}

impl WholeSet for PlainSet {
    fn call(&mut self, request: &Request, _reports: &mut Vec<Report>) -> Answer {
        call_plain(self.get(), request)
    }

    fn capacity(&self) -> u32 {
        self.get().capacity()
    }

    fn word(&self) -> u64 {
        PlainSet::word(self)
    }

    fn entries(&self) -> Vec<u64> {
        self.slots().iter().map(|slot| u64::from(*slot)).collect()
    }
}

impl WholeSet for RobustSet {
    fn call(&mut self, request: &Request, reports: &mut Vec<Report>) -> Answer {
        call_robust(self.get(), request, |report| reports.push(report))
    }

    fn capacity(&self) -> u32 {
        self.get().capacity() as u32
    }

    fn word(&self) -> u64 {
        RobustSet::word(self)
    }

    fn entries(&self) -> Vec<u64> {
        self.cells().to_vec()
    }
}
