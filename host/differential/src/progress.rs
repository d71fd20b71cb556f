//! Where a long run is, on standard error: one line that is rewritten if that is a terminal, else a line now
//! and then. A thread of its own shows it, as a single turn on the largest set takes seconds.

use std::io::{self, IsTerminal, Write, stderr};
use std::sync::atomic::{AtomicU64, Ordering};
use std::sync::{Arc, Mutex, MutexGuard, PoisonError};
use std::thread;
use std::time::{Duration, Instant};

const ON_A_TERMINAL: Duration = Duration::from_secs(1);
const ELSEWHERE: Duration = Duration::from_secs(10);

pub struct Progress {
    shared: Arc<Shared>,
}

struct Shared {
    /// Of the run; none before it begins and after it has ended. Whoever prints has it locked.
    part: Mutex<Option<&'static str>>,
    steps: AtomicU64,
    asked: u64,
    /// A line is to be rewritten.
    rewrites: bool,
}

impl Progress {
    /// Fails if there can be no thread.
    pub fn new(is_wanted: bool, asked: u64) -> io::Result<Self> {
        let is_terminal = stderr().is_terminal();
        let shared = Arc::new(Shared {
            part: Mutex::new(None),
            steps: AtomicU64::new(0),
            asked,
            rewrites: is_wanted && is_terminal,
        });
        if is_wanted {
            let every = match is_terminal {
                true => ON_A_TERMINAL,
                false => ELSEWHERE,
            };
            let shared = Arc::clone(&shared);
            thread::Builder::new()
                .name("progress".to_string())
                .spawn(move || shared.show_on(every))?;
        }
        Ok(Self { shared })
    }

    /// A part of the run begins.
    pub fn enter(&self, part: &'static str) {
        *self.shared.part() = Some(part);
    }

    /// The steps compared so far.
    pub fn steps(&self, steps: u64) {
        self.shared.steps.store(steps, Ordering::Relaxed);
    }

    /// Prints a line of the run's own.
    pub fn say(&self, line: &str) {
        let _part = self.shared.part();
        self.shared.clear();
        println!("{line}");
    }

    /// Nothing more is shown.
    pub fn end(&self) {
        *self.shared.part() = None;
        self.shared.clear();
    }
}

impl Shared {
    fn part(&self) -> MutexGuard<'_, Option<&'static str>> {
        self.part.lock().unwrap_or_else(PoisonError::into_inner)
    }

    fn show_on(&self, every: Duration) {
        let began = Instant::now();
        let (mut shown, mut steps_shown) = (began, 0);
        loop {
            thread::sleep(every);
            let part = self.part();
            let (now, steps) = (Instant::now(), self.steps.load(Ordering::Relaxed));
            let rate = (steps - steps_shown) as f64 / (now - shown).as_secs_f64();
            if let Some(part) = *part {
                self.show(part, steps, rate, (now - began).as_secs());
            }
            (shown, steps_shown) = (now, steps);
        }
    }

    /// Nobody may be reading any more: that it cannot be written is no error.
    fn show(&self, part: &str, steps: u64, rate: f64, seconds: u64) {
        let of = match steps < self.asked {
            true => format!(" of {}", self.asked),
            false => String::new(),
        };
        let line = format!("{part}: {steps}{of} steps, {rate:.0} a second, {seconds} s");
        let line = match self.rewrites {
            true => format!("\r{line}\x1b[K\r"),
            false => format!("{line}\n"),
        };
        let _ = stderr().write_all(line.as_bytes());
    }

    fn clear(&self) {
        if self.rewrites {
            let _ = stderr().write_all(b"\r\x1b[K");
        }
    }
}
