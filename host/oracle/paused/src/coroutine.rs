//! Calls on stacks of their own, all on one thread, that come back to whoever runs them before each
//! shared access.

use core::cell::{Cell, UnsafeCell};
use core::ffi::c_int;
use std::panic::{AssertUnwindSafe, catch_unwind};

use crate::requests::{Answer, Report, Request};

const STACK_BYTES: usize = 256 * 1024;

/// The C library's ucontext_t: what a caller sets is at its front, the same on x86-64 and aarch64.
#[repr(C, align(16))]
struct Context {
    flags: usize,
    link: *mut Context,
    stack: *mut u8,
    stack_flags: c_int,
    stack_bytes: usize,
    rest: [u8; 8152],
}

unsafe extern "C" {
    fn getcontext(into: *mut Context) -> c_int;
    fn makecontext(context: *mut Context, entry: extern "C" fn(), arguments: c_int, ...);
    fn swapcontext(save: *mut Context, to: *const Context) -> c_int;
}

impl Context {
    fn new() -> UnsafeCell<Self> {
        UnsafeCell::new(Self {
            flags: 0,
            link: core::ptr::null_mut(),
            stack: core::ptr::null_mut(),
            stack_flags: 0,
            stack_bytes: 0,
            rest: [0; 8152],
        })
    }
}

#[derive(Debug, Clone, Copy, PartialEq, Eq)]
pub enum Kind {
    Load,
    Exchange { expected: u64, new: u64 },
    Slot,
}

#[derive(Debug, Clone, Copy, PartialEq, Eq)]
pub struct Pause {
    pub kind: Kind,
    pub address: usize,
}

#[derive(Debug, Clone, Copy, PartialEq, Eq)]
pub enum Ending {
    Answer(Answer),
    /// The source panicked.
    Panic,
}

/// What a coroutine calls: the set behind the pointer with a request.
#[derive(Clone, Copy)]
pub struct Job {
    pub run: unsafe fn(*const (), &Request) -> Answer,
    pub set: *const (),
    pub request: Request,
}

pub struct Coroutine {
    own: UnsafeCell<Context>,
    runner: UnsafeCell<Context>,
    stack: Vec<u8>,
    /// Its stack stands in its loop, between two calls.
    between_calls: Cell<bool>,
    job: Cell<Option<Job>>,
    paused: Cell<Option<Pause>>,
    won: Cell<Option<bool>>,
    report: Cell<Option<Report>>,
    ending: Cell<Option<Ending>>,
}

thread_local! {
    static RUNNING: Cell<*const Coroutine> = const { Cell::new(core::ptr::null()) };
}

fn running() -> Option<&'static Coroutine> {
    // SAFETY: set just while that coroutine runs, which its owner keeps alive.
    unsafe { RUNNING.get().as_ref() }
}

/// Whether a call of the source runs just now.
pub fn is_calling() -> bool {
    running().is_some()
}

/// Comes back to the runner, if a coroutine runs: the access follows when it is run on.
pub fn pause(kind: Kind, address: usize) {
    if let Some(coroutine) = running() {
        coroutine.paused.set(Some(Pause { kind, address }));
        coroutine.come_back();
    }
}

pub fn exchanged(won: bool) {
    if let Some(coroutine) = running() {
        coroutine.won.set(Some(won));
    }
}

pub fn report(report: Report) {
    if let Some(coroutine) = running() {
        let earlier = coroutine.report.replace(Some(report));
        assert_eq!(earlier, None, "two reports in one step");
    }
}

/// Where each coroutine begins: call after call, and never an end.
extern "C" fn entry() {
    loop {
        let coroutine = running().expect("a coroutine runs");
        let job = coroutine.job.take().expect("a call to make");
        // SAFETY: whoever gave the job vouches for its set.
        let result = catch_unwind(AssertUnwindSafe(|| unsafe {
            (job.run)(job.set, &job.request)
        }));
        coroutine.ending.set(Some(match result {
            Ok(answer) => Ending::Answer(answer),
            Err(_panic) => Ending::Panic,
        }));
        coroutine.between_calls.set(true);
        coroutine.come_back();
    }
}

impl Coroutine {
    pub fn new() -> Box<Self> {
        Box::new(Self {
            own: Context::new(),
            runner: Context::new(),
            stack: vec![0; STACK_BYTES],
            between_calls: Cell::new(false),
            job: Cell::new(None),
            paused: Cell::new(None),
            won: Cell::new(None),
            report: Cell::new(None),
            ending: Cell::new(None),
        })
    }

    fn come_back(&self) {
        // SAFETY: the runner's context was saved when it ran this coroutine.
        unsafe { swapcontext(self.own.get(), self.runner.get()) };
    }

    /// Sets its stack up anew; a call that was paused on it is abandoned.
    fn renew(&self) {
        let own = self.own.get();
        // SAFETY: the context and its stack live as long as the coroutine, which is boxed.
        unsafe {
            getcontext(own);
            (*own).link = core::ptr::null_mut();
            (*own).stack = self.stack.as_ptr().cast_mut();
            (*own).stack_bytes = STACK_BYTES;
            makecontext(own, entry, 0);
        }
    }

    fn run_on(&self) {
        self.paused.set(None);
        self.won.set(None);
        self.report.set(None);
        let earlier = RUNNING.replace(self);
        // SAFETY: its own context was made or saved before.
        unsafe { swapcontext(self.runner.get(), self.own.get()) };
        RUNNING.set(earlier);
    }

    /// Enters a call and runs it up to its first pause.
    pub fn enter(&self, job: Job) {
        if !self.between_calls.replace(false) {
            self.renew();
        }
        self.ending.set(None);
        self.job.set(Some(job));
        self.run_on();
    }

    /// Makes the access that it is paused before, and runs on to the next pause or the call's end.
    pub fn step(&self) {
        assert!(self.paused.get().is_some(), "a call is paused");
        self.run_on();
    }

    pub fn abandon(&self) {
        self.paused.set(None);
    }

    pub fn paused(&self) -> Option<Pause> {
        self.paused.get()
    }

    pub fn won(&self) -> Option<bool> {
        self.won.get()
    }

    pub fn report(&self) -> Option<Report> {
        self.report.get()
    }

    /// How the call ended, if it did since it was last asked.
    pub fn take_ending(&self) -> Option<Ending> {
        self.ending.take()
    }
}
