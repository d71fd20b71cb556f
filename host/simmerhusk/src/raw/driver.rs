//! The exported calls by way of the driver, a process of its own. A thread writes the requests, so that replies may be read late.

mod find;

use super::wire::{self, Head, REPLY_BYTES};
use super::{invalid_input, Dock, Op, Reply, NONE_WAITS, ONE_WAITS};
use std::io::{self, Read, Write};
use std::process::{Child, ChildStdin, ChildStdout, Command, Stdio};
use std::sync::mpsc::{self, Receiver, Sender};
use std::thread::{self, JoinHandle};

/// Requests are sent when there are so many bytes of them.
const SEND_AT: usize = 1 << 16;
const READ_AHEAD: usize = 1 << 20;

pub struct Reached {
    driver: Child,
    writer: Option<JoinHandle<()>>,
    to_writer: Option<Sender<Vec<u8>>>,
    queued: Vec<u8>,
    /// Ops without a reply: those that are queued only, and those that are sent.
    waiting_here: u64,
    waiting_there: u64,
    replies: Option<Replies>,
    refused: Option<&'static str>,
}

impl Reached {
    pub fn open() -> io::Result<Reached> {
        let mut driver = spawn(find::command()?)?;
        let (to_writer, requests) = mpsc::channel();
        let requests_go_to = driver.stdin.take();
        let writer = thread::Builder::new()
            .name("requests to the driver".to_string())
            .spawn(move || write_requests(requests, requests_go_to))?;
        let replies = driver.stdout.take().map(Replies::new);
        Ok(Reached {
            driver,
            writer: Some(writer),
            to_writer: Some(to_writer),
            queued: Vec::with_capacity(2 * SEND_AT),
            waiting_here: 0,
            waiting_there: 0,
            replies,
            refused: None,
        })
    }

    pub fn load(&mut self, dock: &Dock) {
        if !wire::fits(dock) {
            self.refused = Some("the driver takes no buffer so large");
            return;
        }
        wire::put_load(dock, &mut self.queued);
        self.send_if_many();
    }

    pub fn queue(&mut self, op: &Op) {
        if !wire::brings_no_more_than_fits(op) {
            self.refused = Some("the driver takes no op so large");
            return;
        }
        wire::put_op(op, &mut self.queued);
        self.waiting_here += 1;
        self.send_if_many();
    }

    fn send_if_many(&mut self) {
        if self.queued.len() >= SEND_AT {
            self.flush();
        }
    }

    pub fn flush(&mut self) {
        if self.queued.is_empty() {
            return;
        }
        let requests = std::mem::replace(&mut self.queued, Vec::with_capacity(2 * SEND_AT));
        if let Some(to_writer) = &self.to_writer {
            // If the driver ended, so did the writer: the read that waits for a reply will tell.
            let _ = to_writer.send(requests);
        }
        self.waiting_there += self.waiting_here;
        self.waiting_here = 0;
    }

    pub fn reply(&mut self, into: &mut Reply) -> io::Result<()> {
        if let Some(why) = self.refused {
            return Err(invalid_input(why));
        }
        if self.waiting_there == 0 {
            self.flush();
        }
        if self.waiting_there == 0 {
            return Err(invalid_input(NONE_WAITS));
        }
        self.read_reply(into)?;
        self.waiting_there -= 1;
        Ok(())
    }

    pub fn fetch(&mut self, into: &mut Dock) -> io::Result<()> {
        if self.waiting_here + self.waiting_there > 0 {
            return Err(invalid_input(ONE_WAITS));
        }
        wire::put_fetch(&mut self.queued);
        self.waiting_here += 1;
        let mut reply = Reply {
            dock: std::mem::take(into),
            ..Reply::default()
        };
        self.reply(&mut reply)?;
        *into = reply.dock;
        Ok(())
    }

    fn read_reply(&mut self, into: &mut Reply) -> io::Result<()> {
        let read = match &mut self.replies {
            Some(replies) => replies.read(into),
            None => Err(io::ErrorKind::UnexpectedEof.into()),
        };
        match read {
            Err(error) if error.kind() == io::ErrorKind::UnexpectedEof => Err(self.ended()),
            read => read,
        }
    }

    fn ended(&mut self) -> io::Error {
        let status = match self.driver.wait() {
            Ok(status) => status.to_string(),
            Err(error) => error.to_string(),
        };
        io::Error::new(
            io::ErrorKind::UnexpectedEof,
            format!("the driver ended: {status}"),
        )
    }
}

impl Drop for Reached {
    /// Nothing more is written or read, by which the driver ends, and with it the writer.
    fn drop(&mut self) {
        self.to_writer = None;
        self.replies = None;
        if let Some(writer) = self.writer.take() {
            let _ = writer.join();
        }
        let _ = self.driver.wait();
    }
}

fn spawn(mut command: Command) -> io::Result<Child> {
    command.stdin(Stdio::piped()).stdout(Stdio::piped());
    command.spawn().map_err(|error| {
        let program = command.get_program().to_string_lossy();
        io::Error::new(error.kind(), format!("{program} does not run: {error}"))
    })
}

/// Ends when there are no more requests, or when the driver takes no more.
fn write_requests(requests: Receiver<Vec<u8>>, to: Option<ChildStdin>) {
    let Some(mut to) = to else { return };
    for request in requests {
        if to.write_all(&request).is_err() {
            return;
        }
    }
}

/// What the driver replies. `bytes[at..end]` has been read ahead.
struct Replies {
    from: ChildStdout,
    bytes: Vec<u8>,
    at: usize,
    end: usize,
}

impl Replies {
    fn new(from: ChildStdout) -> Replies {
        Replies {
            from,
            bytes: vec![0; READ_AHEAD],
            at: 0,
            end: 0,
        }
    }

    fn read(&mut self, into: &mut Reply) -> io::Result<()> {
        let mut head = [0; REPLY_BYTES];
        head.copy_from_slice(self.take(REPLY_BYTES)?);
        let head = Head::read(&head)?;
        head.keep(self.take(head.follows())?, into);
        Ok(())
    }

    fn take(&mut self, length: usize) -> io::Result<&[u8]> {
        if self.end - self.at < length {
            self.make_room(length);
        }
        while self.end - self.at < length {
            self.read_some()?;
        }
        let from = self.at;
        self.at += length;
        Ok(&self.bytes[from..self.at])
    }

    fn make_room(&mut self, length: usize) {
        self.bytes.copy_within(self.at..self.end, 0);
        self.end -= self.at;
        self.at = 0;
        if self.bytes.len() < length {
            self.bytes.resize(length, 0);
        }
    }

    fn read_some(&mut self) -> io::Result<()> {
        match self.from.read(&mut self.bytes[self.end..]) {
            Ok(0) => Err(io::ErrorKind::UnexpectedEof.into()),
            Ok(some) => {
                self.end += some;
                Ok(())
            }
            Err(error) if error.kind() == io::ErrorKind::Interrupted => Ok(()),
            Err(error) => Err(error),
        }
    }
}
