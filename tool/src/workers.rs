//! Threads that convert parts of an input, and hand them back in order.

use std::collections::{TryReserveError, VecDeque};
use std::sync::mpsc::{channel, Receiver, Sender};
use std::sync::{Arc, Mutex, PoisonError};
use std::thread::{Builder, Scope};

use crate::joined::Call;
use crate::numbers::NO_ROOM;
use crate::parts::Part;
use crate::way::Way;

/// Parts that are read and converted ahead, beside one for each thread: so no thread waits while others are read and written.
const AHEAD: usize = 2;

/// What converting a part gave: the calls on it, and what they wrote, one behind the other. It is used again for one part after the other.
#[derive(Default)]
pub struct Output {
    pub calls: Vec<Call>,
    pub bytes: Vec<u8>,
}

impl Output {
    /// Converts a part. Where the room is full there is more of it, and another call goes on.
    pub fn fill<B: AsRef<[u8]>>(&mut self, way: Way, part: &Part<B>) -> Result<(), TryReserveError> {
        self.calls.clear();
        self.bytes.clear();
        self.bytes.try_reserve(part.length())?;
        let mut start = part.start;
        loop {
            self.calls.try_reserve(1)?;
            let call @ [_, _, _, number, .., place] = way.call(start, part.from(start), &mut self.bytes);
            self.calls.push(call);
            if number != NO_ROOM {
                return Ok(());
            }
            start += place;
            self.bytes.try_reserve(2 * (self.bytes.capacity() - self.bytes.len()) + 4096)?;
        }
    }
}

/// A part that was converted, or for which there was no memory.
pub struct Converted<B> {
    pub part: Part<B>,
    pub output: Output,
    pub memory: Result<(), TryReserveError>,
}

struct Job<B> {
    part: Part<B>,
    output: Output,
    answer: Sender<Converted<B>>,
}

pub struct Workers<'scope, 'env, B: 'scope> {
    scope: &'scope Scope<'scope, 'env>,
    way: Way<'scope>,
    threads: usize,
    running: usize,
    jobs: Sender<Job<B>>,
    queue: Arc<Mutex<Receiver<Job<B>>>>,
    answers: VecDeque<Receiver<Converted<B>>>,
}

impl<'scope, 'env, B: AsRef<[u8]> + Send + 'scope> Workers<'scope, 'env, B> {
    pub fn new(scope: &'scope Scope<'scope, 'env>, way: Way<'scope>, threads: usize) -> Workers<'scope, 'env, B> {
        let (jobs, queue) = channel();
        Workers { scope, way, threads, running: 0, jobs, queue: Arc::new(Mutex::new(queue)), answers: VecDeque::new() }
    }

    /// Starts a thread where all are at work, as long as there may be more; whether there is one at all. One alone would only be waited for.
    pub fn hire(&mut self) -> bool {
        if self.threads > 1 && self.running < self.threads && self.running <= self.answers.len() {
            let (way, queue) = (self.way, self.queue.clone());
            self.running += usize::from(Builder::new().spawn_scoped(self.scope, move || work(way, &queue)).is_ok());
        }
        self.running > 0
    }

    pub fn give(&mut self, part: Part<B>, output: Output) {
        let (answer, converted) = channel();
        self.answers.push_back(converted);
        // It fails where there is no queue, and the queue is here.
        let _ = self.jobs.send(Job { part, output, answer });
    }

    /// Whether all that was given is taken.
    pub fn are_idle(&self) -> bool {
        self.answers.is_empty()
    }

    /// Whether enough was given ahead.
    pub fn are_full(&self) -> bool {
        self.answers.len() >= self.threads.saturating_add(AHEAD)
    }

    /// The first of the parts that were given and not taken, where it is converted; or waits for it.
    pub fn take(&mut self, waits: bool) -> Option<Converted<B>> {
        let first = self.answers.front()?;
        let converted = if waits { Some(first.recv().expect("a thread answers")) } else { first.try_recv().ok() };
        if converted.is_some() {
            self.answers.pop_front();
        }
        converted
    }
}

fn work<B: AsRef<[u8]>>(way: Way, queue: &Mutex<Receiver<Job<B>>>) {
    loop {
        let job = queue.lock().unwrap_or_else(PoisonError::into_inner).recv();
        let Ok(Job { part, mut output, answer }) = job else { return };
        let memory = output.fill(way, &part);
        // It fails where nobody waits for it any more.
        let _ = answer.send(Converted { part, output, memory });
    }
}
