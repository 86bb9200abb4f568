//! The run queue, in a part for each hart.

use super::process::Process;
use std::collections::VecDeque;
use std::sync::atomic::{AtomicU32, Ordering};
use std::sync::{Condvar, Mutex, MutexGuard};
use std::time::Duration;

const IDLE: Duration = Duration::from_micros(200);

/// Processes on their way from a part of the queue to a hart, or back.
pub type Batch<'s> = Vec<Box<Process<'s>>>;

type Ready<'s> = VecDeque<Box<Process<'s>>>;

/// A hart's part, in cache lines of its own. A process comes back to the hart that it was on, while its words are in that
/// hart's cache.
#[repr(align(64))]
pub struct Part<'s>(Mutex<Ready<'s>>);

impl<'s> Part<'s> {
    pub fn new() -> Part<'s> {
        Part(Mutex::default())
    }

    fn lock(&self) -> MutexGuard<'_, Ready<'s>> {
        self.0
            .lock()
            .expect("no hart panics while it holds the lock")
    }

    pub fn add(&self, process: Box<Process<'s>>) {
        self.lock().push_back(process);
    }

    /// Moves the first half to the batch, rounded up.
    fn take_half(&self, batch: &mut Batch<'s>) {
        take_half(&mut self.lock(), batch);
    }
}

fn take_half<'s>(ready: &mut Ready<'s>, batch: &mut Batch<'s>) {
    batch.extend(ready.drain(..ready.len().div_ceil(2)));
}

/// Where harts without a process wait. A wait that is woken too late ends by itself.
pub struct Idle {
    lock: Mutex<()>,
    wake: Condvar,
    waiting: AtomicU32,
}

impl Idle {
    pub fn new() -> Idle {
        Idle {
            lock: Mutex::new(()),
            wake: Condvar::new(),
            waiting: AtomicU32::new(0),
        }
    }

    pub fn wait(&self) {
        self.waiting.fetch_add(1, Ordering::Relaxed);
        let guard = self.lock.lock().expect("nothing is done under this lock");
        let waited = self.wake.wait_timeout(guard, IDLE);
        drop(waited.expect("nothing is done under this lock"));
        self.waiting.fetch_sub(1, Ordering::Relaxed);
    }

    /// Wakes a hart, if one waits.
    fn wake_one(&self) {
        if self.waiting.load(Ordering::Relaxed) > 0 {
            self.wake.notify_one();
        }
    }

    pub fn wake_all(&self) {
        self.wake.notify_all();
    }
}

/// Puts back the processes that hart `number` ran, and takes the next ones, from its own part or, if that is empty, from
/// another's.
pub fn next<'s>(
    parts: &[Part<'s>],
    idle: &Idle,
    number: usize,
    back: &mut Batch<'s>,
    batch: &mut Batch<'s>,
) {
    let mut own = parts[number].lock();
    own.extend(back.drain(..));
    take_half(&mut own, batch);
    let left = !own.is_empty();
    drop(own);
    if left {
        idle.wake_one();
    }
    for step in 1..parts.len() {
        if !batch.is_empty() {
            break;
        }
        parts[(number + step) % parts.len()].take_half(batch);
    }
}
