//! Sessions that are replayed side by side, and handed out in the order of their list.

use crate::list::{Entry, List};
use crate::session::{self, CountedSession};
use crate::shared::flaws::Flaws;
use crate::shared::line::PAUSE;
use std::collections::VecDeque;
use std::path::PathBuf;
use std::sync::atomic::{AtomicU64, Ordering};
use std::sync::{Arc, Condvar, Mutex, MutexGuard, PoisonError};
use std::thread;

/// The sessions that may be taken from the list and not be handed out yet. So the results of a long list that wait for
/// one slow session take limited room.
const WINDOW: usize = 1024;

/// What came of a line of the list.
pub struct Played {
    pub line: u64,
    pub trace: Option<PathBuf>,
    pub counted: Result<Box<CountedSession>, String>,
    /// What is wrong with its journal and inventory.
    pub flaws: Flaws,
    /// The bytes of the list up to its end.
    pub bytes: u64,
}

/// What the pool has next.
pub enum Next {
    Played(Played),
    /// Nothing yet: there is time to tell how far it is.
    Nothing,
    /// The list is at its end, or cannot be read on.
    End(Result<(), String>),
}

pub struct Pool {
    list: Mutex<List>,
    queue: Mutex<Queue>,
    changed: Condvar,
    bytes: AtomicU64,
}

/// The sessions that were taken and not handed out, in the list's order; the number of the first; and the list's end.
#[derive(Default)]
struct Queue {
    results: VecDeque<Option<Played>>,
    first: u64,
    end: Option<Result<(), String>>,
}

/// A lock is never left in the middle of a change: a thread that panics ends the program.
fn lock<T>(mutex: &Mutex<T>) -> MutexGuard<'_, T> {
    mutex.lock().unwrap_or_else(PoisonError::into_inner)
}

impl Pool {
    /// Starts so many threads, or as many of them as can be had; or says why there is none.
    pub fn start(list: List, threads: usize) -> Result<Arc<Pool>, String> {
        let queue = Mutex::new(Queue::default());
        let pool = Pool { list: Mutex::new(list), queue, changed: Condvar::new(), bytes: AtomicU64::new(0) };
        let pool = Arc::new(pool);
        for number in 0..threads {
            let mine = Arc::clone(&pool);
            match thread::Builder::new().spawn(move || mine.work()) {
                Ok(_) => {}
                Err(_) if number > 0 => break,
                Err(error) => return Err(format!("no thread can be had here: {error}; end other programs")),
            }
        }
        Ok(pool)
    }

    /// The bytes of traces that were replayed so far.
    pub fn bytes(&self) -> u64 {
        self.bytes.load(Ordering::Relaxed)
    }

    /// Waits a while for the next session in the list's order.
    pub fn next(&self) -> Next {
        let queue = lock(&self.queue);
        let waits = |queue: &mut Queue| !queue.is_ready();
        let waited = self.changed.wait_timeout_while(queue, PAUSE, waits);
        let (mut queue, _) = waited.unwrap_or_else(PoisonError::into_inner);
        let next = queue.hand_out();
        self.changed.notify_all();
        next
    }

    /// Replays sessions until the list is at its end.
    fn work(&self) {
        let _guard = Guard;
        while let Some((number, entry)) = self.take() {
            let Entry { line, trace, session, bytes } = entry;
            let pass = |size| _ = self.bytes.fetch_add(size, Ordering::Relaxed);
            let (counted, flaws) = match session {
                Ok(session) => session::play(&session, pass),
                Err(wrong) => (Err(wrong), Flaws::default()),
            };
            self.put(number, Played { line, trace, counted: counted.map(Box::new), flaws, bytes });
        }
    }

    /// The next line of the list, where there is one, and its number among the sessions. It waits for a place in the
    /// window. While it reads, others wait to take, and none to put.
    fn take(&self) -> Option<(u64, Entry)> {
        let mut list = lock(&self.list);
        let full = |queue: &mut Queue| queue.end.is_none() && queue.results.len() >= WINDOW;
        let waited = self.changed.wait_while(lock(&self.queue), full);
        let ended = waited.unwrap_or_else(PoisonError::into_inner).end.is_some();
        if ended {
            return None;
        }
        let next = list.next();
        let mut queue = lock(&self.queue);
        match next {
            Ok(Some(entry)) => {
                queue.results.push_back(None);
                Some((queue.first + queue.results.len() as u64 - 1, entry))
            }
            other => {
                queue.end = Some(other.map(|_| ()));
                self.changed.notify_all();
                None
            }
        }
    }

    fn put(&self, number: u64, played: Played) {
        let mut queue = lock(&self.queue);
        let place = (number - queue.first) as usize;
        queue.results[place] = Some(played);
        self.changed.notify_all();
    }
}

impl Queue {
    /// Whether the first session is replayed, or the list ended after the last that was handed out.
    fn is_ready(&self) -> bool {
        self.results.front().map_or(self.end.is_some(), Option::is_some)
    }

    fn hand_out(&mut self) -> Next {
        match self.results.front_mut().map(Option::take) {
            Some(Some(played)) => {
                self.results.pop_front();
                self.first += 1;
                Next::Played(played)
            }
            Some(None) => Next::Nothing,
            None => self.end.clone().map_or(Next::Nothing, Next::End),
        }
    }
}

/// Ends the program where a thread panics, which no input brings about: nobody would put what it took.
struct Guard;

impl Drop for Guard {
    fn drop(&mut self) {
        if thread::panicking() {
            std::process::abort();
        }
    }
}
