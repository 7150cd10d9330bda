//! Tasks done by threads.

use super::done::{done, Done};
use super::failure::Failure;
use super::memory::room_of;
use super::task::Task;
use crate::Refiner;
use std::io;
use std::sync::atomic::{AtomicUsize, Ordering};
use std::sync::mpsc::{self, Receiver, Sender, TryRecvError};
use std::sync::Mutex;
use std::thread;
use std::time::Duration;

/// How long the watch is not called.
const PAUSE: Duration = Duration::from_millis(100);

/// The stack of a thread. Place takes up to 160 KB of it.
const STACK: usize = 1 << 20;

/// What must be free for the threads' own work, in all and for each: texts, paths, a picture.
const FREE: usize = 512 << 10;
const FREE_EACH: usize = 64 << 10;

/// By how much each look for memory exceeds the last, in bytes: two pages.
const MORE: usize = 8 << 10;

/// Who is told how a run goes.
pub trait Watch {
    /// A task came to its end, up to a tenth of a second ago.
    fn done(&mut self, task: &Task, result: &Result<Done, Failure>);

    /// Called ten times a second.
    fn look(&mut self) {}

    /// Only so many threads could be started; they do all tasks.
    fn fewer(&mut self, _threads: usize, _error: &io::Error) {}
}

/// A task's index, and what came of it.
type Told = (usize, Result<Done, Failure>);

/// Does the tasks with a thread for each refiner. What came of them is in the tasks' order,
/// whichever was done first; without a refiner nothing comes of any. An error is that there is no
/// memory for the threads: then no task is done.
pub fn run(
    tasks: &[Task],
    refiners: Vec<Refiner>,
    watch: &mut impl Watch,
) -> io::Result<Vec<Result<Done, Failure>>> {
    let next = AtomicUsize::new(0);
    let (sender, receiver) = mpsc::channel();
    let (main, ready) = (thread::current(), AtomicUsize::new(0));
    let gate = Mutex::new(());
    // Held while threads are started, and free for their work then.
    let room = room_of(FREE + refiners.len() * FREE_EACH)?;
    let results = thread::scope(|scope| {
        // Threads are started one by one, and none takes memory for its work before all are there.
        let closed = gate.lock();
        for (started, refiner) in refiners.into_iter().enumerate() {
            let (next, ready, gate) = (&next, &ready, &gate);
            let (sender, main) = (sender.clone(), main.clone());
            let work = move || {
                ready.fetch_add(1, Ordering::Release);
                main.unpark();
                drop(gate.lock());
                work(tasks, next, refiner, sender);
                main.unpark();
            };
            let thread = thread::Builder::new().stack_size(STACK);
            let thread = check_room(started).and_then(|()| thread.spawn_scoped(scope, work));
            match (thread, started) {
                (Ok(_), _) => wait_for(ready, started + 1),
                (Err(error), 0) => return Err(error),
                (Err(error), started) => {
                    watch.fewer(started, &error);
                    break;
                }
            }
        }
        drop((room, closed, sender));
        Ok(listen(&receiver, tasks, watch))
    })?;
    Ok(results.into_iter().flatten().collect())
}

/// Whether there is memory for one thread more. A thread that finds none as it starts ends the
/// program. What was given back the last time may be kept for other uses than a stack, so each time
/// more is asked for.
fn check_room(started: usize) -> io::Result<()> {
    room_of(STACK + FREE + started * MORE).map(drop)
}

/// Waits until so many threads are ready.
fn wait_for(ready: &AtomicUsize, threads: usize) {
    while ready.load(Ordering::Acquire) < threads {
        thread::park();
    }
}

/// Takes in what comes of the tasks until all threads are at their end.
fn listen(
    receiver: &Receiver<Told>,
    tasks: &[Task],
    watch: &mut impl Watch,
) -> Vec<Option<Result<Done, Failure>>> {
    let mut results: Vec<Option<_>> = tasks.iter().map(|_| None).collect();
    loop {
        match receiver.try_recv() {
            Ok((at, result)) => {
                watch.done(&tasks[at], &result);
                results[at] = Some(result);
            }
            // Threads do not wake this one for each task: that would take them time.
            Err(TryRecvError::Empty) => {
                watch.look();
                thread::park_timeout(PAUSE);
            }
            Err(TryRecvError::Disconnected) => return results,
        }
    }
}

/// Does one task after the other that no other thread has taken.
fn work(tasks: &[Task], next: &AtomicUsize, mut refiner: Refiner, sender: Sender<Told>) {
    loop {
        let at = next.fetch_add(1, Ordering::Relaxed);
        let Some(task) = tasks.get(at) else {
            return;
        };
        // The other end is there as long as there are threads.
        let _ = sender.send((at, done(task, &mut refiner)));
    }
}
