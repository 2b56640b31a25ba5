//! Many pieces of work over all processors, their results taken in order.

use std::collections::BTreeMap;
use std::sync::atomic::{AtomicUsize, Ordering};
use std::sync::mpsc::{self, Receiver, RecvTimeoutError, Sender};
use std::thread;
use std::time::{Duration, Instant};

/// How often `waits` is called.
const TICK: Duration = Duration::from_millis(100);

/// Does the work numbered 0 to `count` - 1 on as many threads as there are processors, and hands the results to `takes` in
/// the order of their numbers, each as soon as it and all before it are there. `waits` is called now and then meanwhile.
/// Once `takes` gives false no further work is begun, and no further result handed over.
pub fn in_order<R: Send>(
    count: usize,
    work: impl Fn(usize) -> R + Sync,
    waits: impl FnMut(),
    takes: impl FnMut(R) -> bool,
) {
    let next = AtomicUsize::new(0);
    let (sender, receiver) = mpsc::channel();
    let does = |sender: Sender<(usize, R)>| loop {
        let number = next.fetch_add(1, Ordering::Relaxed);
        if number >= count {
            return;
        }
        // The receiver outlives all threads.
        let _ = sender.send((number, work(number)));
    };
    thread::scope(|scope| {
        let start = |_| {
            let sender = sender.clone();
            thread::Builder::new().spawn_scoped(scope, || does(sender))
        };
        let started = (0..processors().min(count)).map(start);
        if started.filter(Result::is_ok).count() == 0 {
            does(sender.clone());
        }
        drop(sender);
        hand_over(&receiver, waits, takes);
        next.store(count, Ordering::Relaxed);
    });
}

/// Hands over the results in the order of their numbers, until there are no more or no more are wanted.
fn hand_over<R>(
    receiver: &Receiver<(usize, R)>,
    mut waits: impl FnMut(),
    mut takes: impl FnMut(R) -> bool,
) {
    let mut early = BTreeMap::new();
    let mut wanted = 0;
    let mut waited = Instant::now();
    loop {
        match receiver.recv_timeout(TICK) {
            Ok((number, result)) => drop(early.insert(number, result)),
            Err(RecvTimeoutError::Timeout) => (),
            Err(RecvTimeoutError::Disconnected) => return,
        }
        if waited.elapsed() >= TICK {
            waits();
            waited = Instant::now();
        }
        while let Some(result) = early.remove(&wanted) {
            wanted += 1;
            if !takes(result) {
                return;
            }
        }
    }
}

/// The processors that this program may use.
pub fn processors() -> usize {
    thread::available_parallelism().map_or(1, |count| count.get())
}
