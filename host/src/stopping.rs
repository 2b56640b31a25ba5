//! Ctrl-C, and the other signals that ask a program to end: its temporary files go, and nothing stays half written.

use crate::written;
use std::io::{self, IsTerminal, Write};
use std::process;
use std::sync::atomic::{AtomicI32, Ordering};
use std::thread;
use std::time::Duration;

const HANGUP: i32 = 1;
const INTERRUPT: i32 = 2;
const TERMINATE: i32 = 15;
/// What C's `signal` gives where the signal is ignored.
const IGNORED: usize = 1;
/// A shell tells a program ended by a signal by this and the signal's number: 130 for Ctrl-C.
const STATUS_OF_SIGNALS: i32 = 128;

/// The signal that asked the program to end; 0 while there is none.
static ASKED_BY: AtomicI32 = AtomicI32::new(0);

extern "C" {
    fn signal(number: i32, handler: usize) -> usize;
}

/// A handler may do little: this notes the signal, and another thread does what follows.
extern "C" fn note(number: i32) {
    ASKED_BY.store(number, Ordering::Relaxed);
}

/// Has the program end cleanly when it is asked to, whatever it does then. A judgement cannot be broken off, so a thread
/// of its own waits for the signal and ends the process.
pub fn listen() {
    let waiter = thread::Builder::new().spawn(|| loop {
        thread::sleep(Duration::from_millis(20));
        end_if_stopped();
    });
    // Without the thread the signals keep their usual effect.
    if waiter.is_ok() {
        [HANGUP, INTERRUPT, TERMINATE]
            .into_iter()
            .for_each(note_signal);
    }
}

/// Whether the program was asked to end.
pub fn is_stopped() -> bool {
    ASKED_BY.load(Ordering::Relaxed) != 0
}

fn note_signal(number: i32) {
    let handler = note as extern "C" fn(i32) as usize;
    // SAFETY: the handler does nothing but store into an atomic, which a handler may.
    unsafe {
        // Whoever started the program with the signal ignored (nohup) wants it to stay so.
        if signal(number, handler) == IGNORED {
            signal(number, IGNORED);
        }
    }
}

/// Ends the program if it was asked to, as if the signal had done so.
pub fn end_if_stopped() {
    if !is_stopped() {
        return;
    }
    written::remove_all_and(|| {
        let mut errors = io::stderr();
        let erase = if errors.is_terminal() { "\r\x1b[K" } else { "" };
        let _ = writeln!(errors, "{erase}hraskell: stopped");
        process::exit(STATUS_OF_SIGNALS + ASKED_BY.load(Ordering::Relaxed));
    });
}
