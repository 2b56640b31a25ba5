//! How far long work is: one line on standard error that is drawn over, on a terminal alone.

use crate::orders::Watch;
use crate::reading::Reading;
use crate::stopping;
use crate::told::Rule;
use std::collections::BTreeMap;
use std::io::{self, Write};
use std::sync::atomic::{AtomicBool, Ordering};
use std::sync::{Mutex, MutexGuard, PoisonError};
use std::time::{Duration, Instant};

/// Shorter work shows nothing.
const QUIET: Duration = Duration::from_millis(400);
/// A longer line would wrap on a narrow terminal, and could not be drawn over.
const COLUMNS: usize = 78;
const NAME_COLUMNS_LEAST: usize = 8;

/// How far the work on all files is.
pub struct Progress {
    /// Whether anything is ever shown.
    shows: bool,
    began: Instant,
    files: usize,
    /// Whether what is still under way is wanted by nobody.
    is_given_up: AtomicBool,
    state: Mutex<State>,
}

#[derive(Default)]
struct State {
    /// By the file's place in the list.
    under_way: BTreeMap<usize, Work>,
    /// Whether the line stands on the terminal.
    is_drawn: bool,
}

/// One file under one reading.
#[derive(Clone, Debug, Default, PartialEq, Eq)]
pub struct Work {
    pub name: String,
    pub letters: &'static str,
    /// The order that is tried.
    pub order: &'static str,
    pub step: usize,
    pub steps: usize,
    pub terms: usize,
}

/// The progress of one file, as the finder of orders tells it.
pub struct Watched<'a> {
    progress: &'a Progress,
    file: usize,
}

impl Progress {
    /// Of so many files; shown where standard error is a terminal.
    pub fn of(files: usize, is_terminal: bool) -> Progress {
        Progress {
            shows: is_terminal,
            began: Instant::now(),
            files,
            is_given_up: AtomicBool::new(false),
            state: Mutex::default(),
        }
    }

    /// The file at this place is asked for under a reading.
    pub fn begins(&self, file: usize, name: &str, reading: Reading) -> Watched<'_> {
        let work = Work {
            name: name.into(),
            letters: reading.letters(),
            ..Work::default()
        };
        self.state().under_way.insert(file, work);
        Watched {
            progress: self,
            file,
        }
    }

    /// The file at this place is done.
    pub fn ends(&self, file: usize) {
        self.state().under_way.remove(&file);
    }

    /// What is still under way is wanted by nobody.
    pub fn give_up(&self) {
        self.is_given_up.store(true, Ordering::Relaxed);
    }

    /// Draws the line anew.
    pub fn draw(&self) {
        if !self.shows || self.began.elapsed() < QUIET {
            return;
        }
        let mut state = self.state();
        if let Some((place, work)) = state.under_way.first_key_value() {
            let line = line_of(*place, self.files, work);
            let _ = write!(io::stderr(), "\r{line}\x1b[K");
            state.is_drawn = true;
        }
    }

    /// Prints what stays on the terminal, with the line out of its way.
    pub fn out_of_the_way<R>(&self, print: impl FnOnce() -> R) -> R {
        let mut state = self.state();
        if state.is_drawn {
            let _ = write!(io::stderr(), "\r\x1b[K");
            state.is_drawn = false;
        }
        print()
    }

    /// A thread that failed while it held the state left numbers that are only shown.
    fn state(&self) -> MutexGuard<'_, State> {
        self.state.lock().unwrap_or_else(PoisonError::into_inner)
    }
}

impl Watched<'_> {
    fn note(&self, change: impl FnOnce(&mut Work)) {
        if self.progress.shows {
            self.progress
                .state()
                .under_way
                .entry(self.file)
                .and_modify(change);
        }
    }
}

impl Watch for Watched<'_> {
    fn tries(&self, rule: &Rule) {
        let order = match rule {
            Rule::Falling => "falling order",
            Rule::LeastGrowth => "order of least growth",
            Rule::LookAhead => "order with look-ahead",
            Rule::File(_) => "order handed in",
            Rule::Desk => "the desk's order",
        };
        self.note(|work| {
            work.order = order;
            (work.step, work.steps, work.terms) = (0, 0, 0);
        });
    }

    fn reached(&self, step: usize, of: usize, terms: usize) {
        self.note(|work| (work.step, work.steps, work.terms) = (step, of, terms));
    }

    fn is_stopped(&self) -> bool {
        stopping::is_stopped() || self.progress.is_given_up.load(Ordering::Relaxed)
    }
}

/// The line that is drawn: which file of how many, what is tried, and how far it is. Places count from 0. The name takes
/// what room the rest leaves.
pub fn line_of(place: usize, files: usize, work: &Work) -> String {
    let front = format!("file {} of {files}: ", place + 1);
    let mut behind = format!(" {}", work.letters);
    if !work.order.is_empty() {
        behind.push_str(&format!(", {}", work.order));
    }
    if work.steps > 0 {
        let Work {
            step, steps, terms, ..
        } = work;
        behind.push_str(&format!(", step {step} of {steps}, {terms} terms"));
    }
    let room = COLUMNS.saturating_sub(front.len() + behind.len());
    let name = ending(&work.name, room.max(NAME_COLUMNS_LEAST));
    front + &name + &behind
}

/// The end of a name, which tells files of one folder apart.
fn ending(name: &str, columns: usize) -> String {
    let length = name.chars().count();
    if length <= columns {
        return name.into();
    }
    let end: String = name.chars().skip(length - columns + 2).collect();
    format!("..{end}")
}
