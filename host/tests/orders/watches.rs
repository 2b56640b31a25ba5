//! Watches of a search: one that says nothing, one that remembers, and one that stops.

use host::orders::Watch;
use host::told::Rule;
use std::cell::{Cell, RefCell};

pub struct Quiet;

impl Watch for Quiet {
    fn tries(&self, _: &Rule) {}
    fn reached(&self, _: usize, _: usize, _: usize) {}
    fn is_stopped(&self) -> bool {
        false
    }
}

#[derive(Clone, Debug, PartialEq, Eq)]
pub enum Event {
    Tries(Rule),
    Reached(usize, usize, usize),
}

/// Remembers all that it is told.
#[derive(Default)]
pub struct Recorder(RefCell<Vec<Event>>);

impl Recorder {
    pub fn events(&self) -> Vec<Event> {
        self.0.borrow().clone()
    }

    /// The rules tried, in turn.
    pub fn rules(&self) -> Vec<Rule> {
        let rule = |event| match event {
            Event::Tries(rule) => Some(rule),
            Event::Reached(..) => None,
        };
        self.events().into_iter().filter_map(rule).collect()
    }

    /// Each step reached, of how many, and the terms there.
    pub fn reached(&self) -> Vec<(usize, usize, usize)> {
        let reached = |event| match event {
            Event::Tries(_) => None,
            Event::Reached(step, of, terms) => Some((step, of, terms)),
        };
        self.events().into_iter().filter_map(reached).collect()
    }
}

impl Watch for Recorder {
    fn tries(&self, rule: &Rule) {
        self.0.borrow_mut().push(Event::Tries(rule.clone()));
    }

    fn reached(&self, step: usize, of: usize, terms: usize) {
        let reached = Event::Reached(step, of, terms);
        self.0.borrow_mut().push(reached);
    }

    fn is_stopped(&self) -> bool {
        false
    }
}

/// Stops once it was asked so many times.
pub struct StopsAfter {
    asked_most: usize,
    asked: Cell<usize>,
    reached_after: Cell<usize>,
}

impl StopsAfter {
    pub fn asked(asked_most: usize) -> StopsAfter {
        StopsAfter {
            asked_most,
            asked: Cell::new(0),
            reached_after: Cell::new(0),
        }
    }

    /// Whether it has said to stop, nothing went on after it, and it was not asked again and again.
    pub fn is_heeded(&self) -> bool {
        let asked_after = self.asked.get().checked_sub(self.asked_most);
        let is_asked_no_more = matches!(asked_after, Some(1..=20));
        is_asked_no_more && self.reached_after.get() == 0
    }
}

impl Watch for StopsAfter {
    fn tries(&self, _: &Rule) {}

    fn reached(&self, _: usize, _: usize, _: usize) {
        if self.asked.get() > self.asked_most {
            self.reached_after.set(self.reached_after.get() + 1);
        }
    }

    fn is_stopped(&self) -> bool {
        self.asked.set(self.asked.get() + 1);
        self.asked.get() > self.asked_most
    }
}
