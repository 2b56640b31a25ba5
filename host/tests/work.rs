//! Work over all processors, and how far it is.

use host::parallel::in_order;
use host::progress::{line_of, Work};
use std::sync::atomic::{AtomicUsize, Ordering};
use std::time::Duration;

#[test]
fn results_come_in_order_whichever_is_done_first() {
    let mut taken = Vec::new();
    let work = |number: usize| {
        // The later, the sooner done.
        std::thread::sleep(Duration::from_micros(500 - 10 * number as u64));
        number * number
    };
    in_order(
        50,
        work,
        || (),
        |result| {
            taken.push(result);
            true
        },
    );
    assert_eq!(
        taken,
        (0..50).map(|number| number * number).collect::<Vec<_>>()
    );
    in_order(0, |number| number, || (), |_| panic!("there is no work"));
}

#[test]
fn work_that_nobody_wants_is_not_begun() {
    let begun = AtomicUsize::new(0);
    let work = |_| {
        begun.fetch_add(1, Ordering::Relaxed);
        std::thread::sleep(Duration::from_millis(1));
    };
    let mut taken = 0;
    in_order(
        100_000,
        work,
        || (),
        |()| {
            taken += 1;
            taken < 3
        },
    );
    assert_eq!(taken, 3);
    assert!(begun.into_inner() < 10_000);
}

#[test]
fn waiting_is_told_of() {
    let mut waits = 0;
    let work = |_| std::thread::sleep(Duration::from_millis(500));
    in_order(1, work, || waits += 1, |()| true);
    assert!(waits >= 2, "{waits}");
    // Results that come fast do not keep it from being told.
    let mut waits = 0;
    let work = |_| std::thread::sleep(Duration::from_millis(5));
    in_order(200, work, || waits += 1, |()| true);
    assert!(waits >= 1, "{waits}");
}

#[test]
fn the_line_says_which_file_of_how_many_and_how_far_it_is() {
    let mut work = Work {
        name: "blocks/abc-u8.aag".into(),
        letters: "u",
        ..Work::default()
    };
    assert_eq!(line_of(2, 12, &work), "file 3 of 12: blocks/abc-u8.aag u");
    work.order = "falling order";
    (work.step, work.steps, work.terms) = (120, 520, 381);
    assert_eq!(
        line_of(0, 1, &work),
        "file 1 of 1: blocks/abc-u8.aag u, falling order, step 120 of 520, 381 terms"
    );
    // It stays on one row of a terminal, and the end of a name is what tells it from others.
    work.name = format!("{}one.aag", "a-long-folder/".repeat(20));
    let line = line_of(99, 100, &work);
    assert_eq!(line.len(), 78);
    assert!(line.starts_with("file 100 of 100: .."), "{line}");
    assert!(
        line.ends_with("one.aag u, falling order, step 120 of 520, 381 terms"),
        "{line}"
    );
}
