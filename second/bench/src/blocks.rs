//! Whole judgements of the real blocks by three judges, side by side.

use crate::judges::{by_hash, by_library, by_second, Lent, LentToHash, Question, Verdict};
use crate::timing::{met, Least};
use compare::types::step_for_second;
use second::blocks::{self, Block};
use second::{orders, Records, Step};

/// The least time of each judge.
struct Times {
    library: Least,
    second: Least,
    hash: Least,
}

/// Judges every block under its own reading, first those of gates and then those of cells, and prints a row for each;
/// says whether the three agree everywhere.
pub fn run(limit: u64, repeats: u32) -> bool {
    println!("order M down to I + 1, T = {limit}, least of {repeats}, milliseconds");
    let gates_agree = run_table("blocks of gates", blocks::of_gates(), limit, repeats);
    let cells_agree = run_table("blocks of cells", blocks::of_cells(), limit, repeats);
    gates_agree && cells_agree
}

/// A table with its sums and targets.
fn run_table(title: &str, blocks: Vec<Block>, limit: u64, repeats: u32) -> bool {
    println!();
    println!(
        "{:<20} {:>10} {:>10} {:>10} {:>14} {:>9} {:>9}",
        title, "library", "second", "hash in C", "answer", "lib/sec", "lib/hash"
    );
    let (mut library, mut second, mut hash) = (0.0, 0.0, 0.0);
    let mut all_agree = true;
    for block in blocks {
        let Some((verdict, times)) = judged(&block, limit, repeats) else {
            all_agree = false;
            continue;
        };
        let row = [times.library, times.second, times.hash].map(Least::milliseconds);
        print_row(&block.name, row, &verdict.to_string());
        library += row[0];
        second += row[1];
        hash += row[2];
    }
    // A sum without some of the blocks, or with wrong answers in it, says nothing.
    if all_agree {
        print_row("total", [library, second, hash], "");
        print_targets(second / library, library / hash);
    }
    all_agree
}

/// Judges every block of one kind with the library alone, T = 1,024; says whether each judgement gave the same verdict every time.
pub fn run_alone(records: Records, repeats: u32) -> bool {
    let blocks = match records {
        Records::Gates => blocks::of_gates(),
        Records::Cells => blocks::of_cells(),
    };
    let mut all_agree = true;
    for block in blocks {
        let order = orders::falling(block.made.counts);
        let question = asked(&block, 1_024, &order);
        let mut lent = Lent::to(&question);
        let first = by_library(&question, &mut lent);
        for _ in 1..repeats {
            all_agree &= by_library(&question, &mut lent) == first;
        }
    }
    all_agree
}

fn asked<'a>(block: &'a Block, limit: u64, order: &'a [u32]) -> Question<'a> {
    Question::of(&block.made, block.reading, limit, order)
}

/// One block by all three judges in turn, so that a busy moment of the machine meets them all; none when they disagree.
fn judged(block: &Block, limit: u64, repeats: u32) -> Option<(Verdict, Times)> {
    let order = orders::falling(block.made.counts);
    let question = asked(block, limit, &order);
    let (mut to_library, mut to_second) = (Lent::to(&question), Lent::to(&question));
    let mut to_hash = LentToHash::to(&question);
    let mut times = Times {
        library: Least::new(),
        second: Least::new(),
        hash: Least::new(),
    };
    let mut agreed = None;
    for _ in 0..repeats {
        let verdicts = [
            times
                .library
                .time(|| by_library(&question, &mut to_library)),
            times.second.time(|| by_second(&question, &mut to_second)),
            times.hash.time(|| by_hash(&question, &mut to_hash)),
        ];
        if verdicts.iter().any(|verdict| *verdict != verdicts[0]) {
            let [library, second, hash] = verdicts;
            println!(
                "{}: DISAGREE: library {library}, second {second}, hash {hash}",
                block.name
            );
            return None;
        }
        agreed = Some(verdicts[0]);
    }
    if !left_the_same(&to_library, &to_second, &to_hash) {
        println!("{}: DISAGREE on occurrences or on the log", block.name);
        return None;
    }
    agreed.map(|verdict| (verdict, times))
}

/// Whether all three left the same numbers of occurrences and the same records.
fn left_the_same(library: &Lent<hraskell::Step>, second: &Lent<Step>, hash: &LentToHash) -> bool {
    let logged: Vec<Step> = library.log.iter().copied().map(step_for_second).collect();
    let counted_the_same = [&library.occurrences, &second.occurrences]
        .iter()
        .all(|&occurrences| *occurrences == hash.occurrences);
    counted_the_same && logged == hash.log && second.log == hash.log
}

fn print_row(name: &str, [library, second, hash]: [f64; 3], answer: &str) {
    let (to_second, to_hash) = (library / second, library / hash);
    println!(
        "{name:<20} {library:>10.4} {second:>10.4} {hash:>10.4} {answer:>14} {to_second:>9.3} {to_hash:>9.3}"
    );
}

fn print_targets(times_as_fast: f64, to_hash: f64) {
    println!();
    println!(
        "in total {times_as_fast:.1} times as fast as the second program (at least 10: {})",
        met(times_as_fast >= 10.0)
    );
    println!(
        "in total {to_hash:.2} of the time of the hash judge in C (at most 1.0: {})",
        met(to_hash <= 1.0)
    );
}
