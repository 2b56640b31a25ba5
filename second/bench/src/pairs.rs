//! The judge against trying all operand pairs.

use crate::judges::{by_library, Lent, Question, Verdict};
use crate::timing::{met, Least};
use second::blocks::{self, Block};
use second::netlists::Made;
use second::orders;
use std::time::{Duration, Instant};

const LIMIT: u64 = 1_024;
const REPEATS: u32 = 20;
const OPERAND_BITS: [u32; 4] = [4, 6, 8, 10];
/// From here on the judge is to be ahead.
const AHEAD_FROM: u32 = 8;
const LONGEST: Duration = Duration::from_secs(60);
/// The clock is looked at after so many words of pairs.
const WORDS_AT_ONCE: u64 = 1 << 16;

extern "C" {
    fn some_pair_is_wrong(
        i: u32,
        o: u32,
        a: u32,
        table: *const u32,
        kind: u32,
        first: u64,
        past: u64,
    ) -> i32;
}

/// What trying all pairs found.
#[derive(Clone, Copy, Debug, PartialEq, Eq)]
pub enum Tried {
    AllRight,
    SomeWrong,
    TooLong,
}

/// Decides the blocks of gates both ways and prints a row for each; says whether both ways agree everywhere.
pub fn run() -> bool {
    println!("T = {LIMIT}, least of {REPEATS}, milliseconds; trying ends after {LONGEST:?}");
    println!(
        "{:<20} {:>3} {:>9} {:>14} {:>10} {:>12}  ahead",
        "block", "n", "order", "answer", "library", "all pairs"
    );
    let mut all_agree = true;
    let mut all_ahead = true;
    let mut blocks = blocks::of_gates();
    // Where c is added, n tells another number of inputs.
    blocks.retain(|block| OPERAND_BITS.contains(&block.n) && !block.reading.adds());
    blocks.sort_by_key(|block| block.n);
    for block in &blocks {
        let row = row(block);
        println!("{}", row.shown(block));
        all_agree &= row.agrees();
        all_ahead &= block.n < AHEAD_FROM || row.judge_is_ahead();
    }
    println!();
    println!("ahead from n = {AHEAD_FROM} on: {}", met(all_ahead));
    all_agree
}

struct Row {
    order: &'static str,
    verdict: Verdict,
    judging: Least,
    tried: Tried,
    trying: Least,
}

impl Row {
    fn judge_is_ahead(&self) -> bool {
        let is_faster = self.judging.milliseconds() < self.trying.milliseconds();
        self.verdict.is_decision() && (is_faster || self.tried == Tried::TooLong)
    }

    /// Where both decide, they decide the same.
    fn agrees(&self) -> bool {
        match self.tried {
            Tried::TooLong => true,
            _ if !self.verdict.is_decision() => true,
            Tried::AllRight => self.verdict.letter == 'E',
            Tried::SomeWrong => self.verdict.letter == 'D',
        }
    }

    fn shown(&self, block: &Block) -> String {
        let trying = match self.tried {
            Tried::TooLong => "not ended".to_string(),
            _ => format!("{:.4}", self.trying.milliseconds()),
        };
        let ahead = match (self.agrees(), self.judge_is_ahead()) {
            (false, _) => "DISAGREE",
            (_, true) => "the judge",
            (_, false) => "all pairs",
        };
        let verdict = self.verdict.to_string();
        format!(
            "{:<20} {:>3} {:>9} {verdict:>14} {:>10.4} {trying:>12}  {ahead}",
            block.name,
            block.n,
            self.order,
            self.judging.milliseconds(),
        )
    }
}

/// The falling order, or where that has no room the one found by trying which gate leaves the fewest terms.
fn deciding_order(block: &Block) -> (&'static str, Vec<u32>) {
    let falling = orders::falling(block.made.counts);
    let question = question(block, &falling);
    if by_library(&question, &mut Lent::to(&question)).is_decision() {
        return ("falling", falling);
    }
    ("thrifty", blocks::thrifty_order(block, LIMIT).steps)
}

fn question<'a>(block: &'a Block, order: &'a [u32]) -> Question<'a> {
    Question::of(&block.made, block.reading, LIMIT, order)
}

fn row(block: &Block) -> Row {
    let (order, steps) = deciding_order(block);
    let question = question(block, &steps);
    let kind = block.reading.kind();
    let mut lent = Lent::to(&question);
    let (mut judging, mut trying) = (Least::new(), Least::new());
    let mut verdict = judging.time(|| by_library(&question, &mut lent));
    let mut tried = trying.time(|| try_all(&block.made, kind));
    for _ in 1..REPEATS {
        verdict = judging.time(|| by_library(&question, &mut lent));
        if tried != Tried::TooLong {
            tried = trying.time(|| try_all(&block.made, kind));
        }
    }
    Row {
        order,
        verdict,
        judging,
        tried,
        trying,
    }
}

pub fn try_all(made: &Made, kind: u32) -> Tried {
    let counts = made.counts;
    let begun = Instant::now();
    // With fewer than six inputs one word has every pair, some of them more than once.
    let words = 1u64 << counts.i.saturating_sub(6);
    for first in (0..words).step_by(WORDS_AT_ONCE as usize) {
        let past = words.min(first + WORDS_AT_ONCE);
        let table = made.table.as_ptr();
        // SAFETY: a made table is sound and has the words that its counts need.
        let is_wrong = unsafe {
            some_pair_is_wrong(counts.i, counts.o, counts.a, table, kind, first, past) != 0
        };
        if is_wrong {
            return Tried::SomeWrong;
        }
        if begun.elapsed() > LONGEST {
            return Tried::TooLong;
        }
    }
    Tried::AllRight
}
