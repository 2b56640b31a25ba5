//! Single damages of a netlist's text, each of one kind.

use super::texts::swap_lines;
use crate::netlists::Made;
use crate::random::Random;
use crate::table::Counts;

/// What happens to a text on its way.
#[derive(Clone, Copy, Debug, PartialEq, Eq)]
pub enum Damage {
    Bit,
    ByteMore,
    ByteLess,
    Space,
    LeadingZero,
    CarriageReturn,
    LineEndMissing,
    NumberPastLimit,
    LinesSwapped,
}

impl Damage {
    pub const ALL: [Damage; 9] = [
        Damage::Bit,
        Damage::ByteMore,
        Damage::ByteLess,
        Damage::Space,
        Damage::LeadingZero,
        Damage::CarriageReturn,
        Damage::LineEndMissing,
        Damage::NumberPastLimit,
        Damage::LinesSwapped,
    ];

    /// The netlist's text with this damage at one place. Some stay sound: a line swapped with its like, for instance.
    pub fn text_of(self, random: &mut Random, made: &Made) -> Vec<u8> {
        let mut text = made.text();
        let any = random.below(text.len());
        match self {
            Damage::Bit => text[any] ^= 1 << random.below(8),
            Damage::ByteMore => text.insert(any, random.word() as u8),
            Damage::ByteLess => drop(text.remove(any)),
            Damage::Space => text.insert(any, b' '),
            Damage::LeadingZero => text.insert(number_start(random, &text), b'0'),
            Damage::CarriageReturn => text.insert(line_end(random, &text), b'\r'),
            Damage::LineEndMissing => drop(text.remove(line_end(random, &text))),
            Damage::NumberPastLimit => text = past_limit(random, made),
            Damage::LinesSwapped => swap_lines(random, &mut text),
        }
        text
    }
}

/// The text cut at every place, the whole text last.
pub fn cuts(text: &[u8]) -> Vec<Vec<u8>> {
    (0..=text.len()).map(|end| text[..end].to_vec()).collect()
}

/// A place where a number begins.
fn number_start(random: &mut Random, text: &[u8]) -> usize {
    let starts: Vec<usize> = (1..text.len())
        .filter(|&at| text[at].is_ascii_digit() && !text[at - 1].is_ascii_digit())
        .collect();
    random.pick(&starts)
}

/// A place with an LF; often the last, since nothing after it can show the loss.
fn line_end(random: &mut Random, text: &[u8]) -> usize {
    let ends: Vec<usize> = (0..text.len()).filter(|&at| text[at] == b'\n').collect();
    if random.one_in(4) {
        return ends[ends.len() - 1];
    }
    random.pick(&ends)
}

/// The text with one number past the most that the rules allow there; some are right again in 32 bits.
fn past_limit(random: &mut Random, made: &Made) -> Vec<u8> {
    let text = String::from_utf8(made.text()).expect("a text of ASCII");
    let mut lines: Vec<Vec<String>> = text
        .lines()
        .map(|line| line.split(' ').map(str::to_string).collect())
        .collect();
    let line = random.below(lines.len());
    // The header's first field is its word.
    let first = usize::from(line == 0);
    let field = first + random.below(lines[line].len() - first);
    let most = u64::from(most_allowed(made, line, field));
    let right: u64 = lines[line][field].parse().expect("a number");
    let past = [most + 1, most + 2, 9_999, 10_000, (1 << 32) + right];
    lines[line][field] = random.pick(&past).to_string();
    let lines = lines.iter().map(|fields| fields.join(" ") + "\n");
    lines.collect::<String>().into_bytes()
}

/// The most that the rules allow for this number of the text; what must have one value has that.
fn most_allowed(made: &Made, line: usize, field: usize) -> u32 {
    let Counts { m, i, o, .. } = made.counts;
    let line = line as u32;
    if line == 0 {
        return [1_023, 64, 0, 64, 1_023][field - 1];
    }
    if line <= i {
        return 2 * line;
    }
    if line <= i + o {
        return 2 * m + 1;
    }
    let gate = line - o;
    let rhs0 = made.table[o as usize + 2 * (gate - i - 1) as usize];
    [2 * gate, 2 * gate - 1, rhs0][field]
}
