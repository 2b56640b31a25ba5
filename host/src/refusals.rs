//! The refusals: what each number means and wants, and which line of a file it is about.

/// What a refusal means, and after a colon what is wanted.
pub fn meaning(number: u32) -> &'static str {
    match number {
        1 => "header line malformed or cut short: line 1 has to be 'aag M I L O A' (ASCII AIGER, not the binary 'aig'), \
              with one space between fields, no leading zeros, and one LF at the end of each line (no CR)",
        2 => "a count outside its limits: L = 0, M = I + A up to 1,023, I even from 2 to 64, O from 1 to 64",
        3 => "table shorter than O + 2A: 2,106 words are always enough",
        4 => "input line wrong: the k-th has to be 2k, and none may be missing",
        5 => "output line wrong: each has to be one literal from 0 to 2M + 1, and none may be missing",
        6 => "gate line wrong: the k-th has to be 'lhs rhs0 rhs1' with lhs = 2(I + k) and lhs > rhs0 >= rhs1, and none may be missing",
        7 => "bytes after the last gate line: symbols and comments have to be taken off",
        8 => "table handed in unsound: an output or gate breaks the literal rules",
        9 => "kind unknown, or O is not l: u and s want as many outputs as inputs, t half as many; so do m and ms, whose inputs are a multiple of 4",
        10 => "T outside 128..16,384: --terms takes a number within these",
        11 => "order too long, or names something that is no gate: at most 4,096 variables are taken, each above I and up to M",
        12 => "store, scratch, log or occurrences too short: less was lent than the library asks for",
        13 => "input over 4,096 bytes with the kind line, or M > 127: the desk program takes no more, without --desk M may be up to 1,023",
        _ => "a number that has no meaning here",
    }
}

/// The line of the file, from 1, that refusals 1, 2, 4, 5, 6 and 7 are about: the first that is wrong. A line that is missing
/// is the one that the file ends in. None for the other numbers, and for a number that the text would not be refused with.
pub fn line_at_fault(text: &[u8], number: u32) -> Option<usize> {
    let lines = Lines::of(text);
    match number {
        1 | 2 => Some(1),
        4..=7 => {
            let header = Header::of(lines.at(1)?)?;
            let (first, last) = header.part(number);
            (first..=last)
                .find(|&place| !header.takes(number, place, &lines))
                .filter(|&place| place <= lines.0.len())
        }
        _ => None,
    }
}

/// The lines of a text without their ends. Behind the last end there is one more, which is no whole line.
struct Lines<'a>(Vec<&'a [u8]>);

impl<'a> Lines<'a> {
    fn of(text: &'a [u8]) -> Lines<'a> {
        Lines(text.split(|&byte| byte == b'\n').collect())
    }

    /// The whole line with this number, from 1.
    fn at(&self, place: usize) -> Option<&'a [u8]> {
        let (_, whole) = self.0.split_last()?;
        whole.get(place.checked_sub(1)?).copied()
    }

    /// Whether the text ends where line `place` would begin.
    fn end_before(&self, place: usize) -> bool {
        self.0.len() == place && self.0.last().is_some_and(|rest| rest.is_empty())
    }
}

/// What the header line says of the lines after it.
struct Header {
    variables: usize,
    inputs: usize,
    outputs: usize,
    gates: usize,
}

impl Header {
    fn of(line: &[u8]) -> Option<Header> {
        let fields = line.strip_prefix(b"aag ")?;
        match numbers(fields)?[..] {
            [variables, inputs, _latches, outputs, gates] => Some(Header {
                variables,
                inputs,
                outputs,
                gates,
            }),
            _ => None,
        }
    }

    /// The first and the last line that a refusal can be about.
    fn part(&self, number: u32) -> (usize, usize) {
        let outputs = self.inputs + 2;
        let gates = outputs + self.outputs;
        let after = gates + self.gates;
        match number {
            4 => (2, outputs - 1),
            5 => (outputs, gates - 1),
            6 => (gates, after - 1),
            _ => (after, after),
        }
    }

    /// Whether the line at this place is as it has to be.
    fn takes(&self, number: u32, place: usize, lines: &Lines) -> bool {
        if number == 7 {
            return lines.end_before(place);
        }
        let found = lines.at(place).and_then(numbers);
        match (number, found.as_deref()) {
            (4, Some(&[literal])) => literal == 2 * (place - 1),
            (5, Some(&[literal])) => literal <= 2 * self.variables + 1,
            (6, Some(&[left, first, second])) => {
                // The k-th gate line stands behind the header, I inputs and O outputs.
                let gate = place - 1 - self.outputs;
                left == 2 * gate && left > first && first >= second
            }
            _ => false,
        }
    }
}

/// The numbers of a line, one space between them.
fn numbers(line: &[u8]) -> Option<Vec<usize>> {
    line.split(|&byte| byte == b' ').map(decimal).collect()
}

/// A number of one to four digits with no leading zero.
fn decimal(digits: &[u8]) -> Option<usize> {
    if digits.is_empty() || digits.len() > 4 || (digits.len() > 1 && digits[0] == b'0') {
        return None;
    }
    digits.iter().try_fold(0, |value, &digit| {
        digit
            .is_ascii_digit()
            .then(|| 10 * value + usize::from(digit - b'0'))
    })
}
