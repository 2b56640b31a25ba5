//! Which line of a file a refusal is about: on texts damaged by hand, and on random ones with the library's own numbers.

mod calls;
mod told_common;

use host::block::Block;
use host::refusals::line_at_fault;
use told_common::{all_false, ADD, AND, TWO_BITS};

/// Random numbers that are the same in every run.
struct Random(u64);

impl Random {
    fn next(&mut self) -> u64 {
        // SplitMix64.
        self.0 = self.0.wrapping_add(0x9e37_79b9_7f4a_7c15);
        let mut word = self.0;
        word = (word ^ (word >> 30)).wrapping_mul(0xbf58_476d_1ce4_e5b9);
        word = (word ^ (word >> 27)).wrapping_mul(0x94d0_49bb_1331_11eb);
        word ^ (word >> 31)
    }

    fn below(&mut self, bound: usize) -> usize {
        (self.next() % bound as u64) as usize
    }
}

fn number_of(text: &[u8]) -> Option<u32> {
    Block::of_text(text).err().map(|refused| refused.0)
}

#[test]
fn fault_is_at_the_first_wrong_line() {
    // AND has the header in line 1, inputs in 2 and 3, outputs in 4 and 5, the gate in 6.
    let rows: [(&str, &str, u32, usize); 22] = [
        ("aag 3", "aig 3", 1, 1),
        ("aag 3", "aag  3", 1, 1),
        ("1\n2\n", "1\r\n2\r\n", 1, 1),
        ("2 1\n", "2 2\n", 2, 1),
        ("3 2 0", "3 2 1", 2, 1),
        ("\n2\n4\n", "\n4\n2\n", 4, 2),
        ("\n4\n", "\n6\n", 4, 3),
        ("\n4\n", "\n4\r\n", 4, 3),
        ("\n4\n", "\n 4\n", 4, 3),
        ("\n4\n", "\n\n4\n", 4, 3),
        ("\n6\n", "\n8\n", 5, 4),
        ("\n6\n", "\n06\n", 5, 4),
        ("\n6\n", "\n6 0\n", 5, 4),
        ("\n0\n", "\n-1\n", 5, 5),
        ("\n0\n", "\n00000\n", 5, 5),
        ("\n0\n", "\n", 5, 5),
        ("6 4 2", "6 2 4", 6, 6),
        ("6 4 2", "8 4 2", 6, 6),
        ("6 4 2", "6 6 2", 6, 6),
        ("6 4 2", "6 4", 6, 6),
        ("6 4 2\n", "6 4 2\nc\n", 7, 7),
        ("6 4 2\n", "6 4 2\n\n", 7, 7),
    ];
    for (from, to, number, line) in rows {
        let text = AND.replacen(from, to, 1);
        assert_eq!(number_of(text.as_bytes()), Some(number), "{text:?}");
        let found = line_at_fault(text.as_bytes(), number);
        assert_eq!(found, Some(line), "{text:?}");
    }
}

#[test]
fn fault_is_not_at_a_line_that_is_just_right() {
    // 9 is the largest literal of four variables, and both literals of a gate may be one.
    let text = b"aag 4 2 0 2 2\n2\n4\n9\n10\n6 5 5\n8 7 7\n";
    assert_eq!(number_of(text), Some(5));
    assert_eq!(line_at_fault(text, 5), Some(5));
    let text = b"aag 4 2 0 2 2\n2\n4\n9\n9\n6 5 5\n8 7 9\n";
    assert_eq!(number_of(text), Some(6));
    assert_eq!(line_at_fault(text, 6), Some(7));
}

#[test]
fn fault_of_a_text_cut_short_is_at_the_line_that_it_ends_in() {
    // The bytes that are left, the number and the line.
    let rows = [
        (0, 1, 1),
        (13, 1, 1),
        (14, 4, 2),
        (15, 4, 2),
        (16, 4, 3),
        (18, 5, 4),
        (20, 5, 5),
        (22, 6, 6),
        (27, 6, 6),
    ];
    for (bytes, number, line) in rows {
        let text = &AND.as_bytes()[..bytes];
        assert_eq!(number_of(text), Some(number), "{bytes} bytes");
        assert_eq!(line_at_fault(text, number), Some(line), "{bytes} bytes");
    }
}

#[test]
fn other_numbers_are_about_no_line() {
    for number in [0, 3, 8, 9, 10, 11, 12, 13, 14, u32::MAX] {
        assert_eq!(line_at_fault(AND.as_bytes(), number), None);
    }
    for number in 4..=7 {
        assert_eq!(line_at_fault(AND.as_bytes(), number), None);
        assert_eq!(line_at_fault(b"aig 3 2 0 2 1\n", number), None);
    }
}

/// The lines that a text has, one more where it does not end with a line end, and at least one.
fn lines_of(text: &[u8]) -> usize {
    1 + text.iter().filter(|&&byte| byte == b'\n').count()
}

/// Bytes that netlists are made of, and now and then any other.
fn random_text(random: &mut Random) -> Vec<u8> {
    let mut text = match random.below(3) {
        0 => Vec::new(),
        _ => b"aag 9 4 0 4 5\n2\n4\n6\n8\n".to_vec(),
    };
    for _ in 0..random.below(60) {
        text.push(match random.below(8) {
            0 => random.next() as u8,
            1..=3 => b'\n',
            4 => b' ',
            _ => b'0' + random.below(10) as u8,
        });
    }
    text
}

#[test]
fn fault_in_random_bytes_is_at_a_line_that_exists() {
    let mut random = Random(1);
    let mut found = 0;
    for _ in 0..20_000 {
        let text = random_text(&mut random);
        for number in 0..=14 {
            let line = line_at_fault(&text, number);
            assert!(line.is_none_or(|line| (1..=lines_of(&text)).contains(&line)));
            found += usize::from(line.is_some_and(|line| line > 1));
        }
    }
    assert!(found > 10_000, "{found} faults below the header");
}

/// A text whose header is right, taken up to its line `upto` and from there on filled with lines that are right.
fn filled(text: &[u8], upto: usize) -> Vec<u8> {
    let lines: Vec<&[u8]> = text.split(|&byte| byte == b'\n').collect();
    let header = String::from_utf8(lines[0].to_vec()).unwrap();
    let counts: Vec<usize> = header
        .split(' ')
        .skip(1)
        .map(|word| word.parse().unwrap())
        .collect();
    let [_, inputs, _, outputs, gates] = counts[..] else {
        panic!("five counts")
    };
    let mut filled = Vec::new();
    for place in 1..=1 + inputs + outputs + gates {
        if place <= upto {
            filled.extend_from_slice(lines.get(place - 1).unwrap_or(&&b""[..]));
        } else if place <= 1 + inputs {
            filled.extend_from_slice((2 * (place - 1)).to_string().as_bytes());
        } else if place <= 1 + inputs + outputs {
            filled.push(b'0');
        } else {
            let gate = format!("{} 0 0", 2 * (place - 1 - outputs));
            filled.extend_from_slice(gate.as_bytes());
        }
        filled.push(b'\n');
    }
    filled
}

/// One byte of a netlist changed, put in or taken out.
fn damaged(random: &mut Random) -> Vec<u8> {
    let whole = [AND, ADD, TWO_BITS, &all_false()][random.below(4)].to_string();
    let mut text = whole.into_bytes();
    let place = random.below(text.len());
    let byte = b"0123456789 \n\rac-"[random.below(16)];
    match random.below(3) {
        0 => text[place] = byte,
        1 => text.insert(place, byte),
        _ => {
            text.remove(place);
        }
    }
    text
}

#[test]
fn lines_before_the_fault_are_right_and_its_own_is_wrong() {
    let mut random = Random(2);
    let mut tried = [0; 8];
    for _ in 0..20_000 {
        let text = damaged(&mut random);
        let Some(number @ 4..=6) = number_of(&text) else {
            continue;
        };
        let line = line_at_fault(&text, number).expect("the library refuses it for a line");
        let shown = String::from_utf8_lossy(&text);
        assert_eq!(
            number_of(&filled(&text, line - 1)),
            None,
            "{line} {shown:?}"
        );
        // A last line that only lacks its end is right once it has one.
        if line < lines_of(&text) {
            let whole = number_of(&filled(&text, line));
            assert_eq!(whole, Some(number), "{line} {shown:?}");
        }
        tried[number as usize] += 1;
    }
    assert!(tried[4..=6].iter().all(|&count| count > 500), "{tried:?}");
}
