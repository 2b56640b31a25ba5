//! Cases for the desk program: its whole input.

use super::adding;
use super::judgements::{all_false, eleven_bits, random_netlist, two_bits};
use super::texts::{self, change, made_at_limits};
use crate::netlists::{random_sound, Made};
use crate::random::Random;
use crate::reading::Reading;
use crate::records::Records;

/// A kind line, then the text.
pub fn input(kind_line: &str, text: &[u8]) -> Vec<u8> {
    [kind_line.as_bytes(), text].concat()
}

/// A netlist's text under the name of each kind.
pub fn under_each_kind(text: &[u8]) -> Vec<Vec<u8>> {
    Reading::ALL
        .into_iter()
        .map(|reading| under(reading, text))
        .collect()
}

/// A netlist's text under the name of this kind.
pub fn under(reading: Reading, text: &[u8]) -> Vec<u8> {
    input(&format!("{}\n", reading.name()), text)
}

/// What the document names, and what stands just beside it.
pub fn edges() -> Vec<Vec<u8>> {
    let mut inputs = kind_lines();
    for case in texts::edges() {
        inputs.push(input("u\n", &case.text));
    }
    for made in [two_bits(), all_false(), eleven_bits(7), eleven_bits(22)] {
        inputs.extend(under_each_kind(&made.text()));
    }
    for made in adding::small_blocks() {
        inputs.extend(under_each_kind(&made.text()));
    }
    for made in made_at_limits().iter().chain(&around_most_variables()) {
        inputs.push(input("u\n", &made.text()));
        inputs.push(input("t\n", &made.text()));
        inputs.push(input("ms\n", &made.text()));
    }
    inputs.extend(long_inputs());
    inputs
}

/// Right and wrong kind lines, with and without a text after them.
fn kind_lines() -> Vec<Vec<u8>> {
    let lines = [
        "", "u", "s", "t", "m", "ms", "\n", "u\n", "s\n", "t\n", "m\n", "ms\n", "x\n", "U\n",
        "uu\n", "u \n", " u\n", "u\r\n", "0\n", "mx\n", "sm\n", "m \n", "ms \n", " ms\n", "m s\n",
        "MS\n", "mss\n", "mms\n", "us\n", "um\n", "tm\n", "m\r\n", "ms\r\n", "m\ns\n", "3\n",
        "4\n",
    ];
    let mut inputs = Vec::new();
    for line in lines {
        inputs.push(input(line, b""));
        inputs.push(input(line, texts::AND_TEXT.as_bytes()));
        inputs.push(input(line, &adding::one_bit(&[16, 22]).text()));
    }
    inputs
}

/// M 127 and M 128, with the outputs of a reading and with other outputs.
fn around_most_variables() -> Vec<Made> {
    let mut random = Random::new(2);
    let mut list = Vec::new();
    for gates in [125, 126] {
        for outputs in [1, 2, 3] {
            list.push(random_sound(&mut random, 2, outputs, gates));
        }
    }
    list
}

/// Inputs of 4,095 to 4,097 bytes, with right and wrong kind lines.
fn long_inputs() -> Vec<Vec<u8>> {
    let mut inputs = Vec::new();
    for length in [4_095, 4_096, 4_097, 9_000] {
        for line in ["u\n", "ms\n", "x\n", "u", "ms"] {
            let mut long = input(line, texts::AND_TEXT.as_bytes());
            long.resize(length, b'\n');
            inputs.push(long);
        }
    }
    inputs
}

/// A random netlist's text under some kind, sometimes changed.
pub fn random(random: &mut Random) -> Vec<u8> {
    let reading = random.pick(&Reading::ALL);
    let made = random_netlist(random, Records::Gates, reading);
    let name = if random.one_in(8) {
        random.pick(&["u", "s", "t", "m", "ms", "x"])
    } else {
        reading.name()
    };
    let mut bytes = input(&format!("{name}\n"), &made.text());
    if random.one_in(6) {
        change(random, &mut bytes);
    }
    bytes
}
