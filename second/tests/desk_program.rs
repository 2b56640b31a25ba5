//! The proved desk program, run as a program, against `second::desk`: the same bytes on standard output.
//!
//! HRASKELL_DESK_MAIN names the program. The test that needs it is left out of a plain `cargo test` and run with
//! `cargo test --release --test desk_program -- --include-ignored`; it fails where the variable names no program.

use second::cases::adding::one_bit;
use second::cases::damages::{cuts, Damage};
use second::cases::desks;
use second::cases::judgements::{and_netlist, two_bits};
use second::cases::texts::AND_TEXT;
use second::netlists::{multiplier, random_size, random_sound, with_fault, Made};
use second::random::Random;
use second::reading::Reading;
use second::{blocks, desk, desk_by, Records, Rules};
use std::collections::BTreeSet;
use std::io::Write;
use std::path::PathBuf;
use std::process::{ChildStdin, Command, Stdio};
use std::sync::LazyLock;
use std::time::Duration;

const RANDOM: u64 = 1_500;
const OF_EACH_DAMAGE: u64 = 60;
const WRONG_BLOCKS: u64 = 300;
const WIDE: u64 = 200;
const NOISE: u64 = 300;
/// Every so many-th case is written in pieces.
const IN_PIECES: usize = 29;

/// Made once for all tests of this file.
static CASES: LazyLock<Vec<Vec<u8>>> = LazyLock::new(cases);

fn cases() -> Vec<Vec<u8>> {
    let mut cases = desks::edges();
    cases.extend(bench_sheet());
    cases.extend(long_inputs());
    cases.extend(real_blocks());
    let mut random = Random::new(11);
    cases.extend((0..RANDOM).map(|_| desks::random(&mut random)));
    for damage in Damage::ALL {
        cases.extend((0..OF_EACH_DAMAGE).map(|_| damaged(&mut random, damage)));
    }
    cases.extend((0..WRONG_BLOCKS).map(|_| wrong_block(&mut random)));
    cases.extend((0..WIDE).map(|_| wide(&mut random)));
    cases.extend((0..NOISE).map(|_| noise(&mut random)));
    cases
}

/// The netlists of P1 to P11, and two of them cut at every place.
fn bench_sheet() -> Vec<Vec<u8>> {
    let outputs = [&[6, 0][..], &[6, 6], &[7, 0], &[6]];
    let mut texts: Vec<Vec<u8>> = outputs.map(|shown| and_netlist(shown).text()).into();
    texts.push(Made::new(2, &[7, 0], &[(5, 3)]).text());
    texts.push(two_bits().text());
    texts.push(one_bit(&[16, 22]).text());
    let mut inputs: Vec<Vec<u8>> = texts
        .iter()
        .flat_map(|text| desks::under_each_kind(text))
        .collect();
    inputs.extend(cuts(&desks::input("u\n", AND_TEXT.as_bytes())));
    inputs.extend(cuts(&desks::input("s\n", &two_bits().text())));
    inputs.extend(cuts(&desks::input("ms\n", &one_bit(&[16, 22]).text())));
    inputs
}

/// 4,095 to 4,097 bytes and more: what is refused by its text one byte before is refused by its length.
fn long_inputs() -> Vec<Vec<u8>> {
    let mut inputs = Vec::new();
    let two_bits = two_bits().text();
    for length in [4_095, 4_096, 4_097, 4_098, 8_192, 70_000] {
        for text in [&b""[..], b"aag 3 2 0 2 1\n2\n4\n", b"aag 0", &two_bits] {
            for (line, fill) in [("u\n", b'0'), ("t\n", b' '), ("q\n", b'\n')] {
                let mut long = desks::input(line, text);
                long.resize(length, fill);
                inputs.push(long);
            }
        }
    }
    inputs
}

/// Every real block under each kind, those with M > 127 too.
fn real_blocks() -> Vec<Vec<u8>> {
    let texts = blocks::of_gates()
        .into_iter()
        .map(|block| block.made.text());
    texts
        .flat_map(|text| desks::under_each_kind(&text))
        .collect()
}

fn kind_line(random: &mut Random) -> &'static str {
    random.pick(&["u\n", "s\n", "t\n", "m\n", "ms\n"])
}

fn damaged(random: &mut Random, damage: Damage) -> Vec<u8> {
    let made = random_size(random, Records::Gates);
    let text = damage.text_of(random, &made);
    desks::input(kind_line(random), &text)
}

/// A block that fits the desk, real or made, with one or two faults under its own reading.
fn wrong_block(random: &mut Random) -> Vec<u8> {
    static FITTING: LazyLock<Vec<(Reading, Made)>> = LazyLock::new(|| {
        let fitting = blocks::of_gates()
            .into_iter()
            .filter(|block| block.made.counts.m <= 127);
        fitting.map(|block| (block.reading, block.made)).collect()
    });
    let (reading, mut made) = if random.one_in(3) {
        let reading = random.pick(&Reading::ALL);
        // Three bits that add c are too many gates for the desk.
        let n = if reading.adds() { 2 } else { 3 };
        (reading, multiplier(random, reading, n))
    } else {
        FITTING[random.below(FITTING.len())].clone()
    };
    for _ in 0..1 + random.below(2) {
        made = with_fault(random, &made);
    }
    desks::under(reading, &made.text())
}

/// Up to 64 inputs, and M from 120 to 129 or few gates: large words, and R at the start where the products are too many.
fn wide(random: &mut Random) -> Vec<u8> {
    let reading = random.pick(&Reading::ALL);
    let n = 1 + random.below(reading.most_bits() as usize) as u32;
    let inputs = reading.inputs(n);
    let gates = match random.below(2) {
        0 => random.below(6) as u32,
        _ => 120 + random.below(10) as u32 - inputs,
    };
    let made = random_sound(random, inputs, reading.outputs(n), gates);
    desks::under(reading, &made.text())
}

/// Any bytes, or the bytes that a netlist text is made of, sometimes after a right beginning.
fn noise(random: &mut Random) -> Vec<u8> {
    let beginning = random.pick(&[
        "",
        "u\n",
        "s\naag ",
        "t\naag 3 2 0 1 1\n",
        "m",
        "ms\naag 5 4 0 2 1\n2\n4\n6\n8\n",
        "u\naag 3 2 0 2 1\n2\n4\n",
    ]);
    let mut bytes = beginning.as_bytes().to_vec();
    let any = random.one_in(2);
    for _ in 0..random.below(60) {
        bytes.push(if any {
            random.word() as u8
        } else {
            random.pick(b"0123456789 \n")
        });
    }
    bytes
}

/// Writes the input in pieces, with a pause after each but the last. The first is longer: the program has to be reading
/// by then, or it would find all pieces at once.
fn write_in_pieces(mut pipe: ChildStdin, input: &[u8], piece: usize) {
    let mut pause = Duration::from_millis(20);
    let pieces: Vec<&[u8]> = input.chunks(piece.max(1)).collect();
    for (place, part) in pieces.iter().enumerate() {
        // A program that has seen enough may end before all is written.
        if pipe.write_all(part).and_then(|()| pipe.flush()).is_err() {
            return;
        }
        if place + 1 < pieces.len() {
            std::thread::sleep(pause);
            pause = Duration::from_millis(2);
        }
    }
}

/// What the program prints; it has to end by itself with status 0 and an empty standard error.
fn printed(mut program: Command, input: &[u8], piece: usize) -> Vec<u8> {
    program.stdin(Stdio::piped());
    program.stdout(Stdio::piped()).stderr(Stdio::piped());
    let mut child = program
        .spawn()
        .unwrap_or_else(|error| panic!("{program:?}: {error}"));
    write_in_pieces(child.stdin.take().unwrap(), input, piece);
    let output = child.wait_with_output().unwrap();
    let shown = String::from_utf8_lossy(input);
    assert!(output.status.success(), "{:?}: {shown:?}", output.status);
    assert!(output.stderr.is_empty(), "standard error: {shown:?}");
    output.stdout
}

/// The first case for which the program prints something else than `second::desk`.
fn first_difference(program: impl Fn() -> Command, cases: &[Vec<u8>]) -> Option<String> {
    let mut random = Random::new(5);
    for (place, input) in cases.iter().enumerate() {
        let piece = match place % IN_PIECES {
            0 => input.len() / (2 + random.below(9)),
            _ => input.len(),
        };
        let (theirs, ours) = (printed(program(), input, piece), desk(input));
        if theirs != ours {
            let [input, theirs, ours] = [input, &theirs, &ours].map(|b| String::from_utf8_lossy(b));
            return Some(format!(
                "case {place}: {theirs:?}, and {ours:?} is right, for {input:?}"
            ));
        }
    }
    None
}

/// The program that HRASKELL_DESK_MAIN names.
fn desk_main() -> PathBuf {
    let named = std::env::var_os("HRASKELL_DESK_MAIN");
    let path = PathBuf::from(named.expect("HRASKELL_DESK_MAIN has to name the desk program"));
    assert!(
        path.is_file(),
        "HRASKELL_DESK_MAIN names no program: {}",
        path.display()
    );
    path.canonicalize().unwrap()
}

#[test]
#[ignore = "needs the proved program: HRASKELL_DESK_MAIN"]
fn desk_program_prints_the_same_lines() {
    assert!(CASES.len() >= 3_000);
    println!("{} inputs of the desk program", CASES.len());
    let path = desk_main();
    let difference = first_difference(|| Command::new(&path), &CASES);
    assert!(difference.is_none(), "{}", difference.unwrap());
}

#[test]
fn desk_cases_meet_every_answer_and_refusal_of_the_desk() {
    // U cannot be met with an honest order, and 3, 8, 10, 11 and 12 speak of what the desk itself lends.
    let mut met = BTreeSet::new();
    for case in CASES.iter() {
        let line = String::from_utf8(desk(case)).unwrap();
        let refused = line.starts_with('X');
        met.insert(if refused {
            line.trim_end().to_string()
        } else {
            line[..1].to_string()
        });
    }
    let all = [
        "D", "E", "R", "X 1", "X 13", "X 2", "X 4", "X 5", "X 6", "X 7", "X 9",
    ];
    assert_eq!(met, all.map(str::to_string).into());
}

#[test]
fn desk_cases_tell_every_mutant() {
    let right: Vec<Vec<u8>> = CASES.iter().map(|case| desk(case)).collect();
    let mutants = Rules::mutants_of("desk");
    assert!(mutants.len() >= 5);
    for (name, bent) in &mutants {
        let mut both = CASES.iter().zip(&right);
        let told = both.position(|(case, line)| desk_by(bent, case) != *line);
        println!("{name}: first told by input {told:?}");
        assert!(told.is_some(), "{name}: no input tells it");
    }
}

/// Programs as a shell runs them: `SECOND` in the script is the second program.
fn shell(script: &str) -> Command {
    let mut command = Command::new("sh");
    command.args(["-c", script]);
    command.env("SECOND", env!("CARGO_BIN_EXE_second"));
    command
}

#[test]
fn desk_comparison_passes_a_right_program_and_no_wrong_one() {
    let few: Vec<Vec<u8>> = CASES.iter().step_by(12).cloned().collect();
    let right = first_difference(|| shell("exec \"$SECOND\" desk"), &few);
    assert_eq!(right, None);
    let wrong = [
        // one read is not all of a pipe
        "dd bs=4097 count=1 status=none | \"$SECOND\" desk",
        // 4,096 bytes looked at, so that longer inputs are refused by their text
        "head -c 4096 | \"$SECOND\" desk",
        "\"$SECOND\" desk | tr X x",
        "\"$SECOND\" desk; echo",
    ];
    for script in wrong {
        let difference = first_difference(|| shell(script), &few);
        assert!(difference.is_some(), "{script}: no difference seen");
    }
}
