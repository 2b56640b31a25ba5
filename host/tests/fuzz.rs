//! Seeded cases over arguments, netlist bytes and order files: never a panic, always a status from 0 to 4, nothing left behind.
//!
//! Where a case has an answer it is held to the second program's. A case that fails names its seed.

mod calls;

use calls::*;
use host::options::{self, Wish};
use host::orderfile::{order_of_text, text_of_order};
use host::run::{call, Streams};
use second::random::Random;
use std::ffi::OsString;
use std::os::unix::ffi::OsStringExt;
use std::path::Path;

const KINDS: [&str; 6] = ["u", "s", "t", "m", "ms", "any"];

/// Netlists to begin with, each with a kind whose outputs it has: right, wrong, adding, out of room, without gates.
fn seeds() -> Vec<(&'static str, Vec<u8>)> {
    let block = |file: &str| std::fs::read(top().join("second/blocks").join(file)).unwrap();
    vec![
        ("t", block("abc-blast-t2.aag")),
        ("s", block("abc-blast-s3.aag")),
        ("m", block("mac/yosys-synth-m2.aag")),
        ("u", AND.into()),
        ("ms", ADD.into()),
        ("s", example("two-bit.aag").into()),
        ("u", example("desk.aag").into()),
        ("t", all_false().into()),
        ("u", without_gates(46).into()),
    ]
}

/// A kind, and a netlist text with some bytes or lines changed, or none.
fn damaged(random: &mut Random, seeds: &[(&'static str, Vec<u8>)]) -> (&'static str, Vec<u8>) {
    let (kind, mut text) = seeds[random.below(seeds.len())].clone();
    let kind = if random.one_in(4) {
        KINDS[random.below(5)]
    } else {
        kind
    };
    match random.below(3) {
        0 => (),
        1 => invert_an_output(random, &mut text),
        _ => (0..=random.below(3)).for_each(|_| damage(random, &mut text)),
    }
    (kind, text)
}

/// The netlist stays sound, and its answer may change.
fn invert_an_output(random: &mut Random, text: &mut Vec<u8>) {
    let whole = String::from_utf8(text.clone()).unwrap();
    let mut lines: Vec<String> = whole.lines().map(String::from).collect();
    let counts = numbers_of(&lines[0]);
    let line = 1 + counts[1] as usize + random.below(counts[3] as usize);
    lines[line] = (numbers_of(&lines[line])[0] ^ 1).to_string();
    *text = (lines.join("\n") + "\n").into_bytes();
}

/// The decimal numbers among the words of a line.
fn numbers_of(line: &str) -> Vec<u32> {
    line.split(' ')
        .filter_map(|word| word.parse().ok())
        .collect()
}

fn damage(random: &mut Random, text: &mut Vec<u8>) {
    let at = random.below(text.len() + 1);
    match random.below(6) {
        0 => text.truncate(at),
        1 => text.insert(at, random.word() as u8),
        2 => text.insert(at, random.pick(b"0123456789 \n\r\t-agi")),
        3 if at < text.len() => text[at] = random.pick(b"0123456789 \n"),
        4 if at < text.len() => drop(text.remove(at)),
        _ => swap_lines(random, text),
    }
}

fn swap_lines(random: &mut Random, text: &mut Vec<u8>) {
    let mut lines: Vec<&[u8]> = text.split_inclusive(|&byte| byte == b'\n').collect();
    if !lines.is_empty() {
        let (one, other) = (random.below(lines.len()), random.below(lines.len()));
        lines.swap(one, other);
        *text = lines.concat();
    }
}

/// A call in this process: what it printed and its status.
fn called_here(words: Vec<OsString>) -> (String, String, u8) {
    let (mut output, mut errors) = (Vec::new(), Vec::new());
    let mut streams = Streams {
        output: &mut output,
        errors: &mut errors,
        output_is_terminal: false,
        errors_are_terminal: false,
    };
    let status = call(words, &mut streams);
    let text = |bytes| String::from_utf8(bytes).unwrap();
    (text(output), text(errors), status)
}

fn words(words: &[&str]) -> Vec<OsString> {
    words.iter().map(OsString::from).collect()
}

fn status_of(line: &str) -> u8 {
    match line.as_bytes()[0] {
        b'E' => 0,
        b'D' => 1,
        b'R' | b'U' => 2,
        _ => 3,
    }
}

#[test]
fn damaged_netlists_are_answered_as_the_second_program_answers_them() {
    let home = folder("fuzz-netlists");
    let seeds = seeds();
    let mut answers = [0; 4];
    for seed in 0..2_000 {
        let mut random = Random::new(seed);
        let (kind, text) = damaged(&mut random, &seeds);
        let block = file(&home, "block.aag", &text);
        let limit = random.pick(&[128, 129, 512, 16_384, 127, 16_385]);
        let line = line_by_second(kind, limit, &text, None);
        let limit = limit.to_string();
        let call = [
            "--terms",
            &limit,
            "--explain",
            "--order=falling",
            kind,
            &block,
        ];
        let (printed, told, status) = called_here(words(&call));
        assert_eq!(printed, format!("{line}\n"), "seed {seed}");
        assert_eq!(status, status_of(&line), "seed {seed}");
        assert!(!told.contains("fault"), "seed {seed}: {told}");
        answers[status as usize] += 1;
    }
    assert!(
        answers.iter().all(|&count| count > 20),
        "all are met: {answers:?}"
    );
    assert_eq!(names_in(&home), ["block.aag"]);
}

/// An order as text, with white space and zeros that make no difference.
fn order_text(random: &mut Random, order: &[u32]) -> String {
    let mut text = String::new();
    for variable in order {
        let zeros = "0".repeat(random.below(3));
        text += random.pick(&["", " ", "\n"]);
        text += &format!("{zeros}{variable}");
        text += random.pick(&[" ", "\n", "\t", "\r\n", "  \n\n "]);
    }
    text
}

#[test]
fn orders_of_any_sort_are_answered_as_the_second_program_answers_them() {
    let home = folder("fuzz-orders");
    let seeds = seeds();
    let mut answers = [0; 4];
    for seed in 0..1_500 {
        let mut random = Random::new(seed);
        let (kind, text) = &seeds[random.below(seeds.len())];
        let block = file(&home, "block.aag", text);
        let order = any_order(&mut random, text);
        let written = order_text(&mut random, &order);
        assert_eq!(
            order_of_text(written.as_bytes()).as_ref(),
            Ok(&order),
            "seed {seed}"
        );
        assert_eq!(
            order_of_text(text_of_order(&order).as_bytes()).as_ref(),
            Ok(&order)
        );
        let order_file = file(&home, "order", &written);
        let line = line_by_second(kind, 16_384, text, Some(&order));
        let (printed, told, status) =
            called_here(words(&["--explain", "--order", &order_file, kind, &block]));
        assert_eq!(
            (printed, status),
            (format!("{line}\n"), status_of(&line)),
            "seed {seed}"
        );
        assert!(!told.contains("fault"), "seed {seed}: {told}");
        answers[status as usize] += 1;
    }
    assert!(
        answers.iter().all(|&count| count > 20),
        "all are met: {answers:?}"
    );
    assert_eq!(names_in(&home), ["block.aag", "order"]);
}

/// Gates in falling order, or in another one, or some of them, or variables that are none as well.
fn any_order(random: &mut Random, text: &[u8]) -> Vec<u32> {
    let text = String::from_utf8(text.to_vec()).unwrap();
    let counts = numbers_of(text.lines().next().unwrap());
    let mut order: Vec<u32> = (counts[1] + 1..=counts[0]).rev().collect();
    match random.below(5) {
        0 => (),
        1 => random.shuffle(&mut order),
        2 => order.retain(|_| random.below(4) > 0),
        3 => order.extend(order.clone()),
        _ => order.push(random.pick(&[0, 1, counts[1], counts[0] + 1, u32::MAX])),
    }
    order
}

#[test]
fn order_files_of_any_bytes_are_taken_or_refused() {
    let (mut taken, mut refused) = (0, 0);
    for seed in 0..5_000 {
        let mut random = Random::new(seed);
        let mut text = order_text(&mut random, &[3, 70, 4_294_967_295, 12]).into_bytes();
        for _ in 0..random.below(3) {
            let at = random.below(text.len());
            let any = random.word() as u8;
            text[at] = random.pick(&[any, b' ', b'9', b'x', b'\n', b'-']);
        }
        let is_plain = text
            .iter()
            .all(|byte| byte.is_ascii_digit() || byte.is_ascii_whitespace());
        let fits = |word: &str| {
            word.trim_start_matches('0').len() < 11
                && word.parse::<u64>().is_ok_and(|v| v < 1 << 32)
        };
        let all_fit =
            std::str::from_utf8(&text).is_ok_and(|text| text.split_ascii_whitespace().all(fits));
        match order_of_text(&text) {
            Ok(_) => taken += usize::from(is_plain && all_fit),
            Err(fault) => {
                assert!(!(is_plain && all_fit), "seed {seed}: {fault:?}");
                assert!(fault.line >= 1 && !fault.word.is_empty() && !fault.word.contains('\n'));
                refused += 1;
            }
        }
    }
    assert_eq!(taken + refused, 5_000, "what is taken is plain and fits");
    assert!(taken > 500 && refused > 500, "{taken} {refused}");
}

/// Words that mean something, and some that mean nothing.
const KNOWN: &[&str] = &[
    "--explain",
    "--terms",
    "--order",
    "--save-order",
    "--log",
    "--plot",
    "--report",
    "--json",
    "--help",
    "--version",
    "--",
    "--terms=512",
    "--order=falling",
    "--log=",
    "-",
    "-h",
    "",
    "falling",
    "any",
    "u",
    "s",
    "t",
    "m",
    "ms",
    "128",
    "16384",
    "99999999999999999999",
    "no such file",
    "/",
];

/// Words of a command line, of all sorts.
fn any_words(random: &mut Random, folder: &Path, texts: &[String]) -> Vec<OsString> {
    let count = random.below(9);
    let mut all: Vec<OsString> = Vec::new();
    for _ in 0..count {
        all.push(match random.below(10) {
            0 => OsString::from_vec(
                (0..random.below(6))
                    .map(|_| 1 + random.below(255) as u8)
                    .collect(),
            ),
            1 | 2 => OsString::from(&texts[random.below(texts.len())]),
            3 => folder
                .join(random.pick(&["kept", "kept2", "no/folder"]))
                .into(),
            _ => OsString::from(random.pick(KNOWN)),
        });
    }
    all
}

/// Words that can mostly be carried out: some options, a kind and one or two files.
fn sensible_words(random: &mut Random, home: &Path, files: &[String]) -> Vec<OsString> {
    let path = |name: &str| home.join(name).to_str().unwrap().to_string();
    let options = [
        vec!["--explain".into()],
        vec!["--json".into()],
        vec!["--terms=128".into()],
        vec![format!("--order={}", path("empty"))],
        vec!["--report".into(), path("kept")],
        vec![format!("--log={}", path("kept2"))],
        vec!["--save-order".into(), path("kept3")],
    ];
    let mut all: Vec<String> = Vec::new();
    for option in options.into_iter().filter(|_| random.one_in(4)) {
        all.extend(option);
    }
    all.push(random.pick(&KINDS).into());
    for _ in 0..=random.below(2) {
        all.push(files[random.below(files.len())].clone());
    }
    all.into_iter().map(OsString::from).collect()
}

#[test]
fn command_lines_of_any_sort_are_understood_or_told_of() {
    let (mut judged, mut misused) = (0, 0);
    let texts = ["a.aag".to_string()];
    for seed in 0..20_000 {
        let mut random = Random::new(seed);
        let words = any_words(&mut random, Path::new("kept"), &texts);
        match options::of_words(words) {
            Ok(Wish::Judge(options)) => {
                assert!(!options.files.is_empty(), "seed {seed}");
                judged += 1;
            }
            Ok(_) => (),
            Err(message) => {
                assert!(
                    !message.is_empty() && !message.contains('\n'),
                    "seed {seed}: {message}"
                );
                misused += 1;
            }
        }
    }
    assert!(judged > 500 && misused > 5_000, "{judged} {misused}");
}

/// What a call of any sort may leave: an exit status, one message a line, and the files that it was told to keep.
fn leaves_nothing_else(seed: u64, home: &Path, given: &[String], told: &str, status: i32) {
    assert!((0..=4).contains(&status), "seed {seed}: {status}");
    assert!(
        !told.contains("fault") && !told.contains("panicked"),
        "seed {seed}: {told}"
    );
    assert!(
        told.lines().all(|line| line.starts_with("hraskell: ")),
        "seed {seed}: {told}"
    );
    for name in names_in(home) {
        let known = given.iter().any(|file| file.ends_with(&name)) || name.starts_with("kept");
        assert!(known, "seed {seed} left {name}");
        if name.starts_with("kept") {
            std::fs::remove_file(home.join(name)).unwrap();
        }
    }
}

/// Some blocks, whole and damaged, and some orders in a folder.
fn some_files(random: &mut Random, home: &Path) -> Vec<String> {
    let seeds = seeds();
    let mut files = vec![file(home, "order", "3"), file(home, "empty", "")];
    for at in 0..12 {
        files.push(file(home, &format!("{at}.aag"), damaged(random, &seeds).1));
    }
    files
}

#[test]
fn calls_of_any_sort_leave_nothing_behind() {
    let home = folder("fuzz-calls");
    let mut counts = [0; 5];
    for seed in 0..3_000 {
        let mut random = Random::new(seed);
        if seed % 100 == 0 {
            some_files(&mut random, &home);
        }
        let files = some_names(&home);
        let mut all = match random.below(2) {
            0 => any_words(&mut random, &home, &files),
            _ => sensible_words(&mut random, &home, &files),
        };
        // Standard input is that of the tests, and has no end that is known.
        all.retain(|word| word != "-");
        let (_, told, status) = called_here(guarded(all, &home));
        leaves_nothing_else(seed, &home, &files, &told, status.into());
        counts[status as usize] += 1;
    }
    assert!(counts.iter().all(|&count| count > 10), "{counts:?}");
}

/// A value of an option that keeps something is a file of the folder: a call of any sort must not write elsewhere.
fn guarded(all: Vec<OsString>, home: &Path) -> Vec<OsString> {
    let keeps = ["--save-order", "--log", "--plot", "--report"];
    let mut guarded: Vec<OsString> = Vec::new();
    for word in all {
        let is_value = guarded
            .last()
            .is_some_and(|last| keeps.iter().any(|option| last == option));
        let inside = Path::new(&word).starts_with(home);
        guarded.push(if is_value && !inside {
            home.join("kept").into()
        } else {
            word
        });
    }
    guarded
}

fn some_names(home: &Path) -> Vec<String> {
    let names = names_in(home)
        .into_iter()
        .filter(|name| !name.starts_with("kept"));
    names
        .map(|name| home.join(name).to_str().unwrap().to_string())
        .collect()
}

#[test]
fn the_program_itself_never_panics() {
    let home = folder("fuzz-program");
    let mut random = Random::new(1);
    let files = some_files(&mut random, &home);
    let seeds = seeds();
    let mut counts = [0; 5];
    for seed in 0..400 {
        let mut random = Random::new(seed);
        let mut all = match random.below(2) {
            0 => any_words(&mut random, &home, &files),
            _ => sensible_words(&mut random, &home, &files),
        };
        if random.one_in(4) {
            all.push("-".into());
        }
        let said = asked(&guarded(all, &home), damaged(&mut random, &seeds).1);
        leaves_nothing_else(seed, &home, &files, &said.told, said.status);
        counts[said.status as usize] += 1;
    }
    assert!(counts.iter().all(|&count| count > 2), "{counts:?}");
}
