//! The program, run as a tester runs it. The lines expected are those of document 01 or worked out by hand from its rules and
//! those of document 02, those of docs/BLOCKS.md, or the second program's.

mod calls;

use calls::*;
use host::printing::worse;
use host::run::{call, Streams};
use std::path::Path;

/// Each row has words in front of `-`, a text, the line printed and the status, whether or not the line is explained.
fn prints_and_ends(rows: &[(&[&str], String, &str, i32)]) {
    for (words, text, line, status) in rows {
        let words = [words, &["-"][..]].concat();
        asked(&words, text).has(line, *status).tells_nothing();
        let said = asked(&[&words[..], &["--explain"]].concat(), text);
        said.has(line, *status).tells("hraskell: ");
        assert_eq!(said.told.lines().count(), 1);
    }
}

#[test]
fn the_line_is_printed_and_its_status_given() {
    let two_bits = example("two-bit.aag");
    let both_outputs = AND.replace("\n6\n0\n", "\n6\n6\n");
    let inverted = AND.replace("\n6\n0\n", "\n7\n0\n");
    let rows: [(&[&str], String, &str, i32); 12] = [
        (&["u"], AND.into(), "E 1 0\n", 0),
        (&["s"], AND.into(), "E 1 0\n", 0),
        (&["u"], both_outputs, "D 1 1 1 1 3 1\n", 1),
        (&["u"], inverted, "D 1 2 0 0 1 0\n", 1),
        (&["u"], example("desk.aag"), "D 1 3 1 0 1 0\n", 1),
        (&["u"], two_bits.clone(), "E 10 0\n", 0),
        (&["s"], two_bits.clone(), "D 10 2 2 1 2 14\n", 1),
        (&["--terms", "512", "u"], without_gates(46), "R 0 0\n", 2),
        (
            &["--terms=512", "--order=falling", "t"],
            all_false(),
            "R 9 271\n",
            2,
        ),
        (&["t"], two_bits.clone(), "X 9\n", 3),
        (&["u"], String::new(), "X 1\n", 3),
        (&["--order", "/dev/null", "u"], AND.into(), "U 0 2\n", 2),
    ];
    prints_and_ends(&rows);
}

#[test]
fn the_lines_of_the_kinds_that_add_have_c() {
    let without_c0 = ADD.replace("\n16\n22\n", "\n10\n8\n");
    let without_c1 = ADD.replace("\n16\n22\n", "\n16\n0\n");
    let rows: [(&[&str], String, &str, i32); 6] = [
        (&["m"], ADD.into(), "E 7 0\n", 0),
        (&["ms"], ADD.into(), "E 7 0\n", 0),
        (&["m"], without_c0, "D 7 1 0 0 1 0 1\n", 1),
        (&["ms"], without_c1, "D 7 2 0 0 2 0 2\n", 1),
        (&["m"], AND.into(), "X 9\n", 3),
        (&["ms"], all_false(), "X 9\n", 3),
    ];
    prints_and_ends(&rows);
}

/// The rows of docs/BLOCKS.md about netlist texts: the file and the library's answer.
fn documented_blocks() -> Vec<(String, String)> {
    let text = std::fs::read_to_string(top().join("docs/BLOCKS.md")).unwrap();
    let rows = text.lines().filter(|line| line.starts_with("| "));
    let cells = rows.map(|row| {
        row.split(" | ")
            .map(|cell| cell.trim_matches(['|', ' ', '`']))
    });
    let cells = cells.map(|row| row.collect::<Vec<_>>());
    let places = ["second/blocks", "second/blocks/mac"];
    let path = |name: &str| {
        let files = places.map(|place| top().join(place).join(format!("{name}.aag")));
        files.into_iter().find(|file| file.is_file())
    };
    cells
        .filter(|row| row.len() > 4)
        .filter_map(|row| Some((path(row[0])?.to_str()?.into(), row[4].to_string())))
        .collect()
}

#[test]
fn real_blocks_are_answered_as_the_document_says() {
    let blocks = documented_blocks();
    assert!(blocks.len() > 30, "{blocks:?}");
    for (file, answer) in &blocks {
        let name = Path::new(file).file_stem().unwrap().to_str().unwrap();
        let end = name.rsplit('-').next().unwrap();
        let letters = end.trim_end_matches(|c: char| c.is_ascii_digit());
        let said = asked(&["--order", "falling", letters, file], "");
        assert_eq!(said.printed, format!("{answer}\n"), "{file}");
    }
}

#[test]
fn any_asks_all_five_and_says_under_which_the_block_is_right() {
    let any = |text: &str| asked(&["--terms", "512", "--order", "falling", "any", "-"], text);
    let one_bit_truncated = "aag 3 2 0 1 1\n2\n4\n6\n6 4 2\n";
    let rows = [
        (
            AND.to_string(),
            "u E 1 0\ns E 1 0\nt X 9\nm X 9\nms X 9\n",
            0,
        ),
        (
            example("two-bit.aag"),
            "u E 10 0\ns D 10 2 2 1 2 14\nt X 9\nm X 9\nms X 9\n",
            0,
        ),
        (
            one_bit_truncated.to_string(),
            "u X 9\ns X 9\nt E 1 0\nm X 9\nms X 9\n",
            0,
        ),
        (
            example("desk.aag"),
            "u D 1 3 1 0 1 0\ns D 1 3 1 0 1 0\nt X 9\nm X 9\nms X 9\n",
            1,
        ),
        (all_false(), "u X 9\ns X 9\nt R 9 271\nm X 9\nms X 9\n", 2),
        (String::new(), "u X 1\ns X 1\nt X 1\nm X 1\nms X 1\n", 3),
        // Under t x1 x2 + x3 + 2 x4 is shown and x1 x3 + 2 x1 x4 + 2 x2 x3 is wanted.
        (
            ADD.to_string(),
            "u X 9\ns X 9\nt D 7 6 0 1 1 0\nm E 7 0\nms E 7 0\n",
            0,
        ),
    ];
    for (text, lines, status) in rows {
        let said = any(&text);
        said.has(lines, status);
        assert_eq!(said.told.lines().count(), 1, "the readings that fit");
    }
}

#[test]
fn any_explains_each_line_and_then_says_which_fit() {
    let explained = asked(&["--explain", "any", "-"], AND);
    assert_eq!(explained.told.lines().count(), 6);
}

#[test]
fn several_files_have_their_names_before_their_lines_in_their_order() {
    let home = folder("several");
    let right = file(&home, "right.aag", AND);
    let wrong = file(&home, "wrong.aag", example("desk.aag"));
    let refused = file(&home, "refused.aag", "");
    let slow = top().join("second/blocks/yosys-techmap-u6.aag");
    let slow = slow.to_str().unwrap();
    asked(&["u", slow, &right, &wrong, &right], "").has(
        &format!("{slow}: E 238 0\n{right}: E 1 0\n{wrong}: D 1 3 1 0 1 0\n{right}: E 1 0\n"),
        1,
    );
    asked(&["any", &refused, &right], "").has(
        &format!(
            "{refused}: u X 1\n{refused}: s X 1\n{refused}: t X 1\n{refused}: m X 1\n{refused}: ms X 1\n\
             {right}: u E 1 0\n{right}: s E 1 0\n{right}: t X 9\n{right}: m X 9\n{right}: ms X 9\n"
        ),
        3,
    );
    let many = vec![right.as_str(); 100];
    let said = asked(&[&["u"], &many[..]].concat(), "");
    said.has(&format!("{right}: E 1 0\n").repeat(100), 0);
}

#[test]
fn the_worst_status_is_4_then_3_then_1_then_2_then_0() {
    let from_worst = [4, 3, 1, 2, 0];
    for (at, &one) in from_worst.iter().enumerate() {
        for &other in &from_worst[at..] {
            assert_eq!((worse(one, other), worse(other, one)), (one, one));
        }
    }
}

#[test]
fn names_are_printed_on_one_line() {
    let home = folder("names");
    let odd = file(&home, "two\nlines \u{1b}[31m.aag", AND);
    let said = asked(&["u", &odd, &odd], "");
    let shown = odd.replace('\n', "\\u{a}").replace('\u{1b}', "\\u{1b}");
    said.has(&format!("{shown}: E 1 0\n").repeat(2), 0);
}

#[test]
fn sentences_tell_operands_as_the_reading_reads_them() {
    let said = asked(&["--explain", "s", "-"], example("two-bit.aag"));
    said.tells(": s (two's complement): ")
        .tells("a = -2")
        .tells("b = 1");
    asked(&["u", "-", "--explain"], AND).tells(": u (plain): ");
}

/// A call in this process, whose streams are terminals or not; what it printed on both, and its status.
fn streamed(words: &[&str], is_terminal: bool) -> (String, String, u8) {
    let (mut output, mut errors) = (Vec::new(), Vec::new());
    let mut streams = Streams {
        output: &mut output,
        errors: &mut errors,
        output_is_terminal: is_terminal,
        errors_are_terminal: false,
    };
    let status = call(words.iter().map(|word| word.into()), &mut streams);
    let text = |bytes| String::from_utf8(bytes).unwrap();
    (text(output), text(errors), status)
}

#[test]
fn a_terminal_gets_sentences_unasked() {
    let path = top().join("examples/one-bit.aag");
    let words = ["u", path.to_str().unwrap()];
    let (printed, told, status) = streamed(&words, true);
    assert_eq!((&*printed, status), ("E 1 0\n", 0));
    assert!(
        told.starts_with("hraskell: ") && told.contains(": u (plain): "),
        "{told}"
    );
    let (printed, told, status) = streamed(&words, false);
    assert_eq!((&*printed, &*told, status), ("E 1 0\n", "", 0));
}

#[test]
fn a_terminal_is_seen_where_there_is_one() {
    let home = folder("terminal");
    let block = file(&home, "block.aag", AND);
    let hraskell = env!("CARGO_BIN_EXE_hraskell");
    let line = format!("'{hraskell}' u '{block}'");
    let mut command = std::process::Command::new("script");
    let command = command.args(["-qec", &line, "/dev/null"]);
    if std::process::Command::new("script")
        .arg("--version")
        .output()
        .is_err()
    {
        return eprintln!("there is no program script here that makes a terminal: not tried");
    }
    let said = called(command, b"");
    assert!(
        said.printed.starts_with("E 1 0\r\nhraskell: ") && said.printed.contains(": u (plain): "),
        "{said:?}"
    );
}

#[test]
fn terms_outside_their_limits_are_refused_10() {
    for (terms, line, status) in [
        ("127", "X 10\n", 3),
        ("128", "E 1 0\n", 0),
        ("0128", "E 1 0\n", 0),
        ("16384", "E 1 0\n", 0),
        ("16385", "X 10\n", 3),
        ("0", "X 10\n", 3),
        ("4294967424", "X 10\n", 3),
        ("18446744073709551744", "X 10\n", 3),
    ] {
        asked(&["--terms", terms, "u", "-"], AND).has(line, status);
    }
}

#[test]
fn orders_come_from_a_file_or_fall() {
    let home = folder("orders");
    let rising = file(&home, "rising", "5 6\t7\r\n8\n\n 9 10 11 12 13 014 ");
    let two_bits = example("two-bit.aag");
    let text = two_bits.as_bytes();
    let order: Vec<u32> = (5..=14).collect();
    let line = line_by_second("u", 16_384, text, Some(&order)) + "\n";
    assert!(line.starts_with('U'), "a rising order misses gates: {line}");
    asked(&["--order", &rising, "u", "-"], &two_bits).has(&line, 2);
    asked(&["--order", "falling", "u", "-"], &two_bits).has("E 10 0\n", 0);
    let no_gate = file(&home, "no gate", "15 14\n");
    asked(&["--order", &no_gate, "u", "-"], &two_bits).has("X 11\n", 3);
    // The order comes from standard input.
    let block = file(&home, "two-bit.aag", &two_bits);
    asked(&["--order", "-", "u", &block], "5 6 7 8 9 10 11 12 13 14").has(&line, 2);
}

#[test]
fn an_order_that_was_kept_is_taken_again() {
    let home = folder("kept");
    let block = file(&home, "two-bit.aag", example("two-bit.aag"));
    let kept = home.join("order");
    let kept = kept.to_str().unwrap();
    let words = ["--order", "falling", "--save-order", kept, "u", &block];
    asked(&words, "").has("E 10 0\n", 0).tells_nothing();
    let falling: String = (5..=14).rev().map(|v| format!("{v}\n")).collect();
    assert_eq!(std::fs::read_to_string(kept).unwrap(), falling);
    asked(&["--order", kept, "u", &block], "").has("E 10 0\n", 0);
    assert_eq!(names_in(&home), ["order", "two-bit.aag"]);
}

#[test]
fn what_is_kept_is_written_beside_nothing_else() {
    let home = folder("outputs");
    let block = file(&home, "two-bit.aag", example("two-bit.aag"));
    let path = |name: &str| home.join(name).to_str().unwrap().to_string();
    std::fs::write(path("log"), "what was there before").unwrap();
    let (log, plot, report) = (path("log"), path("plot.svg"), path("report.html"));
    let words = [
        "--log", &log, "--plot", &plot, "--report", &report, "s", &block,
    ];
    asked(&words, "")
        .has("D 10 2 2 1 2 14\n", 1)
        .tells_nothing();
    assert_eq!(
        names_in(&home),
        ["log", "plot.svg", "report.html", "two-bit.aag"]
    );
    let read = |path: &str| std::fs::read_to_string(path).unwrap();
    assert!(read(&log).lines().count() >= 10 && read(&log).contains('\t'));
    assert!(read(&plot).contains("<svg"));
    assert!(read(&report).contains("two-bit.aag"));
    // The same by sha256sum itself.
    let sum = std::process::Command::new("sha256sum").arg(&block).output();
    if let Ok(sum) = sum {
        let digits = String::from_utf8(sum.stdout).unwrap();
        assert!(read(&report).contains(digits.split(' ').next().unwrap()));
    }
}

#[test]
fn a_link_and_its_file_keep_their_places_and_permissions() {
    use std::os::unix::fs::{symlink, PermissionsExt};
    let home = Outside::new("links");
    let block = file(&home, "block.aag", AND);
    let real = file(&home, "real", "before");
    std::fs::set_permissions(&real, PermissionsExt::from_mode(0o600)).unwrap();
    let link = home.join("link");
    symlink(&real, &link).unwrap();
    let words = ["--save-order", link.to_str().unwrap(), "u", &block];
    asked(&words, "").has("E 1 0\n", 0);
    assert!(link.is_symlink());
    assert_eq!(std::fs::read_to_string(&real).unwrap(), "3\n");
    let mode = std::fs::metadata(&real).unwrap().permissions().mode();
    assert_eq!(mode & 0o777, 0o600);
}

#[test]
fn nothing_is_kept_of_a_refusal_but_its_report() {
    let home = folder("refused");
    let block = file(&home, "block.aag", "aag\n");
    let path = |name: &str| home.join(name).to_str().unwrap().to_string();
    let (log, report) = (path("log"), path("report.html"));
    std::fs::write(&log, "what was there before").unwrap();
    let words = ["--log", &log, "--report", &report, "u", &block];
    let said = asked(&words, "");
    said.has("X 1\n", 3);
    said.tells(&format!("'{log}' is not written: nothing was judged"));
    assert_eq!(
        std::fs::read_to_string(&log).unwrap(),
        "what was there before"
    );
    assert!(std::fs::read_to_string(&report)
        .unwrap()
        .contains("block.aag"));
    assert_eq!(names_in(&home), ["block.aag", "log", "report.html"]);
}

#[test]
fn json_takes_the_place_of_lines() {
    let said = asked(&["--json", "any", "-"], AND);
    assert_eq!(said.status, 0);
    assert_eq!(said.printed.lines().count(), 5);
    for line in said.printed.lines() {
        assert!(line.starts_with('{') && line.ends_with('}'), "{line}");
    }
}

#[test]
fn help_and_version_are_printed() {
    let help = asked(&["--help"], "");
    assert_eq!(help.status, 0);
    assert!(help
        .printed
        .starts_with("usage: hraskell [options] KIND FILE.."));
    let manual = std::fs::read_to_string(top().join("host/hraskell.1")).unwrap();
    let manual = manual.replace('\\', "");
    let options = help
        .printed
        .split_whitespace()
        .filter(|word| word.starts_with("--"));
    let options = options.map(|word| word.trim_end_matches([',', ':']));
    for option in options.filter(|option| option.len() > 2) {
        assert!(manual.contains(option), "the manual page misses {option}");
    }
    let version = asked(&["--version"], "");
    let own = format!("hraskell {}", env!("CARGO_PKG_VERSION"));
    assert!(version.status == 0 && version.printed.starts_with(&own));
}

const BLOCK: &str = "examples/one-bit.aag";

/// Words that cannot be carried out, and a part of the message.
const MISUSES: &[(&[&str], &str)] = &[
    (&[], "a kind and a file are wanted, as in: hraskell u FILE"),
    (&["u"], "a kind and a file are wanted"),
    (
        &["x", "-"],
        "unknown kind 'x': it has to be u, s, t, m, ms or any",
    ),
    (&["sm", "-"], "unknown kind 'sm'"),
    (&["mx", "-"], "unknown kind 'mx'"),
    (&["U", "-"], "unknown kind 'U'"),
    (&["", "-"], "unknown kind ''"),
    (&["--loud", "u", "-"], "unknown option --loud"),
    (&["-x", "u", "-"], "unknown option -x"),
    (&["--explain=yes", "u", "-"], "unknown option --explain=yes"),
    (&["--", "--explain", "u"], "unknown kind '--explain'"),
    (&["u", "-", "-"], "standard input can be read once"),
    (
        &["--order", "-", "u", "-"],
        "standard input can be read once",
    ),
    (&["u", "-", "--terms"], "--terms wants a value"),
    (&["--log=", "u", "-"], "--log wants a value"),
    (
        &["--terms", "16,384", "u", "-"],
        "--terms wants a number from 128 to 16384",
    ),
    (&["--terms", "+128", "u", "-"], "--terms wants a number"),
    (&["--terms", "-1", "u", "-"], "--terms wants a number"),
    (
        &["--terms", "128", "--terms=128", "u", "-"],
        "--terms is there twice",
    ),
    (
        &["--log", "x", "u", BLOCK, BLOCK],
        "--log is about one file, and there are 2: call it for each",
    ),
    (
        &["--plot", "x", "any", BLOCK],
        "--plot is about one reading, and any asks for five",
    ),
    (
        &["--save-order", "-", "u", BLOCK],
        "--save-order wants the name of a file",
    ),
    (
        &["--log", "x", "--plot", "x", "u", BLOCK],
        "both name 'x': name two files",
    ),
    (&["--log", BLOCK, "u", BLOCK], "--log would write over"),
    (
        &["--desk", "--terms", "512", "u", "-"],
        "leave out --terms, or --desk",
    ),
    (
        &["--desk", "--json", "u", "-"],
        "leave out --json, or --desk",
    ),
];

#[test]
fn misuse_says_what_to_do() {
    for (words, part) in MISUSES {
        let said = called(program().args(*words).current_dir(top()), AND.as_bytes());
        said.has("", 4).tells(part);
        assert!(said.told.starts_with("hraskell: ") && said.told.lines().count() == 1);
    }
}

#[test]
fn a_file_is_taken_from_any_folder_whatever_its_name() {
    let home = folder("files");
    file(&home, "a block.aag", AND);
    file(&home, "--log", AND);
    file(&home, "falling", "3\n3");
    let in_home = |words: &[&str]| called(program().args(words).current_dir(&home), b"");
    in_home(&["u", "a block.aag"]).has("E 1 0\n", 0);
    in_home(&["u", "--", "--log"]).has("E 1 0\n", 0);
    in_home(&["--order", "./falling", "u", "a block.aag"]).has("E 2 0\n", 0);
    in_home(&["--order", "falling", "u", "a block.aag"]).has("E 1 0\n", 0);
    in_home(&["--save-order", "new", "u", "a block.aag"]).has("E 1 0\n", 0);
    assert_eq!(std::fs::read_to_string(home.join("new")).unwrap(), "3\n");
}
