//! What a tester hands in by mistake: each a message that says what to do, the exit status of README, and nothing left behind.

mod calls;

use calls::*;
use std::path::Path;
use std::sync::atomic::{AtomicUsize, Ordering};
use std::time::{Duration, Instant};

/// What stands at the end of the message about a file that cannot be read.
const NAME_A_FILE: &str = "name a file with a netlist text, or - for standard input";

/// Calls the program on one file with a report and a plot in the folder, and sees that no temporary file stays there.
fn judged(home: &Path, file: &str) -> Said {
    let (report, plot) = (home.join("report.html"), home.join("plot.svg"));
    let mut command = program();
    let command = command.arg("--report").arg(report).arg("--plot").arg(plot);
    let said = called(command.args(["--explain", "u", file]), b"");
    let left = names_in(home);
    assert!(left.iter().all(|name| !name.starts_with('.')), "{left:?}");
    assert!(
        !left.contains(&"plot.svg".into()),
        "there is nothing to draw"
    );
    assert!(!said.told.contains("fault"), "{}", said.told);
    said
}

/// The same for a file whose text is refused.
fn refused(test: &str, text: impl AsRef<[u8]>, number: u32) -> Said {
    let home = folder(test);
    let block = file(&home, "block.aag", text);
    let said = judged(&home, &block);
    said.has(&format!("X {number}\n"), 3)
        .tells(": u (plain): refused")
        .tells("plot.svg' is not written: nothing was judged");
    let alone = asked(&["--explain", "u", &block], "");
    alone
        .has(&format!("X {number}\n"), 3)
        .tells(": u (plain): refused");
    asked(&["u", &block], "")
        .has(&format!("X {number}\n"), 3)
        .tells_nothing();
    assert_eq!(names_in(&home), ["block.aag", "report.html"]);
    alone
}

#[test]
fn a_missing_file() {
    let home = folder("bad-missing");
    let said = judged(&home, "no such file");
    said.has("", 4)
        .tells("cannot read 'no such file': there is no such file")
        .tells(NAME_A_FILE);
    assert_eq!(names_in(&home), Vec::<String>::new());
}

#[test]
fn a_folder() {
    let home = folder("bad-folder");
    judged(&home, "/")
        .has("", 4)
        .tells("cannot read '/': it is a folder")
        .tells(NAME_A_FILE);
    assert_eq!(names_in(&home), Vec::<String>::new());
}

#[test]
fn a_file_that_fails_while_it_is_read() {
    let home = folder("bad-reading");
    judged(&home, "/proc/self/mem")
        .has("", 4)
        .tells("cannot read '/proc/self/mem': ");
    assert_eq!(names_in(&home), Vec::<String>::new());
}

#[test]
fn a_file_without_permission() {
    use std::os::unix::fs::PermissionsExt;
    let home = folder("bad-permission");
    let closed = file(&home, "closed.aag", AND);
    std::fs::set_permissions(&closed, PermissionsExt::from_mode(0o000)).unwrap();
    if std::fs::read(&closed).is_ok() {
        return eprintln!("this user may read every file: not tried");
    }
    asked(&["u", &closed], "")
        .has("", 4)
        .tells("there is no permission")
        .tells(NAME_A_FILE);
}

#[test]
fn a_bad_file_among_good_ones_costs_itself_alone() {
    let home = folder("bad-among");
    let good = file(&home, "good.aag", AND);
    let said = asked(&["u", &good, "no such file", "/", &good], "");
    said.has(&format!("{good}: E 1 0\n{good}: E 1 0\n"), 4);
    said.tells("cannot read 'no such file'")
        .tells("cannot read '/'");
    let report = home.join("report.html");
    let words = [
        "--report",
        report.to_str().unwrap(),
        "u",
        &good,
        "no such file",
    ];
    asked(&words, "").has(&format!("{good}: E 1 0\n"), 4);
    assert_eq!(names_in(&home), ["good.aag", "report.html"]);
}

#[test]
fn an_empty_file() {
    refused("bad-empty", "", 1);
    asked(&["u", "-"], "").has("X 1\n", 3);
}

#[test]
fn ten_megabytes_of_anything() {
    let long = 10_000_000;
    let symbols = format!("{AND}{}", "i0 a\n".repeat(long / 5));
    let digits = "aag 3 2 0 2 1\n2\n4\n6\n0\n6 4 2".to_string() + &"0".repeat(long);
    let began = Instant::now();
    refused("bad-long-zeros", vec![0; long], 1);
    refused("bad-long-lines", "\n".repeat(long), 1);
    refused("bad-long-symbols", symbols, 7);
    refused("bad-long-number", digits, 6);
    asked(&["u", "-"], vec![b'a'; long]).has("X 1\n", 3);
    assert!(began.elapsed() < Duration::from_secs(20));
}

#[test]
fn a_stream_that_never_ends() {
    asked(&["u", "/dev/zero"], "").has("X 1\n", 3);
    asked(&["--order", "/dev/zero", "u", "-"], AND)
        .has("", 4)
        .tells("order file '/dev/zero'");
    let home = folder("bad-endless");
    judged(&home, "/dev/zero").has("X 1\n", 3);
}

#[test]
fn a_binary_file() {
    let program = std::fs::read(env!("CARGO_BIN_EXE_hraskell")).unwrap();
    refused("bad-binary", program, 1);
    let all_bytes: Vec<u8> = (0..=255).cycle().take(100_000).collect();
    refused(
        "bad-bytes",
        [b"aag 3 2 0 2 1\n2\n4\n6\n0\n6 4 2\n", &all_bytes[..]].concat(),
        7,
    );
}

#[test]
fn lines_that_end_with_cr_lf() {
    refused("bad-cr", AND.replace('\n', "\r\n"), 1);
    // The header line is sound, and the input line is not.
    refused("bad-cr-later", AND.replace("\n4\n", "\n4\r\n"), 4);
}

#[test]
fn symbols_and_comments() {
    refused("bad-comment", format!("{AND}c\nmade by hand\n"), 7);
}

/// Calls the program with an order file of this text, which it must not take.
fn order_refused(text: impl AsRef<[u8]>, part: &str) {
    static COUNT: AtomicUsize = AtomicUsize::new(0);
    let home = folder(&format!(
        "bad-order-{}",
        COUNT.fetch_add(1, Ordering::Relaxed)
    ));
    let order = file(&home, "order", text);
    let kept = home.join("kept");
    let words = [
        "--order",
        &order,
        "--save-order",
        kept.to_str().unwrap(),
        "u",
        "-",
    ];
    let said = asked(&words, AND);
    said.has("", 4)
        .tells(&format!("order file '{order}', {part}"));
    said.tells("gate variables in decimal and white space between them");
    assert_eq!(names_in(&home), ["order"]);
}

#[test]
fn an_order_file_with_words() {
    order_refused(
        "3\n3 three 3\n",
        "line 2, word 'three': this is no decimal number",
    );
    order_refused("-3", "line 1, word '-3': this is no decimal number");
    order_refused("\n\n+3", "line 3, word '+3': this is no decimal number");
    order_refused("3,", "line 1, word '3,': this is no decimal number");
    order_refused(
        b"3 \xff\x00\x1b[31m",
        "line 1, word '\u{fffd}\\u{0}\\u{1b}[31m': this is no decimal number",
    );
    order_refused(
        "x".repeat(1_000_000),
        &format!(
            "line 1, word '{}..': this is no decimal number",
            "x".repeat(40)
        ),
    );
    order_refused(AND, "line 1, word 'aag': this is no decimal number");
}

#[test]
fn an_order_file_with_numbers_too_big() {
    order_refused(
        "3\n\n4294967296",
        "line 3, word '4294967296': this number has more than 32 bits",
    );
    order_refused(
        "18446744073709551619",
        "line 1, word '18446744073709551619': this number has more than 32 bits",
    );
    // The largest that fits is no gate, which the library says.
    let home = folder("bad-order-largest");
    let order = file(&home, "order", "4294967295");
    asked(&["--order", &order, "u", "-"], AND).has("X 11\n", 3);
}

#[test]
fn an_order_file_with_too_many_steps() {
    let most = "3\n".repeat(4_096);
    order_refused(
        format!("{most}3\n"),
        "line 4097, word '3': an order has at most 4,096 steps",
    );
    let home = folder("bad-order-most");
    let order = file(&home, "order", most);
    asked(&["--order", &order, "u", "-"], AND).has("E 4096 0\n", 0);
    let blank = file(&home, "blank", " ".repeat(10_000_000));
    asked(&["--order", &blank, "u", "-"], AND)
        .has("", 4)
        .tells("is too long");
}

#[test]
fn an_order_file_that_cannot_be_read() {
    for order in ["no such file", "/"] {
        asked(&["--order", order, "u", "-"], AND)
            .has("", 4)
            .tells(&format!("cannot read '{order}'"))
            .tells("--order wants a file");
    }
}

#[test]
fn what_is_kept_goes_into_a_folder_that_is_not_there() {
    let home = folder("bad-kept");
    let block = file(&home, "block.aag", AND);
    let elsewhere = home.join("no/such/folder/plot.svg");
    let elsewhere = elsewhere.to_str().unwrap();
    let report = home.join("report.html");
    let report = report.to_str().unwrap();
    for option in ["--plot", "--log", "--save-order"] {
        let words = [option, elsewhere, "--report", report, "u", &block];
        asked(&words, "")
            .has("", 4)
            .tells(&format!(
                "cannot write '{elsewhere}': its folder is not there"
            ))
            .tells("name a file in a folder that is there and may be written");
    }
    for no_file in [
        home.to_str().unwrap(),
        "/",
        "/proc/plot.svg",
        &format!("{block}/plot.svg"),
        "..",
    ] {
        asked(&["--plot", no_file, "--report", report, "u", &block], "")
            .has("", 4)
            .tells(&format!("cannot write '{no_file}': "));
    }
    assert_eq!(names_in(&home), ["block.aag"]);
}

#[test]
fn what_is_kept_goes_to_where_the_lines_go() {
    let home = folder("bad-stdout");
    let block = file(&home, "block.aag", AND);
    let output = home.join("output");
    let printed = std::fs::File::create(&output).unwrap();
    let held = starts();
    let said = program()
        .args(["--log", "/dev/stdout", "u", &block])
        .stdout(printed)
        .output()
        .unwrap();
    drop(held);
    assert_eq!(said.status.code(), Some(4));
    assert!(String::from_utf8(said.stderr)
        .unwrap()
        .contains("it is what this program prints to"));
    assert_eq!(names_in(&home), ["block.aag", "output"]);
}

#[test]
fn a_device_is_written_and_not_replaced() {
    use std::os::unix::fs::FileTypeExt;
    let block = top().join("examples/one-bit.aag");
    let block = block.to_str().unwrap();
    asked(&["--log", "/dev/null", "u", block], "")
        .has("E 1 0\n", 0)
        .tells_nothing();
    assert!(std::fs::metadata("/dev/null")
        .unwrap()
        .file_type()
        .is_char_device());
    asked(&["--report", "/dev/full", "u", block], "")
        .has("E 1 0\n", 4)
        .tells("cannot write '/dev/full': ");
}

#[test]
fn names_that_are_no_text() {
    use std::ffi::OsStr;
    use std::os::unix::ffi::OsStrExt;
    let home = folder("bad-names");
    let name = OsStr::from_bytes(b"\xff\xfe.aag");
    std::fs::write(home.join(name), AND).unwrap();
    let block = home.join(name);
    asked(&[OsStr::new("u"), block.as_os_str()], "").has("E 1 0\n", 0);
    let missing = OsStr::from_bytes(b"no\xffsuch");
    asked(&[OsStr::new("u"), missing], "")
        .has("", 4)
        .tells("cannot read 'no\u{fffd}such'");
    asked(&[missing, missing], "")
        .has("", 4)
        .tells("unknown kind 'no\u{fffd}such'");
    asked(&[OsStr::from_bytes(b"--\xff"), missing], "")
        .has("", 4)
        .tells("unknown option --\u{fffd}");
    let long = "x".repeat(100_000);
    asked(&["u", &long], "")
        .has("", 4)
        .tells("cannot read 'xxx");
}
