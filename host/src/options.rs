//! The words of the command line: what is asked, of which files, and what is to be kept of it.
//!
//! Options may stand before, between and behind the other words, up to `--`. An option that takes a value takes the next
//! word, or what stands behind `=`. What cannot be carried out is misuse, and its message says what to do instead.

use crate::files::shown;
use crate::judging::TERMS_MOST;
use crate::reading::{self, Reading};
use std::collections::{BTreeMap, BTreeSet};
use std::ffi::{OsStr, OsString};
use std::os::unix::ffi::OsStrExt;
use std::path::PathBuf;

/// What `--help` prints.
pub const USAGE: &str = "usage: hraskell [options] KIND FILE..

  KIND  the reading: u (both operands plain), s (both two's complement), t (the product modulo 2^n), m (the product
        plus c, both factors plain), ms (the same, both factors two's complement), or any: all five
  FILE  a netlist text (ASCII AIGER), or - for standard input

A line for each file goes to standard output: E equal, D differs, R out of room, U unfinished, X refused. For several
files it stands behind the file's name, for any there is one for each reading behind its letters.

  --explain           a plain sentence for each line on standard error; on a terminal it comes unasked
  --terms T           the most terms that are held: 128 to 16384, which is taken without this option
  --order FILE        the gates in this order: their variables in decimal, with white space between them
  --order falling     M down to I + 1; without --order an order is looked for
  --save-order FILE   keep the order that was taken, as --order takes it
  --log FILE          each step's gate, its terms and its terms before gathering, as tab-separated text
  --plot FILE.svg     terms against steps, as a picture
  --report FILE.html  a page about all files that needs no other file
  --json              an object for each line in its place, for other programs
  --desk              ask the desk program (HRASKELL_DESK names another one), with its order and its 512 terms
  --help, --version   say how to call the program; say which one it is
  --                  what follows is no option

--save-order, --log and --plot want one file and one reading, and --desk goes with --explain alone.

exit status, the worst of all files (4 before 3 before 1 before 2 before 0): 0 for E (any: at least one E), 1 for D (any:
no E, at least one D), 2 for R or U (any: neither E nor D), 3 for a refusal (any: five refusals), 4 if nothing was judged:
misuse, an unreadable file, a file that cannot be written.
";

/// What a call wants.
#[derive(Clone, Debug, PartialEq, Eq)]
pub enum Wish {
    Help,
    Version,
    Judge(Options),
}

/// The readings that are asked for.
#[derive(Clone, Copy, Debug, PartialEq, Eq)]
pub enum Asked {
    One(Reading),
    Any,
}

/// Where the order of the steps comes from.
#[derive(Clone, Debug, PartialEq, Eq)]
pub enum Order {
    Found,
    Falling,
    /// The file as it was named; `-` is standard input.
    File(OsString),
}

/// The files that a run is to leave.
#[derive(Clone, Debug, Default, PartialEq, Eq)]
pub struct Kept {
    pub order: Option<PathBuf>,
    pub log: Option<PathBuf>,
    pub plot: Option<PathBuf>,
    pub report: Option<PathBuf>,
}

/// All that a judging call was told.
#[derive(Clone, Debug, PartialEq, Eq)]
pub struct Options {
    pub asked: Asked,
    /// As they were named; `-` is standard input.
    pub files: Vec<OsString>,
    pub explains: bool,
    /// The term limit T, whatever it is: the library refuses one that is outside its limits.
    pub terms: u64,
    pub order: Order,
    pub kept: Kept,
    pub json: bool,
    pub desk: bool,
}

const FLAGS: [&str; 3] = ["--explain", "--json", "--desk"];
const SAVE_ORDER: &str = "--save-order";
/// Each is about one file under one reading.
const OF_ONE: [&str; 3] = [SAVE_ORDER, "--log", "--plot"];
const VALUED: [&str; 6] = [
    "--terms", "--order", SAVE_ORDER, "--log", "--plot", "--report",
];

impl Asked {
    /// In the order in which they are asked.
    pub fn readings(self) -> Vec<Reading> {
        match self {
            Asked::One(reading) => vec![reading],
            Asked::Any => reading::ALL.to_vec(),
        }
    }
}

impl Kept {
    /// Those that are wanted, with the option that wants each.
    pub fn named(&self) -> Vec<(&'static str, &PathBuf)> {
        let all = [
            (SAVE_ORDER, &self.order),
            ("--log", &self.log),
            ("--plot", &self.plot),
            ("--report", &self.report),
        ];
        all.into_iter()
            .filter_map(|(option, path)| Some((option, path.as_ref()?)))
            .collect()
    }
}

/// The words of a call, sorted into options and others.
#[derive(Default)]
struct Sorted {
    flags: BTreeSet<&'static str>,
    values: BTreeMap<&'static str, OsString>,
    others: Vec<OsString>,
}

/// What a call with these words wants, or why it is misuse.
pub fn of_words(words: impl IntoIterator<Item = OsString>) -> Result<Wish, String> {
    let mut words = words.into_iter();
    let mut sorted = Sorted::default();
    while let Some(word) = words.next() {
        match word.as_bytes() {
            b"--help" | b"-h" => return Ok(Wish::Help),
            b"--version" => return Ok(Wish::Version),
            b"--" => break,
            [b'-', _, ..] => sorted.take_option(&word, &mut words)?,
            _ => sorted.others.push(word),
        }
    }
    sorted.others.extend(words);
    sorted.options().map(Wish::Judge)
}

impl Sorted {
    fn take_option(
        &mut self,
        word: &OsStr,
        rest: &mut dyn Iterator<Item = OsString>,
    ) -> Result<(), String> {
        if let Some(flag) = FLAGS.into_iter().find(|flag| word == *flag) {
            self.flags.insert(flag);
            return Ok(());
        }
        let (name, behind) = parted(word);
        let Some(option) = VALUED.into_iter().find(|option| name == *option) else {
            let word = shown(word);
            return Err(format!(
                "unknown option {word}; hraskell --help says how to call it"
            ));
        };
        let Some(value) = behind.or_else(|| rest.next()).filter(|v| !v.is_empty()) else {
            return Err(format!(
                "{option} wants a value behind it; hraskell --help says which"
            ));
        };
        match self.values.insert(option, value) {
            None => Ok(()),
            Some(_) => Err(format!("{option} is there twice: leave one out")),
        }
    }

    fn options(mut self) -> Result<Options, String> {
        let asked = self.take_kind()?;
        let options = Options {
            asked,
            files: std::mem::take(&mut self.others),
            explains: self.flags.contains("--explain"),
            terms: self.terms()?,
            order: self.order(),
            kept: self.kept(),
            json: self.flags.contains("--json"),
            desk: self.flags.contains("--desk"),
        };
        self.fit_together(&options)?;
        Ok(options)
    }

    /// Takes the kind from the front of the words that are no options, and leaves the files.
    fn take_kind(&mut self) -> Result<Asked, String> {
        if self.others.len() < 2 {
            let wanted = "a kind and a file are wanted, as in: hraskell u FILE";
            return Err(format!("{wanted} (hraskell --help says more)"));
        }
        let kind = self.others.remove(0);
        if kind == "any" {
            return Ok(Asked::Any);
        }
        let reading = kind.to_str().and_then(Reading::of_letters);
        reading.map(Asked::One).ok_or_else(|| {
            let kind = shown(&kind);
            format!("unknown kind '{kind}': it has to be u, s, t, m, ms or any (hraskell --help says more)")
        })
    }

    /// A number too big for any machine word is as much outside the limits as the largest one.
    fn terms(&self) -> Result<u64, String> {
        let Some(word) = self.values.get("--terms") else {
            return Ok(TERMS_MOST);
        };
        match word.to_str().filter(|word| is_decimal(word)) {
            Some(digits) => Ok(digits.parse().unwrap_or(u64::MAX)),
            None => {
                let word = shown(word);
                Err(format!(
                    "--terms wants a number from 128 to 16384, in digits alone, and '{word}' is none"
                ))
            }
        }
    }

    fn order(&self) -> Order {
        match self.values.get("--order") {
            None => Order::Found,
            Some(word) if word == "falling" => Order::Falling,
            Some(word) => Order::File(word.clone()),
        }
    }

    fn kept(&self) -> Kept {
        let path = |option| self.values.get(option).map(PathBuf::from);
        Kept {
            order: path(SAVE_ORDER),
            log: path("--log"),
            plot: path("--plot"),
            report: path("--report"),
        }
    }

    /// Whether the options can all be carried out in one call.
    fn fit_together(&self, options: &Options) -> Result<(), String> {
        self.are_about_one_judgement(options)?;
        self.go_with_the_desk(options)?;
        read_standard_input_once(options)?;
        name_files_once(&options.kept)
    }

    fn are_about_one_judgement(&self, options: &Options) -> Result<(), String> {
        let given = OF_ONE.into_iter().find(|o| self.values.contains_key(o));
        let Some(option) = given else { return Ok(()) };
        if options.files.len() > 1 {
            return Err(format!("{option} is about one file, and there are {}: call it for each (--report takes them together)", options.files.len()));
        }
        if options.asked == Asked::Any {
            return Err(format!("{option} is about one reading, and any asks for five: name the one that is meant (--report takes them together)"));
        }
        Ok(())
    }

    /// The desk program has its own order and limit, and tells nothing but its line.
    fn go_with_the_desk(&self, options: &Options) -> Result<(), String> {
        if !options.desk {
            return Ok(());
        }
        let json = options.json.then_some("--json");
        match self.values.keys().next().copied().or(json) {
            None => Ok(()),
            Some(other) => Err(format!("the desk program gives its line alone, by its own order and with 512 terms: leave out {other}, or --desk")),
        }
    }
}

impl Options {
    /// How many files or orders are to be read from standard input.
    fn standard_inputs(&self) -> usize {
        let files = self.files.iter().filter(|file| *file == "-").count();
        files + usize::from(self.order == Order::File("-".into()))
    }

    /// Whether a file or the order is to be read from standard input.
    pub fn read_standard_input(&self) -> bool {
        self.standard_inputs() > 0
    }
}

/// What is read from standard input cannot be read a second time.
fn read_standard_input_once(options: &Options) -> Result<(), String> {
    if options.standard_inputs() <= 1 {
        return Ok(());
    }
    Err("- is there twice, and standard input can be read once: name a file for one of them".into())
}

/// Standard output has the lines, and each file that is kept a name of its own.
fn name_files_once(kept: &Kept) -> Result<(), String> {
    let mut seen = BTreeMap::new();
    for (option, path) in kept.named() {
        let name = shown(path.as_os_str());
        if path.as_os_str() == "-" {
            return Err(format!(
                "{option} wants the name of a file: standard output has the lines"
            ));
        }
        if let Some(other) = seen.insert(path, option) {
            return Err(format!(
                "{other} and {option} both name '{name}': name two files"
            ));
        }
    }
    Ok(())
}

/// An option's name, and the value that stands behind `=`.
fn parted(word: &OsStr) -> (&OsStr, Option<OsString>) {
    let bytes = word.as_bytes();
    match bytes.iter().position(|&byte| byte == b'=') {
        Some(at) => (
            OsStr::from_bytes(&bytes[..at]),
            Some(OsStr::from_bytes(&bytes[at + 1..]).to_owned()),
        ),
        None => (word, None),
    }
}

/// Whether a word is digits alone: a sign is none.
pub fn is_decimal(word: &str) -> bool {
    !word.is_empty() && word.bytes().all(|byte| byte.is_ascii_digit())
}
