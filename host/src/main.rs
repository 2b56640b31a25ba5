//! The program `hraskell`.

use host::run::{call, Streams};
use host::{printing, stopping};
use std::io::{self, IsTerminal};
use std::panic::{self, catch_unwind};
use std::process::ExitCode;

fn main() -> ExitCode {
    panic::set_hook(Box::new(|fault| {
        let place = fault
            .location()
            .map_or(String::new(), |at| format!(" at {at}"));
        printing::say(
            &mut io::stderr(),
            &format!("there is a fault in this program{place}"),
        );
    }));
    stopping::listen();
    let status = catch_unwind(|| {
        let (mut output, mut errors) = (io::stdout(), io::stderr());
        let output_is_terminal = output.is_terminal();
        let errors_are_terminal = errors.is_terminal();
        let mut streams = Streams {
            output: &mut output,
            errors: &mut errors,
            output_is_terminal,
            errors_are_terminal,
        };
        call(std::env::args_os().skip(1), &mut streams)
    });
    stopping::end_if_stopped();
    ExitCode::from(status.unwrap_or(printing::MISUSE))
}
