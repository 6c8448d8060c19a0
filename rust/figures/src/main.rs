//! figures: prints the energies of a mixture, their ends, how many of their figures are certain, and the pressure.

mod arguments;
mod csv;
mod failure;
mod input;
mod outcome;
mod plot;
mod progress;
mod report;
mod sweep;
mod table;

use arguments::{Arguments, Request};
use failure::Failure;
use input::Input;
use std::io::{self, Write};
use std::process::ExitCode;

fn main() -> ExitCode {
    let arguments: Vec<_> = std::env::args_os().skip(1).collect();
    match run(arguments) {
        Ok(()) => ExitCode::SUCCESS,
        Err(failure) => {
            // Where standard error is closed, the status is all there is to say.
            let _ = writeln!(io::stderr(), "{}", failure.message);
            ExitCode::from(failure.status)
        }
    }
}

fn run(arguments: Vec<std::ffi::OsString>) -> Result<(), Failure> {
    let arguments = match arguments::parse(arguments)? {
        Request::Help => return print(arguments::HELP),
        Request::Version => return print(concat!("figures ", env!("CARGO_PKG_VERSION"), "\n")),
        Request::Work(arguments) => arguments,
    };
    noddyfir::self_check().map_err(Failure::unfit)?;
    let input = input::read(&arguments.file)?;
    answer(&arguments, &input)
}

fn answer(arguments: &Arguments, input: &Input) -> Result<(), Failure> {
    if let Some(file) = &arguments.records {
        sweep::write_records(file, input, arguments.sweep.as_ref())?;
    }
    match &arguments.sweep {
        Some(sweep) => sweep::answer(arguments, input, sweep),
        None => report::answer(input, arguments.pressure),
    }
}

fn print(text: &str) -> Result<(), Failure> {
    io::stdout().write_all(text.as_bytes()).or_else(failure::of_output)
}
