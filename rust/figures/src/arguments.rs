//! The arguments of the command.

use crate::failure::Failure;
use std::ffi::OsString;
use std::path::PathBuf;

pub const HELP: &str = "\
figures FILE [OPTION]...

Reads a mixture and its state from a text file, or from standard input where FILE is -, and prints its three
residual Helmholtz energies, each divided by kT, per cubic angstrom: the value with a bar behind its certain
figures, their number, and the lower and upper end that are proved to enclose it.

  --pressure                         also prints the slopes of the energies along total density, and the pressure
                                     in bar that is worked from them, outside the proof
  --sweep density FROM TO STEPS      the same for STEPS + 1 total densities from FROM to TO, in molecules per
                                     cubic angstrom; the fractions stay
  --sweep temperature FROM TO STEPS  the same for temperatures in kelvin; the densities stay
  --csv                              the sweep as comma-separated values
  --plot FILE.png                    also draws the sweep: values, ends, certain figures and, with --pressure, the
                                     pressure (needs gnuplot)
  --records FILE                     also writes the case records, for the programs energies, ends and slopes
  --help, --version

Status: 0 printed; 1 refused, with the reason; 2 bad arguments or a bad file, with the line at fault;
3 the processor's arithmetic is not in its default mode; 4 an answer contradicts what is proved.

The format of the file is described in examples/README.md.
";

const MOST_STEPS: usize = 100_000;

#[derive(Clone, Copy, Debug, PartialEq, Eq)]
pub enum Variable {
    Density,
    Temperature,
}

#[derive(Clone, Debug)]
pub struct Sweep {
    pub variable: Variable,
    pub from: f64,
    pub to: f64,
    pub steps: usize,
}

#[derive(Debug, Default)]
pub struct Arguments {
    pub file: PathBuf,
    pub pressure: bool,
    pub sweep: Option<Sweep>,
    pub csv: bool,
    pub plot: Option<PathBuf>,
    pub records: Option<PathBuf>,
}

pub enum Request {
    Help,
    Version,
    Work(Arguments),
}

type Words = std::vec::IntoIter<OsString>;

pub fn parse(words: Vec<OsString>) -> Result<Request, Failure> {
    let (mut arguments, mut files) = (Arguments::default(), Vec::new());
    let mut words = words.into_iter();
    while let Some(word) = words.next() {
        match word.to_str() {
            Some("--help" | "-h") => return Ok(Request::Help),
            Some("--version") => return Ok(Request::Version),
            Some("--") => files.extend(words.by_ref()),
            Some(option) if option.starts_with('-') && option != "-" => {
                take_option(option, &mut words, &mut arguments)?;
            }
            _ => files.push(word),
        }
    }
    arguments.file = only(files)?;
    if arguments.sweep.is_none() && (arguments.csv || arguments.plot.is_some()) {
        return Err(bad("--csv and --plot go with --sweep"));
    }
    Ok(Request::Work(arguments))
}

fn bad(message: impl std::fmt::Display) -> Failure {
    Failure::bad_input(format!("{message}; figures --help says more"))
}

fn only(files: Vec<OsString>) -> Result<PathBuf, Failure> {
    match <[OsString; 1]>::try_from(files) {
        Ok([file]) => Ok(file.into()),
        Err(files) if files.is_empty() => Err(bad("the file of the mixture is missing")),
        Err(_) => Err(bad("one file of a mixture is taken, and more are given")),
    }
}

fn take_option(option: &str, words: &mut Words, into: &mut Arguments) -> Result<(), Failure> {
    let twice = || bad(format!("{option} is given twice"));
    match option {
        "--csv" if into.csv => return Err(twice()),
        "--csv" => into.csv = true,
        "--pressure" if into.pressure => return Err(twice()),
        "--pressure" => into.pressure = true,
        "--sweep" => {
            let sweep = sweep(words)?;
            into.sweep.replace(sweep).map_or(Ok(()), |_| Err(twice()))?;
        }
        "--plot" => {
            into.plot.replace(file(option, words)?).map_or(Ok(()), |_| Err(twice()))?;
        }
        "--records" => {
            into.records.replace(file(option, words)?).map_or(Ok(()), |_| Err(twice()))?;
        }
        _ => return Err(bad(format!("there is no option {option}"))),
    }
    Ok(())
}

fn file(option: &str, words: &mut Words) -> Result<PathBuf, Failure> {
    words.next().map(PathBuf::from).ok_or_else(|| bad(format!("{option} needs a file")))
}

fn sweep(words: &mut Words) -> Result<Sweep, Failure> {
    let mut next = |what: &str| {
        let missing =
            || bad(format!("--sweep needs a variable, FROM, TO and STEPS; {what} is missing"));
        words.next().map(|word| word.to_string_lossy().into_owned()).ok_or_else(missing)
    };
    let variable = match next("the variable")?.as_str() {
        "density" => Variable::Density,
        "temperature" => Variable::Temperature,
        other => return Err(bad(format!("--sweep takes density or temperature, not '{other}'"))),
    };
    let (from, to) = (number(&next("FROM")?)?, number(&next("TO")?)?);
    let steps = next("STEPS")?;
    match steps.parse() {
        Ok(steps @ 1..=MOST_STEPS) => Ok(Sweep { variable, from, to, steps }),
        _ => Err(bad(format!(
            "STEPS of --sweep is a whole number from 1 to {MOST_STEPS}, not '{steps}'"
        ))),
    }
}

fn number(word: &str) -> Result<f64, Failure> {
    crate::input::number(word).map_err(|message| bad(format!("--sweep: {message}")))
}
