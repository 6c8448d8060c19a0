//! split_records PREFIX: cuts the case records of standard input, at the boundaries of records, into the files PREFIX000000,
//! PREFIX000001 and so on, each of at most 65,536 bytes, which is what the programs energies, ends and slopes read.

mod stream;

use std::fs::File;
use std::io::{self, Read, Write};
use std::process::ExitCode;

const MOST_BYTES: usize = 65_536;

/// The last number of six figures.
const MOST_PARTS: usize = 999_999;

fn main() -> ExitCode {
    let [prefix] = &std::env::args().skip(1).collect::<Vec<_>>()[..] else {
        eprintln!("split_records PREFIX < records");
        return ExitCode::from(2);
    };
    match split(&mut io::stdin().lock(), prefix) {
        Ok(()) => ExitCode::SUCCESS,
        Err(error) => {
            eprintln!("split_records: {error}");
            ExitCode::from(2)
        }
    }
}

fn split(input: &mut impl Read, prefix: &str) -> io::Result<()> {
    let mut input = io::BufReader::new(input);
    let (mut part, mut number, mut place) = (Vec::new(), 0, 0);
    while let Some(record) = stream::next(&mut input, place)? {
        place += record.len() as u64;
        if part.len() + record.len() > MOST_BYTES {
            write(prefix, number, &part)?;
            (part, number) = (Vec::new(), number + 1);
        }
        part.extend(record);
    }
    if !part.is_empty() {
        write(prefix, number, &part)?;
    }
    Ok(())
}

fn write(prefix: &str, number: usize, part: &[u8]) -> io::Result<()> {
    if number > MOST_PARTS {
        return Err(io::Error::other("over a million parts: their names would lose their order"));
    }
    let name = format!("{prefix}{number:06}");
    let named = |error: io::Error| io::Error::new(error.kind(), format!("{name}: {error}"));
    File::create_new(&name).and_then(|mut file| file.write_all(part)).map_err(named)
}
