//! generate SEED COUNT [KIND]...: writes COUNT records, of the kinds in turn, to standard output.
//! Without a kind, of every kind.

use oracle::generator::{KINDS, Kind, kind};
use oracle::random::Random;
use std::io::{Result, Write, stdout};

fn main() -> Result<()> {
    let arguments: Vec<String> = std::env::args().skip(1).collect();
    let Some((seed, count, kinds)) = parse(&arguments) else {
        let names = KINDS.map(|(name, _)| name).join(" ");
        eprintln!("generate SEED COUNT [KIND]...; the kinds are {names}");
        std::process::exit(2);
    };
    let mut random = Random::new(seed);
    let mut output = stdout().lock();
    for make in kinds.iter().cycle().take(count) {
        output.write_all(&make(&mut random))?;
    }
    Ok(())
}

fn parse(arguments: &[String]) -> Option<(u64, usize, Vec<Kind>)> {
    let [seed, count, names @ ..] = arguments else { return None };
    let every = || KINDS.iter().map(|(_, kind)| *kind).collect();
    let kinds = if names.is_empty() { every() } else { named(names)? };
    Some((seed.parse().ok()?, count.parse().ok()?, kinds))
}

fn named(names: &[String]) -> Option<Vec<Kind>> {
    names.iter().map(|name| kind(name)).collect()
}
