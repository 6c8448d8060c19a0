//! Answers the records on standard input with slopes; `--all` lifts the limit of 65,536 bytes.

fn main() -> std::io::Result<()> {
    oracle::program::answer_input(oracle::run::run_slopes)
}
