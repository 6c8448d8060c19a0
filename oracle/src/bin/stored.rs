//! Writes the stored list of records to standard output.

use std::io::Write;

fn main() -> std::io::Result<()> {
    std::io::stdout().write_all(&oracle::stored::records())
}
