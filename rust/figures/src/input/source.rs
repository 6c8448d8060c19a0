//! Reading the bytes of a file as text.

use super::Complaint;
use crate::failure::Failure;
use std::fs::File;
use std::io::{self, Read};
use std::path::Path;

/// A file of a mixture is small; so that nothing endless is read.
const MOST_BYTES: u64 = 1 << 20;

pub fn name(path: &Path) -> String {
    if path == Path::new("-") { "standard input".into() } else { path.display().to_string() }
}

pub fn text(path: &Path) -> Result<Result<String, Complaint>, Failure> {
    let cannot = |error| Failure::bad_input(format!("{} cannot be read: {error}", name(path)));
    let bytes = if path == Path::new("-") {
        read(io::stdin().lock())
    } else {
        File::open(path).and_then(read)
    };
    let bytes = bytes.map_err(cannot)?;
    if bytes.len() as u64 > MOST_BYTES {
        let message = format!("{} has over {MOST_BYTES} bytes: no file of a mixture", name(path));
        return Err(Failure::bad_input(message));
    }
    Ok(decode(bytes))
}

fn read(file: impl Read) -> io::Result<Vec<u8>> {
    let mut bytes = Vec::new();
    file.take(MOST_BYTES + 1).read_to_end(&mut bytes)?;
    Ok(bytes)
}

/// A mark of the byte order, which some editors write, is passed over.
fn decode(bytes: Vec<u8>) -> Result<String, Complaint> {
    match String::from_utf8(bytes) {
        Ok(text) => Ok(text.strip_prefix('\u{feff}').map(str::to_owned).unwrap_or(text)),
        Err(error) => {
            let good = error.utf8_error().valid_up_to();
            let line = 1 + error.as_bytes()[..good].iter().filter(|&&byte| byte == b'\n').count();
            Err(Complaint::new(line, "the line is not text in UTF-8"))
        }
    }
}
