//! The lines of a file: a key, names, and a value behind an equals sign.

use super::Complaint;

#[derive(Debug, PartialEq)]
pub struct Line<'a> {
    /// Counted from 1.
    pub number: usize,
    pub key: &'a str,
    pub names: Vec<&'a str>,
    pub value: Option<&'a str>,
}

/// The lines that say something, without comments.
pub fn lines(text: &str) -> impl Iterator<Item = Result<Line<'_>, Complaint>> {
    text.lines().enumerate().filter_map(|(place, line)| {
        let said = line.split('#').next().unwrap_or("").trim();
        (!said.is_empty()).then(|| read(place + 1, said))
    })
}

fn read(number: usize, said: &str) -> Result<Line<'_>, Complaint> {
    let (left, value) = match said.split_once('=') {
        Some((left, value)) => (left, Some(one_word(number, value)?)),
        None => (said, None),
    };
    let mut words = left.split_whitespace();
    let key = words
        .next()
        .ok_or_else(|| Complaint::new(number, "there is no key before the equals sign"))?;
    Ok(Line { number, key, names: words.collect(), value })
}

fn one_word(number: usize, value: &str) -> Result<&str, Complaint> {
    let mut words = value.split_whitespace();
    match (words.next(), words.next()) {
        (None, _) => Err(Complaint::new(number, "there is no value behind the equals sign")),
        (Some(word), None) => Ok(word),
        (Some(_), Some(extra)) => {
            Err(Complaint::new(number, format!("'{extra}' behind the value is not understood")))
        }
    }
}
