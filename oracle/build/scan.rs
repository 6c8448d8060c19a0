//! Substitutes words and decimal literals in Rust text, and leaves comments and strings alone.

use crate::table::WORDS;

/// The text with the words of the table, `crate` and decimal literals substituted.
pub fn substitute(text: &str, root: &str) -> String {
    let mut out = String::new();
    let mut rest = text;
    while !rest.is_empty() {
        let (token, after) = rest.split_at(token_length(rest));
        out += &substituted(token, root);
        rest = after;
    }
    out
}

fn substituted(token: &str, root: &str) -> String {
    let word = WORDS.iter().find(|(from, _)| *from == token);
    if token == "crate" {
        root.to_string()
    } else if let Some((_, to)) = word {
        to.to_string()
    } else if is_decimal(token) {
        format!("Number::point({})", token.trim_end_matches("f64"))
    } else {
        token.to_string()
    }
}

/// A number with a point, as against a whole number (`2`), a word or a comment.
fn is_decimal(token: &str) -> bool {
    token.trim_start_matches('-').starts_with(|c: char| c.is_ascii_digit()) && token.contains('.')
}

/// The bytes of the first token: a comment, a string, a word, a number or one character.
fn token_length(text: &str) -> usize {
    let first = text.chars().next().expect("some text is left");
    let unsigned = text.strip_prefix('-').unwrap_or(text);
    if text.starts_with("//") {
        text.find('\n').unwrap_or(text.len())
    } else if first == '"' {
        text[1..].find('"').expect("a string ends") + 2
    } else if unsigned.starts_with(|c: char| c.is_ascii_digit()) {
        text.len() - unsigned.len() + number_length(unsigned)
    } else {
        run(text, is_word).max(first.len_utf8())
    }
}

/// Digits; then a point and more digits, unless the point begins `..` or a name; then an exponent
/// and a suffix such as f64.
fn number_length(text: &str) -> usize {
    let whole = run(text, |c| c.is_ascii_digit());
    let Some(fraction) = text[whole..].strip_prefix('.') else { return whole };
    if fraction.starts_with(|c: char| c == '.' || c.is_alphabetic() || c == '_') {
        return whole;
    }
    let digits = whole + 1 + run(fraction, |c| c.is_ascii_digit());
    let exponent = &text[digits..];
    let signed = exponent.starts_with("e-") || exponent.starts_with("E-");
    let mantissa = if signed { digits + 2 } else { digits };
    mantissa + run(&text[mantissa..], is_word)
}

fn is_word(c: char) -> bool {
    c.is_alphanumeric() || c == '_'
}

/// The length of the longest start of `text` whose characters all pass the test.
fn run(text: &str, test: fn(char) -> bool) -> usize {
    text.find(|c| !test(c)).unwrap_or(text.len())
}
