//! A line of a file as it stands under what is wrong with it.

/// Letters of a line that are shown at most, and of them those before the column.
const SHOWN: usize = 80;
const BEFORE: usize = 60;

/// The line, cut on both sides of the column, and a caret under it.
pub fn pointed(line: &[u8], column: usize) -> String {
    let (before, after) = cut(line, column);
    let blanks = " ".repeat(before.len());
    format!("  {before}{after}\n  {blanks}^")
}

/// The line, cut where it is long.
pub fn begun(line: &[u8]) -> String {
    format!("  {}", cut(line, 0).1)
}

fn cut(line: &[u8], column: usize) -> (String, String) {
    let from = column - fitting(line[..column].iter().rev(), BEFORE);
    let before = format!("{}{}", if from > 0 { ".." } else { "" }, readable(&line[from..column]));
    let to = column + fitting(line[column..].iter(), SHOWN - before.len());
    let after = format!("{}{}", readable(&line[column..to]), if to < line.len() { ".." } else { "" });
    (before, after)
}

/// How many of these bytes have room in so many letters.
fn fitting<'a>(bytes: impl Iterator<Item = &'a u8>, room: usize) -> usize {
    let mut letters = 0;
    let fits = |byte: &&u8| {
        letters += readable(&[**byte]).len();
        letters <= room
    };
    bytes.take_while(fits).count()
}

/// Bytes as they can be shown in a line.
pub fn readable(bytes: &[u8]) -> String {
    let shown = |&byte: &u8| match byte {
        b' '..=b'~' => char::from(byte).to_string(),
        _ => byte.escape_ascii().to_string(),
    };
    bytes.iter().map(shown).collect()
}
