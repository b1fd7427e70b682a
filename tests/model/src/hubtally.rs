//! What `hubtally` prints for a list of records.

use crate::tally::{tally, Row, MORE_CALLERS, MORE_NUMBERS};

/// The whole output; every line ends with byte 10.
pub fn output(list: &[u8]) -> String {
    match tally(list) {
        Err(number) => format!("refused {number}\n"),
        Ok(rows) => page(&rows),
    }
}

fn page(rows: &[Row]) -> String {
    let names = words(0..MORE_NUMBERS, |number| format!("n{number}"));
    let mut page = format!("caller {names} more bytes\n");
    for (caller, row) in rows.iter().enumerate() {
        let name = if caller == MORE_CALLERS as usize { "more".to_string() } else { caller.to_string() };
        let counts = words(row.counts, |count| count.to_string());
        page.push_str(&format!("{name} {counts} {}\n", row.bytes));
    }
    page
}

/// A word for each item, one space between.
fn words<T>(items: impl IntoIterator<Item = T>, word: impl Fn(T) -> String) -> String {
    let words: Vec<String> = items.into_iter().map(word).collect();
    words.join(" ")
}
