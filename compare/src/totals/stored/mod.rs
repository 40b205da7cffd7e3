//! Stored totals: a file of calls, with the 21 words that the build before request 3 left and what these read.
//!
//! Totals go from one build to another. So a build has to carry each of them over, to read it as the file says, and to go on with it
//! as the file does.
mod columns;
pub mod compare;
pub mod old;
pub mod record;
pub mod text;

use super::subject::Library;
use record::Record;
use std::path::Path;

/// The file's text.
pub fn file() -> Result<String, String> {
    let path = Path::new(env!("CARGO_MANIFEST_DIR")).join("stored/totals.txt");
    std::fs::read_to_string(path).map_err(|error| format!("stored/totals.txt: {error}"))
}

/// What a text of the file has, unless it is malformed, or has other columns than are to be in it: fewer would hold less.
pub fn records(text: &str) -> Result<Vec<Record>, String> {
    let records = text::records(text)?;
    let columns = columns::all();
    let same = |i: usize| columns.get(i) == records.get(i).map(|record| &record.column);
    match (0..columns.len().max(records.len())).find(|&i| !same(i)) {
        Some(i) => Err(format!("column {} is not the one that is to be stored", i + 1)),
        None => Ok(records),
    }
}

/// What is wrong with the file, whatever the library does: the model has to come to the same words and readings.
pub fn distrusted() -> Option<String> {
    let records = match file().and_then(|text| records(&text)) {
        Ok(records) => records,
        Err(what) => return Some(what),
    };
    compare::by_model(&records).map(|difference| difference.shown(&records))
}

/// The library held to the file. How many calls were made, and differences.
pub fn compared() -> (u64, usize) {
    match file().and_then(|text| records(&text)) {
        Ok(records) => {
            let outcome = compare::compare(&Library, &records);
            compare::report(&records, &outcome);
            (outcome.calls, outcome.differences.len())
        }
        Err(what) => {
            println!("total     stored      {what}");
            (0, 1)
        }
    }
}
