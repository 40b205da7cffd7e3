//! The comparison with the stored totals tried on itself: faults in the library, and damage to the file.
use super::{carrying, damage, places, reading, refusals, words, zeros, Fault, Planted};
use crate::totals::stored::compare::{not_gone_on, unread};
use crate::totals::stored::record::Record;
use crate::totals::stored::{file, records};

/// Holds each fault to the stored totals. Says which are found, or the first that is missed.
pub fn tried() -> Result<String, String> {
    let text = file()?;
    let records = records(&text)?;
    for (fault, name) in shaped() {
        find(fault, name, &records, goes_on_unlike)?;
    }
    // What reads wrongly has to be found both where a state is carried over and after a call.
    for (fault, _, name) in reading::FAULTS.into_iter().filter(|(fault, ..)| fault.is_of_fit()) {
        find(Fault::Reading(fault), name, &records, goes_on_unlike)?;
        find(Fault::Reading(fault), name, &records, reads_unlike)?;
    }
    for (fault, name) in carried() {
        find(fault, name, &records, reads_unlike)?;
    }
    let mut found = vec!["each of the above in words, readings and carrying over that a fit old total shows"];
    for (fault, name) in places::faults() {
        find(Fault::Place(fault), name, &records, goes_on_unlike)?;
        found.push(name);
    }
    found.extend(damage::found(&text, &records)?);
    // Those for each place or word have one name.
    found.dedup();
    Ok(found.join(", "))
}

/// The faults in words, refusals and last words that a shape of columns finds, and a carried total shows.
fn shaped() -> Vec<(Fault, &'static str)> {
    let words = words::faults().into_iter().map(|(fault, _, name)| (Fault::Words(fault), name));
    let refusals = refusals::FAULTS.into_iter().filter(|(fault, ..)| fault.is_of_fit());
    let refusals = refusals.map(|(fault, _, name)| (Fault::Refusal(fault), name));
    let zeros = zeros::faults().into_iter().filter(|(fault, ..)| fault.is_of_carried());
    let zeros = zeros.map(|(fault, _, name)| (Fault::Zero(fault), name));
    words.chain(refusals).chain(zeros).collect()
}

/// Those in carrying over that the file can show, which has new words of the right length only, and none that fit.
fn carried() -> Vec<(Fault, &'static str)> {
    let faults = carrying::faults().into_iter().filter(|(fault, ..)| fault.is_of_old_words());
    faults.map(|(fault, _, name)| (Fault::CarryOver(fault), name)).collect()
}

fn goes_on_unlike(planted: &Planted, record: &Record) -> bool {
    (0..record.left.len()).any(|line| not_gone_on(planted, record, line).is_some())
}

fn reads_unlike(planted: &Planted, record: &Record) -> bool {
    (0..record.states()).any(|state| unread(planted, record, state).is_some())
}

type Comparison = fn(&Planted, &Record) -> bool;

fn find(fault: Fault, name: &str, records: &[Record], by: Comparison) -> Result<(), String> {
    let planted = Planted(fault);
    if records.iter().any(|record| by(&planted, record)) {
        Ok(())
    } else {
        Err(format!("stored totals ({name}: {fault:?})"))
    }
}
