//! Programs with a fault in how they read or end, for the comparison to be tried on.
use super::model;
use std::io::{Read, Write};
use std::process::ExitCode;

/// One that reads its input to the end before it prints, one that goes on when nobody reads from it, one that takes
/// the end of a read for the end of a line; and of calls that fail, one that says nothing, one that takes a failed
/// read for the end of the input, and one that goes on after a failed write.
pub fn run(name: &str) -> Option<ExitCode> {
    match name {
        "hasty" => hasty(),
        "greedy" => greedy(),
        "deaf" => deaf(),
        "mute" => mute(),
        "content" => content(),
        "stubborn" => stubborn(),
        _ => return None,
    }
    Some(ExitCode::SUCCESS)
}

fn greedy() {
    let mut input = Vec::new();
    let mut block = vec![0; 65_536];
    while let Ok(read) = std::io::stdin().read(&mut block) {
        if read == 0 {
            break;
        }
        // What comes after line 32,769 is read, and forgotten.
        let room = (1usize << 20).saturating_sub(input.len());
        input.extend_from_slice(&block[..read.min(room)]);
    }
    let _ = std::io::stdout().write_all(model::printed(&input).as_bytes());
}

/// It prints whatever it reads, and does not ask whether that succeeds.
fn deaf() {
    let mut block = vec![0; 65_536];
    while let Ok(read) = std::io::stdin().read(&mut block) {
        if read == 0 {
            break;
        }
        let _ = std::io::stdout().write_all(&block[..read]);
    }
}

/// It answers what it read first as if that were all of the last line.
fn hasty() {
    let (mut input, mut block) = (Vec::new(), vec![0; 65_536]);
    while let Ok(read) = std::io::stdin().read(&mut block) {
        if read == 0 {
            break;
        }
        input.extend_from_slice(&block[..read]);
        if input.last() != Some(&b'\n') {
            input.push(b'\n');
        }
    }
    let _ = std::io::stdout().write_all(model::printed(&input).as_bytes());
}

/// It ends at a failed call as it should, and says nothing.
fn mute() {
    let (mut input, mut block, mut printed) = (Vec::new(), vec![0; 65_536], 0);
    loop {
        let Ok(read) = std::io::stdin().read(&mut block) else { return };
        input.extend_from_slice(&block[..read]);
        let text = if read == 0 { model::printed(&input) } else { answered(&input) };
        let mut output = std::io::stdout();
        if output.write_all(&text.as_bytes()[printed..]).and_then(|()| output.flush()).is_err() || read == 0 {
            return;
        }
        printed = text.len();
    }
}

/// The text of the lines that have ended, without the last two.
fn answered(input: &[u8]) -> String {
    let whole = input.iter().rposition(|&b| b == b'\n').map_or(0, |at| at + 1);
    let text = model::printed(&input[..whole]);
    text.split_inclusive('\n').take_while(|line| !line.starts_with("total")).collect()
}

/// It says that a read failed, and closes its text all the same.
fn content() {
    let (mut input, mut block) = (Vec::new(), vec![0; 65_536]);
    loop {
        match std::io::stdin().read(&mut block) {
            Ok(0) => break,
            Ok(read) => input.extend_from_slice(&block[..read]),
            Err(what) => {
                let what = what.to_string();
                let what = what.split(" (os error").next().unwrap_or_default();
                eprintln!("sheet: the questions cannot be read: {what}");
                break;
            }
        }
    }
    let _ = std::io::stdout().write_all(model::printed(&input).as_bytes());
}

/// It says that a write failed, once, and reads on.
fn stubborn() {
    let (mut block, mut said) = (vec![0; 65_536], false);
    while let Ok(read) = std::io::stdin().read(&mut block) {
        if read == 0 {
            break;
        }
        let text = model::printed(&block[..read]);
        let mut output = std::io::stdout();
        if let Err(what) = output.write_all(text.as_bytes()).and_then(|()| output.flush()) {
            let what = what.to_string();
            let what = what.split(" (os error").next().unwrap_or_default();
            if !said {
                eprintln!("sheet: the sheets cannot be written: {what}");
            }
            said = true;
        }
    }
}
