//! Shares the chunks of a source's questions out among threads.

/// Differences that a run shows before it stops.
pub const SHOWN: usize = 10;

const WORKERS: u64 = 2;

pub struct Outcome<D> {
    pub asked: u64,
    pub differences: Vec<D>,
}

/// A worker's part: its differences with the chunks that they were met in.
struct Part<D> {
    asked: u64,
    met: Vec<(u64, D)>,
}

/// Has `compare` go through every chunk, and stops early at the tenth difference. `compare` says how many
/// questions its chunk has, and which differences it met.
pub fn share<D: Send>(chunks: u64, compare: impl Fn(u64) -> (usize, Vec<D>) + Sync) -> Outcome<D> {
    let compare = &compare;
    let mut all = Part { asked: 0, met: Vec::new() };
    std::thread::scope(|scope| {
        let workers: Vec<_> =
            (0..WORKERS).map(|first| scope.spawn(move || part(first, chunks, compare))).collect();
        for worker in workers {
            let part = worker.join().expect("a worker does not panic");
            all.asked += part.asked;
            all.met.extend(part.met);
        }
    });
    // In the order of the questions, whichever worker met them.
    all.met.sort_by_key(|met| met.0);
    all.met.truncate(SHOWN);
    Outcome { asked: all.asked, differences: all.met.into_iter().map(|met| met.1).collect() }
}

/// Every chunk of a worker: `first`, and each WORKERS further on.
fn part<D>(first: u64, chunks: u64, compare: &impl Fn(u64) -> (usize, Vec<D>)) -> Part<D> {
    let mut part = Part { asked: 0, met: Vec::new() };
    let mut chunk = first;
    while chunk < chunks && part.met.len() < SHOWN {
        let (asked, differences) = compare(chunk);
        part.asked += asked as u64;
        part.met.extend(differences.into_iter().map(|difference| (chunk, difference)));
        chunk += WORKERS;
    }
    part
}
