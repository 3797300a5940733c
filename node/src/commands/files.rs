//! A node's log, read and not altered; the node may be running.

use crate::failure::{code, Failure};
use crate::progress::Progress;
use semduoli::events::exit;
use semduoli::log::{batch_at, segment_number, segment_read, Batch, Fault, LogId, Place, Scan};
use semduoli::settings::BLOCK;
use std::path::Path;
use std::time::Duration;

/// A segment that is read while the node writes to it may look damaged; it is then read again.
const TRIES: usize = 10;
const PAUSE: Duration = Duration::from_millis(30);

/// What was read.
pub struct Whole {
    /// Whether the log's first batch is there still.
    pub from_start: bool,
    pub batches: u64,
    pub bytes: u64,
    /// Bytes of a batch that is not whole: one that is being written, or torn.
    pub torn: bool,
}

fn fault(f: &Fault) -> Failure {
    let code = match f {
        Fault::Damaged { .. } => exit::DAMAGED,
        Fault::Other { .. } => exit::OTHER_LOG,
    };
    Failure::new(code, f.to_string())
}

fn segments(folder: &Path) -> Result<Vec<(u32, String)>, Failure> {
    let failed = |e: std::io::Error| Failure::new(code::CLUSTER, format!("{}: {e}", folder.display()));
    let mut found = vec![];
    for entry in std::fs::read_dir(folder).map_err(failed)? {
        let name = entry.map_err(failed)?.file_name();
        if let Some((number, name)) = name.to_str().and_then(|n| Some((segment_number(n)?, n.to_string()))) {
            found.push((number, name));
        }
    }
    found.sort();
    let gap = found.windows(2).find(|w| w[0].0 + 1 != w[1].0);
    match (found.is_empty(), gap) {
        (true, _) => Err(Failure::new(code::CLUSTER, format!("{}: no log; the node has not run yet", folder.display()))),
        (_, Some(w)) => Err(Failure::new(exit::DAMAGED, format!("{} is not followed by the next segment", w[0].1))),
        _ => Ok(found),
    }
}

/// Where reading begins: at the log's start, or at the first batch that is there still.
fn beginning(log: &LogId, first: u32, bytes: &[u8]) -> Place {
    match batch_at(&log.id, bytes, BLOCK as usize) {
        Some(b) if first > 1 => Place { segment: first, number: b.number, before: b.before, ..Place::first() },
        _ => Place { segment: first, ..Place::first() },
    }
}

/// Hands each batch of the log of this register to `each`, in order.
pub fn read_log(folder: &Path, register: [u8; 32], each: &mut dyn FnMut(&Batch) -> Result<(), &'static str>) -> Result<Whole, Failure> {
    read_last(folder, register, usize::MAX, each)
}

/// The same of the last few segments of the log.
pub fn read_last(folder: &Path, register: [u8; 32], most: usize, each: &mut dyn FnMut(&Batch) -> Result<(), &'static str>) -> Result<Whole, Failure> {
    let (mut progress, mut segments) = (Progress::new(), segments(folder)?);
    segments.drain(..segments.len().saturating_sub(most));
    let mut scan: Option<Scan> = None;
    let mut whole = Whole { from_start: segments[0].0 == 1, batches: 0, bytes: 0, torn: false };
    for (at, (number, name)) in segments.iter().enumerate() {
        progress.tell(|| format!("reading the log: {at} of {} segments", segments.len()));
        let mut tries = 0;
        let (bytes, mut s) = loop {
            let bytes = std::fs::read(folder.join(name)).map_err(|e| Failure::new(code::DISK, format!("{name}: {e}")))?;
            let s = match &scan {
                Some(s) => s.log,
                None => LogId { register, ..segment_read(&bytes, *number).map_err(|f| fault(&f))? },
            };
            let place = scan.as_ref().map_or_else(|| beginning(&s, *number, &bytes), |s| s.place);
            let again = || {
                let mut again = Scan::new(s, place);
                again.torn = scan.as_ref().and_then(|s| s.torn);
                again
            };
            tries += 1;
            match again().segment(*number, &bytes, &mut |_, _| Ok(())) {
                Err(Fault::Damaged { .. }) if tries < TRIES => std::thread::sleep(PAUSE),
                Err(f) => return Err(fault(&f)),
                Ok(()) => break (bytes, again()),
            }
        };
        let counted = &mut |_: u64, b: &Batch| {
            whole.batches += 1;
            whole.bytes += b.bytes.len() as u64;
            each(b)
        };
        s.segment(*number, &bytes, counted).map_err(|f| fault(&f))?;
        scan = Some(s);
    }
    whole.torn = scan.is_some_and(|s| s.torn.is_some());
    Ok(whole)
}
