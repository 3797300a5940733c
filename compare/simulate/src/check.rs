//! Demand 3 on what was observed of a run: all completed reads and all accepted writes stand in
//! one row; no read ended since its blocks disagree; and the times of the accepted writes have no gap.

use register::frame::Stamp;
use register::server::{Server, Slot};
use register::Params;
use std::collections::{BTreeMap, BTreeSet};
use std::fmt;

/// A write that an honest client began.
#[derive(Clone, Debug)]
pub struct Write {
    pub begun: u64,
    pub ended: Option<u64>,
    pub value: Vec<u8>,
}

/// A read that an honest client completed.
#[derive(Clone, Debug)]
pub struct Read {
    pub client: usize,
    pub sequence: u32,
    pub begun: u64,
    pub ended: u64,
    pub stamp: Stamp,
    pub value: Vec<u8>,
}

/// A write that an honest server accepted.
#[derive(Clone, Debug)]
pub struct Acceptance {
    pub server: usize,
    pub client: usize,
    pub sequence: u32,
    pub stamp: Stamp,
    pub digests: Vec<u8>,
}

/// What a run showed; points in time are the numbers of calls before.
#[derive(Clone, Debug, Default)]
pub struct Observed {
    pub initial: Vec<u8>,
    pub writes: BTreeMap<(usize, u32), Write>,
    pub reads: Vec<Read>,
    pub accepted: Vec<Acceptance>,
    /// Reads of honest clients that ended with a disagreement: client and number.
    pub disagreements: Vec<(usize, u32)>,
    /// The first write that an honest server could accept and left waiting after a step.
    pub waiting: Option<String>,
}

#[derive(Clone, Debug, PartialEq, Eq)]
pub enum Violation {
    /// One write, two stamps or digest lists at honest servers, or another write's stamp.
    Agreement(String),
    /// A write ended that no honest server accepted.
    NotAccepted(String),
    /// A read's stamp is not that of the last write before it, or zero.
    LastWrite(String),
    /// An operation that ended before another began stands after it.
    Time(String),
    /// Wrong bytes.
    Bytes(String),
    /// An honest client saw a disagreement, where no two blocks share a digest.
    Disagreement(String),
    /// An honest operation is open though every frame was delivered.
    StillOpen(String),
    /// A write took effect with a time above 1, and none took effect before with the time below.
    Gap(String),
    /// An honest server left a write waiting that it may accept.
    Waiting(String),
    /// The two implementations differ.
    Differ(String),
}

impl fmt::Display for Violation {
    fn fmt(&self, f: &mut fmt::Formatter) -> fmt::Result {
        write!(f, "{self:?}")
    }
}

struct Row {
    read: bool,
    stamp: Stamp,
    begun: Option<u64>,
    ended: Option<u64>,
    name: String,
}

/// The accepted writes, each once, with one stamp and one digest list.
fn accepted_writes(seen: &Observed) -> Result<BTreeMap<(usize, u32), Stamp>, Violation> {
    let mut writes: BTreeMap<(usize, u32), (Stamp, &[u8])> = BTreeMap::new();
    for a in &seen.accepted {
        if (a.stamp.writer as usize, a.stamp.sequence) != (a.client, a.sequence) || a.stamp.time == 0 {
            return Err(Violation::Agreement(format!("foreign stamp: {a:?}")));
        }
        let first = writes.entry((a.client, a.sequence)).or_insert((a.stamp, &a.digests));
        if *first != (a.stamp, &a.digests[..]) {
            return Err(Violation::Agreement(format!("server {} differs: {first:?} {a:?}", a.server)));
        }
    }
    Ok(writes.into_iter().map(|(name, (stamp, _))| (name, stamp)).collect())
}

/// The row: by stamp, a write before the reads of its stamp, these as they ended.
fn row(seen: &Observed, writes: &BTreeMap<(usize, u32), Stamp>) -> Vec<Row> {
    let mut row = Vec::new();
    for (&(client, sequence), &stamp) in writes {
        let own = seen.writes.get(&(client, sequence));
        row.push(Row {
            read: false,
            stamp,
            begun: own.map(|w| w.begun),
            ended: own.and_then(|w| w.ended),
            name: format!("write {sequence} of client {client}"),
        });
    }
    for r in &seen.reads {
        row.push(Row {
            read: true,
            stamp: r.stamp,
            begun: Some(r.begun),
            ended: Some(r.ended),
            name: format!("read {} of client {}", r.sequence, r.client),
        });
    }
    row.sort_by_key(|r| (r.stamp, r.read, r.ended));
    row
}

fn check_bytes(seen: &Observed, writes: &BTreeMap<(usize, u32), Stamp>) -> Result<(), Violation> {
    let mut values: BTreeMap<Stamp, &[u8]> = BTreeMap::new();
    values.insert(Stamp::default(), &seen.initial);
    for (name, stamp) in writes {
        if let Some(own) = seen.writes.get(name) {
            values.insert(*stamp, &own.value);
        }
    }
    for r in &seen.reads {
        let value = values.entry(r.stamp).or_insert(&r.value);
        if *value != &r.value[..] {
            return Err(Violation::Bytes(format!("{r:?} where {value:?} was due")));
        }
    }
    Ok(())
}

/// Demand 3, and that honest clients see no disagreement, apart from the escape of two blocks with one digest.
pub fn check_row(seen: &Observed) -> Result<(), Violation> {
    if let Some((client, sequence)) = seen.disagreements.first() {
        return Err(Violation::Disagreement(format!("read {sequence} of client {client}")));
    }
    let writes = accepted_writes(seen)?;
    for (name, write) in &seen.writes {
        if write.ended.is_some() && !writes.contains_key(name) {
            return Err(Violation::NotAccepted(format!("{name:?}")));
        }
    }
    let row = row(seen, &writes);
    let mut last = Stamp::default();
    for op in &row {
        if !op.read {
            last = op.stamp;
        } else if op.stamp != last {
            return Err(Violation::LastWrite(format!("{} has {:?}, last {last:?}", op.name, op.stamp)));
        }
    }
    for (i, later) in row.iter().enumerate() {
        for earlier in &row[..i] {
            // `later` stands after `earlier` in the row, so it may not have ended before it began.
            if let (Some(end), Some(begin)) = (later.ended, earlier.begun) {
                if end < begin {
                    return Err(Violation::Time(format!(
                        "{} {:?} ended at {end}, {} {:?} began at {begin}",
                        later.name, later.stamp, earlier.name, earlier.stamp
                    )));
                }
            }
        }
    }
    check_bytes(seen, &writes)
}

/// The times of all writes that took effect, with 0, have no gap, at every moment of the run.
pub fn check_times(seen: &Observed) -> Result<(), Violation> {
    let mut times = BTreeSet::from([0]);
    for a in &seen.accepted {
        if !times.contains(&(a.stamp.time - 1)) {
            return Err(Violation::Gap(format!("server {}: {:?} after {times:?}", a.server, a.stamp)));
        }
        times.insert(a.stamp.time);
    }
    Ok(())
}

/// No server left a write waiting that it may accept.
pub fn check_waiting(seen: &Observed) -> Result<(), Violation> {
    match &seen.waiting {
        Some(waiting) => Err(Violation::Waiting(waiting.clone())),
        None => Ok(()),
    }
}

/// The client whose write waits at this server though it may be accepted, by the words of request F-9.
pub fn left_waiting(p: &Params, server: &Server) -> Option<usize> {
    let may = |slot: &Slot| {
        let Some(complete) = &slot.complete else { return false };
        let reported = server.reports.iter().filter(|&&report| report >= complete.time).count();
        complete.time < u64::MAX && (server.stamp.time >= complete.time || reported > p.t)
    };
    server.slots.iter().position(may).map(|place| place + 1)
}

#[cfg(test)]
mod tests {
    use super::*;

    fn stamp(time: u64, writer: u8, sequence: u32) -> Stamp {
        Stamp { time, writer, sequence }
    }

    /// Client 1 wrote 01 from 1 to 5, client 2 read it from 6 to 9.
    fn sound() -> Observed {
        let mut seen = Observed { initial: vec![0], ..Observed::default() };
        seen.writes.insert((1, 1), Write { begun: 1, ended: Some(5), value: vec![1] });
        for server in 1..=3 {
            let a = Acceptance { server, client: 1, sequence: 1, stamp: stamp(1, 1, 1), digests: vec![7] };
            seen.accepted.push(a);
        }
        seen.reads.push(Read {
            client: 2,
            sequence: 1,
            begun: 6,
            ended: 9,
            stamp: stamp(1, 1, 1),
            value: vec![1],
        });
        seen
    }

    #[test]
    fn each_violation_is_found() {
        assert_eq!(check_row(&sound()), Ok(()));
        let found = |change: &dyn Fn(&mut Observed)| {
            let mut seen = sound();
            change(&mut seen);
            check_row(&seen).unwrap_err()
        };
        let agreement = found(&|seen| seen.accepted[1].stamp.time = 2);
        assert!(matches!(agreement, Violation::Agreement(_)));
        let agreement = found(&|seen| seen.accepted[1].digests = vec![8]);
        assert!(matches!(agreement, Violation::Agreement(_)));
        let unaccepted = found(&|seen| {
            seen.accepted.clear();
            seen.reads.clear();
        });
        assert!(matches!(unaccepted, Violation::NotAccepted(_)));
        let last = found(&|seen| seen.reads[0].stamp = stamp(2, 1, 1));
        assert!(matches!(last, Violation::LastWrite(_)));
        let last = found(&|seen| seen.reads[0].stamp = stamp(0, 1, 1));
        assert!(matches!(last, Violation::LastWrite(_)));
        let time = found(&|seen| {
            seen.reads[0].stamp = stamp(0, 0, 0);
            seen.reads[0].value = vec![0];
        });
        assert!(matches!(time, Violation::Time(_)));
        let time = found(&|seen| seen.writes.get_mut(&(1, 1)).unwrap().begun = 10);
        assert!(matches!(time, Violation::Time(_)));
        let disagreement = found(&|seen| seen.disagreements.push((2, 1)));
        assert!(matches!(disagreement, Violation::Disagreement(_)));
        let bytes = found(&|seen| seen.reads[0].value = vec![2]);
        assert!(matches!(bytes, Violation::Bytes(_)));
        let bytes = found(&|seen| {
            seen.reads[0].stamp = stamp(0, 0, 0);
            seen.reads[0].begun = 4;
        });
        assert!(matches!(bytes, Violation::Bytes(_)));
        // Two reads of a false client's write with different bytes.
        let bytes = found(&|seen| {
            seen.writes.clear();
            let mut other = seen.reads[0].clone();
            other.value = vec![3];
            seen.reads.push(other);
        });
        assert!(matches!(bytes, Violation::Bytes(_)));
    }

    #[test]
    fn gaps_are_found() {
        let of = |times: &[u64]| {
            let mut seen = sound();
            let first = seen.accepted[0].clone();
            seen.accepted = vec![first; times.len()];
            for (a, &time) in seen.accepted.iter_mut().zip(times) {
                a.stamp.time = time;
            }
            check_times(&seen)
        };
        for times in [&[][..], &[1, 1, 1], &[1, 2, 1, 3], &[1, 1, 2, 3, 2]] {
            assert_eq!(of(times), Ok(()), "{times:?}");
        }
        // Also one that is closed later.
        for times in [&[2][..], &[1, 3], &[1, 3, 2], &[1, 2, 4], &[u64::MAX]] {
            assert!(matches!(of(times), Err(Violation::Gap(_))), "{times:?}");
        }
    }

    #[test]
    fn concurrent_operations_may_stand_either_way() {
        let mut seen = sound();
        seen.reads[0] = Read { begun: 3, stamp: stamp(0, 0, 0), value: vec![0], ..seen.reads[0].clone() };
        assert_eq!(check_row(&seen), Ok(()));
    }
}
