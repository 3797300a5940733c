//! The log's form (pure): segments of batches. A batch lies on blocks of its own and bears a hash that is chained to the batch before and begins with
//! the log's id, which no partner knows; so nobody can make bytes that pass for a batch. A batch is written and synced before the next is begun:
//! only the last one can be torn, and a bad one with a good one behind it is damaged.
use crate::bytes::Reader;
use crate::cluster::FORMAT;
use crate::records::Hash;
use crate::settings::BLOCK;
use openssl::sha::Sha256;

const SEGMENT_MAGIC: &[u8; 8] = b"SEMDUOLI";
const BATCH_MAGIC: &[u8; 4] = b"SDB1";
/// Magic (4), payload's length (4), number (8), wall clock in ms (8), hash of the batch before (16), own hash (16).
pub const BATCH_HEAD: usize = 56;
const HASHED_TO: usize = 40;

/// 16 bytes of SHA-256 over the parts end to end.
pub fn hash(parts: &[&[u8]]) -> Hash {
    let mut h = Sha256::new();
    parts.iter().for_each(|p| h.update(p));
    let mut short = [0; 16];
    short.copy_from_slice(&h.finish()[..16]);
    short
}

/// What every segment of a log has in its head.
#[derive(Clone, Copy, Debug, PartialEq, Eq)]
pub struct LogId {
    pub id: [u8; 16],
    pub register: [u8; 32],
}

pub fn segment_name(number: u32) -> String {
    format!("log-{number:08}")
}

pub fn segment_number(name: &str) -> Option<u32> {
    let digits = name.strip_prefix("log-")?;
    (digits.len() == 8 && digits.bytes().all(|b| b.is_ascii_digit())).then(|| digits.parse().ok())?
}

pub fn segment_head(log: &LogId, number: u32) -> Vec<u8> {
    let mut b = SEGMENT_MAGIC.to_vec();
    b.extend_from_slice(&FORMAT.to_be_bytes());
    b.extend_from_slice(&number.to_be_bytes());
    b.extend_from_slice(&log.id);
    b.extend_from_slice(&log.register);
    let sum = hash(&[&b]);
    b.extend_from_slice(&sum);
    b
}

/// Why a log can't be gone on with.
#[derive(Clone, Debug, PartialEq, Eq)]
pub enum Fault {
    /// A segment and the byte in it, and what is wrong there.
    Damaged { segment: u32, at: u64, what: &'static str },
    /// The log is of another format or register.
    Other { segment: u32, what: &'static str },
}

impl std::fmt::Display for Fault {
    fn fmt(&self, f: &mut std::fmt::Formatter) -> std::fmt::Result {
        match self {
            Fault::Damaged { segment, at, what } => write!(f, "{}, byte {at}: {what}", segment_name(*segment)),
            Fault::Other { segment, what } => write!(f, "{}: {what}", segment_name(*segment)),
        }
    }
}

/// The head of segment `number`: the log's id.
pub fn segment_read(bytes: &[u8], number: u32) -> Result<LogId, Fault> {
    let damaged = Fault::Damaged { segment: number, at: 0, what: "the segment's head is damaged" };
    let mut b = Reader(bytes);
    let parts = (|| Some((b.array::<8>()?, b.u32()?, b.u32()?, b.array::<16>()?, b.array::<32>()?, b.array::<16>()?)))();
    let Some((magic, format, found, id, register, sum)) = parts else { return Err(damaged) };
    if &magic != SEGMENT_MAGIC || hash(&[&bytes[..64]]) != sum {
        return Err(damaged);
    }
    if format != FORMAT {
        return Err(Fault::Other { segment: number, what: "the log is of another format: another version of this program wrote it" });
    }
    if found != number {
        return Err(Fault::Damaged { segment: number, at: 12, what: "the segment has another number: files were renamed" });
    }
    Ok(LogId { id, register })
}

/// The blocks' bytes that so many bytes take.
pub fn whole_blocks(length: usize) -> usize {
    length.div_ceil(BLOCK as usize) * BLOCK as usize
}

/// The bytes that a batch with such a payload takes in a segment.
pub fn batch_space(payload: usize) -> u64 {
    whole_blocks(BATCH_HEAD + payload) as u64
}

/// A batch as it is written, with zeros up to the end of its last block, and its hash.
pub fn batch_bytes(id: &[u8; 16], before: &Hash, number: u64, wall: u64, payload: &[u8]) -> (Vec<u8>, Hash) {
    let mut b = Vec::with_capacity(whole_blocks(BATCH_HEAD + payload.len()));
    b.extend_from_slice(BATCH_MAGIC);
    b.extend_from_slice(&(payload.len() as u32).to_be_bytes());
    b.extend_from_slice(&number.to_be_bytes());
    b.extend_from_slice(&wall.to_be_bytes());
    b.extend_from_slice(before);
    let own = hash(&[id, &b[4..HASHED_TO], payload]);
    b.extend_from_slice(&own);
    b.extend_from_slice(payload);
    b.resize(whole_blocks(b.len()), 0);
    (b, own)
}

/// A good batch that was found.
#[derive(Clone, Copy, Debug, PartialEq, Eq)]
pub struct Batch<'a> {
    pub number: u64,
    pub wall: u64,
    pub before: Hash,
    pub hash: Hash,
    pub payload: &'a [u8],
    /// All its bytes, with the zeros behind.
    pub bytes: &'a [u8],
}

/// The batch that begins at a place, if a good one of this log does.
pub fn batch_at<'a>(id: &[u8; 16], bytes: &'a [u8], at: usize) -> Option<Batch<'a>> {
    let all = bytes.get(at..)?;
    let mut b = Reader(all);
    let magic = b.array::<4>()?;
    let length = b.u32()? as usize;
    let (number, wall, before, own) = (b.u64()?, b.u64()?, b.array()?, b.array()?);
    if &magic != BATCH_MAGIC {
        return None;
    }
    let payload = b.take(length)?;
    let whole = all.get(..whole_blocks(BATCH_HEAD + length))?;
    let good = hash(&[id, &all[4..HASHED_TO], payload]) == own && whole[BATCH_HEAD + length..].iter().all(|b| *b == 0);
    good.then_some(Batch { number, wall, before, hash: own, payload, bytes: whole })
}

/// How many bytes the batch takes that seems to begin here: only its magic was looked at.
pub fn batch_length(bytes: &[u8]) -> Option<usize> {
    let mut b = Reader(bytes);
    let magic = b.array::<4>()?;
    let payload = b.u32()? as usize;
    (&magic == BATCH_MAGIC).then(|| whole_blocks(BATCH_HEAD + payload))
}

/// Where a log goes on.
#[derive(Clone, Copy, Debug, PartialEq, Eq, Default)]
pub struct Place {
    pub segment: u32,
    /// The byte in the segment.
    pub at: u64,
    /// The number of the next batch, and the hash of the one before it.
    pub number: u64,
    pub before: Hash,
    /// Where in the segment the batch before begins; 0 if there is none.
    pub last: u64,
}

impl Place {
    /// Where a new log begins.
    pub fn first() -> Place {
        Place { segment: 1, at: BLOCK, number: 1, before: [0; 16], last: 0 }
    }

    /// Where the log goes on behind a batch that begins at a segment's byte.
    pub fn behind(&self, segment: u32, at: u64, batch: &Batch) -> Place {
        Place { segment, at: at + batch.bytes.len() as u64, number: batch.number + 1, before: batch.hash, last: at }
    }
}

/// Goes through a log's segments in their order, from a place on.
pub struct Scan {
    pub log: LogId,
    /// Where the log goes on behind what was found so far.
    pub place: Place,
    /// Bytes of a batch that is not whole, from `place.at` to here in `place.segment`.
    pub torn: Option<u64>,
    /// The last batch found: its segment, place and bytes.
    pub last: Option<(u32, u64, Vec<u8>)>,
    weak: bool,
}

impl Scan {
    pub fn new(log: LogId, place: Place) -> Scan {
        Scan { log, place, torn: None, last: None, weak: false }
    }

    /// For the simulation: anything that looks like a batch passes for one where damage is looked for.
    pub fn weaken(&mut self) {
        self.weak = true;
    }

    /// The next segment, whole; the first is the place's. Each good batch is handed to `each`, with the byte that it begins at, which may turn it down.
    pub fn segment(&mut self, number: u32, bytes: &[u8], each: &mut dyn FnMut(u64, &Batch) -> Result<(), &'static str>) -> Result<(), Fault> {
        let found = segment_read(bytes, number)?;
        if found.register != self.log.register {
            return Err(Fault::Other { segment: number, what: "the log is another register's: the cluster file was changed" });
        }
        let damaged = |at: u64, what| Fault::Damaged { segment: number, at, what };
        if found.id != self.log.id {
            return Err(damaged(16, "the segment is another log's"));
        }
        let mut at = if number == self.place.segment { self.place.at } else { BLOCK };
        while let Some(batch) = batch_at(&self.log.id, bytes, at as usize) {
            if self.torn.is_some() {
                return Err(Fault::Damaged { segment: self.place.segment, at: self.place.at, what: "a batch is damaged, and good ones follow it" });
            }
            if batch.number != self.place.number || batch.before != self.place.before {
                return Err(damaged(at, "a good batch is out of its place"));
            }
            each(at, &batch).map_err(|what| damaged(at, what))?;
            self.last = Some((number, at, batch.bytes.to_vec()));
            self.place = self.place.behind(number, at, &batch);
            at = self.place.at;
        }
        self.rest(number, bytes, at)
    }

    /// What lies behind the last good batch of a segment: zeros, or a batch that is torn or damaged.
    fn rest(&mut self, number: u32, bytes: &[u8], at: u64) -> Result<(), Fault> {
        let rest = bytes.get(at as usize..).unwrap_or(&[]);
        let Some(end) = rest.iter().rposition(|b| *b != 0) else { return Ok(()) };
        for behind in (at..bytes.len() as u64).step_by(BLOCK as usize).skip(1) {
            let weakly = self.weak && bytes[behind as usize..].starts_with(BATCH_MAGIC);
            if weakly || batch_at(&self.log.id, bytes, behind as usize).is_some() {
                return Err(Fault::Damaged { segment: number, at, what: "a batch is damaged, and good ones follow it" });
            }
        }
        if self.torn.is_some() || (number != self.place.segment && at != BLOCK) {
            return Err(Fault::Damaged { segment: number, at, what: "bytes stand where no batch can be" });
        }
        self.torn = Some(at + end as u64 + 1);
        self.place = Place { segment: number, at, ..self.place };
        Ok(())
    }
}

#[cfg(test)]
mod tests {
    use super::*;
    use crate::random::Random;

    const LOG: LogId = LogId { id: [7; 16], register: [9; 32] };

    /// A segment with some batches, where each begins and where the last ends.
    fn some_segment(r: &mut Random, batches: usize) -> (Vec<u8>, Vec<usize>, Vec<Vec<u8>>) {
        let mut bytes = segment_head(&LOG, 1);
        bytes.resize(BLOCK as usize, 0);
        let (mut before, mut at, mut payloads) = ([0; 16], vec![], vec![]);
        for number in 1..=batches as u64 {
            let length = r.below(9000) as usize;
            let payload = r.bytes(length);
            at.push(bytes.len());
            let (b, own) = batch_bytes(&LOG.id, &before, number, 5, &payload);
            bytes.extend_from_slice(&b);
            before = own;
            payloads.push(payload);
        }
        at.push(bytes.len());
        bytes.resize(bytes.len() + 4 * BLOCK as usize, 0);
        (bytes, at, payloads)
    }

    fn scan(bytes: &[u8]) -> (Result<(), Fault>, Vec<Vec<u8>>, Scan) {
        let mut s = Scan::new(LOG, Place::first());
        let mut found = vec![];
        let result = s.segment(1, bytes, &mut |_, b| {
            found.push(b.payload.to_vec());
            Ok(())
        });
        (result, found, s)
    }

    #[test]
    fn a_log_is_read_as_it_was_written() {
        let mut r = Random::new(3);
        let (bytes, at, payloads) = some_segment(&mut r, 9);
        let (result, found, s) = scan(&bytes);
        assert_eq!((result, found), (Ok(()), payloads));
        assert_eq!((s.place.number, s.place.at as usize, s.torn), (10, at[9], None));
    }

    #[test]
    fn any_subset_of_the_last_batchs_sectors_may_be_lost() {
        let mut r = Random::new(4);
        for _ in 0..300 {
            let (mut bytes, at, payloads) = some_segment(&mut r, 3);
            let mut lost = 0;
            for sector in (at[2]..at[3]).step_by(512) {
                if r.one_in(2) {
                    lost += bytes[sector..sector + 512].iter().filter(|b| **b != 0).count();
                    let with = if r.one_in(2) { vec![0; 512] } else { r.bytes(512) };
                    bytes[sector..sector + 512].copy_from_slice(&with);
                }
            }
            let (result, found, s) = scan(&bytes);
            assert_eq!(result, Ok(()));
            assert!(found.len() == 3 && lost == 0 || found == payloads[..2] && s.place.at as usize == at[2]);
        }
    }

    #[test]
    fn a_torn_tail_is_cut_at_every_byte() {
        let (bytes, at, payloads) = some_segment(&mut Random::new(5), 2);
        let length = payloads[1].len() + BATCH_HEAD;
        for cut in 0..length {
            let mut b = bytes.clone();
            b[at[1] + cut..].fill(0);
            let (result, found, s) = scan(&b);
            let same = b == bytes;
            assert_eq!((result, found.len()), (Ok(()), if same { 2 } else { 1 }), "cut at {cut}");
            assert!(same || s.place.at as usize == at[1]);
        }
    }

    #[test]
    fn a_bit_turned_in_front_of_the_last_batch_is_damage() {
        let mut r = Random::new(6);
        let (bytes, at, _) = some_segment(&mut r, 4);
        for _ in 0..400 {
            let mut b = bytes.clone();
            let (place, bit) = (r.below(at[3] as u64) as usize, r.below(8));
            b[place] ^= 1 << bit;
            let head = (80..BLOCK as usize).contains(&place);
            assert_eq!(matches!(scan(&b).0, Err(Fault::Damaged { .. })), !head, "byte {place}");
        }
    }

    #[test]
    fn a_batch_inside_a_payload_is_none() {
        // whoever does not know the log's id makes a batch of their own, on a block's beginning inside a torn payload
        let mut payload = vec![1; 3 * BLOCK as usize];
        let (forged, _) = batch_bytes(&[0; 16], &[0; 16], 1 << 40, 5, b"");
        let place = BLOCK as usize - BATCH_HEAD;
        payload[place..place + forged.len()].copy_from_slice(&forged);
        let (batch, _) = batch_bytes(&LOG.id, &[0; 16], 1, 5, &payload);
        let mut bytes = segment_head(&LOG, 1);
        bytes.resize(BLOCK as usize, 0);
        bytes.extend_from_slice(&batch);
        bytes[BLOCK as usize + 100] ^= 1;
        let (result, found, s) = scan(&bytes);
        assert_eq!((result, found.len(), s.torn.is_some()), (Ok(()), 0, true));
        // a wrong node, for which anything that looks like a batch is one, takes the torn batch for a damaged one
        let mut weak = Scan::new(LOG, Place::first());
        weak.weaken();
        let damaged = Fault::Damaged { segment: 1, at: BLOCK, what: "a batch is damaged, and good ones follow it" };
        assert_eq!(weak.segment(1, &bytes, &mut |_, _| Ok(())), Err(damaged));
    }
}
