//! A disk in memory: of each file what the disk has, what the cache has, and which sectors differ; of names what the folder on the disk has and
//! which operations are pending. Operations are carried out in small steps, and a crash may fall between any two of them.
use crate::events::{DiskAnswer, DiskError, DiskOp};
use crate::random::Random;
use std::collections::{BTreeMap, BTreeSet, VecDeque};

const SECTOR: usize = 512;

#[derive(Clone, Default)]
struct File {
    cache: Vec<u8>,
    durable: Vec<u8>,
    /// Sectors that the cache has and the disk may not have.
    dirty: BTreeSet<usize>,
    /// Sectors whose sync failed: the cache passes for clean, and the disk does not have them.
    failed: BTreeSet<usize>,
}

impl File {
    fn write(&mut self, offset: usize, bytes: &[u8]) {
        let end = offset + bytes.len();
        if self.cache.len() < end {
            self.cache.resize(end, 0);
        }
        self.cache[offset..end].copy_from_slice(bytes);
        self.dirty.extend(offset / SECTOR..end.div_ceil(SECTOR));
    }

    fn sector(&self, number: usize) -> &[u8] {
        let from = (number * SECTOR).min(self.cache.len());
        &self.cache[from..(from + SECTOR).min(self.cache.len())]
    }

    fn store(&mut self, number: usize, bytes: &[u8]) {
        let from = number * SECTOR;
        if self.durable.len() < from + bytes.len() {
            self.durable.resize(from + bytes.len(), 0);
        }
        self.durable[from..from + bytes.len()].copy_from_slice(bytes);
    }

    fn sync(&mut self) {
        for number in std::mem::take(&mut self.dirty) {
            let bytes = self.sector(number).to_vec();
            self.store(number, &bytes);
        }
        let length = self.cache.len();
        self.durable.resize(length, 0);
    }

    /// Clean pages leave the cache: what is read next is what the disk has.
    fn drop_pages(&mut self) {
        let dirty: Vec<(usize, Vec<u8>)> = self.dirty.iter().map(|n| (*n, self.sector(*n).to_vec())).collect();
        self.cache = self.durable.clone();
        self.failed.clear();
        for (number, bytes) in dirty {
            self.write(number * SECTOR, &bytes);
        }
    }

    /// The machine stops: each sector that was not synced is old, new or garbage.
    fn power_cut(&mut self, r: &mut Random) {
        for number in std::mem::take(&mut self.dirty) {
            let bytes = self.sector(number).to_vec();
            match r.below(5) {
                0 | 1 => {}
                2 | 3 => self.store(number, &bytes),
                _ => self.store(number, &r.bytes(bytes.len())),
            }
        }
        self.failed.clear();
        self.cache = self.durable.clone();
    }
}

#[derive(Clone)]
enum NameOp {
    Put(String, u64),
    Rename(String, String),
    Remove(String),
}

/// One small step of an operation.
#[derive(Clone, Debug)]
pub enum Micro {
    List,
    Read { file: String, offset: u64, length: u64 },
    Create { file: String, bytes: Vec<u8>, length: u64 },
    Write { file: String, offset: u64, bytes: Vec<u8> },
    Sync { file: String },
    Drop { file: String },
    Rename { from: String, to: String },
    SyncFolder,
    Unlink { file: String },
}

pub fn micros(op: &DiskOp) -> VecDeque<Micro> {
    let file = |f: &String| f.clone();
    let steps = match op {
        DiskOp::List => vec![Micro::List],
        DiskOp::Settle { file: f } => vec![Micro::Sync { file: file(f) }, Micro::Drop { file: file(f) }],
        DiskOp::SettleFolder => vec![Micro::SyncFolder],
        DiskOp::Read { file: f, offset, length } => vec![Micro::Read { file: file(f), offset: *offset, length: *length }],
        DiskOp::Commit { file: f, offset, bytes } => {
            vec![Micro::Write { file: file(f), offset: *offset, bytes: bytes.clone() }, Micro::Sync { file: file(f) }]
        }
        DiskOp::Replace { file: f, bytes, length } => {
            let new = format!("{f}.new");
            vec![
                Micro::Create { file: new.clone(), bytes: bytes.clone(), length: *length },
                Micro::Sync { file: new.clone() },
                Micro::Rename { from: new, to: file(f) },
                Micro::SyncFolder,
            ]
        }
        DiskOp::Unlink { file: f } => vec![Micro::Unlink { file: file(f) }],
    };
    steps.into()
}

#[derive(Clone, Default)]
pub struct Disk {
    files: BTreeMap<u64, File>,
    names: BTreeMap<String, u64>,
    durable_names: BTreeMap<String, u64>,
    pending: Vec<NameOp>,
    next: u64,
    /// Faults: no space for new files; the next sync fails; syncs do nothing and say that all is well.
    pub full: bool,
    pub fail_sync: bool,
    pub lying: bool,
}

fn apply(names: &mut BTreeMap<String, u64>, op: &NameOp) {
    match op {
        NameOp::Put(name, inode) => {
            names.insert(name.clone(), *inode);
        }
        NameOp::Rename(from, to) => {
            if let Some(inode) = names.remove(from) {
                names.insert(to.clone(), inode);
            }
        }
        NameOp::Remove(name) => {
            names.remove(name);
        }
    }
}

impl Disk {
    fn name(&mut self, op: NameOp) {
        apply(&mut self.names, &op);
        self.pending.push(op);
    }

    fn file(&mut self, name: &str) -> Result<&mut File, DiskError> {
        let missing = DiskError { full: false, text: format!("{name}: no such file") };
        let inode = self.names.get(name).ok_or(missing.clone())?;
        self.files.get_mut(inode).ok_or(missing)
    }

    pub fn step(&mut self, micro: &Micro) -> Result<DiskAnswer, DiskError> {
        match micro {
            Micro::List => return Ok(self.list()),
            Micro::Read { file, offset, length } => return self.read(file, *offset, *length),
            Micro::Create { file, bytes, length } => self.create(file, bytes, *length)?,
            Micro::Write { file, offset, bytes } => self.file(file)?.write(*offset as usize, bytes),
            Micro::Sync { file } => self.sync(file)?,
            Micro::Drop { file } => self.file(file)?.drop_pages(),
            Micro::Rename { from, to } => {
                self.file(from)?;
                self.name(NameOp::Rename(from.clone(), to.clone()));
            }
            Micro::SyncFolder => {
                self.pending.clear();
                self.durable_names = self.names.clone();
            }
            Micro::Unlink { file } => self.name(NameOp::Remove(file.clone())),
        }
        Ok(DiskAnswer::Done)
    }

    fn list(&self) -> DiskAnswer {
        let length = |inode: &u64| self.files.get(inode).map_or(0, |f| f.cache.len() as u64);
        DiskAnswer::Names(self.names.iter().map(|(n, i)| (n.clone(), length(i))).collect())
    }

    fn read(&mut self, file: &str, offset: u64, length: u64) -> Result<DiskAnswer, DiskError> {
        let f = self.file(file)?;
        let from = (offset as usize).min(f.cache.len());
        let to = from.saturating_add(length.min(1 << 40) as usize).min(f.cache.len());
        Ok(DiskAnswer::Bytes(f.cache[from..to].to_vec()))
    }

    fn create(&mut self, file: &str, bytes: &[u8], length: u64) -> Result<(), DiskError> {
        if self.full {
            return Err(DiskError { full: true, text: format!("{file}: no space") });
        }
        self.next += 1;
        let inode = self.next;
        let mut f = File::default();
        f.write(0, bytes);
        let zeros = (length as usize).saturating_sub(bytes.len());
        f.write(bytes.len(), &vec![0; zeros]);
        self.files.insert(inode, f);
        self.name(NameOp::Put(file.to_string(), inode));
        Ok(())
    }

    /// As the faults that are on have it.
    fn sync(&mut self, file: &str) -> Result<(), DiskError> {
        let (fail, lying) = (std::mem::take(&mut self.fail_sync), self.lying);
        let f = self.file(file)?;
        if fail {
            f.failed = std::mem::take(&mut f.dirty);
            return Err(DiskError { full: false, text: format!("{file}: sync failed") });
        }
        if !lying {
            f.sync();
        }
        Ok(())
    }

    /// A write that the end of the process cut short: a part of its pages is in the cache.
    pub fn part(&mut self, micro: &Micro, r: &mut Random) {
        if let Micro::Write { file, offset, bytes } = micro {
            let count = r.below(bytes.len() as u64 + 1) as usize;
            if let Ok(f) = self.file(file) {
                f.write(*offset as usize, &bytes[..count]);
            }
        }
    }

    /// The machine stops: of what was pending anything may be there.
    pub fn power_cut(&mut self, r: &mut Random) {
        for op in std::mem::take(&mut self.pending) {
            if r.one_in(2) {
                apply(&mut self.durable_names, &op);
            }
        }
        self.names = self.durable_names.clone();
        let kept: BTreeSet<u64> = self.names.values().copied().collect();
        self.files.retain(|inode, _| kept.contains(inode));
        self.files.values_mut().for_each(|f| f.power_cut(r));
    }

    /// Turns a bit of a file, on the disk and in the cache.
    pub fn rot(&mut self, name: &str, at: usize, bit: u64) {
        if let Ok(f) = self.file(name) {
            for bytes in [&mut f.cache, &mut f.durable] {
                if let Some(b) = bytes.get_mut(at) {
                    *b ^= 1 << bit;
                }
            }
        }
    }

    /// All files by name, as the cache has them.
    pub fn read_all(&self) -> BTreeMap<String, Vec<u8>> {
        let bytes = |inode: &u64| self.files.get(inode).map_or(vec![], |f| f.cache.clone());
        self.names.iter().map(|(n, i)| (n.clone(), bytes(i))).collect()
    }
}
