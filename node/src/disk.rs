//! The disk: two threads, one for the log's batches and one for all that takes long, each of which carries out operations in their order and tells the
//! loop of each when it is wholly done.

use crate::wake::Waker;
use nix::errno::Errno;
use nix::fcntl::{posix_fadvise, PosixFadviseAdvice};
use semduoli::events::{DiskAnswer, DiskError, DiskId, DiskOp, Lane};
use std::fs::{self, File, OpenOptions};
use std::io::{self, Read, Seek, SeekFrom};
use std::os::unix::fs::{FileExt, OpenOptionsExt};
use std::os::unix::io::AsRawFd;
use std::path::{Path, PathBuf};
use std::sync::mpsc::{channel, Sender};
use std::thread;

/// Zeros are written in pieces of this size.
const PIECE: usize = 128 << 10;
/// What a disk writes whole or not at all.
const SECTOR: usize = 512;
/// What a file that is being made is called until it is whole.
const UNFINISHED: &str = ".new";

/// A fault that a test asks for: what happens at the commit of this number, counted from 1 since the program's start.
#[derive(Clone, Debug, PartialEq)]
pub struct Fault {
    kind: FaultKind,
    commit: u64,
}

#[derive(Clone, Copy, Debug, PartialEq)]
enum FaultKind {
    /// The program ends before anything is written.
    Lost,
    /// It ends when some of the sectors are written, and some that are not zeros are not.
    Torn,
    /// It ends between write and sync.
    Written,
    /// It ends behind the sync, before anybody knows of it.
    Synced,
    /// The sync fails.
    SyncFails,
    /// There is no space left.
    Full,
}

pub const FAULT_VARIABLE: &str = "SEMDUOLI_TEST_FAULT";

impl Fault {
    /// From text such as `torn:17`.
    pub fn parse(text: &str) -> Option<Fault> {
        let (kind, commit) = text.split_once(':')?;
        let kind = match kind {
            "lost" => FaultKind::Lost,
            "torn" => FaultKind::Torn,
            "written" => FaultKind::Written,
            "synced" => FaultKind::Synced,
            "sync-fails" => FaultKind::SyncFails,
            "full" => FaultKind::Full,
            _ => return None,
        };
        Some(Fault { kind, commit: commit.parse().ok().filter(|n| *n > 0)? })
    }
}

/// An operation that is done, or failed.
pub struct Done {
    pub id: DiskId,
    pub result: Result<DiskAnswer, DiskError>,
}

pub struct Disk {
    log: Sender<(DiskId, DiskOp)>,
    side: Sender<(DiskId, DiskOp)>,
}

impl Disk {
    pub fn start(folder: &Path, fault: Option<Fault>, done: Sender<Done>, waker: Waker) -> io::Result<Disk> {
        let lane = |name: &str, fault: Option<Fault>| {
            let (orders, inbox) = channel::<(DiskId, DiskOp)>();
            let (done, waker) = (done.clone(), waker.clone());
            let mut worker = Worker::new(folder, fault);
            thread::Builder::new().name(name.into()).spawn(move || {
                for (id, op) in inbox {
                    let result = worker.carry_out(op);
                    if done.send(Done { id, result }).is_err() {
                        return;
                    }
                    waker.wake();
                }
            })?;
            Ok::<_, io::Error>(orders)
        };
        Ok(Disk { log: lane("log", fault)?, side: lane("side", None)? })
    }

    pub fn order(&self, id: DiskId, lane: Lane, op: DiskOp) {
        let orders = match lane {
            Lane::Log => &self.log,
            Lane::Side => &self.side,
        };
        // the threads end only with the program
        let _ = orders.send((id, op));
    }
}

/// Carries out a lane's operations.
pub struct Worker {
    folder: PathBuf,
    fault: Option<Fault>,
    commits: u64,
    /// The segment that was written last, which the next batch is for too, as a rule.
    open: Option<(String, File)>,
}

fn error(what: &str, e: io::Error) -> DiskError {
    let full = matches!(e.raw_os_error().map(Errno::from_i32), Some(Errno::ENOSPC | Errno::EDQUOT));
    DiskError { full, text: format!("{what}: {e}") }
}

impl Worker {
    pub fn new(folder: &Path, fault: Option<Fault>) -> Worker {
        Worker { folder: folder.to_path_buf(), fault, commits: 0, open: None }
    }

    pub fn carry_out(&mut self, op: DiskOp) -> Result<DiskAnswer, DiskError> {
        if !matches!(op, DiskOp::Commit { .. }) {
            self.open = None;
        }
        match op {
            DiskOp::List => self.list().map(DiskAnswer::Names).map_err(|e| error("the folder can't be listed", e)),
            DiskOp::Settle { file } => self.settle(&file).map_err(|e| error(&format!("{file} can't be synced"), e)),
            DiskOp::SettleFolder => self.sync_folder().map_err(|e| error("the folder can't be synced", e)),
            DiskOp::Read { file, offset, length } => {
                self.read(&file, offset, length).map(DiskAnswer::Bytes).map_err(|e| error(&format!("{file} can't be read"), e))
            }
            DiskOp::Commit { file, offset, bytes } => self.commit(&file, offset, &bytes),
            DiskOp::Replace { file, bytes, length } => self.replace(&file, &bytes, length).map_err(|e| error(&format!("{file} can't be made"), e)),
            DiskOp::Unlink { file } => match fs::remove_file(self.folder.join(&file)) {
                Err(e) if e.kind() != io::ErrorKind::NotFound => Err(error(&format!("{file} can't be removed"), e)),
                _ => Ok(DiskAnswer::Done),
            },
        }
    }

    fn list(&self) -> io::Result<Vec<(String, u64)>> {
        let mut names = vec![];
        for entry in fs::read_dir(&self.folder)? {
            let entry = entry?;
            let metadata = entry.metadata()?;
            // a name that is no text is none of ours
            if let (true, Ok(name)) = (metadata.is_file(), entry.file_name().into_string()) {
                names.push((name, metadata.len()));
            }
        }
        names.sort();
        Ok(names)
    }

    fn settle(&self, file: &str) -> io::Result<DiskAnswer> {
        let file = File::open(self.folder.join(file))?;
        file.sync_all()?;
        posix_fadvise(file.as_raw_fd(), 0, 0, PosixFadviseAdvice::POSIX_FADV_DONTNEED).map_err(io::Error::from)?;
        Ok(DiskAnswer::Done)
    }

    fn sync_folder(&self) -> io::Result<DiskAnswer> {
        File::open(&self.folder)?.sync_all()?;
        Ok(DiskAnswer::Done)
    }

    fn read(&self, file: &str, offset: u64, length: u64) -> io::Result<Vec<u8>> {
        let mut file = File::open(self.folder.join(file))?;
        file.seek(SeekFrom::Start(offset))?;
        let mut bytes = vec![];
        file.take(length).read_to_end(&mut bytes)?;
        Ok(bytes)
    }

    fn commit(&mut self, name: &str, offset: u64, bytes: &[u8]) -> Result<DiskAnswer, DiskError> {
        self.commits += 1;
        let commits = self.commits;
        let fault = self.fault.as_ref().filter(|f| f.commit == commits).map(|f| f.kind);
        let unwritten = |e| error(&format!("{name} can't be written at byte {offset}"), e);
        let file = match self.open.take().filter(|(open, _)| open == name) {
            Some((_, file)) => file,
            None => OpenOptions::new().write(true).open(self.folder.join(name)).map_err(unwritten)?,
        };
        match fault {
            Some(FaultKind::Lost) => std::process::abort(),
            Some(FaultKind::Torn) => {
                let _ = write_some(&file, offset, bytes, commits);
                std::process::abort();
            }
            Some(FaultKind::Full) => return Err(unwritten(Errno::ENOSPC.into())),
            _ => {}
        }
        file.write_all_at(bytes, offset).map_err(unwritten)?;
        if fault == Some(FaultKind::Written) {
            std::process::abort();
        }
        let synced = if fault == Some(FaultKind::SyncFails) { Err(Errno::EIO.into()) } else { file.sync_data() };
        synced.map_err(|e| error(&format!("{name} can't be synced"), e))?;
        if fault == Some(FaultKind::Synced) {
            std::process::abort();
        }
        self.open = Some((name.to_string(), file));
        Ok(DiskAnswer::Done)
    }

    fn replace(&self, name: &str, bytes: &[u8], length: u64) -> io::Result<DiskAnswer> {
        let unfinished = self.folder.join(format!("{name}{UNFINISHED}"));
        let written = fill(&unfinished, bytes, length);
        if let Err(e) = written {
            // so that a disk that is full does not stay fuller than before
            let _ = fs::remove_file(&unfinished);
            return Err(e);
        }
        fs::rename(&unfinished, self.folder.join(name))?;
        self.sync_folder()
    }
}

/// Writes the bytes and zeros behind them, and syncs them.
fn fill(path: &Path, bytes: &[u8], length: u64) -> io::Result<()> {
    let file = OpenOptions::new().write(true).create(true).truncate(true).mode(0o600).open(path)?;
    file.write_all_at(bytes, 0)?;
    let zeros = vec![0; PIECE];
    let mut at = bytes.len() as u64;
    while at < length {
        let piece = zeros.len().min((length - at) as usize);
        file.write_all_at(&zeros[..piece], at)?;
        at += piece as u64;
    }
    file.sync_all()
}

/// For tests: some of the sectors, and not only the first ones, as a machine that loses power may leave them. One that is not zeros is lost, and one is
/// written; of a batch with one such sector half of that.
fn write_some(file: &File, offset: u64, bytes: &[u8], number: u64) -> io::Result<()> {
    let seed = format!("{} {number}", std::process::id());
    let choice = openssl::sha::sha256(seed.as_bytes());
    let used = bytes.iter().rposition(|b| *b != 0).map_or(0, |last| last + 1);
    let sectors = used.div_ceil(SECTOR);
    if sectors < 2 {
        return file.write_all_at(&bytes[..used / 2], offset);
    }
    let lost = usize::from(choice[0]) % sectors;
    let written = (lost + 1 + usize::from(choice[1]) % (sectors - 1)) % sectors;
    for (i, sector) in bytes.chunks(SECTOR).enumerate() {
        if i == written || (i != lost && choice[i / 8 % choice.len()] >> (i % 8) & 1 == 1) {
            file.write_all_at(sector, offset + (i * SECTOR) as u64)?;
        }
    }
    Ok(())
}

#[cfg(test)]
mod tests {
    use super::*;

    fn worker(name: &str, fault: Option<Fault>) -> Worker {
        let folder = std::env::temp_dir().join(format!("semduoli-disk-{name}-{}", std::process::id()));
        fs::create_dir_all(&folder).unwrap();
        Worker::new(&folder, fault)
    }

    #[test]
    fn what_is_made_and_written_is_read_back() {
        let mut w = worker("back", None);
        let file = "log-1".to_string();
        let make = DiskOp::Replace { file: file.clone(), bytes: b"head".to_vec(), length: 3 * PIECE as u64 + 5 };
        assert_eq!(w.carry_out(make), Ok(DiskAnswer::Done));
        let commit = DiskOp::Commit { file: file.clone(), offset: 4096, bytes: b"batch".to_vec() };
        assert_eq!(w.carry_out(commit), Ok(DiskAnswer::Done));
        assert_eq!(w.carry_out(DiskOp::Settle { file: file.clone() }), Ok(DiskAnswer::Done));
        assert_eq!(w.carry_out(DiskOp::SettleFolder), Ok(DiskAnswer::Done));
        let read = DiskOp::Read { file: file.clone(), offset: 4095, length: 7 };
        assert_eq!(w.carry_out(read), Ok(DiskAnswer::Bytes(b"\0batch\0".to_vec())));
        let beyond = DiskOp::Read { file: file.clone(), offset: 3 * PIECE as u64 + 3, length: 100 };
        assert_eq!(w.carry_out(beyond), Ok(DiskAnswer::Bytes(vec![0, 0])));
        assert_eq!(w.carry_out(DiskOp::List), Ok(DiskAnswer::Names(vec![(file.clone(), 3 * PIECE as u64 + 5)])));
        assert_eq!(w.carry_out(DiskOp::Unlink { file: file.clone() }), Ok(DiskAnswer::Done));
        assert_eq!(w.carry_out(DiskOp::Unlink { file: file.clone() }), Ok(DiskAnswer::Done));
        assert!(w.carry_out(DiskOp::Commit { file, offset: 0, bytes: vec![1] }).unwrap_err().text.contains("can't be written"));
        fs::remove_dir_all(&w.folder).unwrap();
    }

    #[test]
    fn a_torn_batch_is_there_in_part() {
        let w = worker("torn", None);
        let path = w.folder.join("log");
        for number in 0..400 {
            let length = 2 + number as usize * 7;
            let mut bytes = vec![1; length];
            bytes.resize(length.next_multiple_of(4096), 0);
            fs::write(&path, vec![0; bytes.len()]).unwrap();
            let file = OpenOptions::new().write(true).open(&path).unwrap();
            write_some(&file, 0, &bytes, number).unwrap();
            let found = fs::read(&path).unwrap();
            assert!(found.contains(&1) && found != bytes, "{length}");
        }
        fs::remove_dir_all(&w.folder).unwrap();
    }

    #[test]
    fn faults_come_at_their_commit() {
        let mut w = worker("faults", Fault::parse("sync-fails:2"));
        fs::write(w.folder.join("log"), b"").unwrap();
        let commit = DiskOp::Commit { file: "log".into(), offset: 0, bytes: b"x".to_vec() };
        assert!(w.carry_out(commit.clone()).is_ok());
        let failed = w.carry_out(commit.clone()).unwrap_err();
        assert!(!failed.full && failed.text.contains("can't be synced"), "{failed:?}");
        (w.fault, w.commits) = (Fault::parse("full:1"), 0);
        assert!(w.carry_out(commit).unwrap_err().full);
        for wrong in ["", "torn", "torn:0", "torn:x", "tear:1"] {
            assert_eq!(Fault::parse(wrong), None);
        }
        fs::remove_dir_all(&w.folder).unwrap();
    }
}
