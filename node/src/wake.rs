//! Wakes a thread that waits in `poll`: the waiting side has one end of a pair of sockets, whoever has something for it writes a byte to the other.

use std::io::{self, Read, Write};
use std::os::unix::io::{AsRawFd, RawFd};
use std::os::unix::net::UnixStream;
use std::sync::Arc;

pub struct Sleeper(UnixStream);

#[derive(Clone)]
pub struct Waker(Arc<UnixStream>);

pub fn pair() -> io::Result<(Waker, Sleeper)> {
    let (bell, ear) = UnixStream::pair()?;
    bell.set_nonblocking(true)?;
    ear.set_nonblocking(true)?;
    Ok((Waker(Arc::new(bell)), Sleeper(ear)))
}

impl Waker {
    /// A pair that is full wakes just as well, so that nothing is lost if a byte does not fit.
    pub fn wake(&self) {
        let _ = (&*self.0).write(&[1]);
    }
}

impl Sleeper {
    pub fn fd(&self) -> RawFd {
        self.0.as_raw_fd()
    }

    /// Takes the bytes, so that the next `poll` waits again. Called before looking at what came.
    pub fn clear(&self) {
        let mut room = [0; 256];
        // what is left, should there be more, wakes the next `poll` too
        let _ = (&self.0).read(&mut room);
    }
}
