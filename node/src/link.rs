//! A link: one TLS connection to a partner that was let in at the door, read and written without waiting.

use openssl::ssl::{ErrorCode, SslStream};
use std::io;
use std::net::TcpStream;
use std::os::unix::io::{AsRawFd, RawFd};

/// One read of OpenSSL gives at most a record.
const RECORD: usize = 16 * 1024;
/// A round takes at most so many bytes from a link, so that nobody waits for a flood.
const ROUND: usize = 256 * 1024;
/// A partner that does not take what it is sent is not read while so much waits for it.
const OUTPUT_FULL: usize = 1024 * 1024;

pub struct Link {
    stream: SslStream<TcpStream>,
    output: Vec<u8>,
    written: usize,
    wants_write: bool,
    /// Bytes inside TLS, in and out.
    pub taken: u64,
    pub sent: u64,
}

/// What a round of reading found.
pub struct Taken {
    pub bytes: Vec<u8>,
    /// More may be there that `poll` does not tell of.
    pub more: bool,
    /// Why the link is at its end, if it is.
    pub end: Option<String>,
}

fn told(e: openssl::ssl::Error) -> String {
    match e.io_error() {
        Some(io) => io.to_string(),
        None if e.code() == ErrorCode::ZERO_RETURN => "closed by the partner".into(),
        None => e.to_string(),
    }
}

impl Link {
    pub fn new(stream: SslStream<TcpStream>) -> io::Result<Link> {
        stream.get_ref().set_nonblocking(true)?;
        stream.get_ref().set_nodelay(true)?;
        Ok(Link { stream, output: vec![], written: 0, wants_write: false, taken: 0, sent: 0 })
    }

    pub fn fd(&self) -> RawFd {
        self.stream.get_ref().as_raw_fd()
    }

    pub fn wants_write(&self) -> bool {
        self.wants_write
    }

    /// Whether so much waits to be sent that nothing more is to be taken.
    pub fn is_full(&self) -> bool {
        self.waiting() > OUTPUT_FULL
    }

    /// Bytes that wait to be sent.
    pub fn waiting(&self) -> usize {
        self.output.len() - self.written
    }

    pub fn take(&mut self) -> Taken {
        let mut bytes = vec![];
        let mut room = [0; RECORD];
        while bytes.len() < ROUND {
            match self.stream.ssl_read(&mut room) {
                Ok(0) => return self.took(bytes, false, Some("closed by the partner".into())),
                Ok(n) => bytes.extend_from_slice(&room[..n]),
                Err(e) if e.code() == ErrorCode::WANT_READ => return self.took(bytes, false, None),
                Err(e) if e.code() == ErrorCode::WANT_WRITE => {
                    self.wants_write = true;
                    return self.took(bytes, false, None);
                }
                Err(e) => return self.took(bytes, false, Some(told(e))),
            }
        }
        self.took(bytes, true, None)
    }

    fn took(&mut self, bytes: Vec<u8>, more: bool, end: Option<String>) -> Taken {
        self.taken += bytes.len() as u64;
        Taken { bytes, more, end }
    }

    pub fn put(&mut self, bytes: &[u8]) {
        self.output.extend_from_slice(bytes);
    }

    /// Sends what the connection takes now.
    pub fn flush(&mut self) -> Result<(), String> {
        self.wants_write = false;
        while self.written < self.output.len() {
            match self.stream.ssl_write(&self.output[self.written..]) {
                Ok(n) => {
                    self.written += n;
                    self.sent += n as u64;
                }
                Err(e) if e.code() == ErrorCode::WANT_WRITE || e.code() == ErrorCode::WANT_READ => {
                    self.wants_write = e.code() == ErrorCode::WANT_WRITE;
                    break;
                }
                Err(e) => return Err(told(e)),
            }
        }
        if self.written == self.output.len() || self.written > OUTPUT_FULL {
            self.output.drain(..self.written);
            self.written = 0;
        }
        Ok(())
    }

    /// Says that nothing more comes. What the partner has sent is to be read, or what was sent last may not reach it.
    pub fn finish(&mut self) {
        let _ = self.stream.shutdown();
        let _ = self.stream.get_ref().shutdown(std::net::Shutdown::Write);
    }
}
