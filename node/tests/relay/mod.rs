//! A relay in front of a server: passes connections on, and cuts or slows them when it is told to.

use std::io::{Read, Write};
use std::net::{Shutdown, TcpListener, TcpStream};
use std::sync::{Arc, Mutex};
use std::time::{Duration, Instant};

#[derive(Clone, Copy)]
struct Trouble {
    cut_until: Instant,
    slow_until: Instant,
    delay: Duration,
}

pub struct Relay {
    pub port: u16,
    trouble: Arc<Mutex<Trouble>>,
}

const SLOW: Duration = Duration::from_secs(1);
const LOOK: Duration = Duration::from_millis(50);

impl Relay {
    /// Passes on to a port of this machine. Its threads end with the test.
    pub fn new(to: u16) -> Relay {
        let listener = TcpListener::bind("127.0.0.1:0").expect("a port");
        let port = listener.local_addr().expect("an address").port();
        let trouble = Arc::new(Mutex::new(Trouble { cut_until: Instant::now(), slow_until: Instant::now(), delay: Duration::ZERO }));
        let shared = trouble.clone();
        std::thread::spawn(move || {
            for caller in listener.incoming().flatten() {
                let Ok(server) = TcpStream::connect(("127.0.0.1", to)) else { continue };
                for (from, into) in [(caller.try_clone(), server.try_clone()), (server.try_clone(), caller.try_clone())] {
                    let (Ok(from), Ok(into), shared) = (from, into, shared.clone()) else { continue };
                    std::thread::spawn(move || pass(from, into, &shared));
                }
            }
        });
        Relay { port, trouble }
    }

    /// Cuts all connections for a while, and slows those that come for a second more.
    pub fn disturb(&self, cut: Duration, delay: Duration) {
        let cut_until = Instant::now() + cut;
        *self.trouble.lock().expect("a lock") = Trouble { cut_until, slow_until: cut_until + SLOW, delay };
    }
}

fn pass(mut from: TcpStream, mut into: TcpStream, trouble: &Mutex<Trouble>) {
    let mut room = [0; 16 * 1024];
    let _ = from.set_read_timeout(Some(LOOK));
    loop {
        let got = from.read(&mut room);
        let (now, Trouble { cut_until, slow_until, delay }) = (Instant::now(), *trouble.lock().expect("a lock"));
        if now < cut_until {
            break;
        }
        match got {
            Ok(0) => break,
            Ok(n) => {
                if now < slow_until {
                    std::thread::sleep(delay);
                }
                if into.write_all(&room[..n]).is_err() {
                    break;
                }
            }
            Err(e) if matches!(e.kind(), std::io::ErrorKind::WouldBlock | std::io::ErrorKind::TimedOut) => {}
            Err(_) => break,
        }
    }
    let _ = from.shutdown(Shutdown::Both);
    let _ = into.shutdown(Shutdown::Both);
}
