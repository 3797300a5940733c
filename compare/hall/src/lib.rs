//! The hall program's text protocol: all parties of a register on one machine.

pub mod accession;
pub mod decode;

use register::client::{Client, Outcome};
use register::server::Server;
use register::{Params, Party, Refusal, Send, Variant};
use std::io::{self, BufRead, Write};

/// The parties of one register. Place j − 1 is server j's, or client j's.
pub struct Hall {
    p: Params,
    servers: Vec<Server>,
    clients: Vec<Client>,
    /// The value of each client's open write.
    values: Vec<Vec<u8>>,
}

/// A decimal number without leading zeros; what is too large for any party counts as huge.
fn number(text: &[u8]) -> Option<usize> {
    if text.is_empty() || !text.iter().all(u8::is_ascii_digit) || (text.len() > 1 && text[0] == b'0') {
        return None;
    }
    let digit = |sum: usize, d: &u8| sum.saturating_mul(10).saturating_add((d - b'0') as usize);
    Some(text.iter().fold(0, digit))
}

/// Lower-case hexadecimal without spaces, `-` for no bytes.
fn hex(text: &[u8]) -> Option<Vec<u8>> {
    if text == b"-" {
        return Some(Vec::new());
    }
    if text.is_empty() || text.len() % 2 == 1 {
        return None;
    }
    let digit = |c: u8| match c {
        b'0'..=b'9' => Some(c - b'0'),
        b'a'..=b'f' => Some(c - b'a' + 10),
        _ => None,
    };
    text.chunks(2).map(|pair| Some(digit(pair[0])? << 4 | digit(pair[1])?)).collect()
}

pub fn to_hex(bytes: &[u8]) -> String {
    if bytes.is_empty() {
        return "-".to_string();
    }
    let mut text = String::with_capacity(2 * bytes.len());
    for byte in bytes {
        for half in [byte >> 4, byte & 15] {
            text.push(char::from_digit(half as u32, 16).unwrap());
        }
    }
    text
}

fn party(class: &[u8], number_text: &[u8]) -> Option<Party> {
    let number = number(number_text)?;
    match class {
        b"c" => Some(Party::Client(number)),
        b"s" => Some(Party::Server(number)),
        _ => None,
    }
}

fn print_sends(out: &mut dyn Write, sends: &[Send]) -> io::Result<()> {
    writeln!(out, "step")?;
    for send in sends {
        let (class, number) = match send.to {
            Party::Client(i) => ('c', i),
            Party::Server(j) => ('s', j),
        };
        writeln!(out, "> {class} {number} {}", to_hex(&send.frame))?;
    }
    Ok(())
}

fn refuse(out: &mut dyn Write, refusal: Refusal) -> io::Result<()> {
    writeln!(out, "refused {}", refusal.number())
}

fn print_client(out: &mut dyn Write, step: Result<register::client::Step, Refusal>) -> io::Result<()> {
    let step = match step {
        Ok(step) => step,
        Err(refusal) => return refuse(out, refusal),
    };
    print_sends(out, &step.sends)?;
    match step.outcome {
        Outcome::Going => Ok(()),
        Outcome::Value(stamp, value) => {
            let register::frame::Stamp { time, writer, sequence } = stamp;
            writeln!(out, "value {} {time} {writer} {sequence}", to_hex(&value))
        }
        Outcome::Disagreement => writeln!(out, "disagreement"),
        Outcome::Written => writeln!(out, "written"),
        Outcome::OutOfStamps => writeln!(out, "out of stamps"),
    }
}

impl Hall {
    fn open(p: Params, initial: &[u8], variant: Variant) -> Result<Hall, Refusal> {
        p.check_parties()?;
        let server = |j| Server::fresh(p, j, initial).map(|server| server.with_variant(variant));
        let client = |i| Client::fresh(p, i).map(|client| client.with_variant(variant));
        let servers = (1..=p.n).map(server).collect::<Result<Vec<Server>, Refusal>>()?;
        let clients = (1..=8).map(client).collect::<Result<Vec<Client>, Refusal>>()?;
        Ok(Hall { p, servers, clients, values: vec![Vec::new(); 8] })
    }

    /// A call on a party, or nothing if the line has another form.
    fn call(&mut self, fields: &[&[u8]], out: &mut dyn Write) -> Option<io::Result<()>> {
        match fields {
            [b"S", j, class, i, frame] => {
                let (j, from, frame) = (number(j)?, party(class, i)?, hex(frame)?);
                let Some(server) = j.checked_sub(1).and_then(|j| self.servers.get_mut(j)) else {
                    return Some(refuse(out, Refusal::Parties));
                };
                Some(match server.deliver(from, &frame, usize::MAX) {
                    Ok(step) => print_sends(out, &step.sends),
                    Err(refusal) => refuse(out, refusal),
                })
            }
            [b"C", i, rest @ ..] => {
                let i = number(i)?.wrapping_sub(1);
                match rest {
                    [b"read"] => {
                        let Some(client) = self.clients.get_mut(i) else {
                            return Some(refuse(out, Refusal::Parties));
                        };
                        Some(print_client(out, client.begin_read(usize::MAX)))
                    }
                    [b"write", value] => {
                        let value = hex(value)?;
                        let Some(client) = self.clients.get_mut(i) else {
                            return Some(refuse(out, Refusal::Parties));
                        };
                        let step = client.begin_write(&value, usize::MAX);
                        if step.is_ok() {
                            self.values[i] = value;
                        }
                        Some(print_client(out, step))
                    }
                    [class, j, frame] => {
                        let (from, frame) = (party(class, j)?, hex(frame)?);
                        let Some(client) = self.clients.get_mut(i) else {
                            return Some(refuse(out, Refusal::Parties));
                        };
                        let step = client.deliver(from, &frame, &self.values[i], usize::MAX);
                        Some(print_client(out, step))
                    }
                    _ => None,
                }
            }
            _ => None,
        }
    }

    pub fn params(&self) -> Params {
        self.p
    }
}

/// Opens a hall by its first line, or nothing if the line has another form.
fn first(fields: &[&[u8]], variant: Variant) -> Option<Result<Hall, Refusal>> {
    let [b"hall", n, t, k, l, initial] = fields else { return None };
    let p = Params::new(number(n)?, number(t)?, number(k)?, number(l)?);
    Some(Hall::open(p, &hex(initial)?, variant))
}

/// Answers every line of the input at once. Until a hall is open only its first line has a
/// right form; afterwards it has not.
pub fn run(input: &mut dyn BufRead, out: &mut dyn Write) -> io::Result<()> {
    run_variant(input, out, Variant::Right)
}

/// The same with parties that may be wrong by a hair.
pub fn run_variant(input: &mut dyn BufRead, out: &mut dyn Write, variant: Variant) -> io::Result<()> {
    let mut hall: Option<Hall> = None;
    let mut line = Vec::new();
    loop {
        line.clear();
        if input.read_until(b'\n', &mut line)? == 0 {
            return Ok(());
        }
        if line.last() == Some(&b'\n') {
            line.pop();
        }
        let fields: Vec<&[u8]> = line.split(|&c| c == b' ').collect();
        match &mut hall {
            Some(open) => match open.call(&fields, out) {
                Some(result) => result?,
                None => writeln!(out, "what?")?,
            },
            None => match first(&fields, variant) {
                Some(Ok(open)) => {
                    hall = Some(open);
                    writeln!(out, "ready")?;
                }
                Some(Err(refusal)) => refuse(out, refusal)?,
                None => writeln!(out, "what?")?,
            },
        }
        out.flush()?;
    }
}
