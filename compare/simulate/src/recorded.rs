//! Runs as traces: what each honest server was handed and what it answered, to be played back and compared with the run itself.

use crate::lockstep::{server_areas, ServerPair};
use register::flat;
use register::layout::{put_server, server_in, SERVER};
use register::playback::{
    need, play, play_lent, replies_in, write_entry, Areas, Closing, Done, Reading, Reply,
};
use register::server::{Server, Step};
use register::{Params, Party, Refusal};

/// A server's trace so far, and its answers.
#[derive(Clone, Debug, Default)]
pub struct Recorder {
    trace: Vec<u8>,
    replies: Vec<Reply>,
}

impl Recorder {
    /// A call and its answer. One that was answered 10 is left out: a playback has room enough for each entry.
    pub fn note(&mut self, from: Party, frame: &[u8], answer: &Result<Step, Refusal>) {
        if *answer == Err(Refusal::Room) {
            return;
        }
        self.trace.extend(write_entry(from, frame));
        let sends = answer.as_ref().map(|step| step.sends.clone());
        self.replies.push(Reply::of(sends.map_err(|refusal| *refusal)));
    }
}

/// A server's trace of a whole run, its answers, and the server as it was at the end, in the clear style and in the other one.
#[derive(Clone, Debug)]
pub struct Recorded {
    pub p: Params,
    pub own: usize,
    pub initial: Vec<u8>,
    pub trace: Vec<u8>,
    pub replies: Vec<Reply>,
    pub server: Server,
    /// The record as bytes, the state area and the initial area.
    pub lent: Option<(Vec<u8>, Vec<u8>, Vec<u8>)>,
}

impl Recorded {
    pub fn new(p: Params, own: usize, initial: &[u8], recorder: &Recorder, server: &ServerPair) -> Recorded {
        let bytes = |record: flat::Server| {
            let mut bytes = vec![0; SERVER];
            put_server(&record, &mut bytes);
            bytes
        };
        Recorded {
            p,
            own,
            initial: initial.to_vec(),
            trace: recorder.trace.clone(),
            replies: recorder.replies.clone(),
            server: server.clear.clone(),
            lent: server
                .lent()
                .map(|(record, area, initial)| (bytes(record), area.to_vec(), initial.to_vec())),
        }
    }

    /// Areas for its playback: those that the run lent the server, and room enough.
    pub fn areas(&self) -> Areas {
        let (area, initial) = server_areas(&self.p, self.own);
        let out = vec![0xaa; self.replies.len() * need(&self.p)];
        Areas { state: vec![0xee; SERVER], area, initial, out }
    }

    /// A playback on these areas gave what the run did: the replies and frames, and the server's record and areas where the run lent them.
    pub fn compare(&self, areas: &Areas) -> Result<(), String> {
        let Some((replies, used)) = replies_in(&areas.out, self.replies.len()) else {
            return Err("the out area does not read back".to_string());
        };
        if let Some(i) = (0..replies.len()).find(|&i| replies[i] != self.replies[i]) {
            return Err(format!("the reply to entry {}", i + 1));
        }
        if areas.out[used..].iter().any(|&byte| byte != 0xaa) {
            return Err("the out area behind the replies".to_string());
        }
        let record = server_in(&areas.state);
        let present = record.present(&self.p, &areas.initial, &areas.area);
        if record.stamp != self.server.stamp || present != self.server.present.block {
            return Err("the stamp or the present block".to_string());
        }
        match &self.lent {
            Some((state, _, _)) if *state != areas.state => Err("the record".to_string()),
            Some((_, area, _)) if *area != areas.area => Err("the state area".to_string()),
            Some((_, _, initial)) if *initial != areas.initial => Err("the initial area".to_string()),
            _ => Ok(()),
        }
    }

    /// Plays the trace back in both styles of the second implementation and compares each with the run.
    pub fn play(&self) -> Result<(), String> {
        let Recorded { p, own, initial, trace, .. } = self;
        let mut areas = self.areas();
        let played = play(*p, *own, initial, trace, areas.out.len(), Reading::Right);
        let played = played.map_err(|refusal| format!("refused {}", refusal.number()))?;
        if played.replies != self.replies || played.closing != Closing::Whole {
            return Err("replies".to_string());
        }
        if played.server != self.server {
            return Err("the server".to_string());
        }
        let done = play_lent(p, *own, initial, trace, &mut areas);
        let expected =
            Done { played: self.replies.len(), bytes: played.out().len(), closing: Closing::Whole };
        if done != Ok(expected) {
            return Err(format!("answered {done:?}, expected {expected:?}"));
        }
        self.compare(&areas)
    }
}
