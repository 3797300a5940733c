//! Traces played back, from a fresh server or from a kept record: any traces with any numbers and areas, against the second
//! implementation; and the traces of whole runs, against the runs themselves.

use crate::{calls, same_answer, same_bytes, Difference, Seen};
use register::playback::{play_lent, resume_lent, Closing, Done};
use register::random::Random;
use register::traces::{playback_call, resume_call};
use register::Refusal;
use simulate::run::{parameters_of, run, Options};
use simulate::style::FLAT;

/// An answer in the bits of include/semduoli.h: how the trace ended from bit 8 on, the entries played from bit 24 on.
fn bits(answer: Result<Done, Refusal>) -> u64 {
    match answer {
        Err(refusal) => refusal.number() as u64,
        Ok(done) => (done.closing.number() as u64) << 8 | (done.played as u64) << 24,
    }
}

/// Which answer came: the refusal, or the end of the trace.
fn seen(answer: Result<Done, Refusal>) -> Seen {
    let mut seen = Seen::default();
    match answer {
        Err(refusal) => seen.refusals[refusal.number() as usize] = 1,
        Ok(Done { closing: Closing::Whole, .. }) => seen.outcomes[0] = 1,
        Ok(Done { closing: Closing::Malformed, .. }) => seen.outcomes[1] = 1,
        Ok(Done { closing: Closing::Cut, .. }) => seen.outcomes[2] = 1,
    }
    seen
}

/// A call with anything in it: the answer, and every byte of the four areas.
pub fn any(seed: u64) -> Result<Seen, Difference> {
    let c = playback_call(&mut Random::new(seed));
    let (mut given, mut expected) = (c.lent.clone(), c.lent);
    let done = play_lent(&c.p, c.own, &c.value, &c.trace, &mut expected);
    let answer = calls::playback(&c.p, c.own, &c.value, &c.trace, &mut given);
    let at = |difference| format!("{:?}, server {}, {} bytes: {difference}", c.p, c.own, c.trace.len());
    same_answer(answer, bits(done)).map_err(at)?;
    same_bytes("state", &given.state, &expected.state).map_err(at)?;
    same_bytes("area", &given.area, &expected.area).map_err(at)?;
    same_bytes("initial", &given.initial, &expected.initial).map_err(at)?;
    same_bytes("out", &given.out, &expected.out).map_err(at)?;
    Ok(seen(done))
}

/// The same from a kept record.
pub fn resumed(seed: u64) -> Result<Seen, Difference> {
    let c = resume_call(&mut Random::new(seed));
    let (mut given, mut expected) = (c.kept.clone(), c.kept);
    let done = resume_lent(&c.p, c.own, &c.initial, &c.trace, &mut expected);
    let answer = calls::server_resume(&c.p, c.own, &c.initial, &c.trace, &mut given);
    let at = |difference| format!("{:?}, server {}, {} bytes: {difference}", c.p, c.own, c.trace.len());
    same_answer(answer, bits(done)).map_err(at)?;
    same_bytes("state", &given.state, &expected.state).map_err(at)?;
    same_bytes("area", &given.area, &expected.area).map_err(at)?;
    same_bytes("out", &given.out, &expected.out).map_err(at)?;
    same_bytes("to", &given.to, &expected.to).map_err(at)?;
    Ok(seen(done))
}

/// The run of a seed: each honest server's trace, played back by the library, gives what the run did.
pub fn recorded(seed: u64) -> Result<Seen, Difference> {
    let options = Options { style: Some(FLAT), record: true, ..Options::RIGHT };
    let summary =
        run(seed, options).map_err(|violation| format!("{:?}: {violation}", parameters_of(seed)))?;
    let mut seen = Seen::default();
    for r in &summary.recorded {
        let at = |difference| format!("{:?}, server {}: {difference}", r.p, r.own);
        let mut lent = r.areas();
        let answer = calls::playback(&r.p, r.own, &r.initial, &r.trace, &mut lent);
        same_answer(answer, (r.replies.len() as u64) << 24).map_err(at)?;
        r.compare(&lent).map_err(at)?;
        seen.outcomes[0] += 1;
    }
    Ok(seen)
}
