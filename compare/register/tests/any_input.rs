//! Every input is answered: any parameters, own numbers, senders, frames and lent sizes. The number
//! given is the lowest that applies, and a refusal leaves every lent byte.

use register::any::{client_call, server_call, ClientAct, ServerCall};
use register::flat::{Operation, Outcome, ROWS_AREA};
use register::frame::{client_named, open, KIND_AT, REPORT};
use register::layout::{put_server, put_step, scope_in, server_in, SERVER};
use register::random::Random;
use register::Refusal;

#[test]
fn servers() {
    let mut random = Random::new(7);
    let mut seen = [0; 20];
    let (mut readies, mut accepted, mut completed) = (0, 0, 0);
    for round in 0..20_000 {
        let before = server_call(&mut random);
        let mut c = before.clone();
        let answer =
            c.server.deliver(&c.p, c.own, &c.initial, &mut c.area, c.from, &c.frame, &mut c.out, &mut c.to);
        let number = answer.err().map(Refusal::number);
        if number.is_some() {
            assert!(before == c, "round {round}");
        }
        if let Ok(done) = answer {
            let slot = |call: &ServerCall| call.server.slots[client_named(&call.frame)].complete;
            readies += (done.frames >= c.p.n && c.out[3] == 5) as usize;
            accepted += matches!(done.outcome, Outcome::Accepted(_)) as usize;
            completed += (!slot(&before) && slot(&c)) as usize;
        }
        let opening = || open(&c.p, &c.frame).err().map(Refusal::number);
        match c.bounds.or_else(opening).or(c.short.then_some(10)) {
            Some(lowest) => assert_eq!(number, Some(lowest), "round {round}"),
            None => assert!(number.is_none_or(|n| (11..=14).contains(&n)), "round {round}"),
        }
        seen[number.unwrap_or(0) as usize] += 1;
    }
    assert!((0..=14).all(|n| seen[n] > 0), "{seen:?}");
    // Groups are found: readies go out, writes are accepted, or complete with a time that is not.
    assert!(readies > 500 && accepted > 500 && completed > 50, "{readies}, {accepted}, {completed}");
}

/// What a server's step reads of its record, and what it may change: one report, or else the scope of the client that the frame names, and
/// the stamp and the slots of the clients whose writes it accepts.
#[test]
fn changed_parts() {
    let mut random = Random::new(9);
    let (mut several, mut freed) = (0, 0);
    for round in 0..20_000 {
        let mut c = server_call(&mut random);
        let (mut bytes, mut after) = ([0; SERVER], [0; SERVER]);
        put_server(&c.server, &mut bytes);
        assert_eq!(server_in(&bytes), c.server, "round {round}");
        let (p, own, from) = (c.p, c.own, c.from);
        let accepts = matches!(c.frame.get(KIND_AT), Some(4 | 5 | &REPORT));
        let mut d = ServerCall { server: scope_in(&bytes, client_named(&c.frame), accepts), ..c.clone() };
        let answer =
            c.server.deliver(&p, own, &c.initial, &mut c.area, from, &c.frame, &mut c.out, &mut c.to);
        let scope = d.server.deliver(&p, own, &d.initial, &mut d.area, from, &d.frame, &mut d.out, &mut d.to);
        assert_eq!(answer, scope, "round {round}");
        if let Ok(done) = answer {
            put_step(&d.server, from, &c.frame, done.outcome, &mut bytes);
            if let Outcome::Accepted(clients) = done.outcome {
                several += (clients.iter().filter(|&&accepted| accepted).count() > 1) as usize;
                freed += (c.frame[KIND_AT] == REPORT) as usize;
            }
        }
        put_server(&c.server, &mut after);
        d.server = c.server;
        assert!(bytes == after && c == d, "round {round}");
    }
    assert!(several > 500 && freed > 300, "{several}, {freed}");
}

#[test]
fn clients() {
    let mut random = Random::new(8);
    let mut seen = [0; 20];
    let (mut sent, mut closed, mut lifted) = (0, 0, 0);
    for round in 0..20_000 {
        let before = client_call(&mut random);
        let mut c = before.clone();
        let writing = matches!(c.client.operation, Operation::Stamps | Operation::Acks);
        let open_operation = (c.client.operation != Operation::None).then_some(15);
        let wrong_length = (c.written.len() != c.sane.l).then_some(3);
        let short = c.out.len() < c.sane.client_room() || c.to.len() < 2 * c.sane.n;
        let short_begin = short.then_some(10);
        let (number, lowest, exact) = match c.act {
            ClientAct::Read => {
                let answer = c.client.begin_read(&c.p, c.own, &mut c.out, &mut c.to);
                let used = (before.client.reads == u32::MAX).then_some(16);
                (answer.err(), c.bounds.or(short_begin).or(open_operation).or(used), true)
            }
            ClientAct::Write => {
                let answer = c.client.begin_write(&c.p, c.own, &c.written, &mut c.out, &mut c.to);
                let used = (before.client.writes == u32::MAX).then_some(16);
                let closed = before.client.out_of_stamps.then_some(17);
                let begin = c.bounds.or(wrong_length).or(short_begin).or(open_operation);
                (answer.err(), begin.or(used).or(closed), true)
            }
            ClientAct::Deliver => {
                let answer = c.client.deliver(
                    &c.p,
                    c.own,
                    &c.written,
                    &mut c.rows,
                    c.from,
                    &c.frame,
                    &mut c.out,
                    &mut c.to,
                    &mut c.value,
                );
                if let Ok(done) = answer {
                    let went = done.frames > 0 && c.out[KIND_AT] == 3;
                    sent += went as usize;
                    lifted += (went && c.frame[KIND_AT] == REPORT) as usize;
                    closed += (done.outcome == Outcome::OutOfStamps) as usize;
                }
                let length = if writing { wrong_length } else { None };
                let opening = || open(&c.p, &c.frame).err().map(Refusal::number);
                let all_short = short || c.rows.len() < ROWS_AREA || c.value.len() < c.sane.l;
                let lowest = c.bounds.or(length).or_else(opening).or(all_short.then_some(10));
                (answer.err(), lowest, false)
            }
        };
        let number = number.map(Refusal::number);
        if number.is_some() {
            assert!(before == c, "round {round}");
        }
        match lowest {
            Some(lowest) => assert_eq!(number, Some(lowest), "round {round}"),
            None if exact => assert_eq!(number, None, "round {round}"),
            None => assert!(number.is_none_or(|n| [11, 12, 14].contains(&n)), "round {round}"),
        }
        seen[number.unwrap_or(0) as usize] += 1;
    }
    let reached = (0..=12).chain(14..=17).all(|n| seen[n] > 0);
    assert!(reached, "{seen:?}");
    assert!(
        sent > 30 && closed > 10 && lifted > 10,
        "{sent} writes go out, {lifted} by a report, {closed} close"
    );
}
