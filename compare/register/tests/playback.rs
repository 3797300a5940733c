//! Playing back a trace: the request's examples and open points, wrong readings that they find, and random traces in both styles.

use register::blocks::encoded;
use register::flat::STATE_AREA;
use register::frame::{build, Body, Stage, Stamp};
use register::layout::{server_in, SERVER};
use register::playback::{entries, need, play, play_lent, replies_in, write_entry, Closing, Reading};
use register::random::Random;
use register::server::{digest_list, Server};
use register::staff::report;
use register::traces::{playback_call, some_trace, PlaybackCall};
use register::{Params, Party, Refusal};
use std::path::Path;

const P: Params = Params { n: 4, t: 1, k: 2, l: 1 };
const OWN: usize = 3;
const INITIAL: [u8; 1] = [7];
const NEED: usize = 26_319;

const ASKED: &str = "000c 01 00 02 000701010200000005";
const TOLD: &str = "00 0001 00 02 000f01020200000005 0000000000000000";
const FROM_SERVER: &str = "000c 01 01 02 000701010200000005";

fn bytes(text: &str) -> Vec<u8> {
    let digits: Vec<u8> =
        text.bytes().filter(|&c| c != b' ').map(|c| (c as char).to_digit(16).unwrap() as u8).collect();
    digits.chunks(2).map(|pair| pair[0] << 4 | pair[1]).collect()
}

/// A trace, the out area's length, and what is answered: the refusal, or the out area's front, how many were played, and the end.
type Case = (String, usize, Result<(String, usize, u8), u8>);

fn case(trace: &str, room: usize, answer: Result<(&str, usize, u8), u8>) -> Case {
    (trace.to_string(), room, answer.map(|(out, played, closing)| (out.to_string(), played, closing)))
}

/// The request's examples, and its open points as decided.
fn cases() -> Vec<Case> {
    let two = |a: &str, b: &str| format!("{a} {b}");
    let mut cases = vec![
        case(ASKED, NEED, Ok((TOLD, 1, 0))),
        case(ASKED, NEED + 7, Ok((TOLD, 1, 0))),
        case(ASKED, NEED - 1, Err(10)),
        case(FROM_SERVER, NEED, Ok(("0b 0000", 1, 0))),
        // Turned down, and the playback goes on.
        case(&two(FROM_SERVER, ASKED), 2 * NEED, Ok((&two("0b 0000", TOLD), 2, 0))),
        case(&two(FROM_SERVER, ASKED), 2 * NEED - 1, Err(10)),
        // The closing entry asks for no room, and 10 comes before 22 and 23.
        case(&two(ASKED, "0002"), NEED, Ok((TOLD, 1, 22))),
        case(&two(ASKED, "0002"), NEED - 1, Err(10)),
        case(&two(ASKED, "000c"), NEED, Ok((TOLD, 1, 23))),
        case(&two(ASKED, "000c"), NEED - 1, Err(10)),
        // What is behind a closing entry is not looked at.
        case(&two("0002", ASKED), 0, Ok(("", 0, 22))),
        case("", 0, Ok(("", 0, 0))),
        // A frame of no bytes is played.
        case("0003 01 00 02", NEED, Ok(("04 0000", 1, 0))),
        // Numbers that nobody has, with a frame that opens and with one that does not.
        case("000c 01 00 00 000701010200000005", NEED, Ok(("0b 0000", 1, 0))),
        case("000c 01 00 c8 000701010200000005", NEED, Ok(("0b 0000", 1, 0))),
        case("000c 01 01 c8 000701010200000005", NEED, Ok(("0b 0000", 1, 0))),
        case("000c 01 00 c8 000801010200000005", NEED, Ok(("04 0000", 1, 0))),
        case("000c 01 00 02 000701060200000005", NEED, Ok(("06 0000", 1, 0))),
    ];
    for (rest, closing) in [
        ("0002", 22),
        ("0000 01 00 02", 22),
        ("0003 02", 22),
        ("0003 00 00 02", 22),
        ("ffff 01 02", 22),
        ("0003 01 02", 22),
        ("0003 01 02 02", 22),
        ("00", 23),
        ("ff", 23),
        ("0003", 23),
        ("0003 01", 23),
        ("0003 01 01", 23),
        ("ffff 01 01", 23),
        ("0004 01 01 02", 23),
    ] {
        cases.push(case(rest, 0, Ok(("", 0, closing))));
        cases.push(case(&two(ASKED, rest), NEED, Ok((TOLD, 1, closing))));
    }
    cases
}

/// The cases that a reading of the request answers otherwise.
fn differing(reading: Reading) -> Vec<Case> {
    let differs = |(trace, room, answer): &Case| {
        let given = play(P, OWN, &INITIAL, &bytes(trace), *room, reading)
            .map(|played| (played.out(), played.replies.len(), played.closing.number()))
            .map_err(Refusal::number);
        given != answer.clone().map(|(out, played, closing)| (bytes(&out), played, closing))
    };
    cases().into_iter().filter(differs).collect()
}

#[test]
fn examples() {
    assert_eq!(need(&P), NEED);
    assert_eq!(bytes(TOLD).len(), 22);
    assert_eq!(differing(Reading::Right), []);
}

#[test]
fn wrong_readings() {
    for reading in Reading::WRONG {
        let found = differing(reading);
        assert!(!found.is_empty(), "{reading:?} was not found");
        println!("{reading:?}: {} cases, first {:?}", found.len(), found[0]);
    }
}

/// The read of the examples: the initial value's digests and block, and a server that then listens.
#[test]
fn a_read() {
    let trace = bytes("000c 01 00 02 0007010a0200000001");
    let played = play(P, OWN, &INITIAL, &trace, NEED, Reading::Right).unwrap();
    let blocks = encoded(&P, &INITIAL);
    let (digests, block) = (digest_list(&blocks), &blocks[OWN - 1]);
    let value = build(2, 1, Body::Value { stamp: Stamp::default(), digests: &digests, block });
    assert_eq!(played.out(), [&[0, 0, 1, 0, 2][..], &value].concat());
    assert_eq!(played.out()[5..10], [0, 0x95, 1, 11, 2]);
    assert_eq!((played.out().len(), played.replies.len(), played.closing), (156, 1, Closing::Whole));
    assert_eq!(played.server.readers[1].newest, 1);
    assert_eq!(played.server.readers[1].listening, Some(Stamp::default()));
}

/// A kind 3 is echoed to all: four frames, counted in two bytes, each behind its receiver.
#[test]
fn a_write_goes_out() {
    let blocks = encoded(&P, &[9]);
    let digests = digest_list(&blocks);
    let said = |stage, block| build(2, 1, Body::Block { stage, time: 0, digests: &digests, block });
    let sent = write_entry(Party::Client(2), &said(Stage::Send, &blocks[OWN - 1]));
    let played = play(P, OWN, &INITIAL, &sent, NEED, Reading::Right).unwrap();
    let mut expected = vec![0, 0, 4];
    for j in 1..=4 {
        expected.extend([1, j]);
        expected.extend(said(Stage::Echo, &blocks[OWN - 1]));
    }
    assert_eq!(played.out(), expected);
}

/// A trace that is bad at its first entry, and an empty one, leave a fresh server.
#[test]
fn fresh_where_nothing_is_played() {
    for trace in ["", "0002", "00", "000c 01 02 02 000701010200000005"] {
        let played = play(P, OWN, &INITIAL, &bytes(trace), 0, Reading::Right).unwrap();
        assert_eq!(played.server, Server::fresh(P, OWN, &INITIAL).unwrap(), "{trace}");
        assert!(played.replies.is_empty() && played.out().is_empty());
    }
}

/// 1, 2 and 3 come before 10, and before anything of the trace.
#[test]
fn refusals() {
    let answer = |p: Params, own, initial: &[u8], trace: &str| {
        play(p, own, initial, &bytes(trace), 0, Reading::Right).map(|_| ()).map_err(Refusal::number)
    };
    for trace in [ASKED, "0002", "00", ""] {
        for own in [0, 5, 255, 259, usize::MAX] {
            assert_eq!(answer(P, own, &INITIAL, trace), Err(1));
        }
        assert_eq!(answer(Params { n: 3, ..P }, OWN, &INITIAL, trace), Err(1));
        assert_eq!(answer(Params { t: 0, ..P }, OWN, &INITIAL, trace), Err(1));
        assert_eq!(answer(Params { k: 3, ..P }, OWN, &[], trace), Err(2));
        assert_eq!(answer(Params { l: 257, ..P }, OWN, &INITIAL, trace), Err(3));
        assert_eq!(answer(P, OWN, &[], trace), Err(3));
        assert_eq!(answer(P, OWN, &[7, 7], trace), Err(3));
    }
}

/// The largest frame that an entry can carry.
#[test]
fn longest_entry() {
    let frame = vec![0; 65_532];
    let trace = [write_entry(Party::Server(200), &frame), bytes(ASKED)].concat();
    assert_eq!(trace[..5], [255, 255, 1, 1, 200]);
    let played = play(P, OWN, &INITIAL, &trace, 2 * NEED, Reading::Right).unwrap();
    assert_eq!(played.out(), [&[4, 0, 0][..], &bytes(TOLD)].concat());
}

/// How a rest ends, said otherwise: 22 if no bytes behind it could make its beginning an entry, else 23 if it has no whole one.
#[test]
fn ends_by_continuations() {
    let is_entry = |r: &[u8]| {
        let length = r[0] as usize * 256 + r[1] as usize;
        r.len() == 2 + length && length >= 3 && r[2] == 1 && r[3] <= 1
    };
    let values = [0, 1, 2, 3, 4, 255];
    let mut rests: Vec<Vec<u8>> = vec![vec![]];
    for _ in 1..=6 {
        rests = rests.iter().flat_map(|rest| values.map(|value| [&rest[..], &[value]].concat())).collect();
        for rest in &rests {
            let whole = (5..=rest.len()).any(|end| is_entry(&rest[..end]));
            // One with the bytes of this rest, or with the first of an entry's where they are missing.
            let mut head = rest.clone();
            head.extend(&[0, 3, 1, 0, 0][rest.len().min(5)..]);
            let could = head[0] as usize * 256 + head[1] as usize >= 3 && head[2] == 1 && head[3] <= 1;
            let (found, closing) = entries(rest);
            assert_eq!(!found.is_empty(), whole, "{rest:?}");
            if !whole {
                assert_eq!(closing, if could { Closing::Cut } else { Closing::Malformed }, "{rest:?}");
            }
        }
    }
}

/// Entries written are read back, and only written forms are read.
#[test]
fn entries_both_ways() {
    let mut random = Random::new(11);
    let (mut whole, mut malformed, mut cut) = (0, 0, 0);
    for _ in 0..5000 {
        let trace = some_trace(&P, OWN, &mut random);
        let (found, closing) = entries(&trace);
        let written: Vec<u8> = found.iter().flat_map(|entry| write_entry(entry.from, entry.frame)).collect();
        assert!(trace.starts_with(&written));
        assert_eq!(trace.len() == written.len(), closing == Closing::Whole);
        let (again, ends) = entries(&written);
        assert_eq!((again, ends), (found, Closing::Whole));
        match closing {
            Closing::Whole => whole += 1,
            Closing::Malformed => malformed += 1,
            Closing::Cut => cut += 1,
        }
    }
    assert!(whole > 500 && malformed > 300 && cut > 300, "{whole} {malformed} {cut}");
}

/// What both styles say of one call agrees, and the lent areas hold it; a refusal changes none.
fn compare(c: &PlaybackCall, reading: Reading) -> Result<Option<u8>, String> {
    let PlaybackCall { p, own, value, trace, lent } = c;
    let mut given = lent.clone();
    let answer = play_lent(p, *own, value, trace, &mut given);
    let short = lent.state.len() < SERVER || lent.area.len() < STATE_AREA;
    let clear = play(*p, *own, value, trace, lent.out.len(), reading);
    let clear = clear.and_then(|played| match short || lent.initial.len() < p.block() {
        true => Err(Refusal::Room),
        false => Ok(played),
    });
    let (done, played) = match (answer, clear) {
        (Err(a), Err(b)) if a == b && given == *lent => return Ok(Some(a.number())),
        (Ok(done), Ok(played)) => (done, played),
        (a, b) => return Err(format!("{a:?} and {b:?}")),
    };
    let front = played.out();
    if (done.played, done.bytes, done.closing) != (played.replies.len(), front.len(), played.closing) {
        return Err(format!("{done:?}"));
    }
    if given.out != [&front[..], &lent.out[front.len()..]].concat() {
        return Err("out area".to_string());
    }
    if replies_in(&given.out, done.played) != Some((played.replies, done.bytes)) {
        return Err("replies read back".to_string());
    }
    let (server, clear) = (server_in(&given.state), played.server);
    let present = server.present(p, &given.initial, &given.area);
    if (server.stamp, present, &given.area[..p.list()])
        != (clear.stamp, &clear.present.block[..], &clear.present.digests[..])
        || given.state[SERVER..] != lent.state[SERVER..]
        || given.area[STATE_AREA..] != lent.area[STATE_AREA..]
        || given.initial[p.block()..] != lent.initial[p.block()..]
    {
        return Err("the server".to_string());
    }
    Ok(None)
}

#[test]
fn styles_agree() {
    let mut random = Random::new(12);
    let mut refused = [0; 27];
    for round in 0..3000 {
        let c = playback_call(&mut random);
        match compare(&c, Reading::Right) {
            Ok(number) => refused[number.unwrap_or(0) as usize] += 1,
            Err(difference) => panic!("round {round}: {difference}, {:?}", c.p),
        }
    }
    assert!([0, 1, 2, 3, 10].iter().all(|&number| refused[number] > 20), "{refused:?}");
}

#[test]
fn comparison_finds_wrong_readings() {
    for reading in Reading::WRONG {
        let mut random = Random::new(13);
        let found = (0..2000).any(|_| compare(&playback_call(&mut random), reading).is_err());
        assert!(found, "{reading:?} was not found");
    }
}

/// A trace cut behind an entry plays the same up to there, and taking the rest step by step gives the same server.
#[test]
fn cut_behind_an_entry() {
    let mut random = Random::new(14);
    for _ in 0..300 {
        let trace = some_trace(&P, OWN, &mut random);
        let whole = play(P, OWN, &INITIAL, &trace, usize::MAX, Reading::Right).unwrap();
        let found = entries(&trace).0;
        let kept = random.range(0, found.len());
        let front: Vec<u8> =
            found[..kept].iter().flat_map(|entry| write_entry(entry.from, entry.frame)).collect();
        let mut part = play(P, OWN, &INITIAL, &front, usize::MAX, Reading::Right).unwrap();
        assert_eq!(part.replies, whole.replies[..kept]);
        assert!(whole.out().starts_with(&part.out()));
        for entry in &found[kept..] {
            let _ = part.server.deliver(entry.from, entry.frame, P.server_room());
        }
        assert_eq!(part.server, whole.server);
    }
}

/// The trace of examples/playback.hex, an entry a line: a write and a read at server 3, a further write that waits until two servers
/// have reported its time, with frames that are turned down, closed by 22.
fn staff_trace() -> Vec<Vec<u8>> {
    let blocks = encoded(&STAFF, &[0xc0, 0xff, 0xee]);
    let digests = digest_list(&blocks);
    let told = |stage, client, sequence, time, j: usize, block: usize| {
        let body = Body::Block { stage, time, digests: &digests, block: &blocks[block - 1] };
        let from = if stage == Stage::Send { Party::Client(client) } else { Party::Server(j) };
        write_entry(from, &build(client as u8, sequence, body))
    };
    let said = |stage, sequence, j, block| told(stage, 2, sequence, 0, j, block);
    let reported = |j, time| write_entry(Party::Server(j), &build(2, 1, Body::Report { time }));
    let asked = |from, client, sequence, body| write_entry(from, &build(client, sequence, body));
    let mut retired = build(2, 1, Body::GetStamp);
    retired[3] = 6;
    vec![
        asked(Party::Client(2), 2, 1, Body::GetStamp),
        said(Stage::Send, 1, 3, 3),
        said(Stage::Echo, 1, 1, 1),
        said(Stage::Echo, 1, 2, 1),
        said(Stage::Echo, 1, 2, 2),
        said(Stage::Echo, 1, 2, 2),
        said(Stage::Echo, 1, 3, 3),
        asked(Party::Client(5), 5, 1, Body::Read),
        said(Stage::Ready, 2, 4, 4),
        said(Stage::Ready, 1, 1, 1),
        said(Stage::Ready, 1, 2, 2),
        said(Stage::Ready, 1, 4, 4),
        asked(Party::Client(2), 2, 2, Body::GetStamp),
        asked(Party::Server(2), 2, 2, Body::GetStamp),
        asked(Party::Client(200), 2, 2, Body::GetStamp),
        write_entry(Party::Client(2), &[]),
        write_entry(Party::Client(2), &retired),
        reported(3, 1),
        reported(1, 1),
        told(Stage::Ready, 4, 1, 2, 1, 1),
        told(Stage::Ready, 4, 1, 2, 2, 2),
        told(Stage::Ready, 4, 1, 2, 4, 4),
        reported(1, 2),
        reported(1, 1),
        reported(2, 2),
        asked(Party::Client(5), 5, 1, Body::ReadComplete),
        vec![0, 3, 2],
    ]
}

const STAFF: Params = Params { n: 4, t: 1, k: 2, l: 3 };

/// What the program of examples/ is to print for that trace. With SEMDUOLI_WRITE set, both files are written.
#[test]
fn staff_example() {
    let examples = Path::new(env!("CARGO_MANIFEST_DIR")).join("../../examples");
    let trace = staff_trace();
    let line = |entry: &Vec<u8>| entry.iter().map(|byte| format!("{byte:02x}")).collect::<String>() + "\n";
    let texts = [
        ("playback.hex", trace.iter().map(line).collect::<String>()),
        ("playback.out", report(STAFF, OWN, &[0; 3], &trace.concat(), true)),
    ];
    for (name, text) in texts {
        if std::env::var_os("SEMDUOLI_WRITE").is_some() {
            std::fs::write(examples.join(name), &text).unwrap();
        }
        assert!(std::fs::read_to_string(examples.join(name)).unwrap() == text, "examples/{name} differs");
    }
}
