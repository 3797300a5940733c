//! Numbers in words, for pictures and pages: kinds of frames and refusals (docs/PROTOCOL.md, sections 3 and 4).

/// A kind's name; of a retired or unknown one its number.
pub fn kind(kind: u8) -> String {
    let name = match kind {
        1 => "get-stamp",
        2 => "stamp",
        3 => "send",
        4 => "echo",
        5 => "ready",
        9 => "ack",
        10 => "read",
        11 => "value",
        12 => "read-complete",
        13 => "report",
        _ => return format!("kind {kind}"),
    };
    name.to_string()
}

/// What is said of a number that is no refusal's.
pub const UNKNOWN: &str = "a number without a meaning";

/// What a refusal means, short enough for a picture's margin.
pub fn refusal(number: u8) -> &'static str {
    match number {
        1 => "no such party, or n, t out of bounds",
        2 => "k out of bounds",
        3 => "a value or L of another length",
        4 => "not a whole frame",
        5 => "another version",
        6 => "no such kind, or a retired one",
        7 => "no such client, or sequence 0",
        8 => "a body of another length",
        9 => "a stamp that is partly zero",
        10 => "too little room",
        11 => "not for this sender to send",
        12 => "late, repeated or not awaited",
        13 => "early: offered again later",
        14 => "the block does not fit its digest",
        15 => "the client has an operation open",
        16 => "the client has no sequence left",
        17 => "the client is out of stamps",
        18 => "no record of a history",
        19 => "a read of what nobody wrote",
        21 => "blocks that disagree",
        22 => "an entry of another form",
        23 => "the trace ends inside an entry",
        25 => "the index is full",
        26 => "a value too short for the index",
        _ => UNKNOWN,
    }
}

/// What the refusals of a partner's frames say of the partner.
#[derive(Clone, Copy, Debug, PartialEq, Eq)]
pub enum Sign {
    /// An honest machine sends such frames too.
    Usual,
    /// No honest machine sends such a frame.
    False,
}

pub fn sign(number: u8) -> Sign {
    match number {
        4..=9 | 11 | 14 => Sign::False,
        _ => Sign::Usual,
    }
}

#[cfg(test)]
mod tests {
    use super::*;

    #[test]
    fn a_false_machine_is_told_from_a_late_one() {
        assert!([4, 5, 6, 7, 8, 9, 11, 14].iter().all(|n| sign(*n) == Sign::False));
        assert!([10, 12, 13].iter().all(|n| sign(*n) == Sign::Usual));
        assert_eq!((kind(12), kind(6)), ("read-complete".to_string(), "kind 6".to_string()));
    }
}
