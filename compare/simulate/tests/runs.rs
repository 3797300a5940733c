//! Adversarial runs of the right protocol, and of wrong ones that the checks must find.

use register::Variant;
use simulate::check::Violation;
use simulate::run::{run, Options, Summary};
use simulate::style::{Style, FLAT};

fn all(seeds: std::ops::Range<u64>, style: Option<Style>) -> Summary {
    let mut total = Summary::default();
    for seed in seeds {
        match run(seed, Options { style, ..Options::RIGHT }) {
            Ok(summary) => total.add(&summary),
            Err(violation) => panic!("seed {seed}: {violation}; reproduce with: simulate 1 {seed}"),
        }
    }
    total
}

#[test]
fn row_holds() {
    let total = all(1..701, None);
    // The runs reach what they are meant to reach.
    assert!(total.reads > 2000 && total.writes > 2000 && total.foreign > 200, "{total:?}");
    assert!(total.several > 50 && total.freed > 30, "{total:?}");
    for number in 3..=15 {
        assert!(total.refusals[number] > 0, "no refusal {number}: {total:?}");
    }
    // At most t false servers cannot push the time ahead: nobody is ever out of stamps.
    assert_eq!((total.closed, total.refusals[17]), (0, 0));
}

#[test]
fn both_styles_agree() {
    all(10_001..10_061, Some(FLAT));
}

/// With n − t or more false servers reads end with a disagreement, in both styles.
#[test]
fn both_styles_disagree() {
    let mut total = Summary::default();
    for seed in 20_001..20_101 {
        match run(seed, Options { style: Some(FLAT), many: true, ..Options::RIGHT }) {
            Ok(summary) => total.add(&summary),
            Err(violation) => {
                panic!("seed {seed}: {violation}; reproduce with: simulate 1 {seed} --both --many")
            }
        }
    }
    assert!(total.disagreements > 100 && total.reads > 100, "{total:?}");
    assert!(total.closed > 0 && total.refusals[17] > 0, "{total:?}");
}

/// The first violation that fits within 500 runs of a wrong variant. The first seed of a rare
/// one is chosen near a find, to keep the test short.
fn must_find(variant: Variant, first: u64, fits: fn(&Violation) -> bool) {
    for seed in first..first + 500 {
        if let Err(violation) = run(seed, Options { variant, ..Options::RIGHT }) {
            if fits(&violation) {
                println!("{variant:?}: seed {seed}");
                return;
            }
        }
    }
    panic!("{variant:?} was not found");
}

fn in_time(violation: &Violation) -> bool {
    matches!(violation, Violation::Time(_))
}

fn still_open(violation: &Violation) -> bool {
    matches!(violation, Violation::StillOpen(_))
}

fn agreement(violation: &Violation) -> bool {
    matches!(violation, Violation::Agreement(_))
}

fn disagreement(violation: &Violation) -> bool {
    matches!(violation, Violation::Disagreement(_))
}

fn gap(violation: &Violation) -> bool {
    matches!(violation, Violation::Gap(_))
}

fn waiting(violation: &Violation) -> bool {
    matches!(violation, Violation::Waiting(_))
}

#[test]
fn finds_smaller_time() {
    must_find(Variant::SmallerTime, 1, in_time);
}

#[test]
fn finds_stale_stamp() {
    must_find(Variant::StaleStamp, 1, in_time);
}

#[test]
fn finds_few_rows() {
    must_find(Variant::FewRows, 1, in_time);
}

#[test]
fn finds_a_value_counted_twice() {
    must_find(Variant::ValueTwice, 1, in_time);
}

#[test]
fn finds_an_ack_counted_twice() {
    must_find(Variant::AckTwice, 500, in_time);
}

#[test]
fn finds_a_block_against_its_digest() {
    must_find(Variant::NoDigest, 1, disagreement);
}

/// A read by the stamp alone: its blocks are of two lists.
#[test]
fn finds_rows_by_stamp_alone() {
    must_find(Variant::StampAlone, 1, disagreement);
}

#[test]
fn finds_early_opening() {
    must_find(Variant::EarlyOpen, 1, still_open);
}

#[test]
fn finds_missing_comparison() {
    must_find(Variant::NoCompare, 1, disagreement);
}

/// Digests not compared where the blocks agree: a server keeps a block that does not fit its list, and readers turn it down.
#[test]
fn finds_agreement_alone() {
    must_find(Variant::AgreementAlone, 300, still_open);
}

#[test]
fn finds_few_echoes() {
    must_find(Variant::FewEchoes, 2300, agreement);
}

#[test]
fn finds_few_readies() {
    must_find(Variant::FewReadies, 200, still_open);
}

/// A group without the time: one write gets several stamps.
#[test]
fn finds_groups_by_list_alone() {
    must_find(Variant::ListAlone, 1, agreement);
}

/// A group without the list: blocks of two lists disagree, and operations hang.
#[test]
fn finds_groups_by_time_alone() {
    must_find(Variant::TimeAlone, 600, still_open);
}

#[test]
fn finds_the_time_of_the_send() {
    must_find(Variant::SentTime, 1, agreement);
}

#[test]
fn finds_missing_listeners() {
    must_find(Variant::NoListeners, 1, still_open);
}

#[test]
fn finds_falling_stamps() {
    must_find(Variant::StampFalls, 1, in_time);
}

#[test]
fn finds_silence_after_ready() {
    must_find(Variant::LateSendSilent, 200, still_open);
}

#[test]
fn finds_too_few_reports() {
    must_find(Variant::FewReports, 1, gap);
}

#[test]
fn finds_a_server_that_counts_itself() {
    must_find(Variant::CountsItself, 1, gap);
}

#[test]
fn finds_an_own_time_of_one_less() {
    must_find(Variant::OwnTimeLess, 1, gap);
}

#[test]
fn finds_the_new_time_vouched() {
    must_find(Variant::NewTimeVouched, 1, still_open);
}

#[test]
fn finds_one_acceptance_a_step() {
    must_find(Variant::OneAcceptance, 1, waiting);
}

#[test]
fn finds_the_named_write_alone() {
    must_find(Variant::NamedAlone, 1, waiting);
}

/// In one rising pass a write of a lower client may be left, until the server's own report comes back.
#[test]
fn finds_a_scan_that_does_not_begin_anew() {
    must_find(Variant::OnePass, 1, waiting);
}

#[test]
fn finds_clients_that_are_not_told() {
    must_find(Variant::ClientsNotTold, 1, still_open);
}

#[test]
fn finds_owners_alone_told() {
    must_find(Variant::OwnerTold, 1, still_open);
}

#[test]
fn finds_the_incoming_time_reported() {
    must_find(Variant::IncomingReported, 1, still_open);
}

/// A report that falls: the one rare find, in the 5,742nd run from seed 1.
#[test]
fn finds_the_latest_report() {
    must_find(Variant::LatestReport, 5600, still_open);
}

#[test]
fn finds_too_few_reports_at_a_client() {
    must_find(Variant::FewReportsCount, 1, still_open);
}

#[test]
fn finds_replies_that_count_at_once() {
    must_find(Variant::CountsAtOnce, 1, still_open);
}

#[test]
fn finds_the_largest_of_all_replies() {
    must_find(Variant::LargestOfAll, 1, still_open);
}

#[test]
fn finds_a_report_without_recount() {
    must_find(Variant::NoRecount, 1, still_open);
}

#[test]
fn finds_the_owner_test_of_reports() {
    must_find(Variant::ReportOwner, 1, still_open);
}

/// A wrong variant beside the right flat style: the comparison finds every one. Those of blocks that disagree show only where more than t
/// servers are false.
#[test]
fn comparison_finds_differences() {
    for variant in Variant::WRONG {
        let many = matches!(variant, Variant::LowestAlone | Variant::AnyPadding | Variant::DisagreementOpen);
        let differs = |seed| {
            let found = run(seed, Options { variant, style: Some(FLAT), many, ..Options::RIGHT });
            matches!(found, Err(Violation::Differ(_)))
        };
        assert!((1..200).any(differs), "{variant:?} was not found");
    }
}

/// A run as a script of the hall program gives the same steps, refusals and values there.
#[test]
fn scripts_say_the_same() {
    for (seed, many) in (1..20).map(|seed| (seed, seed % 4 == 0)) {
        let summary = run(seed, Options { script: true, many, ..Options::RIGHT }).unwrap();
        let input = summary.script.join("\n");
        let mut output = Vec::new();
        hall::run(&mut input.as_bytes(), &mut output).unwrap();
        let output = String::from_utf8(output).unwrap();
        let count = |start: &str| output.lines().filter(|line| line.starts_with(start)).count() as u64;
        assert_eq!(count("ready"), 1);
        assert_eq!(count("what?"), 0);
        assert_eq!(count("step"), summary.steps);
        assert_eq!(count("value "), summary.reads);
        assert_eq!(count("disagreement"), summary.disagreements);
        assert_eq!(count("written"), summary.writes);
        for number in 1..20 {
            let refused = output.lines().filter(|line| *line == format!("refused {number}")).count();
            assert_eq!(refused as u64, summary.refusals[number], "seed {seed}, refusal {number}");
        }
    }
}

/// Each honest server's trace, played back, gives what the run did: replies, frames, and the server at the end with its areas.
#[test]
fn traces_play_back() {
    let (mut entries, mut refused) = (0, 0);
    for seed in 20_001..20_081 {
        let style = (seed % 2 == 0).then_some(FLAT);
        let summary = run(seed, Options { style, record: true, ..Options::RIGHT }).unwrap();
        assert!(!summary.recorded.is_empty());
        for recorded in &summary.recorded {
            if let Err(difference) = recorded.play() {
                panic!("seed {seed}, server {}: {difference}", recorded.own);
            }
            entries += recorded.replies.len();
            refused += recorded.replies.iter().filter(|reply| reply.number != 0).count();
        }
    }
    assert!(entries > 20_000 && refused > 1000, "{entries} entries, {refused} of them refused");
}

/// The trace of a run under a wrong rule does not play back to that run.
#[test]
fn playback_finds_wrong_servers() {
    let wrong = [Variant::FewEchoes, Variant::ListAlone, Variant::NoListeners, Variant::LateSendSilent];
    for variant in wrong {
        let differs = |seed| match run(seed, Options { variant, record: true, ..Options::RIGHT }) {
            Ok(summary) => {
                summary.recorded.iter().any(|recorded| recorded.play() == Err("replies".to_string()))
            }
            Err(_) => false,
        };
        assert!((1..200).any(differs), "{variant:?} was not found");
    }
}
