//! Whole runs of the hall program, byte for byte, and lines of other forms.

use register::Variant;
use std::path::Path;

fn answer(input: &[u8]) -> Vec<u8> {
    let mut out = Vec::new();
    hall::run(&mut &input[..], &mut out).unwrap();
    out
}

/// Answers every script of a folder, holds what was answered against what is expected, and names the scripts.
fn scripts(folder: &str) -> Vec<String> {
    let folder = Path::new(env!("CARGO_MANIFEST_DIR")).join(folder);
    let mut names = Vec::new();
    for entry in std::fs::read_dir(folder).unwrap() {
        let path = entry.unwrap().path();
        if path.extension().is_some_and(|e| e == "in") {
            let given = answer(&std::fs::read(&path).unwrap());
            let expected = std::fs::read(path.with_extension("out")).unwrap();
            if given != expected {
                let lines = |bytes: &[u8]| String::from_utf8_lossy(bytes).into_owned();
                let (given, expected) = (lines(&given), lines(&expected));
                for (i, (a, b)) in given.lines().zip(expected.lines()).enumerate() {
                    assert_eq!(a, b, "{} answer line {}", path.display(), i + 1);
                }
                panic!("{}: one answer is longer", path.display());
            }
            names.push(path.file_stem().unwrap().to_str().unwrap().to_string());
        }
    }
    names
}

#[test]
fn traces() {
    let names = scripts("../traces");
    assert_eq!(names.len(), 27);
    let disagreements = ["disagreement-1", "disagreement-2", "disagreement-3", "many-false"];
    let reports = ["client-reports", "server-reports", "falling", "seven", "gives-way", "top", "all-told"];
    let laid_out = ["late-send", "half-done", "two-groups", "echo-again", "big-step-4", "report-step-4"];
    for laid_out in laid_out.into_iter().chain(disagreements).chain(reports) {
        assert!(names.iter().any(|name| name == laid_out), "no {laid_out}");
    }
}

#[test]
fn cases() {
    assert_eq!(scripts("../cases").len(), 8);
}

/// What a script shows: parties that are wrong in this do not answer it as it asks.
#[test]
fn wrong_variants_differ() {
    for (variant, script) in [
        (Variant::LateSendSilent, "traces/late-send"),
        (Variant::ListAlone, "cases/groups"),
        (Variant::TimeAlone, "cases/groups"),
        (Variant::TimeAlone, "traces/two-groups"),
        (Variant::SentTime, "cases/groups"),
        (Variant::FewReadies, "cases/k3"),
        (Variant::FewReadies, "cases/k8"),
        (Variant::FewEchoes, "cases/k8"),
        (Variant::LowestAlone, "traces/disagreement-1"),
        (Variant::LowestAlone, "traces/disagreement-3"),
        (Variant::LowestAlone, "cases/disagreement"),
        (Variant::AnyPadding, "traces/disagreement-2"),
        (Variant::AnyPadding, "cases/disagreement"),
        (Variant::DisagreementOpen, "traces/many-false"),
        (Variant::DisagreementOpen, "cases/disagreement"),
        (Variant::NoDigest, "cases/disagreement"),
        (Variant::StampAlone, "cases/disagreement"),
        (Variant::FewReports, "cases/waiting"),
        (Variant::FewReports, "traces/server-reports"),
        (Variant::CountsItself, "cases/waiting"),
        (Variant::OwnTimeLess, "cases/waiting"),
        (Variant::NewTimeVouched, "cases/waiting"),
        (Variant::OneAcceptance, "cases/waiting"),
        (Variant::OneAcceptance, "traces/seven"),
        (Variant::NamedAlone, "cases/waiting"),
        (Variant::NamedAlone, "traces/seven"),
        (Variant::OnePass, "cases/waiting"),
        (Variant::ClientsNotTold, "cases/server"),
        (Variant::OwnerTold, "cases/server"),
        (Variant::IncomingReported, "cases/server"),
        (Variant::LatestReport, "cases/waiting"),
        (Variant::LatestReport, "cases/client"),
        (Variant::LatestReport, "traces/falling"),
        (Variant::FewReportsCount, "cases/client"),
        (Variant::CountsAtOnce, "cases/client"),
        (Variant::LargestOfAll, "cases/client"),
        (Variant::NoRecount, "cases/client"),
        (Variant::ReportOwner, "cases/client"),
        (Variant::ReportOwner, "traces/client-reports"),
    ] {
        let path = Path::new(env!("CARGO_MANIFEST_DIR")).join("..").join(script);
        let input = std::fs::read(path.with_extension("in")).unwrap();
        let mut given = Vec::new();
        hall::run_variant(&mut &input[..], &mut given, variant).unwrap();
        assert!(given != std::fs::read(path.with_extension("out")).unwrap(), "{variant:?} answers {script}");
    }
}

#[test]
fn other_forms() {
    let text = |input: &str| String::from_utf8(answer(input.as_bytes())).unwrap();
    assert_eq!(text(""), "");
    assert_eq!(
        text("C 1 read\nhall 6 2 1 1 00\nhall 4 1 3 3 010203\nhall 4 1 2 257 00\nhall 4 1 2 3 00\n"),
        "what?\nrefused 1\nrefused 2\nrefused 3\nrefused 3\n"
    );
    let all = |rest: &str| text(&format!("hall 4 1 2 3 010203\n{rest}"));
    for line in [
        "",
        " ",
        "hall 4 1 2 3 010203",
        "C 1 read ",
        "C  1 read",
        "c 1 read",
        "C 01 read",
        "C -1 read",
        "C 1 write",
        "C 1 write 0",
        "C 1 write 0G0102",
        "C 1 write 0A0102",
        "C 1 write 01 02 03",
        "S 1 x 1 00",
        "S 1 c 1",
        "S 1 c 1 ",
        "C 1 read\r",
        "S 1 c 1 00 00",
        "S + c 1 00",
        "read",
        "C x read",
    ] {
        assert_eq!(all(&format!("{line}\n")), "ready\nwhat?\n", "line {line:?}");
    }
    assert_eq!(
        all("C 0 read\nC 9 read\nC 99999999999999999999999 read\nS 0 c 1 00\nS 5 c 1 -\n"),
        "ready\nrefused 1\nrefused 1\nrefused 1\nrefused 1\nrefused 1\n"
    );
    assert_eq!(
        all("C 1 write -\nS 1 c 1 -\nS 1 c 1 000701\nC 1 s 1 -"),
        "ready\nrefused 3\nrefused 4\nrefused 4\nrefused 4\n"
    );
    assert_eq!(
        all("what\nS 1 c 2 000701010200000005"),
        "ready\nwhat?\nstep\n> c 2 000f01020200000005".to_string() + "0000000000000000\n"
    );
    let long = format!("S 1 c 1 {}\n", "00".repeat(200_000));
    assert_eq!(all(&long), "ready\nrefused 4\n");
    assert_eq!(answer(b"hall 4 1 1 1 00\n\xff\xfe\n"), b"ready\nwhat?\n");
}
