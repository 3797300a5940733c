//! The cases of the proved accession program: its expected output is that of the second implementation.

use std::path::Path;

#[test]
fn cases() {
    let folder = Path::new(env!("CARGO_MANIFEST_DIR")).join("../../crates/accession");
    let read = |name: &str| std::fs::read(folder.join(name)).unwrap();
    let mut given = Vec::new();
    hall::accession::run(&mut &read("stdin")[..], &mut given).unwrap();
    let lines = |bytes: &[u8]| String::from_utf8_lossy(bytes).lines().map(str::to_string).collect::<Vec<_>>();
    assert_eq!(lines(&given), lines(&read("stdout")));
    for answer in ["none", "what?", "refused 25", "refused 26", "place 64"] {
        assert!(lines(&given).iter().any(|line| line == answer), "{answer}");
    }
}
