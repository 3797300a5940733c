//! The cases of the proved decode program: its expected output is that of the second implementation.

use std::path::Path;

#[test]
fn cases() {
    let folder = Path::new(env!("CARGO_MANIFEST_DIR")).join("../../crates/decode");
    let read = |name: &str| std::fs::read(folder.join(name)).unwrap();
    let mut given = Vec::new();
    hall::decode::run(&mut &read("stdin")[..], &mut given).unwrap();
    let lines = |bytes: &[u8]| String::from_utf8_lossy(bytes).lines().map(str::to_string).collect::<Vec<_>>();
    assert_eq!(lines(&given), lines(&read("stdout")));
    for number in [1, 2, 3, 9, 10, 21] {
        let answer = format!("refused {number}");
        assert!(lines(&given).contains(&answer), "{answer}");
    }
}
