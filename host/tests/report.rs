//! The report program on stored inputs: every byte of standard output. `scripts/build report` builds it, and
//! `scripts/reports` writes the stored reports.

use std::collections::BTreeSet;
use std::io::Write;
use std::path::{Path, PathBuf};
use std::process::{Command, Stdio};
use std::time::Duration;

const CASES: &str = include_str!("report.txt");

fn program() -> PathBuf {
    let path = Path::new(env!("CARGO_MANIFEST_DIR")).join("../target/bin/report");
    assert!(path.is_file(), "{} is not there: `scripts/build report` builds it", path.display());
    path
}

/// What the program prints on input that comes in these pieces.
fn report(pieces: &[&[u8]]) -> String {
    let mut child = Command::new(program()).stdin(Stdio::piped()).stdout(Stdio::piped()).spawn().unwrap();
    let mut input = child.stdin.take().unwrap();
    for (i, piece) in pieces.iter().enumerate() {
        if i > 0 {
            std::thread::sleep(Duration::from_millis(20));
        }
        input.write_all(piece).unwrap();
    }
    drop(input);
    let output = child.wait_with_output().unwrap();
    assert!(output.status.success(), "{}", output.status);
    String::from_utf8(output.stdout).unwrap()
}

struct Case {
    name: &'static str,
    input: Vec<u8>,
    report: String,
}

fn bytes(hex: &str) -> Vec<u8> {
    (0..hex.len()).step_by(2).map(|i| u8::from_str_radix(&hex[i..i + 2], 16).unwrap()).collect()
}

/// Groups of bytes in hexadecimal; one with `xN` behind it stands N times.
fn unpacked(groups: &str) -> Vec<u8> {
    let group = |group: &str| match group.split_once('x') {
        Some((hex, times)) => bytes(hex).repeat(times.parse().unwrap()),
        None => bytes(group),
    };
    groups.split_whitespace().flat_map(group).collect()
}

/// Cases are parted by an empty line: a name, `<` and the bytes, and the report.
fn cases() -> Vec<Case> {
    CASES
        .trim_end()
        .split("\n\n")
        .map(|case| {
            let (name, rest) = case.split_once('\n').unwrap();
            let (input, report) = rest.split_once('\n').unwrap();
            Case { name, input: unpacked(input.strip_prefix('<').unwrap()), report: format!("{report}\n") }
        })
        .collect()
}

#[test]
fn every_stored_report() {
    for case in cases() {
        assert_eq!(report(&[&case.input]), case.report, "{}", case.name);
    }
}

/// The lengths at the bounds, every answer but 1 to 3, which the program's own slices shut out, and every end but 3, which no
/// accepted term has.
#[test]
fn stored_reports_cover_the_bounds() {
    let numbers = |name: &str| -> BTreeSet<u32> {
        cases().iter().map(|case| case.report.lines().find_map(|l| l.strip_prefix(name)).unwrap().parse().unwrap()).collect()
    };
    let lengths: BTreeSet<usize> = cases().iter().map(|case| case.input.len()).collect();
    assert!([0, 1, 2, 15, 2047, 2048, 2049, 5000].iter().all(|n| lengths.contains(n)), "{lengths:?}");
    assert_eq!(numbers("answer="), [0].into_iter().chain(4..=16).collect());
    assert_eq!(numbers("end="), BTreeSet::from([0, 1, 2, 4]));
}

/// Input in pieces is read whole.
#[test]
fn input_in_pieces() {
    for case in cases().iter().filter(|c| c.name.starts_with("the example") || c.name.starts_with("2,04")) {
        let (first, rest) = case.input.split_at(case.input.len() / 3);
        let (second, third) = rest.split_at(rest.len() / 2);
        assert_eq!(report(&[first, second, third]), case.report, "{}", case.name);
    }
}
