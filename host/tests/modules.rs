//! What `modules` answers to files of each kind, and that it loses none in silence.

use std::fs::{create_dir, remove_dir_all, write, Permissions};
use std::io::Write;
use std::os::unix::ffi::OsStrExt;
use std::os::unix::fs::PermissionsExt;
use std::path::{Path, PathBuf};
use std::process::{Command, Output, Stdio};

fn program() -> PathBuf {
    let path = Path::new(env!("CARGO_MANIFEST_DIR")).join("../target/bin/modules");
    assert!(path.exists(), "{} is not there: run `scripts/build modules`", path.display());
    path.canonicalize().unwrap()
}

fn bytes(words: &[u16]) -> Vec<u8> {
    words.iter().flat_map(|w| w.to_le_bytes()).collect()
}

/// A folder of its own, removed at the end.
struct Folder(PathBuf);

impl Folder {
    fn new(name: &str) -> Folder {
        let path = std::env::temp_dir().join(format!("feguavy-modules-{name}-{}", std::process::id()));
        create_dir(&path).unwrap();
        Folder(path)
    }

    fn run(&self, arguments: &[&str], paths: &[u8], output: Stdio) -> Output {
        let mut command = Command::new(program());
        command.args(arguments).current_dir(&self.0).stdin(Stdio::piped()).stdout(output).stderr(Stdio::piped());
        let mut child = command.spawn().unwrap();
        // a program that stops early does not read all
        let _ = child.stdin.take().unwrap().write_all(paths);
        child.wait_with_output().unwrap()
    }
}

impl Drop for Folder {
    fn drop(&mut self) {
        let _ = remove_dir_all(&self.0);
    }
}

fn text(bytes: &[u8]) -> String {
    String::from_utf8_lossy(bytes).into_owned()
}

#[test]
fn files_of_each_kind() {
    let folder = Folder::new("kinds");
    let at = |name: &str| folder.0.join(name);
    write(at("identity"), bytes(&[4, 0, 16])).unwrap();
    write(at("a name\twith a tab"), bytes(&[2, 0, 0])).unwrap();
    write(at("empty"), []).unwrap();
    write(at("odd"), [0]).unwrap();
    write(at("longest"), bytes(&[0; 1024])).unwrap();
    write(at("too long"), bytes(&[0; 1025])).unwrap();
    create_dir(at("folder")).unwrap();
    let mut expected = vec![
        ("typed | 5 0 0", "identity"),
        ("refused 11 0", "a name\twith a tab"),
        ("refused 4 0", "empty"),
        ("refused 4 0", "odd"),
        ("refused 7 1", "longest"),
        ("refused 4 0", "too long"),
        ("unreadable 21", "folder"),
        ("unreadable 2", "missing"),
        ("unreadable 2", ""),
        ("unreadable 20", "identity/inner"),
    ];
    write(at("secret"), bytes(&[0])).unwrap();
    std::fs::set_permissions(at("secret"), Permissions::from_mode(0o000)).unwrap();
    if std::fs::read(at("secret")).is_ok() {
        println!("skipped, since root reads every file: a file with no permission");
    } else {
        expected.push(("unreadable 13", "secret"));
    }
    let paths: String = expected.iter().map(|(_, name)| format!("{name}\n")).collect();
    let answers: String = expected.iter().map(|(answer, name)| format!("{answer}\t{name}\n")).collect();
    let output = folder.run(&["check", "32"], paths.as_bytes(), Stdio::piped());
    assert_eq!(text(&output.stdout), answers);
    assert_eq!(text(&output.stderr), format!("modules: {} files answered\n", expected.len()));
}

#[test]
fn requests_of_each_kind() {
    let folder = Folder::new("requests");
    write(folder.0.join("cast"), bytes(&[1, 3, 2, 4, 0, 16, 0, 0])).unwrap();
    for (arguments, answer) in [
        (&["check", "32"][..], "typed | 0"),
        (&["run", "1000", "400"], "ran 1 1 399 | 0"),
        (&["kinds", "1000", "400"], "ran 1 1 0 0 1 399 | 0"),
        (&["part", "1"], "part | 3 2 4 0 16 0 0"),
    ] {
        // the last line needs no line feed
        let output = folder.run(arguments, b"cast", Stdio::piped());
        assert_eq!(text(&output.stdout), format!("{answer}\tcast\n"));
        assert_eq!(text(&output.stderr), "modules: 1 files answered\n");
    }
}

#[test]
fn arguments_that_are_no_request() {
    let folder = Folder::new("arguments");
    let long = "9".repeat(100);
    for arguments in [
        &[][..],
        &["check"],
        &["check", ""],
        &["check", "1", "2"],
        &["run", "1"],
        &["kinds", "1"],
        &["walk", "1"],
        &["desk", "show"],
        &["desk", "run", "0", "5"],
        &["check", &long],
    ] {
        let output = folder.run(arguments, b"missing\n", Stdio::piped());
        assert_eq!(text(&output.stdout), "", "{arguments:?}");
        assert!(text(&output.stderr).starts_with("modules: check LIMIT"), "{arguments:?}");
    }
}

#[test]
fn paths_too_long_or_with_a_zero() {
    let folder = Folder::new("paths");
    let long = "x".repeat(5000);
    let output = folder.run(&["check", "32"], format!("{long}\nzero\0byte\n").as_bytes(), Stdio::piped());
    assert_eq!(text(&output.stdout), format!("unreadable 36\t{}\nunreadable 22\tzero\0byte\n", &long[..4096]));
}

#[test]
fn a_path_that_is_no_text() {
    let folder = Folder::new("text");
    let name = std::ffi::OsStr::from_bytes(b"\xff");
    write(folder.0.join(name), bytes(&[0])).unwrap();
    let output = folder.run(&["check", "32"], b"\xff\n", Stdio::piped());
    assert_eq!(output.stdout, b"unreadable 84\t\xff\n");
    assert_eq!(text(&output.stderr), "modules: 1 files answered\n");
}

#[test]
fn full_output() {
    let folder = Folder::new("full");
    let full = std::fs::File::create("/dev/full").unwrap();
    let output = folder.run(&["check", "32"], b"missing\n", Stdio::from(full));
    assert_eq!(text(&output.stderr), "modules: answered 0 files, not file 1: standard output: No space left on device\n");
}
