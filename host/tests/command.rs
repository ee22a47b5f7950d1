//! The command `feguavy`: what it prints, its lines of JSON, its exit status, and what it says where something fails.

use feguavy::{bytes_from_words, show, Buffers, Caller, Desk, Style};
use std::io::{Read, Write};
use std::path::PathBuf;
use std::process::{Command, Output, Stdio};

fn feguavy() -> Command {
    Command::new(env!("CARGO_BIN_EXE_feguavy"))
}

/// What it printed and complained of, and its status, given standard input.
fn with_input(arguments: &[&str], input: &[u8]) -> (String, String, i32) {
    let mut child = feguavy().args(arguments).stdin(Stdio::piped()).stdout(Stdio::piped()).stderr(Stdio::piped()).spawn().unwrap();
    // it may end without reading
    _ = child.stdin.take().unwrap().write_all(input);
    texts(child.wait_with_output().unwrap())
}

fn texts(output: Output) -> (String, String, i32) {
    (String::from_utf8(output.stdout).unwrap(), String::from_utf8(output.stderr).unwrap(), output.status.code().unwrap())
}

fn says(arguments: &[&str], printed: &str, status: i32) {
    let (out, err, code) = with_input(arguments, b"");
    assert_eq!((&out[..], &err[..], code), (printed, "", status), "{arguments:?}");
}

/// A folder for the files of a test.
struct Folder(PathBuf);

impl Folder {
    fn new(name: &str) -> Folder {
        let path = std::env::temp_dir().join(format!("feguavy-{name}-{}", std::process::id()));
        std::fs::create_dir_all(&path).unwrap();
        Folder(path)
    }

    fn file(&self, name: &str, bytes: &[u8]) -> String {
        let path = self.0.join(name);
        std::fs::write(&path, bytes).unwrap();
        path.to_str().unwrap().to_string()
    }
}

impl Drop for Folder {
    fn drop(&mut self) {
        _ = std::fs::remove_dir_all(&self.0);
    }
}

/// Three cancelled casts, two unfoldings, one substitution.
const MIXED: &str = "1 3 0 1 3 0 1 3 0 6 0 6 0 2 4 0 16 0";

#[test]
fn answers() {
    says(&["check", "--words", "4 0 16"], "typed: ⋆ → ⋆\n", 0);
    says(&["check", "--ascii", "--words", "4 0 16"], "typed: * -> *\n", 0);
    says(&["check", "--words", "1 0"], "refused: a cast whose type does not step, at place 0 (refusal 13)\n", 1);
    says(&["check", "--words", ""], "refused: a term of 0 or over 1,024 words (refusal 4)\n", 1);
    says(
        &["check", "--limit", "4", "--words", "4 0 4 16 16"],
        "refused: a type longer than the limit, at place 0 (refusal 16)\n",
        1,
    );
    says(&["check", "--limit=5", "--words=4 0 4 16 16"], "typed: Π x : ⋆. x → x\n", 0);
    says(&["run", "--words", "1 3 2 4 0 16 0 0"], "ended at a value after 1 step (1 cancelled cast): ⋆\n", 0);
    says(
        &["run", "--budget", "7", "--words", "6 0 16"],
        "ended with every step granted taken after 7 steps (7 unfoldings): μ x : ⋆. x\n",
        0,
    );
    says(&["run", "--words", MIXED], "ended at a value after 6 steps (1 substitution, 2 unfoldings, 3 cancelled casts): ⋆\n", 0);
    // with just the steps needed
    says(&["run", "--budget", "1", "--words", "2 4 0 16 0"], "ended at a value after 1 step (1 substitution): ⋆\n", 0);
    says(&["run", "--budget", "0", "--words", "2 0 0"], "ended stuck after 0 steps: ⋆ ⋆\n", 0);
    says(&["run", "--words", "6 0 0"], "ended at a value after 1 step (1 unfolding): ⋆\n", 0);
    says(&["run", "--words", "2 0 0"], "ended stuck after 0 steps: ⋆ ⋆\n", 0);
    says(&["run", "--words", "4 0 17"], "refused: a variable outside all its binders, at place 2 (refusal 9)\n", 1);
    says(&["show", "--words", "4 0 17"], "λ _ : ⋆. #0\n", 0);
    says(&["show", "--width", "12", "--words", "4 0 4 16 16"], "λ x : ⋆.\nλ y : x.\n  y\n", 0);
    says(&["show", "--words", "2 0"], "refused: a list that ends inside the term, at place 2 (refusal 6)\n", 1);
    says(&["explain", "--words", "0"], "typed: ⋆\n", 0);
    let explanation = "refused: a cast whose type does not step, at place 0 (refusal 13)\n\n    ⟦cast↓ ⋆⟧\n\n\
        The body's type must take a step, and does not: it is a value.\n\n    body           ⋆\n    found          ⋆\n";
    says(&["explain", "--words", "1 0"], explanation, 1);
    // the worst of several is the status
    let two = "typed: ⋆\nrefused: a cast whose type does not step, at place 0 (refusal 13)\n";
    says(&["check", "--words", "0", "--words", "1 0"], two, 1);
}

#[test]
fn traces() {
    let printed = "\
0:                 cast↓ cast↑ [⋆] cast↓ cast↑ [⋆] cast↓ cast↑ [⋆] (μ _ : ⋆. μ _ : ⋆. (λ x : ⋆. x) ⋆)
1: S_CASTDOWNUP    cast↓ cast↑ [⋆] cast↓ cast↑ [⋆] (μ _ : ⋆. μ _ : ⋆. (λ x : ⋆. x) ⋆)
2: S_CASTDOWNUP    cast↓ cast↑ [⋆] (μ _ : ⋆. μ _ : ⋆. (λ x : ⋆. x) ⋆)
3: S_CASTDOWNUP    μ _ : ⋆. μ _ : ⋆. (λ x : ⋆. x) ⋆
4: S_MU            μ _ : ⋆. (λ x : ⋆. x) ⋆
5: S_MU            (λ x : ⋆. x) ⋆
6: S_BETA          ⋆
ended at a value after 6 steps (1 substitution, 2 unfoldings, 3 cancelled casts)
";
    says(&["run", "--trace", "--words", MIXED], printed, 0);
    // the same with just the steps needed, and one line less with one step less
    says(&["run", "--trace", "--budget", "6", "--words", MIXED], printed, 0);
    let (front, _) = printed.split_once("6: ").unwrap();
    let less = format!("{front}ended with every step granted taken after 5 steps (2 unfoldings, 3 cancelled casts)\n");
    says(&["run", "--trace", "--budget", "5", "--words", MIXED], &less, 0);
    let at_once = "0:                 ⋆\nended at a value after 0 steps\n";
    says(&["run", "--trace", "--budget", "0", "--words", "0"], at_once, 0);
    says(&["run", "--trace", "--words", "0"], at_once, 0);
    let stuck = "0:                 (μ _ : ⋆. ⋆) ⋆\n1: S_MU            ⋆ ⋆\nended stuck after 1 step (1 unfolding)\n";
    says(&["run", "--trace", "--budget", "1", "--words", "2 6 0 0 0"], stuck, 0);
    says(&["run", "--trace", "--words", "2 6 0 0 0"], stuck, 0);
    says(&["run", "--trace", "--words", "7"], "refused: a word without meaning, at place 0 (refusal 5)\n", 1);
}

/// Each line of a trace is the state of a run of the term itself, also where that has more than 64 levels and could not be run as a
/// term; the rules are given from the first step on, again and again.
fn traces_as(words: &str, budget: u32, rules: &[&str], last: &str) {
    let term: Vec<u16> = words.split(' ').map(|word| word.parse().unwrap()).collect();
    let (out, err, status) = with_input(&["run", "--trace", "--budget", &budget.to_string(), "--words", words], b"");
    assert_eq!((&err[..], status), ("", 0));
    let mut lines: Vec<&str> = out.lines().collect();
    assert_eq!(lines.pop(), Some(last));
    let mut buffers = Buffers::for_limit(1);
    for (step, line) in lines.iter().enumerate() {
        let (ran, state) = buffers.run(&term, step as u32, Caller::FIRST, Desk::alone(u32::MAX));
        assert_eq!(ran.answer.unwrap().steps, step as u32);
        let head = if step == 0 { "0:".to_string() } else { format!("{step}: {}", rules[(step - 1) % rules.len()]) };
        assert_eq!(*line, format!("{head:<18} {}", Style::default().on_one_line().show(state).unwrap()));
    }
    assert!(last.contains(&format!(" after {} steps", lines.len() - 1)), "{last}");
}

#[test]
fn traces_of_many_levels() {
    let last = "ended before a state of over 1,024 words after 1020 steps (1020 unfoldings)";
    traces_as("6 0 1 16", 2000, &["S_MU"], last);
    // μ x : ⋆. cast↓ ((λ y : ⋆. y) x), where the down casts surround both steps
    let last = "ended with every step granted taken after 301 steps (150 substitutions, 151 unfoldings)";
    traces_as("6 0 1 2 4 0 16 16", 301, &["S_MU", "S_BETA"], last);
    // μ x : ⋆. (cast↓ cast↑ [⋆] x) ⋆, where the applications do
    let last = "ended with every step granted taken after 301 steps (151 unfoldings, 150 cancelled casts)";
    traces_as("6 0 2 1 3 0 16 0", 301, &["S_MU", "S_CASTDOWNUP"], last);
}

#[test]
fn lines_of_json() {
    says(
        &["check", "--json", "--words", "4 0 16"],
        "{\"input\":\"4 0 16\",\"answer\":\"typed\",\"type\":[5,0,0],\"text\":\"⋆ → ⋆\"}\n",
        0,
    );
    let refused = "{\"input\":\"1 0\",\"answer\":\"refused\",\"reason\":13,\"place\":0,\
        \"text\":\"a cast whose type does not step, at place 0 (refusal 13)\"";
    says(&["check", "--json", "--words", "1 0"], &format!("{refused}}}\n"), 1);
    let more = ",\"shown\":\"⟦cast↓ ⋆⟧\",\"message\":\"The body's type must take a step, and does not: it is a value.\",\
        \"facts\":[{\"name\":\"body\",\"words\":[0],\"text\":\"⋆\"},{\"name\":\"found\",\"words\":[0],\"text\":\"⋆\"}],\
        \"variables\":[],\"hint\":null,\"least_limit\":null,\"complete\":true}\n";
    says(&["explain", "--json", "--words", "1 0"], &format!("{refused}{more}"), 1);
    let (out, _, _) = with_input(&["explain", "--json", "--words", "4 0 1 16"], b"");
    assert!(out.contains("\"variables\":[{\"name\":\"x\",\"binder\":0,\"words\":[0],\"text\":\"⋆\"}],\"hint\":null"), "{out}");
    let ended = "{\"input\":\"2 4 0 16 0\",\"answer\":\"ended\",\"end\":1,\"steps\":1,\"substitutions\":1,\"unfoldings\":0,\
        \"cancellations\":0,\"state\":[0],\"text\":\"⋆\"}\n";
    says(&["run", "--json", "--words", "2 4 0 16 0"], ended, 0);
    let states = "{\"input\":\"2 4 0 16 0\",\"answer\":\"state\",\"step\":0,\"rule\":null,\"state\":[2,4,0,16,0],\
        \"text\":\"(λ x : ⋆. x) ⋆\"}\n\
        {\"input\":\"2 4 0 16 0\",\"answer\":\"state\",\"step\":1,\"rule\":\"S_BETA\",\"state\":[0],\"text\":\"⋆\"}\n";
    says(&["run", "--trace", "--json", "--words", "2 4 0 16 0"], &format!("{states}{ended}"), 0);
    let (out, _, _) = with_input(&["run", "--trace", "--json", "--words", MIXED], b"");
    let lines: Vec<&str> = out.lines().collect();
    for (step, rule) in ["S_CASTDOWNUP", "S_CASTDOWNUP", "S_CASTDOWNUP", "S_MU", "S_MU", "S_BETA"].into_iter().enumerate() {
        assert!(lines[step + 1].contains(&format!("\"step\":{},\"rule\":\"{rule}\",\"state\":[", step + 1)), "{out}");
    }
    assert!(lines[7].contains("\"steps\":6,\"substitutions\":1,\"unfoldings\":2,\"cancellations\":3,\"state\":[0]"), "{out}");
    says(
        &["show", "--json", "--ascii", "--words", "4 0 16"],
        "{\"input\":\"4 0 16\",\"answer\":\"shown\",\"words\":[4,0,16],\"text\":\"\\\\ x : *. x\"}\n",
        0,
    );
    let folder = Folder::new("json");
    let odd = folder.file("odd \"name\"\n", &[4, 0, 0]);
    let (out, err, status) = with_input(&["check", "--json", "--", &odd, "/nowhere/at all"], b"");
    let lines: Vec<&str> = out.lines().collect();
    assert!(
        lines[0].starts_with("{\"input\":\"")
            && lines[0].contains("odd \\\"name\\\"\\n\",\"answer\":\"refused\",\"reason\":4,\"place\":0")
    );
    assert!(lines[1].starts_with("{\"input\":\"/nowhere/at all\",\"answer\":\"unreadable\",\"text\":\"No such file"));
    assert!(err.contains("feguavy: /nowhere/at all: No such file"));
    assert_eq!((lines.len(), status), (2, 2));
    // every key of a refusal, also where there is no list to explain
    let (out, _, _) = with_input(&["explain", "--json", &odd], b"");
    assert!(out.contains(
        "\"shown\":null,\"message\":\"The input has an odd number of bytes, which are no words (refusal 4).\",\"facts\":[]"
    ));
}

#[test]
fn files_and_standard_input() {
    let folder = Folder::new("files");
    let good = folder.file("good", &bytes_from_words(&[4, 0, 16]));
    let bad = folder.file("bad", &bytes_from_words(&[2, 0, 0]));
    let long = folder.file("long", &[0; 2050]);
    let odd = folder.file("odd", &[0; 2047]);
    let (out, err, status) = with_input(&["check", &good, &bad, &long, &odd, "-"], &[0, 0]);
    let expected = [
        format!("{good}: typed: ⋆ → ⋆"),
        format!("{bad}: refused: a function whose type is no product, at place 0 (refusal 11)"),
        format!("{long}: refused: over 2,048 bytes, which are over 1,024 words (refusal 4)"),
        format!("{odd}: refused: an odd number of bytes, which are no words (refusal 4)"),
        "typed: ⋆".to_string(),
    ];
    assert_eq!((out.lines().collect::<Vec<_>>(), &err[..], status), (expected.iter().map(|s| &s[..]).collect(), "", 1));
    // what cannot be read does not keep the rest from being answered
    let missing = folder.0.join("missing");
    let folder_itself = folder.0.to_str().unwrap();
    let (out, err, status) = with_input(&["check", missing.to_str().unwrap(), folder_itself, &good], b"");
    assert_eq!((out, status), (format!("{good}: typed: ⋆ → ⋆\n"), 2));
    assert_eq!(err.lines().count(), 2);
    assert!(err.lines().all(|line| line.starts_with("feguavy: ")), "{err}");
    // words as text, on standard input
    assert_eq!(with_input(&["show", "--words", "-"], b" 4 0\t16\n"), ("λ x : ⋆. x\n".to_string(), String::new(), 0));
    let (out, err, status) = with_input(&["show", "--words", "-"], b"4 0 +16");
    assert_eq!((&out[..], &err[..], status), ("", "feguavy: -: a word is a number from 0 to 65535, and not +16\n", 2));
    assert_eq!(with_input(&["show", "--words", "-"], &[0xff]).2, 2);
    // a name that begins with a hyphen
    let (out, _, status) = texts(feguavy().current_dir(&folder.0).args(["check", "--", "--json"]).output().unwrap());
    assert_eq!((&out[..], status), ("", 2));
    folder.file("--json", &[0, 0]);
    let (out, _, status) = texts(feguavy().current_dir(&folder.0).args(["check", "--", "--json"]).output().unwrap());
    assert_eq!((&out[..], status), ("--json: typed: ⋆\n", 0));
}

#[test]
fn many_files_in_order() {
    let folder = Folder::new("many");
    let mut names = Vec::new();
    for i in 0..500u16 {
        // of different sizes, some refused
        let term = if i % 7 == 0 { vec![1, 0] } else { [[4, 0].repeat(i as usize % 60), vec![0]].concat() };
        names.push(folder.file(&format!("{i}"), &bytes_from_words(&term)));
    }
    let arguments: Vec<&str> = ["check", "--json"].into_iter().chain(names.iter().map(|name| &name[..])).collect();
    let (out, err, status) = with_input(&arguments, b"");
    assert_eq!((&err[..], status), ("", 1));
    assert_eq!(out.lines().count(), 500);
    for (i, (line, name)) in out.lines().zip(&names).enumerate() {
        assert!(line.starts_with(&format!("{{\"input\":\"{name}\",")), "{line}");
        assert_eq!(line.contains("\"reason\":13"), i % 7 == 0, "{line}");
    }
}

#[test]
fn bad_use() {
    for arguments in [
        &[][..],
        &["chek", "--words", "0"],
        &["check"],
        &["check", "--word", "0"],
        &["check", "--words"],
        &["check", "--words", "0 x"],
        &["check", "--words", "65536"],
        &["check", "--words", "-1"],
        &["check", "--words", "0x0"],
        &["check", "--limit", "0", "--words", "0"],
        &["check", "--limit", "1025", "--words", "0"],
        &["check", "--limit", "+5", "--words", "0"],
        &["check", "--limit", "", "--words", "0"],
        &["check", "--limit"],
        &["check", "--budget", "5", "--words", "0"],
        &["check", "--trace", "--words", "0"],
        &["check", "--json=yes", "--words", "0"],
        &["run", "--budget", "4294967296", "--words", "0"],
        &["run", "--limit", "5", "--words", "0"],
        &["show", "--width", "0", "--words", "0"],
        &["check", "-x", "--words", "0"],
        &["check", "-", "-"],
        &["check", "-", "--words", "-"],
    ] {
        let (out, err, status) = with_input(arguments, b"");
        assert_eq!((&out[..], status), ("", 2), "{arguments:?}");
        assert!(err.starts_with("feguavy: ") && err.contains("--help"), "{arguments:?}: {err}");
    }
}

#[test]
fn help() {
    for arguments in [&["--help"][..], &["-h"], &["help"], &["check", "--help"], &["run", "--words", "0", "-h"]] {
        let (out, err, status) = with_input(arguments, b"");
        assert_eq!((&err[..], status), ("", 0));
        for name in
            ["check", "run", "show", "explain", "--words", "--limit", "--budget", "--trace", "--json", "--ascii", "Exit status"]
        {
            assert!(out.contains(name), "{name}");
        }
    }
    let (out, _, status) = with_input(&["--version"], b"");
    assert_eq!((out, status), (format!("feguavy {}\n", env!("CARGO_PKG_VERSION")), 0));
    // the examples of the help say what is printed
    let (out, _, _) = with_input(&["--help"], b"");
    let mut lines = out.lines().map(str::trim_start).peekable();
    let mut run = 0;
    while let Some(line) = lines.next() {
        let Some(example) = line.strip_prefix("$ feguavy ") else { continue };
        let (front, words) = example.split_once(" \"").unwrap_or((example, "0\""));
        let mut arguments: Vec<&str> = front.split(' ').collect();
        arguments.push(words.trim_end_matches('"'));
        let mut expected = String::new();
        while let Some(line) = lines.next_if(|line| !line.is_empty() && !line.starts_with("$ ")) {
            expected += &format!("{line}\n");
        }
        if !expected.is_empty() {
            assert_eq!(with_input(&arguments, b"").0, expected, "{example}");
            run += 1;
        }
    }
    assert_eq!(run, 2);
}

#[test]
fn a_closed_pipe_ends_it_quietly() {
    for arguments in [&["run", "--trace", "--budget", "4294967295", "--words", "6 0 16"][..], &["--help"]] {
        let mut child = feguavy().args(arguments).stdout(Stdio::piped()).stderr(Stdio::piped()).spawn().unwrap();
        let mut output = child.stdout.take().unwrap();
        let mut start = [0; 16];
        output.read_exact(&mut start).unwrap();
        drop(output);
        let (_, err, status) = texts(child.wait_with_output().unwrap());
        assert_eq!((&err[..], status), ("", 0));
    }
    // on several threads
    let folder = Folder::new("pipe");
    let names: Vec<String> =
        (0..400).map(|i| folder.file(&format!("{i}"), &bytes_from_words(&[[5, 0].repeat(63), vec![0]].concat()))).collect();
    let mut child = feguavy().arg("show").args(&names).stdout(Stdio::piped()).stderr(Stdio::piped()).spawn().unwrap();
    drop(child.stdout.take());
    let (_, err, status) = texts(child.wait_with_output().unwrap());
    assert_eq!((&err[..], status), ("", 0));
}

#[test]
#[cfg(target_os = "linux")]
fn what_cannot_be_written_is_said() {
    let full = std::fs::OpenOptions::new().write(true).open("/dev/full").unwrap();
    let (_, err, status) = texts(feguavy().args(["check", "--words", "0"]).stdout(full).stderr(Stdio::piped()).output().unwrap());
    assert_eq!(status, 2);
    assert!(err.starts_with("feguavy: standard output: No space left"), "{err}");
}

#[test]
fn long_terms_are_broken_in_lines() {
    let folder = Folder::new("lines");
    let term = [[5, 5, 0, 0].repeat(20), vec![0]].concat();
    let file = folder.file("term", &bytes_from_words(&term));
    let (out, _, _) = with_input(&["show", &file], b"");
    assert_eq!(out, format!("{file}:\n{}\n", show(&term).unwrap()));
    assert!(out.lines().skip(1).all(|line| line.chars().count() <= 100));
}
