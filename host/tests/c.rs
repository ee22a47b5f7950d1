//! The library for C: installed below a folder of its own, it serves a C and a C++ program built outside the repository.

use feguavy::{End, Reason};
use std::fs::{create_dir_all, remove_dir_all, write};
use std::path::{Path, PathBuf};
use std::process::Command;

/// Prints what the header says of every number, and the length of the term that a list begins with: of some lists, and behind each
/// word of 0-6, and how many of the others have a part.
const TEXTS: &str = r#"
#include <feguavy.h>
#include <stdio.h>
int main(void) {
    const uint16_t words[7] = {2, 4, 0, 16, 0, 7, 7};
    const enum feguavy_refusal last = FEGUAVY_CALLER_NOT_ALLOWED;
    const enum feguavy_end fourth = FEGUAVY_LONG;
    for (uint32_t n = 0; n <= (uint32_t)last + 1; n++) printf("%s\n", feguavy_refusal_text(n));
    for (uint32_t n = 0; n <= (uint32_t)fourth + 1; n++) printf("%s\n", feguavy_end_text(n));
    for (size_t count = 0; count <= 7; count++) printf("%zu ", feguavy_length(words, count));
    size_t parted = 0;
    for (uint32_t word = 0; word <= 65535; word++) {
        const uint16_t list[4] = {(uint16_t)word, 0, 0, 0};
        const size_t length = feguavy_length(list, 4);
        if (word < 7) printf("%zu ", length);
        else parted += length != 1;
    }
    printf("%zu\n%s %d.%d.%d\n", parted, FEGUAVY_VERSION, FEGUAVY_VERSION_MAJOR, FEGUAVY_VERSION_MINOR, FEGUAVY_VERSION_PATCH);
    return 0;
}
"#;

/// Prints every number of a run of three cancelled casts, two unfoldings and one substitution, with budgets of 5, of 6 and of 1,000,
/// each by another caller and given the desk that the one before returned, and of runs that are refused: by their words, and by their
/// caller.
const RUNS: &str = r#"
#include <feguavy.h>
#include <stdio.h>
static uint16_t work[FEGUAVY_RUN_WORK], state[FEGUAVY_LONGEST];
static feguavy_desk desk = {{100, 200, 300, 400, 500, 600, 700, 4294967295u}};
static void print_run(const uint16_t *term, size_t count, uint32_t budget, uint32_t caller) {
    const feguavy_ran r = feguavy_run(term, count, budget, work, FEGUAVY_RUN_WORK, state, FEGUAVY_LONGEST, caller, desk);
    printf("%u %u %u %u %u %u %u |", r.answer, r.place, r.end, r.steps, r.substitutions, r.unfoldings, r.cancellations);
    for (int i = 0; i < FEGUAVY_CALLERS; i++) printf(" %u", r.desk.allowances[i]);
    printf("\n");
    desk = r.desk;
}
int main(void) {
    const uint16_t mixed[18] = {1, 3, 0, 1, 3, 0, 1, 3, 0, 6, 0, 6, 0, 2, 4, 0, 16, 0}, unbound[3] = {4, 0, 17};
    print_run(mixed, 18, 5, 0);
    print_run(mixed, 18, 6, 7);
    print_run(mixed, 18, 1000, 3);
    print_run(unbound, 3, 1000, 3);
    print_run(mixed, 18, 1000, 8);
    print_run(mixed, 18, 1000, 4294967295u);
    return 0;
}
"#;

fn root() -> PathBuf {
    Path::new(env!("CARGO_MANIFEST_DIR")).join("..")
}

/// A fresh folder outside the repository, with the library installed in it.
fn installed(name: &str) -> PathBuf {
    let folder = std::env::temp_dir().join(format!("feguavy-{name}-{}", std::process::id()));
    _ = remove_dir_all(&folder);
    create_dir_all(&folder).unwrap();
    said(Command::new(root().join("scripts/install")).arg(&folder));
    folder
}

/// What a command prints; it must end with status 0.
fn said(command: &mut Command) -> String {
    let output = command.output().unwrap_or_else(|e| panic!("{command:?}: {e}"));
    assert!(output.status.success(), "{command:?}: {}", String::from_utf8_lossy(&output.stderr));
    String::from_utf8(output.stdout).unwrap()
}

/// Builds the source with the flags of the installed pkg-config file, warnings being errors.
fn build(folder: &Path, compiler: &str, language: &[&str], source: &Path) -> PathBuf {
    let found = said(
        Command::new("pkg-config").env("PKG_CONFIG_PATH", folder.join("lib/pkgconfig")).args(["--cflags", "--libs", "feguavy"]),
    );
    let (cflags, libs): (Vec<&str>, Vec<&str>) = found.split_whitespace().partition(|flag| flag.starts_with("-I"));
    let program = folder.join(format!("program-{compiler}"));
    let mut command = Command::new(compiler);
    command.current_dir(folder).args(language).args(["-Wall", "-Wextra", "-Werror", "-pedantic"]).args(cflags);
    said(command.arg(source).args(["-x", "none"]).args(libs).arg("-o").arg(&program));
    program
}

const LANGUAGES: [(&str, &[&str]); 2] = [("cc", &["-std=c99", "-x", "c"]), ("c++", &["-std=c++11", "-x", "c++"])];

#[test]
fn texts_and_lengths() {
    let folder = installed("texts");
    let source = folder.join("texts.c");
    write(&source, TEXTS).unwrap();
    let refusal = |number| Reason::try_from(number).map_or("no refusal".to_string(), |reason| reason.to_string());
    let ends = [End::Value, End::Spent, End::Stuck, End::Long].iter().map(|end| end.to_string());
    let none = |text: &str| std::iter::once(text.to_string());
    let mut expected: Vec<String> = (0..=Reason::CallerNotAllowed.number() + 1).map(refusal).collect();
    expected.extend(none("no end").chain(ends).chain(none("no end")));
    expected.push("0 1 2 3 4 5 5 5 1 2 3 3 3 3 3 0".to_string());
    expected.push(format!("{0} {0}", env!("CARGO_PKG_VERSION")));
    for (compiler, language) in LANGUAGES {
        let lines = said(&mut Command::new(build(&folder, compiler, language, &source)));
        assert_eq!(lines.lines().collect::<Vec<_>>(), expected, "{compiler}");
    }
    remove_dir_all(&folder).unwrap();
}

#[test]
fn numbers_of_runs() {
    let folder = installed("runs");
    let source = folder.join("runs.c");
    write(&source, RUNS).unwrap();
    for (compiler, language) in LANGUAGES {
        let lines = said(&mut Command::new(build(&folder, compiler, language, &source)));
        let expected = [
            "0 0 2 5 0 2 3 | 95 200 300 400 500 600 700 4294967295",
            "0 0 1 6 1 2 3 | 95 200 300 400 500 600 700 4294967289",
            "0 0 1 6 1 2 3 | 95 200 300 394 500 600 700 4294967289",
            "9 2 0 0 0 0 0 | 95 200 300 394 500 600 700 4294967289",
            "21 0 0 0 0 0 0 | 95 200 300 394 500 600 700 4294967289",
            "21 0 0 0 0 0 0 | 95 200 300 394 500 600 700 4294967289",
        ];
        assert_eq!(lines.lines().collect::<Vec<_>>(), expected, "{compiler}");
    }
    remove_dir_all(&folder).unwrap();
}

/// A program that has no C library gives the archive `memset`, and nothing else.
#[test]
fn asks_for_memset_alone() {
    let folder = installed("outside");
    let listed = said(Command::new("nm").arg("-u").arg(folder.join("lib/libfeguavy.a")));
    let mut names: Vec<&str> = listed.lines().filter_map(|line| line.trim().strip_prefix("U ")).collect();
    names.sort_unstable();
    names.dedup();
    assert_eq!(names, ["memset"]);
    remove_dir_all(&folder).unwrap();
}

#[test]
fn example() {
    let folder = installed("example");
    let source = root().join("host/examples/type.c").canonicalize().unwrap();
    for (compiler, language) in LANGUAGES {
        let program = build(&folder, compiler, language, &source);
        let answer = |words: &str| {
            let output = Command::new(&program).args(words.split_whitespace()).output().unwrap();
            (output.status.code().unwrap(), String::from_utf8(output.stdout).unwrap())
        };
        let typed =
            "type: 5 0 0\nrun: ended at a value, steps: 0, substitutions: 0, unfoldings: 0, cancelled casts: 0\nstate: 4 0 16\n";
        assert_eq!(answer("4 0 16"), (0, typed.to_string()));
        // cast↓ cast↑ [(λ x : ⋆. x) ⋆] (μ _ : ⋆. μ _ : ⋆. ⋆)
        let stepping = "type: 0\nrun: ended at a value, steps: 3, substitutions: 0, unfoldings: 2, cancelled casts: 1\nstate: 0\n";
        assert_eq!(answer("1 3 2 4 0 16 0 6 0 6 0 0"), (0, stepping.to_string()));
        assert_eq!(answer("1 0"), (1, "refused: a cast whose type does not step (refusal 13, place 0)\n".to_string()));
        assert_eq!(answer(&"0 ".repeat(1025)), (1, "refused: a term of 0 or over 1,024 words (refusal 4, place 0)\n".to_string()));
        for no_word in ["x", "+1", "-1", "65536", "1.0", "0x1", "99999999999999999999999"] {
            assert_eq!(answer(no_word), (2, String::new()), "{no_word}");
        }
    }
    remove_dir_all(&folder).unwrap();
}
