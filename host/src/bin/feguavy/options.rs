//! The command line.

use crate::input::{self, Input};
use feguavy::{Style, LARGEST_LIMIT};
use std::ffi::OsString;

pub const HELP: &str = "\
feguavy: the proved checker for lambda-star-mu

usage: feguavy COMMAND [OPTION]... INPUT...

Commands
  check     the type of each term, or why it is refused
  run       where each term stands after at most so many steps, and how many of them were of each kind
  show      each term as text
  explain   as check, and for a refused term the part at fault, what was expected there and what was found

Inputs, one term each
  FILE           words of two bytes, low byte first
  -              the same from standard input
  --words TEXT   words in decimal, parted by spaces; a TEXT of - reads them from standard input
  --             what follows is names of files

Options
  --limit N      the longest type of a check, in words: 1 to 1024 (check, explain; 1024 if not given)
  --budget N     the most steps of a run (run; 1000 if not given)
  --trace        every state of the run, the term itself first, each behind the rule that led to it (run)
  --json         an answer is a line of JSON
  --ascii        terms in ASCII
  --width N      the columns of a line (show, explain; 100 if not given)
  --help         this text
  --version      the version

Exit status
  0  every term is accepted (for run and show: can be read)
  1  some term is refused
  2  bad use, or something that cannot be read or written

The words of a term, in prefix order
  0        ⋆             the type of types
  1 E      cast↓ E       E at the type that its type steps to
  2 F A    F A           application
  3 A E    cast↑ [A] E   E at the type A, which steps to E's type
  4 A E    λ x : A. E    function
  5 A B    Π x : A. B    function type; A → B where x is not used
  6 A E    μ x : A. E    recursion
  16 + I   x             the variable of a binder (4, 5, 6), with I binders in between
  In ASCII: *, castdown E, castup [A] E, \\ x : A. E, Pi x : A. B, A -> B, mu x : A. E.

Examples
  $ feguavy check --words \"4 0 16\"
  typed: ⋆ → ⋆
  $ feguavy run --trace --words \"1 3 2 4 0 16 0 0\"
  0:                 cast↓ cast↑ [(λ x : ⋆. x) ⋆] ⋆
  1: S_CASTDOWNUP    ⋆
  ended at a value after 1 step (1 cancelled cast)
  $ feguavy explain --words \"2 4 0 16 4 0 16\"
  $ feguavy check --json modules/*

Lines of JSON: \"input\" names the input, and \"answer\" says which keys follow.
  typed       type: words, text: the type as text
  refused     reason, place: numbers (place 0 where the reason has none), text
              explain: also shown, message, facts (a list of name, words, text), variables (a list of name, binder, words, text),
              hint, least_limit, complete
  ended       end, steps, substitutions, unfoldings, cancellations: numbers, state: words, text: the state as text
  state       step: a number, rule: by which the step led there (null for step 0), state: words, text (run --trace, before ended)
  shown       words, text
  unreadable  text: why
";

#[derive(Clone, Copy, Debug, PartialEq)]
pub enum Command {
    Check,
    Run,
    Show,
    Explain,
}

#[derive(Debug)]
pub struct Options {
    pub command: Command,
    pub limit: u32,
    pub budget: u32,
    pub trace: bool,
    pub json: bool,
    pub style: Style,
    pub inputs: Vec<Input>,
}

#[derive(Debug)]
pub enum Parsed {
    Options(Options),
    Help,
    Version,
}

/// Decimal digits alone, and no more than fit.
pub fn number(text: &str) -> Option<u32> {
    let digits = !text.is_empty() && text.bytes().all(|byte| byte.is_ascii_digit());
    digits.then(|| text.parse().ok()).flatten()
}

pub fn parse(arguments: impl Iterator<Item = OsString>) -> Result<Parsed, String> {
    let mut arguments = arguments.peekable();
    let command = match arguments.next().as_ref().map(|name| name.to_string_lossy()).as_deref() {
        Some("check") => Command::Check,
        Some("run") => Command::Run,
        Some("show") => Command::Show,
        Some("explain") => Command::Explain,
        Some("--help" | "-h" | "help") => return Ok(Parsed::Help),
        Some("--version") => return Ok(Parsed::Version),
        Some(other) => return Err(format!("no command is called {other}: there are check, run, show and explain")),
        None => return Err("a command is missing: check, run, show or explain".to_string()),
    };
    let mut options = Options {
        command,
        limit: LARGEST_LIMIT,
        budget: 1000,
        trace: false,
        json: false,
        style: Style::default(),
        inputs: Vec::new(),
    };
    let mut only_files = false;
    while let Some(argument) = arguments.next() {
        let text = argument.to_str().filter(|_| !only_files).unwrap_or("");
        if !text.starts_with('-') {
            options.inputs.push(Input::File(argument.into()));
            continue;
        }
        let (name, given) = match text.split_once('=') {
            Some((name, value)) => (name, Some(value.to_string())),
            None => (text, None),
        };
        let mut value = || match given.clone() {
            Some(value) => Ok(value),
            None => match arguments.next().map(OsString::into_string) {
                Some(Ok(value)) => Ok(value),
                Some(Err(_)) => Err(format!("what follows {name} is no text")),
                None => Err(format!("nothing follows {name}")),
            },
        };
        match name {
            "--limit" => {
                let value = value()?;
                let limit = number(&value).filter(|limit| (1..=LARGEST_LIMIT).contains(limit));
                options.limit = limit.ok_or(format!("a limit is a number from 1 to {LARGEST_LIMIT}, and not {value}"))?;
                only_for(name, command, &[Command::Check, Command::Explain])?;
            }
            "--budget" => {
                let value = value()?;
                options.budget = number(&value).ok_or(format!("a budget is a number of at most 32 bits, and not {value}"))?;
                only_for(name, command, &[Command::Run])?;
            }
            "--width" => {
                let value = value()?;
                let width = number(&value).filter(|&width| width > 0);
                options.style.width = width.ok_or(format!("a width is a number above 0, and not {value}"))? as usize;
                only_for(name, command, &[Command::Show, Command::Explain])?;
            }
            "--words" => {
                let text = value()?;
                options.inputs.push(if text == "-" { Input::StandardWords } else { Input::Words(input::words(&text)?) });
            }
            _ if given.is_some() => return Err(format!("no option with a value is called {name}")),
            "--trace" => {
                options.trace = true;
                only_for(name, command, &[Command::Run])?;
            }
            "--json" => options.json = true,
            "--ascii" => options.style.ascii = true,
            "-" => options.inputs.push(Input::Standard),
            "--" => only_files = true,
            "--help" | "-h" => return Ok(Parsed::Help),
            _ => return Err(format!("no option is called {name}")),
        }
    }
    let standard = options.inputs.iter().filter(|input| matches!(input, Input::Standard | Input::StandardWords)).count();
    match options.inputs.len() {
        0 => Err("an input is missing: a file, - or --words".to_string()),
        _ if standard > 1 => Err("standard input can be read only once".to_string()),
        _ => Ok(Parsed::Options(options)),
    }
}

fn only_for(name: &str, command: Command, commands: &[Command]) -> Result<(), String> {
    match commands.contains(&command) {
        true => Ok(()),
        false => Err(format!("{name} is for other commands")),
    }
}
