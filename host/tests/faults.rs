//! What `batch` and `serial` do where their input or their output fails: no answer is lost in silence, and none is written behind a
//! gap.

use std::fs::{read, File};
use std::io::{pipe, BufRead, BufReader, Read, Write};
use std::net::{TcpListener, TcpStream};
use std::os::fd::{AsRawFd, OwnedFd};
use std::path::{Path, PathBuf};
use std::process::{Child, Command, Stdio};
use std::sync::mpsc::channel;
use std::thread::{sleep, spawn};
use std::time::Duration;

extern "C" {
    fn fcntl(fd: i32, command: i32, ...) -> i32;
}

/// A call on this descriptor no longer waits: it answers EAGAIN.
fn never_wait(end: &impl AsRawFd) {
    const F_GETFL: i32 = 3;
    const F_SETFL: i32 = 4;
    const O_NONBLOCK: i32 = 0o4000;
    let fd = end.as_raw_fd();
    let flags = unsafe { fcntl(fd, F_GETFL) };
    assert!(flags >= 0 && unsafe { fcntl(fd, F_SETFL, flags | O_NONBLOCK) } == 0);
}

const PROGRAMS: [&str; 2] = ["batch", "serial"];

fn program(name: &str) -> PathBuf {
    let path = Path::new(env!("CARGO_MANIFEST_DIR")).join("../target/bin").join(name);
    assert!(path.exists(), "{} is not there: run `scripts/build {name}`", path.display());
    path
}

/// A program's stored requests and their answers, `times` over: those of `serial` leave the desk as they found it.
fn stored(name: &str, times: usize) -> (Vec<u8>, Vec<u8>) {
    let folder = Path::new(env!("CARGO_MANIFEST_DIR")).join("../crates").join(name);
    let mut requests = read(folder.join("stdin")).unwrap();
    if !requests.ends_with(b"\n") {
        requests.push(b'\n');
    }
    (requests.repeat(times), read(folder.join("stdout")).unwrap().repeat(times))
}

fn lines(bytes: &[u8]) -> usize {
    bytes.iter().filter(|b| **b == b'\n').count()
}

fn receipt(name: &str, answers: &[u8]) -> String {
    format!("{name}: {} requests answered\n", lines(answers))
}

fn start(name: &str, input: impl Into<Stdio>, output: impl Into<Stdio>) -> Child {
    Command::new(program(name)).stdin(input).stdout(output).stderr(Stdio::piped()).spawn().unwrap()
}

fn said(child: Child) -> String {
    String::from_utf8(child.wait_with_output().unwrap().stderr).unwrap()
}

fn feed(mut to: impl Write + Send + 'static, bytes: Vec<u8>) {
    // a program that stops early does not read all
    spawn(move || to.write_all(&bytes).is_ok());
}

/// The program under a shell, which closes or redirects what `how` says: it answers nothing, and says why.
fn fails(how: &str, why: &str) {
    for name in PROGRAMS {
        let line = format!("printf 'check 32 | 0\\n' | \"$0\" {how}");
        let output = Command::new("sh").arg("-c").arg(line).arg(program(name)).output().unwrap();
        let message = format!("{name}: answered 0 requests, not request 1: {why}\n");
        assert_eq!(String::from_utf8_lossy(&output.stderr), message);
        assert_eq!(String::from_utf8_lossy(&output.stdout), "");
    }
}

/// How many answers the message says went out, where it is of that form.
fn told(name: &str, message: &str, device: &str) -> usize {
    let rest = message.strip_prefix(&format!("{name}: answered ")).unwrap_or_else(|| panic!("{message}"));
    let count: usize = rest.split(' ').next().unwrap().parse().unwrap();
    assert_eq!(message, format!("{name}: answered {count} requests, not request {}: {device}\n", count + 1));
    count
}

#[test]
fn full_output() {
    fails("> /dev/full", "standard output: No space left on device");
}

#[test]
fn closed_output() {
    fails(">&-", "standard output: Bad file descriptor");
}

#[test]
fn closed_input() {
    fails("<&-", "standard input: Bad file descriptor");
}

#[test]
fn directory_as_input() {
    fails("< /", "standard input: Is a directory");
}

#[test]
fn receipts() {
    for name in PROGRAMS {
        let (requests, answers) = stored(name, 1);
        for cut in [0, 1] {
            let (reader, writer) = pipe().unwrap();
            feed(writer, requests[..requests.len() - cut].to_vec());
            let output = start(name, reader, Stdio::piped()).wait_with_output().unwrap();
            assert!(output.stdout == answers, "answers with {cut} bytes cut");
            assert_eq!(String::from_utf8_lossy(&output.stderr), receipt(name, &answers));
        }
        let output = start(name, Stdio::null(), Stdio::piped()).wait_with_output().unwrap();
        assert_eq!(String::from_utf8_lossy(&output.stderr), format!("{name}: 0 requests answered\n"));
    }
}

/// A disk of 64 KiB, where one can be mounted: what is written is a front of the answers, and its whole lines are counted.
#[test]
fn full_disk() {
    for name in PROGRAMS {
        let folder = std::env::temp_dir().join(format!("feguavy-disk-{}", std::process::id()));
        std::fs::create_dir(&folder).unwrap();
        let script = "mount -t tmpfs -o size=64k none \"$1\" || exit 9; \"$0\" > \"$1/answers\"; cat \"$1/answers\"";
        let (requests, answers) = stored(name, 20);
        let (reader, writer) = pipe().unwrap();
        feed(writer, requests);
        let arguments = ["--mount", "sh", "-c", script];
        let mut command = Command::new("unshare");
        let output = command.args(arguments).arg(program(name)).arg(&folder).stdin(reader).output();
        std::fs::remove_dir(&folder).unwrap();
        let Ok(output) = output.map_err(|e| println!("skipped: {e}")) else { return };
        let message = String::from_utf8_lossy(&output.stderr);
        if output.status.code() != Some(0) {
            return println!("skipped, since nothing can be mounted here: {message}");
        }
        assert!(answers.starts_with(&output.stdout) && output.stdout.len() < answers.len());
        assert_eq!(told(name, &message, "standard output: No space left on device"), lines(&output.stdout));
    }
}

/// A reader that goes away, under a parent that ignores the signal for it: the program says so.
#[test]
fn reader_gone() {
    for name in PROGRAMS {
        let (requests, _) = stored(name, 500);
        let (reader, writer) = pipe().unwrap();
        feed(writer, requests);
        let mut shell = Command::new("sh");
        shell.args(["-c", "trap '' PIPE; exec \"$0\""]).arg(program(name));
        let mut child = shell.stdin(reader).stdout(Stdio::piped()).stderr(Stdio::piped()).spawn().unwrap();
        let mut some = [0; 1000];
        child.stdout.take().unwrap().read_exact(&mut some).unwrap();
        assert!(told(name, &said(child), "standard output: Broken pipe") >= lines(&some));
    }
}

/// An output that would block: the program waits without using a core, and every answer comes.
#[test]
fn output_that_would_block() {
    for name in PROGRAMS {
        let (requests, answers) = stored(name, 20);
        let (input, writer) = pipe().unwrap();
        let (mut reader, output) = pipe().unwrap();
        never_wait(&output);
        feed(writer, requests);
        let child = start(name, input, output);
        let stat = format!("/proc/{}/stat", child.id());
        let ticks = || {
            let text = std::fs::read_to_string(&stat).unwrap();
            let fields: Vec<&str> = text.rsplit(") ").next().unwrap().split(' ').collect();
            fields[11].parse::<u64>().unwrap() + fields[12].parse::<u64>().unwrap()
        };
        sleep(Duration::from_millis(500));
        let before = ticks();
        sleep(Duration::from_secs(1));
        assert!(ticks() - before < 25, "waiting takes a core");
        let mut got = Vec::new();
        let mut some = [0; 7001];
        loop {
            let count = reader.read(&mut some).unwrap();
            if count == 0 {
                break;
            }
            got.extend_from_slice(&some[..count]);
            sleep(Duration::from_millis(1));
        }
        assert!(got == answers);
        assert_eq!(said(child), receipt(name, &answers));
    }
}

/// An input that would block, and a program that is stopped and goes on in the middle of a read.
#[test]
fn input_that_would_block() {
    for name in PROGRAMS {
        let (requests, answers) = stored(name, 1);
        let (input, mut writer) = pipe().unwrap();
        never_wait(&input);
        let mut child = start(name, input, Stdio::piped());
        let mut output = child.stdout.take().unwrap();
        let reader = spawn(move || {
            let mut all = Vec::new();
            output.read_to_end(&mut all).map(|_| all).unwrap()
        });
        for piece in requests.chunks(requests.len() / 5 + 1) {
            for signal in ["-STOP", "-CONT"] {
                sleep(Duration::from_millis(50));
                assert!(Command::new("kill").arg(signal).arg(child.id().to_string()).status().unwrap().success());
            }
            writer.write_all(piece).unwrap();
        }
        drop(writer);
        assert!(reader.join().unwrap() == answers);
        assert_eq!(said(child), receipt(name, &answers));
    }
}

/// A connection that is reset in the middle of a request: the whole requests before it are answered.
#[test]
fn input_that_fails() {
    for name in PROGRAMS {
        let listener = TcpListener::bind("127.0.0.1:0").unwrap();
        let mut ours = TcpStream::connect(listener.local_addr().unwrap()).unwrap();
        let mut theirs = listener.accept().unwrap().0;
        // bytes that are not read when a connection is closed make it reset
        theirs.write_all(b"unread").unwrap();
        let mut child = start(name, OwnedFd::from(theirs), Stdio::piped());
        ours.write_all(b"check 32 | 0\ncheck 32 | 4 0 16\ncheck 32 | 4 0").unwrap();
        let mut output = BufReader::new(child.stdout.take().unwrap());
        let mut line = String::new();
        output.read_line(&mut line).unwrap();
        output.read_line(&mut line).unwrap();
        drop(ours);
        output.read_line(&mut line).unwrap();
        assert_eq!(line, "typed | 0\ntyped | 5 0 0\n");
        assert_eq!(told(name, &said(child), "standard input: Connection reset by peer"), 2);
    }
}

/// The answers before a run of many steps come while it runs.
#[test]
fn long_run_behind_others() {
    let desk = "desk new 0 0 0 300000000 0 0 0 0\ndesk run 3 300000000";
    let alone = ["run 300000000 300000000", "kinds 300000000 300000000"];
    let runs = PROGRAMS.iter().flat_map(|name| alone.map(|run| (*name, run))).chain([("serial", desk)]);
    for (name, run) in runs {
        let (input, mut writer) = pipe().unwrap();
        writer.write_all(format!("check 32 | 0\n{run} | 6 0 16\n").as_bytes()).unwrap();
        let mut child = start(name, input, Stdio::piped());
        let output = child.stdout.take().unwrap();
        let (sender, receiver) = channel();
        spawn(move || {
            let mut line = String::new();
            let _ = BufReader::new(output).read_line(&mut line).map(|_| sender.send(line));
        });
        let first = receiver.recv_timeout(Duration::from_secs(2));
        child.kill().unwrap();
        child.wait().unwrap();
        assert_eq!(first.as_deref(), Ok("typed | 0\n"), "held back by {run} behind it");
    }
}

#[test]
fn plain_file() {
    for name in PROGRAMS {
        let (requests, answers) = stored(name, 3);
        let path = std::env::temp_dir().join(format!("feguavy-answers-{}", std::process::id()));
        let (input, writer) = pipe().unwrap();
        feed(writer, requests);
        let child = start(name, input, File::create(&path).unwrap());
        assert_eq!(said(child), receipt(name, &answers));
        assert!(read(&path).unwrap() == answers);
        std::fs::remove_file(&path).unwrap();
    }
}
