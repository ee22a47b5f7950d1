use reference::*;
use std::io::{BufRead, Read, Write};

fn main() {
    let mut opt = proto::Options::default();
    let mut rest = Vec::new();
    for a in std::env::args().skip(1) {
        match a.as_str() {
            "--new-ends" => opt.new_ends = true,
            "--under-up" => opt.under_up = true,
            "--names" => opt.names = true,
            "--no-leap" => opt.no_leap = true,
            _ => rest.push(a),
        }
    }
    let stdout = std::io::stdout();
    let mut out = std::io::BufWriter::with_capacity(1 << 16, stdout.lock());
    match rest.first().map(|s| s.as_str()) {
        None => {
            let stdin = std::io::stdin();
            let mut s = proto::Server::new(opt);
            let mut line = String::new();
            let mut ans = String::new();
            let mut input = std::io::BufReader::with_capacity(1 << 16, stdin.lock());
            loop {
                line.clear();
                if input.read_line(&mut line).unwrap() == 0 {
                    break;
                }
                ans.clear();
                s.answer(line.trim_end_matches(['\n', '\r']), &mut ans);
                ans.push('\n');
                out.write_all(ans.as_bytes()).unwrap();
                if input.buffer().is_empty() {
                    out.flush().unwrap();
                }
            }
        }
        Some("report") => {
            let mut b = Vec::new();
            std::io::stdin().take(1 << 20).read_to_end(&mut b).unwrap();
            let env = step::Env { under_up: opt.under_up, ..step::PLAIN };
            let names = if opt.names { read::Names::Below(0) } else { read::Names::Meaningless };
            let rules = run::Rules { new_ends: opt.new_ends, ..run::FIRST };
            out.write_all(report::report_with(&b, &env, names, rules).as_bytes()).unwrap();
        }
        Some("bench") => bench::bench(),
        Some("time") => {
            let number = |i: usize| rest.get(i).and_then(|x| x.parse::<f64>().ok());
            time::time(number(1).unwrap_or(2.0), number(2).unwrap_or(512.0) as usize)
        }
        Some("slow") => {
            for l in bench::lines() {
                writeln!(out, "{}", l).unwrap();
            }
        }
        Some("census") => census::print(&mut out, opt.under_up),
        Some("table") => {
            let t = census::table();
            for n in 1..=16 {
                for m in 0..=(16 - n) {
                    writeln!(out, "{} {} {}", n, m, t[n][m]).unwrap();
                }
            }
        }
        Some("gen") => {
            let seed: u64 = rest.get(1).and_then(|x| x.parse().ok()).unwrap_or(1);
            let count: u64 = rest.get(2).and_then(|x| x.parse().ok()).unwrap_or(1000);
            let books = rest.get(3).map(|x| x == "book").unwrap_or(false);
            let mut g = gen::Gen::new(seed);
            for i in 0..count {
                let l = if books { g.book_line(i == 0) } else { g.line() };
                out.write_all(l.as_bytes()).unwrap();
                out.write_all(b"\n").unwrap();
            }
        }
        Some(x) => {
            eprintln!("unknown command {}", x);
            std::process::exit(2);
        }
    }
    out.flush().unwrap();
}
