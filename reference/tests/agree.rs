//! The word-list code against the literal tree code, on random input.

use reference::check::*;
use reference::gen::*;
use reference::naive;
use reference::read::*;
use reference::run::*;
use reference::shelf;
use reference::step::*;

fn count() -> usize {
    std::env::var("ORACLE_N").ok().and_then(|x| x.parse().ok()).unwrap_or(20000)
}

#[test]
fn reading_typing_stepping() {
    let mut g = Gen::new(11);
    let mut r = Rng::new(5);
    let mut work = vec![0u16; words_needed(1024).max(4096)];
    let mut typed = 0;
    for _ in 0..count() {
        let t = g.input();
        let under_up = r.one_in(2);
        let env = Env { under_up, ..PLAIN };
        let rules = naive::Rules { book: &[], owner: None, under_up };
        let a = read(&t, Names::Meaningless).map_err(|e| (e.reason, e.place as usize));
        let b = naive::parse(&t, 99);
        assert_eq!(a.err(), b.as_ref().err().copied(), "{:?}", t);
        let x = match b {
            Ok(x) => x,
            Err(_) => continue,
        };
        // typing, at a random limit and at the limits around the longest type
        let (_, m, _) = check_measured(&t, 1024, env, &mut work);
        for l in [1 + r.below(1024), m.max(1), (m - 1).max(1), 1 + r.below(40)] {
            let a = check_into(&t, l, env, &mut work)
                .map(|(p, n)| work[p..p + n].to_vec())
                .map_err(|e| (e.reason, e.place as usize));
            let b = naive::type_of(&mut Vec::new(), &x, 0, Some(l), &rules).map(|t| naive::list(&t));
            typed += a.is_ok() as usize;
            assert_eq!(a, b, "{} {:?}", l, t);
        }
        // one step
        let n = next_length(&t, &env, Names::Meaningless).unwrap();
        let s = naive::step(&x, &rules);
        assert_eq!(n, s.as_ref().map(|s| naive::size(&s.0)), "{:?}", t);
        if let Some((s, _)) = &s {
            assert_eq!(step(&t, &env).unwrap().1, naive::list(s));
        }
        // runs
        for new_ends in [false, true] {
            let grant = r.below(60) as u32;
            for leap in [false, true] {
                let (e, c, n) = run_into(&t, grant, &env, Rules { new_ends, leap, ..FIRST }, &mut work);
                let (e2, c2, s2) = naive::run(&x, grant, new_ends, &rules);
                assert_eq!(e as u8, e2);
                assert_eq!([c.beta, c.mu, c.cancel], c2);
                assert_eq!(work[1024 - n..1024], naive::list(&s2));
            }
        }
        assert_eq!(shelf::erased(&t), naive::list(&naive::erase(&x)));
    }
    assert!(typed > count() / 2);
}

#[test]
fn leaps_change_nothing() {
    let mut g = Gen::new(12);
    let mut work = vec![0u16; 4096];
    for _ in 0..count() / 10 {
        let t = g.typed();
        if read(&t, Names::Meaningless).is_err() {
            continue;
        }
        for grant in [999u32, 1000, 1777, 4000] {
            for new_ends in [false, true] {
                let (e, c, n) = run_into(&t, grant, &PLAIN, Rules { new_ends, leap: true, ..FIRST }, &mut work);
                let s = work[1024 - n..1024].to_vec();
                let (e2, c2, n2) = run_into(&t, grant, &PLAIN, Rules { new_ends, leap: false, ..FIRST }, &mut work);
                assert_eq!((e, c, s), (e2, c2, work[1024 - n2..1024].to_vec()));
            }
        }
    }
}

#[test]
fn books() {
    let mut g = Gen::new(13);
    let mut work = vec![0u16; words_needed(1024).max(4096)];
    let mut work2 = work.clone();
    let mut typed = 0;
    for i in 0..count() {
        let before = g.book.clone();
        let line = g.book_line(i == 0);
        let f: Vec<&str> = line.split('|').next().unwrap().split_whitespace().collect();
        if f[1] == "new" {
            continue;
        }
        let t: Vec<u16> = line.split('|').nth(1).unwrap().split_whitespace().map(|x| x.parse().unwrap()).collect();
        let names = before.defs.len();
        for who in 0..4u32 {
            let a = before.check(who, 200, &t, false, &mut work).map_err(|e| (e.reason, e.place as usize));
            let rules = naive::Rules { book: &before.defs, owner: Some(who as u8), under_up: false };
            let b = naive::check(&t, 200, names, &rules);
            assert_eq!(a, b);
            typed += a.is_ok() as usize;
            // 2.8: a check answers as before
            assert_eq!(a, before.check(who, 200, &t, true, &mut work2).map_err(|e| (e.reason, e.place as usize)));
            // more bodies open, same type
            if let Ok(ty) = &a {
                let mut more = before.clone();
                for d in &mut more.defs {
                    d.closed = d.closed && g.r.one_in(2);
                }
                assert_eq!(more.check(who, 200, &t, false, &mut work2).as_ref(), Ok(ty));
            }
        }
        if let Ok(x) = naive::parse(&t, names) {
            for under_up in [false, true] {
                let rules = naive::Rules { book: &before.defs, owner: None, under_up };
                let (r, s) = before.run(40, 50, &t, under_up, FIRST, &mut work).unwrap();
                let (e, c, y) = naive::run(&x, 40, false, &rules);
                assert_eq!((r.end as u8, [r.counts.beta, r.counts.mu, r.counts.cancel], s), (e, c, naive::list(&y)));
            }
        }
    }
    assert!(typed > count() / 4);
}

/// Every closed term of up to 8 words.
#[test]
fn small_terms() {
    let mut work = vec![0u16; words_needed(64)];
    for n in 1..=8usize {
        reference::census::each(n, 0, &mut Vec::new(), &mut |t| {
            let x = naive::parse(t, 99).unwrap();
            assert_eq!(read(t, Names::Meaningless), Ok(()));
            for under_up in [false, true] {
                let env = Env { under_up, ..PLAIN };
                let rules = naive::Rules { book: &[], owner: None, under_up };
                for l in [1usize, 2, 3, 4, 5, 6, 7, 8, 9, 12, 32] {
                    let a = check_into(t, l, env, &mut work)
                        .map(|(p, n)| work[p..p + n].to_vec())
                        .map_err(|e| (e.reason, e.place as usize));
                    let b = naive::type_of(&mut Vec::new(), &x, 0, Some(l), &rules).map(|t| naive::list(&t));
                    assert_eq!(a, b, "{} {:?}", l, t);
                }
                assert_eq!(step(t, &env).map(|s| s.1), naive::step(&x, &rules).map(|s| naive::list(&s.0)));
                let v = head(t, &env);
                assert_eq!(v == Head::Value, naive::is_value(&x, under_up));
            }
        });
    }
}
