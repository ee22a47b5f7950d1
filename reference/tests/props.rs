//! Claims of the two documents, tried on random terms.

use reference::book::*;
use reference::check::*;
use reference::data::*;
use reference::gen::*;
use reference::naive;
use reference::read::*;
use reference::run::*;
use reference::shelf;
use reference::step::*;
use reference::words::*;

fn count() -> usize {
    std::env::var("ORACLE_N").ok().and_then(|x| x.parse().ok()).unwrap_or(20000)
}

/// Demand 3: states of accepted terms keep the type, and are values or step.
#[test]
fn type_kept_and_progress() {
    let mut g = Gen::new(21);
    let mut work = vec![0u16; words_needed(1024).max(4096)];
    for i in 0..count() / 2 {
        let t = g.typed();
        let under_up = i % 2 == 0;
        let rules = naive::Rules { book: &[], owner: None, under_up };
        if read(&t, Names::Meaningless).is_err() || check_into(&t, 1024, PLAIN, &mut work).is_err() {
            continue;
        }
        let mut x = naive::build(&t);
        let ty = naive::type_of(&mut Vec::new(), &x, 0, None, &rules).unwrap();
        // the type has type star
        assert_eq!(*naive::type_of(&mut Vec::new(), &ty, 0, None, &rules).unwrap(), naive::T::Star);
        for _ in 0..25 {
            let v = naive::is_value(&x, under_up);
            match naive::step(&x, &rules) {
                None => {
                    assert!(v, "{:?}", t);
                    break;
                }
                Some((y, _)) => {
                    assert!(!v, "{:?}", t);
                    if naive::size(&y) > 3000 {
                        break;
                    }
                    x = y;
                }
            }
            let now = naive::type_of(&mut Vec::new(), &x, 0, None, &rules);
            assert_eq!(now.as_ref(), Ok(&ty), "{:?}", t);
        }
    }
}

/// 2.5: erased runs.
#[test]
fn erased_runs() {
    let mut g = Gen::new(22);
    let mut work = vec![0u16; 4096];
    for i in 0..count() {
        let t = g.input();
        if read(&t, Names::Meaningless).is_err() {
            continue;
        }
        let e = shelf::erased(&t);
        assert!(e.len() <= t.len());
        assert!(read(&e, Names::Meaningless).is_ok());
        let n = g.r.below(40) as u32;
        let env = Env { under_up: i % 2 == 0, ..PLAIN };
        let (_, c, k) = run_into(&t, n, &env, FIRST, &mut work);
        let s = work[1024 - k..1024].to_vec();
        let (_, c2, k2) = run_into(&e, c.total() - c.cancel, &env, FIRST, &mut work);
        assert_eq!(c2.total(), c.total() - c.cancel);
        assert_eq!(work[1024 - k2..1024], shelf::erased(&s));
    }
}

/// 2.5 over books.
#[test]
fn erased_runs_over_books() {
    let mut g = Gen::new(23);
    let mut work = vec![0u16; words_needed(1024).max(4096)];
    for i in 0..count() {
        let before = g.book.clone();
        let line = g.book_line(i == 0);
        if line == "book new" {
            continue;
        }
        let t: Vec<u16> = line.split('|').nth(1).unwrap().split_whitespace().map(|x| x.parse().unwrap()).collect();
        if read(&t, before.names()).is_err() {
            continue;
        }
        let b: Book = before.erased();
        let (r, s) = before.run(30, 30, &t, false, FIRST, &mut work).unwrap();
        let n = r.steps - r.counts.cancel;
        let (r2, s2) = b.run(n, n, &shelf::erased(&t), false, FIRST, &mut work).unwrap();
        assert_eq!(r2.steps, n);
        assert_eq!(s2, shelf::erased(&s));
    }
}

/// 2.6: more limit, same verdict.
#[test]
fn more_limit() {
    let mut g = Gen::new(24);
    let mut work = vec![0u16; words_needed(1024).max(4096)];
    for _ in 0..count() {
        let t = g.input();
        if read(&t, Names::Meaningless).is_err() {
            continue;
        }
        let l = 1 + g.r.below(60);
        let ask = |l: usize, work: &mut Vec<u16>| {
            check_into(&t, l, PLAIN, work).map(|(p, n)| work[p..p + n].to_vec()).map_err(|e| (e.reason, e.place))
        };
        let a = ask(l, &mut work);
        if let Err((16, _)) = a {
            continue;
        }
        let m = l + g.r.below(1025 - l);
        assert_eq!(a, ask(m, &mut work));
    }
}

/// 2.7: the shelf.
#[test]
fn shelf_round_trip() {
    let mut g = Gen::new(25);
    let mut o = vec![0u16; 1024];
    let mut p = vec![0u16; 1024];
    for _ in 0..count() {
        let t = g.input();
        if let Ok(n) = shelf::shelve(&t, &mut o) {
            assert_eq!(n, t.len());
            let s = o[..n].to_vec();
            let m = shelf::unshelve(&s, &mut p).unwrap();
            assert_eq!(&p[..m], &t[..]);
            let s = g.mutated(s);
            if let Ok(m) = shelf::unshelve(&s, &mut p) {
                let n = shelf::shelve(&p[..m], &mut o).unwrap();
                assert_eq!(&o[..n], &s[..]);
            }
        }
    }
    // every list of up to 6 small words: accepted exactly when it is an image
    let words = [0u16, 1, 2, 3, 4, 5, 6, 7, 16, 17, 18];
    for n in 1..=5usize {
        let mut images = std::collections::BTreeSet::new();
        reference::census::each(n, 0, &mut Vec::new(), &mut |t| {
            let k = shelf::shelve(t, &mut o).unwrap();
            assert!(images.insert(o[..k].to_vec()));
        });
        let mut idx = vec![0usize; n];
        'all: loop {
            let l: Vec<u16> = idx.iter().map(|i| words[*i]).collect();
            assert_eq!(shelf::unshelve(&l, &mut p).is_ok(), images.contains(&l));
            for i in 0..n {
                idx[i] += 1;
                if idx[i] < words.len() {
                    continue 'all;
                }
                idx[i] = 0;
            }
            break;
        }
    }
}

/// 2.8: checks answer as before; old steps stay.
#[test]
fn under_up() {
    let mut g = Gen::new(26);
    let mut work = vec![0u16; words_needed(1024).max(4096)];
    let env = Env { under_up: true, ..PLAIN };
    for _ in 0..count() {
        let t = g.input();
        if read(&t, Names::Meaningless).is_err() {
            continue;
        }
        let l = 1 + g.r.below(300);
        let a = check_into(&t, l, PLAIN, &mut work).map(|(p, n)| work[p..p + n].to_vec());
        let b = check_into(&t, l, env, &mut work).map(|(p, n)| work[p..p + n].to_vec());
        assert_eq!(a, b);
        if let Some(x) = step(&t, &PLAIN) {
            assert_eq!(Some(x), step(&t, &env));
        }
        // the answers that change
        let grant = g.r.below(40) as u32;
        let (e, c, n) = run_into(&t, grant, &PLAIN, FIRST, &mut work);
        let s = work[1024 - n..1024].to_vec();
        let (e2, c2, n2) = run_into(&t, grant, &env, FIRST, &mut work);
        if (e, c, &s[..]) != (e2, c2, &work[1024 - n2..1024]) {
            let h = head(&s, &env);
            let outer = s[0] == UP && (matches!(h, Head::Step(_)) || h == Head::Stuck);
            // an up cast as the function applied, its body stepping
            let mut p = 0;
            while s[p] == APP || s[p] == DOWN {
                p += 1;
            }
            let inner = p > 0 && s[p] == UP && s[p - 1] == APP && matches!(h, Head::Step(_));
            assert!(e != End::Spent && (outer || inner), "{:?} {:?}", t, s);
        }
    }
}

/// 2.13 and 2.14: translations, and the steps of a case.
#[test]
fn case_steps() {
    let mut g = Gen::new(27);
    let mut o = vec![0u16; 1024];
    let mut work = vec![0u16; 4096];
    let mut tried = 0;
    let mut big = 0;
    for _ in 0..count() {
        // a declaration with argument types left to chance, not to typing
        let params = g.r.below(4);
        let k = 1 + g.r.below(7);
        let mut cons = Vec::new();
        for _ in 0..k {
            let m = g.r.below(5);
            let mut args = Vec::new();
            for _ in 0..m {
                args.push(match g.r.below(4) {
                    0 => Arg::Own,
                    1 if params > 0 => Arg::Words(vec![VAR0 + g.r.below(params) as u16]),
                    _ => {
                        let n = 1 + g.r.below(4);
                        Arg::Words(g.closed(n, 0))
                    }
                });
            }
            cons.push(args);
        }
        let d = Decl { params, cons };
        let i = g.r.below(k);
        let m = d.cons[i].len();
        let mut small = |b: usize| -> Vec<u16> {
            let n = 1 + g.r.below(3);
            g.closed(n, b)
        };
        let p: Vec<Vec<u16>> = (0..params).map(|_| small(0)).collect();
        let a: Vec<Vec<u16>> = (0..m).map(|_| small(0)).collect();
        let alts: Vec<Vec<u16>> = d.cons.iter().map(|c| small(c.len())).collect();
        let mut t = vec![CASE];
        t.extend(vec![APP; params + m]);
        t.push(CONS1 + i as u16);
        for x in p.iter().chain(&a).chain(&p) {
            t.extend_from_slice(x);
        }
        t.push(STAR);
        for x in &alts {
            t.extend_from_slice(x);
        }
        let text = g.decl_text(&d);
        assert_eq!(parse(&text), Ok(d.clone()));
        let n = match translate(&text, &t, &mut o) {
            Ok(n) => n,
            Err(e) => {
                assert_eq!(e.reason, 23);
                big += 1;
                continue;
            }
        };
        // arguments put in, the last one first
        let mut want = alts[i].clone();
        for x in a.iter().rev() {
            want = substituted(&want, x);
        }
        let steps = (2 * params + 2 * m + k + 2) as u32;
        let (e, c, l) = run_into(&o[..n], steps, &PLAIN, FIRST, &mut work);
        if e == End::TooLong {
            continue;
        }
        assert_eq!((e, c.total()), (End::Spent, steps));
        assert_eq!(c.cancel as usize, params + 1);
        assert_eq!(work[1024 - l..1024], want);
        tried += 1;
    }
    assert!(tried > big / 4, "{} {}", tried, big);
}

/// 2.13 and 2.14: well-made declarations have well-typed types and constructors.
#[test]
fn declared_types() {
    let mut g = Gen::new(28);
    let mut work = vec![0u16; words_needed(1024).max(4096)];
    let mut ok = 0;
    for _ in 0..count() / 4 {
        let (d, t) = g.surface_plain();
        let own = d.declared();
        if own.len() > 1024 || read(&own, Names::Meaningless).is_err() {
            continue;
        }
        let kind: Vec<u16> = [PI, STAR].repeat(d.params).into_iter().chain([STAR]).collect();
        let good = check_into(&own, 1024, PLAIN, &mut work).map(|(p, n)| work[p..p + n].to_vec());
        match good {
            Ok(ty) => assert_eq!(ty, kind),
            Err(e) => {
                // only an argument's type without type star may be the cause
                assert_eq!(e.reason, 10, "{:?}", d);
                continue;
            }
        }
        for i in 0..d.cons.len() {
            let c = d.constructor(i, &own);
            if read(&c, Names::Meaningless).is_err() {
                continue;
            }
            // parameters, arguments, then the declared type at the parameters
            let ty = naive::type_of(&mut Vec::new(), &naive::build(&c), 0, None, &naive::Rules::plain());
            let ty = naive::list(&ty.unwrap());
            let mut p = 0;
            for _ in 0..d.params + d.cons[i].len() {
                assert_eq!(ty[p], PI);
                p = end(&ty, p + 1);
            }
            let m = d.cons[i].len();
            let mut want = vec![APP; d.params];
            want.extend_from_slice(&own);
            for j in 0..d.params {
                want.push(VAR0 + (m + d.params - 1 - j) as u16);
            }
            assert_eq!(&ty[p..], &want[..]);
            ok += 1;
        }
        let _ = t;
    }
    assert!(ok > count() / 20, "{}", ok);
}

/// The work fits: the type stack stays within 66 times L.
#[test]
fn room() {
    let mut g = Gen::new(29);
    let mut work = vec![0u16; 512 * 1024];
    let mut most = 0f64;
    for _ in 0..count() {
        let t = g.input();
        if read(&t, Names::Meaningless).is_err() {
            continue;
        }
        let l = 1 + g.r.below(100);
        let (_, _, h) = check_measured(&t, l, PLAIN, &mut work[..512 * l]);
        most = most.max(h as f64 / l as f64);
    }
    assert!(most <= 66.0);
    assert!((1..=1024).all(|l| words_needed(l) <= 512 * l));
}
