//! The terms at the edges of document 01, the promises on slices, and the
//! figures of document 02.

use reference::book::*;
use reference::census;
use reference::check::*;
use reference::data;
use reference::read::*;
use reference::report::report;
use reference::run::*;
use reference::shelf;
use reference::step::*;

enum E {
    T(&'static [u16]),
    R(u8, u32),
}
use E::*;

/// A check with garbage in every slice, each word looked at afterwards.
fn checked(t: &[u16], l: u32, spare: usize) -> Answer {
    let n = 512 * (l.min(1025) as usize);
    let mut work: Vec<u16> = (0..n + spare).map(|i| (i * 7 + 3) as u16).collect();
    let mut out: Vec<u16> = (0..l.min(1025) as usize + spare).map(|i| (i * 5 + 1) as u16).collect();
    let (w0, o0) = (work.clone(), out.clone());
    let a = check(t, l, &mut work, &mut out);
    match a {
        Answer::Typed(k) => {
            assert_eq!(out[k..], o0[k..]);
            assert!(work[..n].iter().all(|x| *x == 0));
            assert_eq!(work[n..], w0[n..]);
        }
        Answer::Refused(r) => {
            assert_eq!(out, o0);
            if r.reason <= 9 {
                assert_eq!(work, w0);
            } else {
                assert!(work[..n].iter().all(|x| *x == 0));
                assert_eq!(work[n..], w0[n..]);
            }
        }
    }
    a
}

fn expect(t: &[u16], l: u32, e: E) {
    for spare in [0, 1, 100] {
        let n = 512 * l as usize;
        let mut work = vec![9u16; n];
        let mut out = vec![7u16; l as usize];
        let a = check(t, l, &mut work, &mut out);
        assert_eq!(a, checked(t, l, spare));
        match (&e, a) {
            (T(ty), Answer::Typed(k)) => assert_eq!(&out[..k], *ty, "{:?}", t),
            (R(r, p), Answer::Refused(x)) => assert_eq!((x.reason, x.place), (*r, *p), "{:?}", t),
            _ => panic!("{:?} {:?}", t, a),
        }
    }
}

fn ran(t: &[u16], budget: u32, desk: u32) -> (End, u32, u32, Vec<u16>) {
    let mut work: Vec<u16> = (0..4100).map(|i| i as u16).collect();
    let mut state: Vec<u16> = (0..1030).map(|i| 3 * i as u16).collect();
    let (w0, s0) = (work.clone(), state.clone());
    let r = run(t, budget, &mut work, &mut state, desk).unwrap();
    assert!(work[..4096].iter().all(|x| *x == 0));
    assert_eq!(work[4096..], w0[4096..]);
    assert_eq!(state[r.len..], s0[r.len..]);
    (r.end, r.steps, r.left, state[..r.len].to_vec())
}

#[test]
fn terms_at_the_edges() {
    expect(&[0], 64, T(&[0]));
    expect(&[1, 0], 64, R(13, 0));
    expect(&[2, 0, 0], 64, R(11, 0));
    assert_eq!(ran(&[2, 0, 0], 1, 1), (End::Stuck, 0, 1, vec![2, 0, 0]));
    expect(&[4, 0, 16], 64, T(&[5, 0, 0]));
    expect(&[4, 0, 17], 64, R(9, 2));
    expect(&[6, 0, 16], 64, T(&[0]));
    for b in [0u32, 1, 2, 1000] {
        for d in [0u32, 1, 5, 1000] {
            let g = b.min(d);
            assert_eq!(ran(&[6, 0, 16], b, d), (End::Spent, g, d - g, vec![6, 0, 16]));
        }
    }
    expect(&[3, 2, 4, 0, 16, 0, 0], 64, T(&[2, 4, 0, 16, 0]));
    expect(&[3, 2, 4, 0, 16, 0, 4, 0, 16], 64, R(14, 0));
    expect(&[3, 6, 0, 16, 0], 64, R(14, 0));
    expect(&[4, 0, 4, 16, 16], 64, T(&[5, 0, 5, 16, 17]));
    expect(&[4, 0, 4, 16, 16], 5, T(&[5, 0, 5, 16, 17]));
    expect(&[4, 0, 4, 16, 16], 4, R(16, 0));
    expect(&[2, 4, 0, 4, 16, 16, 0], 64, T(&[5, 0, 0]));
    expect(&[2, 4, 0, 16, 4, 0, 16], 64, R(12, 0));
    expect(&[6, 0, 4, 0, 16], 64, R(15, 0));
    expect(&[4, 4, 0, 16, 0], 64, R(10, 1));
    expect(&[], 64, R(4, 0));
    expect(&[7], 64, R(5, 0));
    expect(&[2, 0], 64, R(6, 2));
    expect(&[0, 0], 64, R(7, 1));
    let mut d = vec![1u16; 63];
    d.push(0);
    expect(&d, 64, R(13, 62));
    d.insert(0, 1);
    expect(&d, 64, R(8, 64));
}

#[test]
fn small_limits_and_long_terms() {
    // every limit down to 1, with terms of 1,024 words
    let mut t = vec![5u16, 0];
    while t.len() < 60 {
        t.extend([5, 0]);
    }
    t.push(0);
    for l in [1, 2, 3, 1024] {
        expect(&t, l, T(&[0]));
    }
    // 1,023 words: a balanced tree of products
    fn tree(d: u32) -> Vec<u16> {
        if d == 0 {
            return vec![0];
        }
        let x = tree(d - 1);
        [&[5u16][..], &x, &x].concat()
    }
    let t = tree(9);
    assert_eq!(t.len(), 1023);
    expect(&t, 1, T(&[0]));
    let u = [&[1u16][..], &t].concat();
    expect(&u, 1, R(13, 0));
    // an annotation of more than L words is measured where it is a type
    let u = [&[4u16][..], &tree(8), &[16]].concat();
    expect(&u, 510, R(16, u.len() as u32 - 1));
    expect(&u, 511, R(16, 0));
    let mut ty = vec![5u16];
    ty.extend(tree(8));
    ty.extend(tree(8));
    assert_eq!(ty.len(), 1023);
    expect(&u, 1022, R(16, 0));
    let mut w = vec![0u16; 512 * 1023];
    let mut o = vec![0u16; 1023];
    assert_eq!(check(&u, 1023, &mut w, &mut o), Answer::Typed(1023));
    assert_eq!(o, ty);
}

#[test]
fn refusals_1_2_3() {
    let mut w = vec![5u16; 511];
    let mut o = vec![5u16; 1];
    let r = |a: Answer| match a {
        Answer::Refused(x) => (x.reason, x.place),
        _ => (0, 0),
    };
    assert_eq!(r(check(&[0], 0, &mut w, &mut o)), (1, 0));
    assert_eq!(r(check(&[0], 1025, &mut w, &mut o)), (1, 0));
    assert_eq!(r(check(&[0], u32::MAX, &mut w, &mut o)), (1, 0));
    assert_eq!(r(check(&[], 1, &mut w, &mut [])), (2, 0));
    let mut w = vec![5u16; 512];
    assert_eq!(r(check(&[], 1, &mut w, &mut [])), (3, 0));
    assert_eq!(r(check(&[], 1, &mut w, &mut o)), (4, 0));
    assert!(w.iter().chain(&o).all(|x| *x == 5));
    assert_eq!(check(&[0], 1, &mut w, &mut o), Answer::Typed(1));
    let mut w = vec![5u16; 4095];
    let mut s = vec![5u16; 1023];
    assert_eq!(run(&[], 1, &mut w, &mut s, 1), Err(Refusal { reason: 2, place: 0 }));
    let mut w = vec![5u16; 4096];
    assert_eq!(run(&[], 1, &mut w, &mut s, 1), Err(Refusal { reason: 3, place: 0 }));
    let mut s = vec![5u16; 1024];
    assert_eq!(run(&[], 1, &mut w, &mut s, 1), Err(Refusal { reason: 4, place: 0 }));
    assert_eq!(run(&[0, 9], 1, &mut w, &mut s, 1), Err(Refusal { reason: 7, place: 1 }));
    assert!(w.iter().chain(&s).all(|x| *x == 5));
}

#[test]
fn wrong_readings() {
    // raised under a binder: (\x:*. \y:*. x) applied under a binder
    assert_eq!(ran(&[2, 4, 0, 4, 0, 17, 4, 0, 16], 9, 9).3, vec![4, 0, 4, 0, 16]);
    // open argument: \z:*. (\x:*. \y:*. x) z has type * -> * -> *
    expect(&[4, 0, 2, 4, 0, 4, 0, 17, 16], 64, T(&[5, 0, 5, 0, 0]));
    // the type of z shows in a type: \z:*. (\x:*. \y:x. y) z
    expect(&[4, 0, 2, 4, 0, 4, 16, 16, 16], 64, T(&[5, 0, 5, 16, 17]));
    // an annotation from a deeper context
    expect(&[4, 0, 4, 16, 4, 0, 17], 64, T(&[5, 0, 5, 16, 5, 0, 18]));
    // types are not reduced before comparison
    expect(&[2, 4, 2, 4, 0, 16, 0, 16, 0], 64, R(12, 0));
    // one step for one cast
    expect(&[3, 2, 4, 0, 16, 2, 4, 0, 16, 0, 0], 64, R(14, 0));
    expect(
        &[3, 2, 4, 0, 16, 2, 4, 0, 16, 0, 3, 2, 4, 0, 16, 0, 0],
        64,
        T(&[2, 4, 0, 16, 2, 4, 0, 16, 0]),
    );
    // cancelling, not stepping inside
    assert_eq!(ran(&[1, 3, 2, 4, 0, 16, 0, 6, 0, 16], 1, 1).3, vec![6, 0, 16]);
    assert_eq!(ran(&[1, 3, 0, 2, 4, 0, 16, 0], 1, 1).3, vec![2, 4, 0, 16, 0]);
}

#[test]
fn report_program() {
    let b = [1u8, 0, 3, 0, 2, 0, 4, 0, 0, 0, 0x10, 0, 0, 0, 0, 0];
    assert_eq!(report(&b), "answer=0\nplace=0\ntype=0\nend=1\nsteps=1\nstate=0\n");
    assert_eq!(report(&[]), "answer=4\nplace=0\ntype=\nend=0\nsteps=0\nstate=\n");
    assert_eq!(report(&[0]), "answer=4\nplace=0\ntype=\nend=0\nsteps=0\nstate=\n");
    assert_eq!(report(&[0; 2050]), "answer=4\nplace=0\ntype=\nend=0\nsteps=0\nstate=\n");
    assert_eq!(report(&[0; 2048]), "answer=7\nplace=1\ntype=\nend=0\nsteps=0\nstate=\n");
    assert_eq!(report(&[6, 0, 0, 0, 16, 0]), "answer=0\nplace=0\ntype=0\nend=2\nsteps=1000\nstate=6 0 16\n");
}

#[test]
fn part_lookup() {
    let t = [4u16, 5, 0, 0, 16];
    assert_eq!(part(&t, 1), &[5, 0, 0]);
    assert_eq!(part(&t, 1).as_ptr(), t[1..].as_ptr());
    assert_eq!(part(&t, 2), &[16]);
    assert_eq!(part(&t, 2).as_ptr(), t[4..].as_ptr());
    assert!(part(&t, 0).is_empty() && part(&t, 3).is_empty());
    assert!(part(&[0], 1).is_empty());
    assert_eq!(part(&[1, 0], 1), &[0]);
    assert!(part(&[1, 0], 2).is_empty());
    assert!(part(&[4, 0, 17], 1).is_empty());
}

// document 02

#[test]
fn request_2_1_and_2_2() {
    let mut w = vec![0u16; 4096];
    let mut s = vec![0u16; 1024];
    let r = run(&[1, 3, 2, 4, 0, 16, 0, 2, 4, 0, 16, 6, 0, 0], 10, &mut w, &mut s, 10).unwrap();
    assert_eq!((r.counts.beta, r.counts.mu, r.counts.cancel, r.steps), (1, 1, 1, 3));
    let new = Rules { new_ends: true, leap: false, ..FIRST };
    let go = |t: &[u16], b: u32, rules: Rules| {
        let mut w = vec![0u16; 4096];
        let mut s = vec![0u16; 1024];
        let r = run_with(t, b, &mut w, &mut s, u32::MAX, &PLAIN, Names::Meaningless, rules).unwrap();
        (r.end, r.steps)
    };
    assert_eq!(go(&[0], 0, FIRST), (End::Spent, 0));
    assert_eq!(go(&[0], 0, new), (End::Value, 0));
    assert_eq!(go(&[2, 0, 0], 0, new), (End::Stuck, 0));
    assert_eq!(go(&[2, 4, 0, 16, 0], 1, FIRST), (End::Spent, 1));
    assert_eq!(go(&[2, 4, 0, 16, 0], 1, new), (End::Value, 1));
    assert_eq!(go(&[6, 0, 16], 5, new), (End::Spent, 5));
}

#[test]
fn request_2_3() {
    let mut w = vec![0u16; words_needed(1024).max(4096)];
    let mut b = Book::default();
    let e = |r: Result<Vec<u16>, Refusal>| r.map_err(|x| (x.reason, x.place));
    assert_eq!(e(b.add(8, false, 0, &[], false, &mut w)), Err((19, 0)));
    assert_eq!(e(b.add(0, false, 0, &[], false, &mut w)), Err((1, 0)));
    assert_eq!(e(b.add(0, true, 64, &[2048], false, &mut w)), Err((17, 0)));
    assert_eq!(e(b.add(0, true, 64, &[5, 0, 0], false, &mut w)), Ok(vec![0]));
    assert_eq!(e(b.check(0, 64, &[2048], false, &mut w)), Ok(vec![0]));
    assert_eq!(e(b.check(0, 64, &[2, 2048, 2049], false, &mut w)), Err((17, 2)));
    // the owner may cast through the closed body, another may not
    let t = [3u16, 2048, 4, 0, 16];
    assert_eq!(e(b.check(0, 64, &t, false, &mut w)), Ok(vec![2048]));
    assert_eq!(e(b.check(1, 64, &t, false, &mut w)), Err((13, 0)));
    // runs unfold all, counted as unfolding
    let (r, s) = b.run(9, 9, &[2, 2048, 0], false, FIRST, &mut w).unwrap();
    assert_eq!((r.end, r.steps, r.counts.mu, s), (End::Stuck, 1, 1, vec![2, 5, 0, 0, 0]));
    for i in 1..32 {
        assert_eq!(e(b.add(i % 8, false, 64, &[2047 + i as u16], false, &mut w)), Ok(vec![0]), "{}", i);
    }
    assert_eq!(e(b.add(0, false, 0, &[], false, &mut w)), Err((18, 0)));
    assert_eq!(e(b.add(9, false, 0, &[], false, &mut w)), Err((19, 0)));
    assert_eq!(e(b.check(0, 64, &[2079], false, &mut w)), Ok(vec![0]));
    assert_eq!(e(b.check(0, 64, &[2080], false, &mut w)), Err((5, 0)));
}

#[test]
fn request_2_4() {
    for w in 0..7u16 {
        assert_eq!(reference::words::parts(w), w.min(2) as usize);
    }
}

#[test]
fn request_2_7() {
    let mut o = vec![3u16; 1030];
    let n = shelf::shelve(&[4, 0, 4, 16, 16], &mut o).unwrap();
    assert_eq!(&o[..n], &[0, 16, 17, 4, 4]);
    assert!(o[n..].iter().all(|x| *x == 3));
    assert_eq!(shelf::shelve(&[2048], &mut o), Err(Refusal { reason: 5, place: 0 }));
    assert_eq!(shelf::shelve(&[0], &mut o[..1023]), Err(Refusal { reason: 3, place: 0 }));
    assert_eq!(shelf::unshelve(&[0], &mut o[..1023]), Err(Refusal { reason: 3, place: 0 }));
    assert_eq!(shelf::unshelve(&[], &mut o), Err(Refusal { reason: 4, place: 0 }));
    assert_eq!(shelf::unshelve(&[0; 1025], &mut o), Err(Refusal { reason: 4, place: 0 }));
    assert_eq!(shelf::unshelve(&[0, 0], &mut o), Err(Refusal { reason: 20, place: 0 }));
    assert_eq!(shelf::unshelve(&[0, 17, 4], &mut o), Err(Refusal { reason: 20, place: 0 }));
    let n = shelf::unshelve(&[0, 16, 4], &mut o).unwrap();
    assert_eq!(&o[..n], &[4, 0, 16]);
    let mut d = vec![0u16];
    d.extend(vec![1u16; 64]);
    assert_eq!(shelf::unshelve(&d, &mut o), Err(Refusal { reason: 20, place: 0 }));
    assert_eq!(shelf::unshelve(&d[..64], &mut o), Ok(64));
}

#[test]
fn request_2_8() {
    let up = Env { under_up: true, ..PLAIN };
    let go = |t: &[u16]| {
        let mut w = vec![0u16; 4096];
        let (e, c, n) = run_into(t, 100, &up, FIRST, &mut w);
        (e, c.total(), w[1024 - n..1024].to_vec())
    };
    // the body of an outermost up cast
    assert_eq!(go(&[3, 0, 2, 4, 0, 16, 0]), (End::Value, 1, vec![3, 0, 0]));
    assert_eq!(go(&[3, 0, 2, 0, 0]), (End::Stuck, 0, vec![3, 0, 2, 0, 0]));
    // cancelling goes first
    assert_eq!(go(&[1, 3, 0, 2, 4, 0, 16, 0]), (End::Value, 2, vec![0]));
    // an up cast as the function applied
    assert_eq!(go(&[2, 3, 0, 2, 4, 0, 16, 0, 0]), (End::Stuck, 1, vec![2, 3, 0, 0, 0]));
    assert_eq!(go(&[2, 3, 0, 4, 0, 16, 0]), (End::Stuck, 0, vec![2, 3, 0, 4, 0, 16, 0]));
    assert_eq!(go(&[3, 0, 4, 0, 16]), (End::Value, 0, vec![3, 0, 4, 0, 16]));
}

#[test]
fn request_2_9() {
    let mut w = vec![5u16; 4096];
    let mut s = vec![5u16; 1024];
    let d = [10u32, 20, 30, 40, 50, 60, 70, 80];
    let bad = run_for(&[], 1, 8, &mut [], &mut [], d, &PLAIN, Names::Meaningless, FIRST);
    assert_eq!(bad.err(), Some(Refusal { reason: 21, place: 0 }));
    let (r, e) = run_for(&[6, 0, 16], 25, 3, &mut w, &mut s, d, &PLAIN, Names::Meaningless, FIRST).unwrap();
    assert_eq!((r.steps, e), (25, [10, 20, 30, 15, 50, 60, 70, 80]));
}

#[test]
fn request_2_12() {
    let mut o = vec![0u16; 4];
    let mut w = vec![5u16; 4095];
    let a = check_room(&[0], 4, &mut w, &mut o, PLAIN, Names::Meaningless, 1024);
    assert_eq!(a, Answer::Refused(Refusal { reason: 2, place: 0 }));
    let mut w = vec![5u16; 4100];
    let a = check_room(&[0], 4, &mut w, &mut o, PLAIN, Names::Meaningless, 1024);
    assert_eq!(a, Answer::Typed(1));
    assert!(w[..4096].iter().all(|x| *x == 0) && w[4096..].iter().all(|x| *x == 5));
    let mut s = vec![0u16; 1024];
    let rules = Rules { room: 8192, ..FIRST };
    let r = run_with(&[0], 1, &mut w, &mut s, 1, &PLAIN, Names::Meaningless, rules);
    assert_eq!(r.err(), Some(Refusal { reason: 2, place: 0 }));
}

#[test]
fn request_2_10() {
    let n = |t: &[u16]| next_length(t, &PLAIN, Names::Meaningless).map_err(|e| (e.reason, e.place));
    assert_eq!(n(&[0]), Ok(None));
    assert_eq!(n(&[6, 0, 16]), Ok(Some(3)));
    assert_eq!(n(&[16]), Err((9, 0)));
    // a recursion with many copies of itself
    let mut t = vec![6u16, 0];
    fn tree(d: u32) -> Vec<u16> {
        if d == 0 {
            return vec![16];
        }
        let x = tree(d - 1);
        [&[2u16][..], &x, &x].concat()
    }
    t.extend(tree(8));
    assert_eq!(t.len(), 513);
    assert_eq!(n(&t), Ok(Some(511 + 256 * 512)));
}

#[test]
fn request_2_11() {
    let t = census::table();
    assert_eq!((1..=5).map(|n| t[n][0]).collect::<Vec<_>>(), vec![1, 1, 9, 25, 207]);
    assert_eq!((1..=16).map(|n| 17 - n).sum::<usize>(), 136);
    let mut out = Vec::new();
    census::print(&mut out, false);
    let s = String::from_utf8(out).unwrap();
    assert!(s.contains("\n3 0 6\n3 11 1\n3 13 2\n4 "));
    for n in 1..=8 {
        let sum: u128 = s
            .lines()
            .map(|l| l.split(' ').map(|x| x.parse::<u128>().unwrap()).collect::<Vec<_>>())
            .filter(|v| v[0] == n as u128)
            .map(|v| v[2])
            .sum();
        assert_eq!(sum, t[n][0]);
        // each once, in order
        let mut last: Option<Vec<u16>> = None;
        census::each(n, 0, &mut Vec::new(), &mut |x| {
            assert_eq!(x.len(), n);
            if let Some(l) = &last {
                assert!(l < x);
            }
            last = Some(x.clone());
        });
    }
    // the table against a listing with free indices
    for n in 1..=5usize {
        for m in 0..=4usize {
            let mut c = 0u128;
            census::each(n, m, &mut Vec::new(), &mut |_| c += 1);
            assert_eq!(c, t[n][m]);
        }
    }
}

fn tr(d: &str, t: &[u16]) -> Result<Vec<u16>, (u8, u32)> {
    let mut o = vec![0u16; 1024];
    match data::translate(d.as_bytes(), t, &mut o) {
        Ok(n) => Ok(o[..n].to_vec()),
        Err(e) => Err((e.reason, e.place)),
    }
}

#[test]
fn request_2_13_layout() {
    use reference::gen::NAT;
    let bad = |d: &str, p: u32| assert_eq!(tr(d, &[]), Err((22, p)), "{:?}", d);
    bad("", 0);
    bad("\n", 0);
    bad("cons=0\n", 0);
    bad("cons=8\n", 0);
    bad("cons=01\n", 0);
    bad("cons=1", 0);
    bad("cons=1\n", 1);
    bad("cons=1\r\nargs=0\n", 0);
    bad("cons=1\nargs=5\n", 1);
    bad("cons=1\nargs=0", 1);
    bad("cons=1\nargs=0\n\n", 2);
    bad("cons=1\nargs=0\nx", 2);
    bad("cons=2\nargs=0\n", 2);
    bad("cons=1\nargs=1\narg=\n", 2);
    bad("cons=1\nargs=1\narg=0 \n", 2);
    bad("cons=1\nargs=1\narg= 0\n", 2);
    bad("cons=1\nargs=1\narg=4 0  16\n", 2);
    bad("cons=1\nargs=1\narg=00\n", 2);
    bad("cons=1\nargs=1\narg=16\n", 2);
    bad("cons=1\nargs=1\narg=2048\n", 2);
    bad("cons=1\nargs=1\narg=8\n", 2);
    bad("cons=1\nargs=1\narg=65536\n", 2);
    bad("cons=1\nargs=1\narg=Self\n", 2);
    bad("params=4\ncons=1\nargs=0\n", 0);
    bad("params=1\n", 1);
    bad("params=1\ncons=1\nargs=1\narg=17\n", 3);
    bad("cons=1\nparams=0\nargs=0\n", 1);
    assert_eq!(tr("cons=1\nargs=0\n", &[]), Err((4, 0)));
    assert_eq!(tr("cons=1\nargs=0\n", &[10]), Err((5, 0)));
    assert_eq!(tr("cons=1\nargs=0\n", &[7, 9, 0]), Err((6, 3)));
    assert_eq!(tr("cons=1\nargs=0\n", &[2048]), Err((17, 0)));
    assert_eq!(tr(NAT, &[7, 9, 0, 0, 16]).map(|v| v.len() > 5), Ok(true));
    assert_eq!(tr(NAT, &[7, 9, 0, 16, 16]), Err((9, 3)));
    assert_eq!(tr(NAT, &[7, 9, 0, 0, 17]), Err((9, 4)));
    let mut o = vec![0u16; 1023];
    assert_eq!(data::translate(b"", &[], &mut o).err().map(|e| e.reason), Some(3));
    // the type and the first constructors of the paper
    assert_eq!(tr(NAT, &[8]).unwrap(), vec![6, 0, 5, 0, 5, 16, 5, 5, 18, 18, 18]);
    let d = [6u16, 0, 5, 0, 5, 16, 5, 5, 18, 18, 18];
    let z = [&[3u16][..], &d, &[4, 0, 4, 16, 4, 5], &d, &[18, 17]].concat();
    assert_eq!(tr(NAT, &[9]).unwrap(), z);
    let s = [&[4u16][..], &d, &[3], &d, &[4, 0, 4, 16, 4, 5], &d, &[18, 2, 16, 19]].concat();
    assert_eq!(tr(NAT, &[10]).unwrap(), s);
    // over 1,024 words, and too deep
    let mut t = vec![2u16; 30];
    t.extend(vec![10u16; 31]);
    assert_eq!(tr(NAT, &t), Err((23, 0)));
    let mut t = vec![1u16; 60];
    t.push(8);
    assert_eq!(tr(NAT, &t), Err((23, 0)));
}

#[test]
fn request_2_13_and_2_14_steps() {
    use reference::gen::{LIST, NAT};
    let go = |d: &str, t: &[u16], want: &[u16], n: u32, cancels: u32| {
        let c = tr(d, t).unwrap();
        let mut w = vec![0u16; words_needed(1024).max(4096)];
        assert!(check_into(&c, 1024, PLAIN, &mut w).is_ok());
        let (e, k, l) = run_into(&c, n, &PLAIN, FIRST, &mut w);
        assert_eq!((e, k.total(), k.cancel), (End::Spent, n, cancels));
        assert_eq!(&w[1024 - l..1024], want);
    };
    let z = tr(NAT, &[9]).unwrap();
    // case (S Z) of Z => Z | S p => p: 2m + k + 2 with m = 1, k = 2
    go(NAT, &[7, 2, 10, 9, 8, 9, 16], &z, 6, 1);
    // case Z of Z => * | S p => *: m = 0
    go(NAT, &[7, 9, 0, 0, 5, 0, 0], &[0], 4, 1);
    // case (Cons * x (Nil *)) of ..., one parameter: 2n + 2m + k + 2
    let x = [5u16, 0, 0];
    let cons = [&[2u16, 2, 2, 10, 0][..], &x, &[2, 9, 0]].concat();
    let t = [&[7u16][..], &cons, &[0, 0, 0, 17]].concat();
    go(LIST, &t, &x, 2 + 4 + 2 + 2, 2);
    // three parameters, a constructor of the second
    let d = "params=3\ncons=1\nargs=1\narg=17\n";
    let t = [&[7u16, 2, 2, 2, 2, 9, 0, 0, 0][..], &x, &[0, 0, 0, 0, 16]].concat();
    go(d, &t, &x, 6 + 2 + 1 + 2, 4);
}

#[test]
fn a_book_has_room() {
    // 32 bodies and types of 1,024 words, and 14 more words for each
    assert!(32 * (1024 + 1024 + 14) <= 66_000);
}
