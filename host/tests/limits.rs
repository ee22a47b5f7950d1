//! The least limit at which a check is not refused by 16, of the terms of the stored requests of `batch`: below it every answer is 16,
//! and from it on every answer is the same. That the answers are so is proved (`MoreLimit`); the search for that limit is not.

mod lines;

use feguavy::{least_limit, LARGEST_LIMIT};
use lines::Slices;
use std::path::Path;

/// Limits that are tried of every term: the small ones, where most answers change, and some above.
fn limits(least: u32) -> Vec<u32> {
    let mut limits: Vec<u32> = (1..=32).chain([48, 64, 100, 128, 256, 512, LARGEST_LIMIT - 1, LARGEST_LIMIT]).collect();
    limits.extend([least.saturating_sub(1).max(1), least]);
    limits
}

#[test]
fn sixteen_below_and_one_answer_above() {
    let stored = std::fs::read(Path::new(env!("CARGO_MANIFEST_DIR")).join("../crates/batch/stdin")).unwrap();
    let mut slices = Slices::new();
    let (mut below, mut above) = (0, 0);
    for line in String::from_utf8_lossy(&stored).lines() {
        let Some((_, text)) = line.split_once('|') else { continue };
        let Some(term) = text.split_whitespace().map(|w| w.parse().ok()).collect::<Option<Vec<u16>>>() else { continue };
        let mut answer = |limit: u32| slices.answer(&format!("check {limit} |{text}")).unwrap();
        let least = least_limit(&term);
        let settled = least.map(&mut answer);
        for limit in limits(least.unwrap_or(LARGEST_LIMIT)) {
            let found = answer(limit);
            if least.is_some_and(|least| least <= limit) {
                assert_eq!(Some(&found), settled.as_ref(), "{text} at {limit}");
                assert!(!found.starts_with("refused 16 "), "{text} at {limit}");
                above += 1;
            } else {
                assert!(found.starts_with("refused 16 "), "{text} at {limit}: {found}");
                below += 1;
            }
        }
    }
    println!("{below} answers by 16, {above} others");
    assert!(below > 1000 && above > 1000);
}
