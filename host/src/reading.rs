//! Refusals 1 to 9 and 21 in words: what is wrong with a call, or with a list that is read as no closed term.

use crate::show::{Sign, Style};
use crate::word::{self, VARIABLE};
use crate::{Reason, Refusal};

/// What is wrong with a call, or with a list that is read as no closed term.
pub(crate) fn message(term: &[u16], refusal: Refusal, limit: u32) -> String {
    let place = refusal.place;
    let path = path(term, place);
    let awaited = match path.last() {
        Some(&(node, number)) => format!("the {} is awaited", part_of(term, node, number)),
        None => "the term is awaited".to_string(),
    };
    match refusal.reason {
        Reason::LimitNotAllowed => format!("The limit is {limit}, and must be from 1 to 1,024."),
        Reason::WorkShort => {
            "A check needs a working slice of 1,024 words for each word of the limit, a run one of 8,192 words.".to_string()
        }
        Reason::OutputShort => {
            "A check needs an output slice of as many words as the limit, a run a state slice of 1,024 words.".to_string()
        }
        Reason::LengthNotAllowed => format!("The list has {} words, and a term has 1 to 1,024.", term.len()),
        Reason::CallerNotAllowed => "A run names one of the eight callers of the desk, 0 to 7.".to_string(),
        Reason::NoMeaning => {
            let word = term[place];
            format!("The word {word} means nothing where {awaited}: nodes are 0 to 6, and variables 16 to 2,047.")
        }
        Reason::ListEnds => format!("The list ends after {} words where {awaited}.", term.len()),
        Reason::WordsAfter => {
            let over = term.len() - place;
            let words = if over == 1 { "one more word follows".to_string() } else { format!("{over} more words follow") };
            format!("The term ends before place {place}, and {words}.")
        }
        Reason::Level65 => {
            format!("The {} stands at level {}, and the lowest level of a term is 64.", word::name(term[place]), path.len() + 1)
        }
        _ => {
            let index = term[place] - VARIABLE;
            match path.iter().filter(|&&(node, number)| word::binds(term[node]) && number == 2).count() {
                0 => format!("The variable has index {index}, and stands under no binder."),
                1 => format!("The variable has index {index}, and stands under one binder, whose variable has index 0."),
                count => {
                    let last = count - 1;
                    format!("The variable has index {index}, and stands under {count} binders, whose variables have the indices 0 to {last}.")
                }
            }
        }
    }
}

/// The words of a list around a place, which is marked.
pub(crate) fn words_around(style: Style, words: &[u16], place: usize) -> String {
    const AROUND: usize = 12;
    let (start, end) = (place.saturating_sub(AROUND), words.len().min(place + AROUND + 1));
    let mut texts: Vec<String> = words[start..end].iter().map(|word| word.to_string()).collect();
    let marked = texts.get(place - start).cloned().unwrap_or_default();
    let marked = format!("{}{marked}{}", style.sign(Sign::MarkOpens), style.sign(Sign::MarkCloses));
    match texts.get_mut(place - start) {
        Some(text) => *text = marked,
        None => texts.push(marked),
    }
    if start > 0 {
        texts.insert(0, style.sign(Sign::LeftOut).to_string());
    }
    if end < words.len() {
        texts.push(style.sign(Sign::LeftOut).to_string());
    }
    texts.join(" ")
}

/// The nodes in which a place of a list stands, the outermost first, and in which part of each.
pub(crate) fn path(words: &[u16], place: usize) -> Vec<(usize, usize)> {
    let mut open: Vec<(usize, usize)> = Vec::new();
    for (at, &word) in words.iter().enumerate().take(place) {
        if word::parts(word) > 0 {
            open.push((at, 1));
            continue;
        }
        while let Some((node, number)) = open.pop() {
            if number < word::parts(words[node]) {
                open.push((node, number + 1));
                break;
            }
        }
    }
    open
}

/// `annotation of the abstraction at place 0`
pub(crate) fn part_of(words: &[u16], node: usize, number: usize) -> String {
    format!("{} of the {} at place {node}", word::part_name(words[node], number), word::name(words[node]))
}
