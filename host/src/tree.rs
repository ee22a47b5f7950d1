//! The nodes of a list of words that is one term: where each ends, and under which binder it stands. A node is named by the place
//! of its word. Types and states may be as deep as they are long, so that nothing here calls itself.

use crate::word::{binds, has_meaning, index, parts};
use crate::{Reason, Refusal};

#[derive(Clone, Debug)]
pub(crate) struct Tree<'a> {
    pub words: &'a [u16],
    /// The place behind each node's last word.
    ends: Vec<usize>,
    /// The innermost binder in whose second part the node stands.
    binders: Vec<Option<usize>>,
}

/// What a variable stands for.
#[derive(Clone, Copy, Debug, PartialEq, Eq)]
pub(crate) enum Bound {
    /// The variable of the binder at that place.
    By(usize),
    /// The free variable of that index, seen from outside the whole term.
    Free(usize),
}

impl<'a> Tree<'a> {
    /// The nodes, or where the list is no term: reasons 4 (of the empty list alone), 5, 6 and 7, in the order of reading.
    pub fn of(words: &'a [u16]) -> Result<Tree<'a>, Refusal> {
        let refuse = |reason, place| Err(Refusal { reason, place });
        if words.is_empty() {
            return refuse(Reason::LengthNotAllowed, 0);
        }
        let mut awaited = 1;
        for (place, &word) in words.iter().enumerate() {
            if awaited == 0 {
                return refuse(Reason::WordsAfter, place);
            }
            if !has_meaning(word) {
                return refuse(Reason::NoMeaning, place);
            }
            awaited = awaited + parts(word) - 1;
        }
        if awaited > 0 {
            return refuse(Reason::ListEnds, words.len());
        }
        let mut ends = vec![0; words.len()];
        for place in (0..words.len()).rev() {
            ends[place] = (0..parts(words[place])).fold(place + 1, |end, _| ends[end]);
        }
        let mut binders = vec![None; words.len()];
        for place in 0..words.len() {
            if parts(words[place]) > 0 {
                binders[place + 1] = binders[place];
            }
            if parts(words[place]) > 1 {
                binders[ends[place + 1]] = if binds(words[place]) { Some(place) } else { binders[place] };
            }
        }
        Ok(Tree { words, ends, binders })
    }

    pub fn word(&self, place: usize) -> u16 {
        self.words[place]
    }

    /// The words of a node.
    pub fn slice(&self, place: usize) -> &'a [u16] {
        &self.words[place..self.ends[place]]
    }

    /// The place of the first part, of a node that has one.
    pub fn first(&self, place: usize) -> usize {
        place + 1
    }

    /// The place of the second part, of a node that has two.
    pub fn second(&self, place: usize) -> usize {
        self.ends[place + 1]
    }

    /// The places of the parts.
    pub fn parts(&self, place: usize) -> impl Iterator<Item = usize> {
        let count = parts(self.words[place]);
        let first = (count > 0).then_some(place + 1);
        first.into_iter().chain((count > 1).then(|| self.second(place)))
    }

    /// Whether a place is one of a node's words.
    pub fn is_in(&self, place: usize, node: usize) -> bool {
        (node..self.ends[node]).contains(&place)
    }

    /// The binders in whose second parts a node stands, the innermost first.
    pub fn binders(&self, place: usize) -> impl Iterator<Item = usize> + '_ {
        std::iter::successors(self.binders[place], |&binder| self.binders[binder])
    }

    /// What the variable at a place stands for, if there is a variable.
    pub fn bound(&self, place: usize) -> Option<Bound> {
        let mut left = index(self.words[place])?;
        for binder in self.binders(place) {
            if left == 0 {
                return Some(Bound::By(binder));
            }
            left -= 1;
        }
        Some(Bound::Free(left))
    }
}
