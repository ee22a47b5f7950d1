//! Refusals explained: what was expected at the place refused, and what the proved check finds there.

use crate::explanation::{Explanation, MARGIN};
use crate::names::{Names, Scope};
use crate::reading;
use crate::show::{Picture, Style};
use crate::tree::Tree;
use crate::typing::{Asked, LONG};
use crate::{check, check_work, Checked, Refusal, LARGEST_LIMIT};

/// Explains why a check of a term at a limit is refused, in the style of [`Style::default`]: see [`Style::explain`].
///
/// ```
/// use feguavy::{explain, Buffers};
/// // (λ x : ⋆. x) (λ x : ⋆. x)
/// let term = [2, 4, 0, 16, 4, 0, 16];
/// let refusal = Buffers::for_limit(64).type_of(&term).unwrap_err();
/// let explanation = explain(&term, refusal, 64);
/// assert_eq!(explanation.fact("expected").unwrap().text, "⋆");
/// assert_eq!(explanation.fact("found").unwrap().text, "⋆ → ⋆");
/// assert_eq!(
///     explanation.to_string(),
///     "an argument of another type than the domain, at place 0 (refusal 12)
///
///     ⟦(λ x : ⋆. x) (λ x : ⋆. x)⟧
///
/// The argument's type must be the function's domain, word for word.
///
///     function       λ x : ⋆. x
///     function type  ⋆ → ⋆
///     argument       λ x : ⋆. x
///     expected       ⋆
///     found          ⋆ → ⋆"
/// );
/// ```
pub fn explain(term: &[u16], refusal: Refusal, limit: u32) -> Explanation {
    Style::default().explain(term, refusal, limit)
}

impl Style {
    /// Explains why a check of a term at a limit is refused. Of refusals 10 to 16 every type is one that the proved check answers to
    /// a question: the type of an open part is asked for under abstractions over its context, and what a type steps to by a cast.
    /// A refusal that is not the answer to that term at that limit is not explained, but said to be none; refusals 2, 3 and 21 depend on
    /// the slices and on the caller of a run, and are taken as they are.
    pub fn explain(&self, term: &[u16], refusal: Refusal, limit: u32) -> Explanation {
        let mut explanation = Explanation::of(refusal);
        if let Some(message) = another_answer(term, refusal, limit) {
            return Explanation { message, complete: false, ..explanation };
        }
        match Tree::of(term) {
            Ok(tree) if refusal.reason.number() >= 8 && refusal.reason.has_place() => {
                let names = Names::of(&tree, Scope::default());
                let near = (term.len() > LONG).then_some(refusal.place);
                let style = Style { width: self.width.saturating_sub(MARGIN), ..*self };
                let picture = Picture { style, tree: &tree, names: &names, mark: Some(refusal.place), near };
                explanation.shown = Some(picture.text());
                if refusal.reason.number() >= 10 {
                    let asked = Asked::about(picture, refusal.place, explanation);
                    return asked.explained(refusal.reason, limit);
                }
            }
            _ if refusal.reason.has_place() => explanation.shown = Some(reading::words_around(*self, term, refusal.place)),
            _ => {}
        }
        explanation.message = reading::message(term, refusal, limit);
        explanation
    }
}

/// What a check answers, if it is not that refusal.
fn another_answer(term: &[u16], refusal: Refusal, limit: u32) -> Option<String> {
    let at = match refusal.reason.number() {
        2 | 3 | 21 => return None,
        // a run, too, refuses by these, and has no limit
        4..=9 => LARGEST_LIMIT,
        _ => limit,
    };
    let answer = answer(term, at);
    (answer != Checked::Refused(refusal))
        .then(|| format!("A check of this term at limit {at} does not answer so. It answers: {answer}."))
}

/// What a check answers at a limit.
pub(crate) fn answer(term: &[u16], limit: u32) -> Checked {
    let allowed = limit.min(LARGEST_LIMIT);
    check(term, limit, &mut vec![0; check_work(allowed)], &mut vec![0; allowed as usize])
}
