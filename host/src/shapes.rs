//! Terms of chosen shapes, for measuring.

/// A term of about that many words, in which `node` has one part inside the other.
pub fn shape(node: u16, words: usize, kind: &str, leaf: u16) -> Vec<u16> {
    let inner = (words - 1) / 2;
    match kind {
        "left" => std::iter::repeat(node).take(inner).chain(std::iter::repeat(leaf).take(inner + 1)).collect(),
        "right" => std::iter::repeat([node, leaf]).take(inner).flatten().chain([leaf]).collect(),
        _ if words < 3 => vec![leaf],
        _ => {
            let half = (words - 1) / 2;
            [&[node][..], &shape(node, half, kind, leaf), &shape(node, half, kind, leaf)].concat()
        }
    }
}

/// `inner` nested so many levels deep in applications, each with `leaf` for the other part, or in down casts.
fn around(kind: &str, levels: usize, inner: &[u16], leaf: u16) -> Vec<u16> {
    let (before, behind) = match kind {
        "left" => (vec![2; levels], vec![leaf; levels]),
        "casts" => (vec![1; levels], vec![]),
        _ => ([2, leaf].repeat(levels), vec![]),
    };
    [&before, inner, &behind].concat()
}

/// A term that steps to an abstraction over a body of that shape, applied to star, and in how many steps. A term has at most 64
/// levels, so that a nested body is put together out of pieces, one a step.
pub fn redex(kind: &str, words: usize) -> (Vec<u16>, u32) {
    if kind == "balanced" {
        return ([&[2, 4, 0][..], &shape(2, words - 4, kind, 16), &[0]].concat(), 0);
    }
    // how deep each piece may be nested: the further in it stands, the less
    let room = |further_in: usize| 54 - 2 * further_in;
    let levels = if kind == "casts" { words } else { words / 2 };
    let count = (1..).find(|&n| (0..n).map(room).sum::<usize>() >= levels).unwrap();
    let mut left = levels;
    let mut piece = |i: usize, inner: u16, leaf: u16| {
        let depth = left.min(room(i));
        left -= depth;
        around(kind, depth, &[inner], leaf)
    };
    let mut function = [&[4, 0, 4, 0][..], &piece(count - 1, 17, 16)].concat();
    for i in (0..count - 1).rev() {
        function = [&[4, 0, 2][..], &function, &piece(i, 16, 0)].concat();
    }
    ([&[2, 2][..], &function, &[0, 0]].concat(), count as u32)
}
