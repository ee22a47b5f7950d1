//! Text laid out on lines of a width: a group stands on one line where it fits, and is broken at its own breaks where not.

use std::borrow::Cow;

#[derive(Clone, Debug)]
pub(crate) enum Piece {
    Text(Cow<'static, str>),
    /// A space, or a new line so many columns to the right of the group's first.
    Break(usize),
    /// A group begins: broken at every break, or, to fill lines, where the next piece does not fit or the last one was broken.
    Open {
        fill: bool,
    },
    Close,
}

#[derive(Clone, Copy, PartialEq)]
enum Mode {
    OneLine,
    Fill,
    Every,
}

/// For each break the next break of its group, and for each opening the next break of the group around: what stands before it is on
/// the same line.
fn next_breaks(pieces: &[Piece]) -> Vec<usize> {
    let mut next = vec![pieces.len(); pieces.len()];
    let mut stops = vec![pieces.len()];
    for (at, piece) in pieces.iter().enumerate().rev() {
        let top = stops.last_mut().expect("openings and closings match");
        next[at] = *top;
        match piece {
            Piece::Break(_) => *top = at,
            Piece::Close => {
                let outer = *top;
                stops.push(outer);
            }
            Piece::Open { .. } => {
                stops.pop();
                next[at] = *stops.last().expect("openings and closings match");
            }
            Piece::Text(_) => {}
        }
    }
    next
}

impl Piece {
    /// On one line.
    fn text(&self) -> &str {
        match self {
            Piece::Text(text) => text,
            Piece::Break(_) => " ",
            Piece::Open { .. } | Piece::Close => "",
        }
    }
}

pub(crate) fn lay_out(pieces: &[Piece], width: usize) -> String {
    let line: String = pieces.iter().map(Piece::text).collect();
    if line.chars().count() <= width {
        return line;
    }
    let next = next_breaks(pieces);
    // where each piece would begin if all stood on one line
    let mut starts = vec![0];
    for piece in pieces {
        starts.push(starts[starts.len() - 1] + piece.text().chars().count());
    }
    let (mut text, mut column, mut line) = (String::new(), 0, 0);
    // the group's column, its mode, and the line of its last break
    let mut groups = vec![(0, Mode::Fill, 0)];
    for (at, piece) in pieces.iter().enumerate() {
        let fits = column + (starts[next[at]] - starts[at]) <= width;
        let (left, mode, last) = groups.last_mut().expect("openings and closings match");
        match piece {
            Piece::Text(piece) => {
                text.push_str(piece);
                column += starts[at + 1] - starts[at];
            }
            Piece::Break(indent) => {
                if *mode == Mode::OneLine || (*mode == Mode::Fill && fits && *last == line) {
                    text.push(' ');
                    column += 1;
                } else {
                    column = *left + indent;
                    line += 1;
                    *last = line;
                    text.push('\n');
                    text.extend(std::iter::repeat(' ').take(column));
                }
            }
            Piece::Open { fill } => {
                let inner = match mode {
                    _ if fits => Mode::OneLine,
                    Mode::OneLine => Mode::OneLine,
                    _ if *fill => Mode::Fill,
                    _ => Mode::Every,
                };
                // deep terms stay within the width: beyond its half nothing moves further right
                groups.push((column.min(width / 2), inner, line));
            }
            Piece::Close => _ = groups.pop(),
        }
    }
    text
}
