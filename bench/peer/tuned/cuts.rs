//! Where a text can be cut: behind line feeds that no quotes protect.

use crate::text::Text;

/// Where a reader of CSV is, as far as the next byte matters.
#[derive(Clone, Copy, PartialEq, Eq)]
pub enum State {
    /// At the beginning of a record.
    Record,
    /// At the beginning of a field, or behind a quote inside quotes: the next quote opens.
    Field,
    /// In a field without quotes.
    Bare,
    Quoted,
}

impl State {
    /// The state behind a byte outside quotes that is no quote.
    fn behind_bare(byte: u8) -> State {
        match byte {
            b',' => State::Field,
            b'\n' | b'\r' => State::Record,
            _ => State::Bare,
        }
    }

    fn next(self, byte: u8) -> State {
        match (self, byte) {
            (State::Quoted, b'"') => State::Field,
            (State::Quoted, _) => State::Quoted,
            (State::Record | State::Field, b'"') => State::Quoted,
            _ => State::behind_bare(byte),
        }
    }
}

/// The number of fields of the first record in text[from..to], which ends behind a line feed that
/// no quotes protect. There is none if all lines are blank.
pub fn width_of_first(text: Text<'_>, from: usize, to: usize) -> Option<usize> {
    let (mut state, mut width) = (State::Record, 1);
    for &byte in text.part(from, to) {
        let next = state.next(byte);
        if next == State::Record && state != State::Record {
            return Some(width);
        }
        width += usize::from(byte == b',' && state != State::Quoted);
        state = next;
    }
    None
}

/// Goes through text[from..to] quote by quote, from a state on. Each part that no quotes protect is
/// given to `open`, until this returns false. Returns the state at the end.
#[inline(always)]
fn walk(
    text: Text<'_>,
    from: usize,
    to: usize,
    state: State,
    mut open: impl FnMut(usize, usize) -> bool,
) -> State {
    let mut is_quoted = state == State::Quoted;
    // Where the bytes without protection began, and behind which quote.
    let (mut begin, mut behind_quote) = (from, None);
    for base in (from..to).step_by(64) {
        let mut quotes = text.quotes(base);
        while quotes != 0 {
            let quote = base + quotes.trailing_zeros() as usize;
            quotes &= quotes - 1;
            if quote >= to {
                break;
            }
            if is_quoted {
                is_quoted = false;
                begin = quote + 1;
                behind_quote = Some(begin);
                continue;
            }
            // A quote inside a field without quotes is a byte as any other.
            is_quoted = if quote == from {
                state != State::Bare
            } else {
                let before = State::behind_bare(text.byte(quote - 1));
                behind_quote == Some(quote) || before != State::Bare
            };
            if is_quoted && !open(begin, quote) {
                return State::Quoted;
            }
        }
    }
    if is_quoted {
        return State::Quoted;
    }
    open(begin, to);
    if behind_quote == Some(to) {
        State::Field
    } else if from == to {
        state
    } else {
        State::behind_bare(text.byte(to - 1))
    }
}

/// The state at the end of text[from..to], if it begins where a record does.
pub fn state_behind(text: Text<'_>, from: usize, to: usize) -> State {
    walk(text, from, to, State::Record, |_, _| true)
}

/// The first cut in text[from..to].
fn first_cut(text: Text<'_>, from: usize, to: usize, state: State) -> Option<usize> {
    let mut cut = None;
    walk(text, from, to, state, |from, to| {
        let feed = text.part(from, to).iter().position(|&byte| byte == b'\n');
        cut = feed.map(|feed| from + feed + 1);
        cut.is_none()
    });
    cut
}

/// The last cut in text[from..to], where a record begins.
fn last_cut(text: Text<'_>, from: usize, to: usize) -> Option<usize> {
    let mut cut = None;
    walk(text, from, to, State::Record, |from, to| {
        let feed = text.part(from, to).iter().rposition(|&byte| byte == b'\n');
        cut = feed.map(|feed| from + feed + 1).or(cut);
        true
    });
    cut
}

/// How many bytes are looked at for a cut that does not depend on those before.
const WINDOW: usize = 16_384;

/// The first cut in a window from `from` on that is one whatever the state there. It is mostly
/// found where there are quotes, and never without one.
fn certain_cut(text: Text<'_>, from: usize, to: usize) -> Option<usize> {
    let window = text.part(from, to.min(from + WINDOW));
    if !window.contains(&b'"') {
        return None;
    }
    let mut states = [State::Record, State::Bare, State::Quoted];
    for (at, &byte) in window.iter().enumerate() {
        if byte == b'\n' && !states.contains(&State::Quoted) {
            return Some(from + at + 1);
        }
        states = states.map(|state| state.next(byte));
    }
    None
}

/// Cuts a text, at whose place `from` a record begins, into as many chunks of about the same
/// length. Returns where they begin, and where the last one ends. What is behind that is in none.
pub fn chunks(text: Text<'_>, from: usize, count: usize) -> Vec<usize> {
    let to = text.len();
    // The first cut behind a place, or where a record is known to begin.
    let cut_from = |known: usize, place: usize| {
        if place <= known {
            return known;
        }
        let cut = certain_cut(text, place, to);
        let cut = cut.or_else(|| first_cut(text, place, to, state_behind(text, known, place)));
        cut.unwrap_or(known)
    };
    let mut bounds = vec![from];
    for chunk in 1..count {
        let place = from + (to - from) * chunk / count;
        bounds.push(cut_from(bounds[chunk - 1], place));
    }
    let known = cut_from(bounds[count - 1], to.saturating_sub(WINDOW));
    bounds.push(last_cut(text, known, to).unwrap_or(known));
    bounds
}
