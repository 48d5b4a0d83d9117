//! The keys of a chunk: text that begins where a record does and ends behind a line feed that no
//! quotes protect.

use crate::text::{Buffer, Text};
use crate::worker::Worker;

/// What all records of a file have in common.
#[derive(Clone, Copy)]
pub struct Layout {
    /// The column of the key, counted from 0.
    pub column: usize,
    /// The number of fields, more than `column`.
    pub width: usize,
}

/// A record with another number of fields than the first one.
pub struct Uneven;

/// Gives a worker the keys of text[from..to].
pub fn scan(
    text: Text<'_>,
    from: usize,
    to: usize,
    layout: Layout,
    worker: &mut Worker,
) -> Result<(), Uneven> {
    let scanned = if layout.width == 1 {
        scan_lines(text, from, to, worker)
    } else {
        scan_records(text, from, to, layout, worker).map(|_| ())
    };
    worker.settle(text);
    scanned
}

fn is_end(byte: u8) -> bool {
    matches!(byte, b',' | b'\n' | b'\r')
}

/// Records of one field. In 64 bytes that are plain each line feed ends a record, and a record is
/// its line; the records that begin in any others are scanned one by one.
fn scan_lines(text: Text<'_>, from: usize, to: usize, worker: &mut Worker) -> Result<(), Uneven> {
    const ONE_FIELD: Layout = Layout { column: 0, width: 1 };
    let (mut start, mut base) = (from, from);
    while start < to {
        if !text.is_plain(base) {
            start = scan_records(text, start, to.min(base + 64), ONE_FIELD, worker)?;
            base = start;
            continue;
        }
        let mut feeds = text.line_feeds(base);
        if to - base < 64 {
            feeds &= (1 << (to - base)) - 1;
        }
        while feeds != 0 {
            let end = base + feeds.trailing_zeros() as usize;
            feeds &= feeds - 1;
            if end > start {
                worker.add(text, start, end - start);
            }
            start = end + 1;
        }
        base += 64;
    }
    Ok(())
}

/// The records that begin in text[from..stop]. Returns where the next one does.
#[inline(always)]
fn scan_records(
    text: Text<'_>,
    from: usize,
    stop: usize,
    layout: Layout,
    worker: &mut Worker,
) -> Result<usize, Uneven> {
    if from >= stop {
        return Ok(from);
    }
    let mut fields = Fields::new(text, from);
    let mut start = from;
    while start < stop {
        if matches!(text.byte(start), b'\n' | b'\r') {
            // A blank line.
            start = fields.bare_end() + 1;
            continue;
        }
        let mut key = start;
        for _ in 0..layout.column {
            let end = fields.end(key);
            if text.byte(end) != b',' {
                return Err(Uneven);
            }
            key = end + 1;
        }
        let is_quoted = text.byte(key) == b'"';
        let (end, is_verbatim) =
            if is_quoted { fields.quoted_end(key) } else { (fields.bare_end(), true) };
        let mut last = end;
        let mut width = layout.column + 1;
        while text.byte(last) == b',' {
            last = fields.end(last + 1);
            width += 1;
        }
        if width != layout.width {
            return Err(Uneven);
        }
        if !is_quoted {
            worker.add(text, key, end - key);
        } else if is_verbatim {
            worker.add(text, key + 1, end - key - 2);
        } else {
            worker.add_unquoted(text, text.part(key + 1, end));
        }
        start = last + 1;
    }
    Ok(start)
}

/// The ends of fields, of which those in 64 bytes are found together.
struct Fields<'a> {
    text: Text<'a>,
    /// Where the 64 bytes begin.
    base: usize,
    /// The ends among them that were not used yet, each as a bit.
    ends: u64,
}

impl<'a> Fields<'a> {
    #[inline(always)]
    fn new(text: Text<'a>, base: usize) -> Fields<'a> {
        Fields { text, base, ends: text.field_ends(base) }
    }

    /// The end of the next field, which begins at `start`.
    #[inline(always)]
    fn end(&mut self, start: usize) -> usize {
        if self.text.byte(start) == b'"' {
            self.quoted_end(start).0
        } else {
            self.bare_end()
        }
    }

    /// The end of the next field, if it begins without a quote.
    #[inline(always)]
    fn bare_end(&mut self) -> usize {
        while self.ends == 0 {
            self.base += 64;
            self.ends = self.text.field_ends(self.base);
        }
        let end = self.base + self.ends.trailing_zeros() as usize;
        self.ends &= self.ends - 1;
        end
    }

    /// The end of the next field, which begins with a quote at `start`, and whether its value is
    /// verbatim what stands between its first quote and its last byte, a quote too.
    #[inline(always)]
    fn quoted_end(&mut self, start: usize) -> (usize, bool) {
        let behind = self.text.next_quote(start + 1) + 1;
        let is_verbatim = is_end(self.text.byte(behind));
        let end = if is_verbatim { behind } else { end_behind_quote(self.text, behind) };
        // What the quotes protect, and the end itself, are used up.
        match end - self.base {
            used @ 0..63 => self.ends &= !0 << (used + 1),
            _ => *self = Fields::new(self.text, end + 1),
        }
        (end, is_verbatim)
    }
}

/// The end of a field in quotes, from behind a quote that may be the first of two.
#[inline(never)]
fn end_behind_quote(text: Text<'_>, behind: usize) -> usize {
    let mut end = behind;
    while text.byte(end) == b'"' {
        end = text.next_quote(end + 1) + 1;
    }
    // Behind its quotes a field goes on without.
    while !is_end(text.byte(end)) {
        end += 1;
    }
    end
}

/// The value of a field in quotes, of which `raw` is what stands behind the first one.
pub fn unquote(raw: &[u8], value: &mut Buffer) {
    value.replace(b"");
    let mut rest = raw;
    while let Some(quote) = rest.iter().position(|&byte| byte == b'"') {
        if rest.get(quote + 1) != Some(&b'"') {
            value.append(&rest[..quote]);
            rest = &rest[quote + 1..];
            break;
        }
        value.append(&rest[..=quote]);
        rest = &rest[quote + 2..];
    }
    value.append(rest);
}
