//! The count that one would write ad hoc with Rust's standard library: `count FILE COLUMN`.
//!
//! The file is read as a whole and split at its line feeds, so fields must not contain any. The keys are slices of the
//! text, except for those with doubled quotes, and are hashed by std's default hasher.

use std::borrow::Cow;
use std::collections::HashMap;
use std::io::{self, BufWriter, Write};
use std::process::ExitCode;
use std::{env, fs};

/// The field of this column, counted from 1, with its quotes.
fn field(line: &[u8], column: usize) -> Option<&[u8]> {
    let (mut nth, mut start, mut quoted) = (1, 0, false);
    for (at, &byte) in line.iter().enumerate() {
        if byte == b'"' {
            quoted = !quoted;
        } else if byte == b',' && !quoted {
            if nth == column {
                return Some(&line[start..at]);
            }
            nth += 1;
            start = at + 1;
        }
    }
    (nth == column).then(|| &line[start..])
}

/// A field without its quotes.
fn unquoted(field: &[u8]) -> Cow<'_, [u8]> {
    let [b'"', inner @ .., b'"'] = field else {
        return Cow::Borrowed(field);
    };
    if !inner.contains(&b'"') {
        return Cow::Borrowed(inner);
    }
    let mut text = Vec::with_capacity(inner.len());
    let mut bytes = inner.iter();
    while let Some(&byte) = bytes.next() {
        text.push(byte);
        if byte == b'"' {
            bytes.next();
        }
    }
    Cow::Owned(text)
}

/// The keys in the order of first appearance, each with its count.
fn counts(text: &[u8], column: usize) -> Option<Vec<(Cow<'_, [u8]>, u64)>> {
    let mut numbers: HashMap<Cow<'_, [u8]>, usize> = HashMap::new();
    let mut counts: Vec<(Cow<'_, [u8]>, u64)> = Vec::new();
    let lines = text.split(|&byte| byte == b'\n');
    for line in lines.filter(|line| !line.is_empty()) {
        let key = unquoted(field(line, column)?);
        if let Some(&number) = numbers.get(&key) {
            counts[number].1 += 1;
        } else {
            numbers.insert(key.clone(), counts.len());
            counts.push((key, 1));
        }
    }
    Some(counts)
}

/// Writes a field, quoted if necessary.
fn write_field(out: &mut impl Write, field: &[u8]) -> io::Result<()> {
    if !field.iter().any(|byte| b",\"\r\n".contains(byte)) {
        return out.write_all(field);
    }
    out.write_all(b"\"")?;
    for part in field.split_inclusive(|&byte| byte == b'"') {
        out.write_all(part)?;
        if part.ends_with(b"\"") {
            out.write_all(b"\"")?;
        }
    }
    out.write_all(b"\"")
}

/// Writes the rows of the counts and the row of their total.
fn write_rows(counts: &[(Cow<'_, [u8]>, u64)]) -> io::Result<()> {
    let mut out = BufWriter::new(io::stdout().lock());
    for (key, count) in counts {
        out.write_all(b"count,")?;
        write_field(&mut out, key)?;
        writeln!(out, ",{count}")?;
    }
    let total: u64 = counts.iter().map(|(_, count)| count).sum();
    writeln!(out, "total,{total},{total}")?;
    out.flush()
}

/// Counts the keys of a file, or returns why it can't.
fn count_file(path: &str, column: usize) -> Result<(), String> {
    let text = fs::read(path).map_err(|error| format!("{path}: {error}"))?;
    let counts = counts(&text, column).ok_or("a record lacks the column")?;
    write_rows(&counts).map_err(|error| error.to_string())
}

fn main() -> ExitCode {
    let args: Vec<String> = env::args().collect();
    let [_, path, column] = args.as_slice() else {
        eprintln!("usage: count FILE COLUMN");
        return ExitCode::from(2);
    };
    let Ok(column @ 1..) = column.parse() else {
        eprintln!("COLUMN must be a number from 1");
        return ExitCode::from(2);
    };
    match count_file(path, column) {
        Ok(()) => ExitCode::SUCCESS,
        Err(fault) => {
            eprintln!("{fault}");
            ExitCode::FAILURE
        }
    }
}
