//! A tuned count of the keys of a CSV file: `tuned FILE COLUMN` prints what
//! `keycount count --column COLUMN FILE` does. It shows what the proofs of keycount cost.
//!
//! The file is read into two buffers by turns. In a round each worker, a thread, counts the keys of
//! a chunk of the one in a table of its own, while another thread fills the other. Only the
//! different keys are kept.

mod cuts;
mod merge;
mod rows;
mod scan;
mod table;
mod text;
mod worker;

use crate::cuts::State;
use crate::scan::Layout;
use crate::table::KeyedHash;
use crate::text::Buffer;
use crate::worker::Worker;
use std::error::Error;
use std::fs::File;
use std::io::{self, Read};
use std::num::NonZero;
use std::process::ExitCode;
use std::{env, mem, thread};

/// About how many bytes of a chunk are in the cache of a processor.
const CHUNK: usize = 1 << 18;

/// A file of fewer bytes is not worth the start of threads.
const SMALL: usize = 1 << 16;

const BYTE_ORDER_MARK: &[u8] = b"\xEF\xBB\xBF";

type Fault = Box<dyn Error + Send + Sync>;

/// A buffer with what was read, in chunks. What is behind them belongs to the next one.
struct Filled {
    buffer: Buffer,
    bounds: Vec<usize>,
    is_last: bool,
}

/// Reads on in a file, into a buffer in which a record begins. It grows if a record needs it.
fn read_on(
    file: &mut impl Read,
    mut buffer: Buffer,
    chunks: usize,
    is_first: bool,
) -> io::Result<Filled> {
    loop {
        let is_last = buffer.fill(file)?;
        let text = buffer.text();
        let is_marked = is_first && text.part(0, text.len()).starts_with(BYTE_ORDER_MARK);
        let from = if is_marked { BYTE_ORDER_MARK.len() } else { 0 };
        if is_last {
            let state = cuts::state_behind(text, from, text.len());
            close(&mut buffer, state);
        }
        let bounds = cuts::chunks(buffer.text(), from, chunks);
        if is_last || bounds[chunks] > from {
            return Ok(Filled { buffer, bounds, is_last });
        }
        buffer.double();
    }
}

/// Ends the last record of a file by a line feed, and before it the quotes that were not closed.
fn close(buffer: &mut Buffer, state: State) {
    match state {
        State::Quoted => buffer.append(b"\"\n"),
        _ => buffer.append(b"\n"),
    }
}

/// The layout of the records in a buffer by the first of them, if there is one.
fn layout_of(filled: &Filled, column: usize) -> Result<Option<Layout>, Fault> {
    let [from, .., to] = filled.bounds[..] else { unreachable!("there is a chunk") };
    match cuts::width_of_first(filled.buffer.text(), from, to) {
        Some(width) if width <= column => Err("a record lacks the column".into()),
        width => Ok(width.map(|width| Layout { column, width })),
    }
}

/// A round: the workers count the chunks, of which the first one has this number, while the other
/// buffer is filled.
fn take_and_read(
    workers: &mut [Worker],
    now: &Filled,
    first_chunk: usize,
    layout: Option<Layout>,
    file: &mut (impl Read + Send),
    other: Buffer,
) -> Result<Option<Filled>, Fault> {
    let chunks = workers.len();
    let text = now.buffer.text();
    let take = |nth: usize, worker: &mut Worker| match layout {
        Some(layout) => {
            worker.take(first_chunk + nth, text, now.bounds[nth], now.bounds[nth + 1], layout)
        }
        None => Ok(()),
    };
    thread::scope(|scope| {
        let read = || read_on(file, other, chunks, false);
        let reader = (!now.is_last).then(|| scope.spawn(read));
        let (last, others) = workers.split_last_mut().expect("there is a worker");
        let others: Vec<_> = others
            .iter_mut()
            .enumerate()
            .map(|(nth, worker)| scope.spawn(move || take(nth, worker)))
            .collect();
        take(chunks - 1, last)?;
        for other in others {
            other.join().unwrap()?;
        }
        Ok(reader.map(|reader| reader.join().unwrap()).transpose()?)
    })
}

/// Counts the keys in a column, counted from 0, of a file, and returns the workers.
fn count(file: &mut (impl Read + Send), column: usize) -> Result<Vec<Worker>, Fault> {
    let chunks = thread::available_parallelism().map_or(1, NonZero::get).min(merge::MOST);
    let mut now = read_on(file, Buffer::new(chunks * CHUNK), chunks, true)?;
    if now.is_last && now.buffer.text().len() < SMALL {
        now.bounds.drain(1..chunks);
    }
    let hash = KeyedHash::new();
    let mut workers = vec![];
    workers.resize_with(now.bounds.len() - 1, || Worker::new(hash.clone()));
    let mut other = Buffer::new(if now.is_last { 0 } else { chunks * CHUNK });
    let (mut layout, mut chunk) = (None, 0);
    loop {
        if layout.is_none() {
            layout = layout_of(&now, column)?;
        }
        let text = now.buffer.text();
        other.replace(text.part(now.bounds[workers.len()], text.len()));
        let next = take_and_read(&mut workers, &now, chunk, layout, file, other)?;
        if records(&workers) > u64::from(u32::MAX) {
            return Err("there are too many records".into());
        }
        let Some(next) = next else { return Ok(workers) };
        other = mem::replace(&mut now, next).buffer;
        chunk += workers.len();
    }
}

fn records(workers: &[Worker]) -> u64 {
    workers.iter().map(|worker| worker.records).sum()
}

fn count_file(path: &str, column: usize) -> Result<(), Fault> {
    let mut workers = count(&mut File::open(path)?, column)?;
    merge::merge(&mut workers);
    let total = records(&workers);
    rows::write(&workers, total, &mut io::stdout().lock())?;
    // The process ends, and all memory with it.
    mem::forget(workers);
    Ok(())
}

fn main() -> ExitCode {
    let args: Vec<String> = env::args().collect();
    let [_, path, column] = args.as_slice() else {
        eprintln!("usage: tuned FILE COLUMN");
        return ExitCode::from(2);
    };
    let Ok(column @ 1..) = column.parse::<usize>() else {
        eprintln!("COLUMN must be a number from 1");
        return ExitCode::from(2);
    };
    match count_file(path, column - 1) {
        Ok(()) => ExitCode::SUCCESS,
        Err(fault) => {
            eprintln!("{path}: {fault}");
            ExitCode::FAILURE
        }
    }
}
