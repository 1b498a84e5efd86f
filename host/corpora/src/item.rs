//! An item: bytes, written short by what a buffer holds already.
//!
//! The length of the bytes (4 bytes, big-endian), then segments until that many bytes are
//! made. A segment is a tag, a count n of at least 1 (4 bytes, big-endian), and by tag:
//!
//! - 0 literal: n bytes follow;
//! - 1 run: one byte follows, which is repeated n times;
//! - 2 keep: nothing follows, and the n bytes are those that the buffer holds there;
//! - 3 numbered records: a template of 24 bytes follows. The n bytes are records of 24
//!   bytes, the last one perhaps cut, each the template with its first four bytes replaced
//!   by the record's number, counted from 0 in this segment, most significant byte first.

const LITERAL: u8 = 0;
const RUN: u8 = 1;
const KEEP: u8 = 2;
const RECORDS: u8 = 3;
/// Bytes of a number.
const NUMBER: usize = 4;
/// Bytes of a segment's tag and count.
const SEGMENT_HEAD: usize = 1 + NUMBER;
/// Bytes of a numbered record and of its template.
pub const RECORD: usize = 24;

/// How an item goes on at a position. `Literal` takes one byte; neighbours are joined.
#[derive(Clone, Copy, PartialEq, Eq)]
enum Step {
    Literal,
    Run(usize),
    Keep(usize),
    Records(usize),
}

impl Step {
    fn length(self) -> usize {
        match self {
            Step::Literal => 1,
            Step::Run(n) | Step::Keep(n) | Step::Records(n) => n,
        }
    }
}

/// Appends an item to a file. `held` is what the buffer holds from the item's start on, as
/// far as it may be kept.
pub fn write(item: &[u8], held: &[u8], file: &mut Vec<u8>) {
    file.extend_from_slice(&(item.len() as u32).to_be_bytes());
    write_segments(item, &plan(item, held), file);
}

/// Expands the item that starts at `at` into the buffer from its start on: the item's
/// length, and where the file goes on. `None` where the file is not of this format.
pub fn read(file: &[u8], at: usize, buffer: &mut [u8]) -> Option<(usize, usize)> {
    let length = number(file, at)?;
    let (mut made, mut at) = (0, at + NUMBER);
    while made < length {
        let count = number(file, at + 1)?;
        let into = buffer.get_mut(made..made + count).filter(|_| count > 0)?;
        at = read_segment(file, at, into)?;
        made += count;
    }
    (made == length).then_some((length, at))
}

/// Expands one segment; where the file goes on.
fn read_segment(file: &[u8], at: usize, into: &mut [u8]) -> Option<usize> {
    let body = at + SEGMENT_HEAD;
    let length = match *file.get(at)? {
        LITERAL => into.len(),
        RUN => 1,
        KEEP => return Some(body),
        RECORDS => RECORD,
        _ => return None,
    };
    let given = file.get(body..body + length)?;
    match file[at] {
        LITERAL => into.copy_from_slice(given),
        RUN => into.fill(given[0]),
        _ => into.iter_mut().enumerate().for_each(|(i, byte)| *byte = record_byte(given, i)),
    }
    Some(body + length)
}

/// A number of 4 bytes, big-endian.
pub fn number(file: &[u8], at: usize) -> Option<usize> {
    let bytes = file.get(at..at + NUMBER)?;
    Some(u32::from_be_bytes(bytes.try_into().ok()?) as usize)
}

/// Byte i of the records that a template makes.
fn record_byte(template: &[u8], i: usize) -> u8 {
    let (record, within) = (i / RECORD, i % RECORD);
    match within {
        0..NUMBER => (record as u32).to_be_bytes()[within],
        _ => template[within],
    }
}

/// How many bytes of the item from its start on are numbered records: 0 for fewer than two.
fn records(item: &[u8]) -> usize {
    let numbered = |record: usize| number(item, record * RECORD) == Some(record);
    if !numbered(0) || !numbered(1) {
        return 0;
    }
    let template = &item[..RECORD];
    item.iter().enumerate().take_while(|&(i, &byte)| byte == record_byte(template, i)).count()
}

/// The steps of least cost, found from the item's end: `within` is the cost of the rest
/// inside a literal that is already open, `cost` that of the rest at a segment's start.
fn plan(item: &[u8], held: &[u8]) -> Vec<Step> {
    let n = item.len();
    let mut steps = vec![Step::Literal; n];
    let mut closes = vec![false; n];
    let (mut cost, mut within) = (vec![0; n + 1], 0);
    let (mut run, mut keep) = (0, 0);
    for i in (0..n).rev() {
        run = if i + 1 < n && item[i] == item[i + 1] { run + 1 } else { 1 };
        keep = if held.get(i) == Some(&item[i]) { keep + 1 } else { 0 };
        closes[i] = i + 1 == n || cost[i + 1] <= within;
        within = 1 + if closes[i] { cost[i + 1] } else { within };
        let rest = |length: usize| SEGMENT_HEAD + cost[i + length];
        let mut best = (SEGMENT_HEAD + within, Step::Literal);
        if keep > 0 {
            best = least(best, (rest(keep), Step::Keep(keep)));
        }
        best = least(best, (1 + rest(run), Step::Run(run)));
        let records = records(&item[i..]);
        if records > 0 {
            best = least(best, (RECORD + rest(records), Step::Records(records)));
        }
        (cost[i], steps[i]) = best;
    }
    chosen(&steps, &closes)
}

fn least(a: (usize, Step), b: (usize, Step)) -> (usize, Step) {
    if b.0 < a.0 {
        b
    } else {
        a
    }
}

/// The steps taken from the start on: an open literal goes on until it closes.
fn chosen(steps: &[Step], closes: &[bool]) -> Vec<Step> {
    let (mut taken, mut i, mut open) = (Vec::new(), 0, false);
    while i < steps.len() {
        let step = if open { Step::Literal } else { steps[i] };
        taken.push(step);
        open = step == Step::Literal && !closes[i];
        i += step.length();
    }
    taken
}

fn write_segments(item: &[u8], steps: &[Step], file: &mut Vec<u8>) {
    let (mut at, mut i) = (0, 0);
    while i < steps.len() {
        let literals = steps[i..].iter().take_while(|&&s| s == Step::Literal).count();
        let (tag, count, body) = match steps[i] {
            Step::Literal => (LITERAL, literals, &item[at..at + literals]),
            Step::Run(n) => (RUN, n, &item[at..at + 1]),
            Step::Keep(n) => (KEEP, n, &item[at..at]),
            Step::Records(n) => (RECORDS, n, &item[at..at + RECORD]),
        };
        file.push(tag);
        file.extend_from_slice(&(count as u32).to_be_bytes());
        file.extend_from_slice(body);
        at += count;
        i += literals.max(1);
    }
}
