//! A corpus file: cases, one after the other.
//!
//! A case is its name (1 byte n, at least 1, then n printable characters), its operation
//! (1 byte), how many fields follow (1 byte), and each field: its number (1 byte), its start
//! in the arena (4 bytes, big-endian), and an item.
//!
//! All items are expanded into one buffer, the arena, of zeros at first. A field is the part
//! of the arena from its start with the item's length. A field that a case does not name
//! stays as it was. What a file leaves goes on in the next file.

use crate::case::{is_name, Case, Fields, FIELDS, INFO, MARKS, RESOURCES};
use crate::item;

/// Room for all fields and for one of a byte more than test 1 allows.
pub const ARENA: usize = 4_456_449;

/// The bytes of each field's own region of the arena, which follow each other.
const ROOMS: [usize; 10] = [65_536, 65_536, 32_768, 16_384, 16_384, 1024, 1024, 1024, 1024, 1024];
/// Where an item starts that does not fit its region.
const LONG: usize = 262_144;

/// Where a field lies in the arena.
#[derive(Clone, Copy, Default)]
struct Span {
    start: usize,
    length: usize,
}

/// The arena and its fields, as a reader of the cases so far holds them.
struct Arena {
    bytes: Vec<u8>,
    spans: [Span; FIELDS],
}

impl Arena {
    fn new() -> Arena {
        Arena { bytes: vec![0; ARENA], spans: [Span::default(); FIELDS] }
    }

    fn field(&self, number: usize) -> &[u8] {
        let Span { start, length } = self.spans[number];
        &self.bytes[start..start + length]
    }
}

/// Writes cases.
pub struct Writer {
    arena: Arena,
}

impl Default for Writer {
    fn default() -> Writer {
        Writer { arena: Arena::new() }
    }
}

impl Writer {
    /// Appends a case with the fields that are not yet held. Marks are written always, since
    /// a call may change them.
    pub fn write(&mut self, case: &Case, file: &mut Vec<u8>) {
        assert!(is_name(&case.name), "{:?} is no name", case.name);
        file.push(case.name.len() as u8);
        file.extend_from_slice(case.name.as_bytes());
        file.push(case.operation);
        let count = file.len();
        file.push(0);
        for (number, bytes) in &case.fields {
            if *number == MARKS || self.arena.field(*number) != bytes {
                self.write_field(*number, bytes, self.start(*number, case), file);
                file[count] += 1;
            }
        }
        let held = |(number, bytes): &(usize, Vec<u8>)| self.arena.field(*number) == bytes;
        assert!(case.fields.iter().all(held), "{:?}: a field was written over", case.name);
    }

    /// Where a field is laid: beside the Info.plist's bytes where CodeResources are the
    /// same, else in its region, else where long items go.
    fn start(&self, number: usize, case: &Case) -> usize {
        let bytes = case.field(number).unwrap_or_default();
        if number == RESOURCES && case.field(INFO) == Some(bytes) && !bytes.is_empty() {
            return self.arena.spans[INFO].start;
        }
        if bytes.len() <= ROOMS[number] {
            return ROOMS[..number].iter().sum();
        }
        LONG
    }

    fn write_field(&mut self, number: usize, bytes: &[u8], start: usize, file: &mut Vec<u8>) {
        file.push(number as u8);
        file.extend_from_slice(&(start as u32).to_be_bytes());
        let kept: &[u8] = if number == MARKS { &[] } else { &self.arena.bytes[start..] };
        item::write(bytes, kept, file);
        self.arena.bytes[start..start + bytes.len()].copy_from_slice(bytes);
        self.arena.spans[number] = Span { start, length: bytes.len() };
    }
}

/// What stands before a case's fields, and which fields it names.
pub struct Head {
    pub name: String,
    pub operation: u8,
    pub named: Vec<usize>,
}

/// Reads cases.
pub struct Reader {
    arena: Arena,
}

impl Default for Reader {
    fn default() -> Reader {
        Reader { arena: Arena::new() }
    }
}

impl Reader {
    /// Reads the case that starts at `at`; where the next starts. `None` where the file is
    /// not of this format.
    pub fn read(&mut self, file: &[u8], at: usize) -> Option<(Head, usize)> {
        let name_end = at + 1 + usize::from(*file.get(at)?);
        let name = std::str::from_utf8(file.get(at + 1..name_end)?).ok()?;
        let operation = *file.get(name_end)?;
        let count = *file.get(name_end + 1)?;
        let (mut named, mut at) = (Vec::new(), name_end + 2);
        for _ in 0..count {
            let number = usize::from(*file.get(at)?);
            at = self.read_field(number, file, at + 1)?;
            named.push(number);
        }
        is_name(name).then(|| (Head { name: name.to_string(), operation, named }, at))
    }

    fn read_field(&mut self, number: usize, file: &[u8], at: usize) -> Option<usize> {
        let span = self.arena.spans.get_mut(number)?;
        let start = item::number(file, at)?;
        let (length, next) = item::read(file, at + 4, self.arena.bytes.get_mut(start..)?)?;
        *span = Span { start, length };
        Some(next)
    }

    pub fn fields(&self) -> Fields<'_> {
        std::array::from_fn(|number| self.arena.field(number))
    }
}
