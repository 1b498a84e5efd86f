//! Straightforward hashes in Rust: scalar, no processor hash instructions. They are what the
//! proved code is measured against.

mod blocks;
#[cfg(debug_assertions)]
pub mod count;
mod sha1;
mod sha256;
mod sha384;

/// The most bytes that a digest has.
pub const MOST: usize = 48;

/// A hash kind by its number, a directory's hashType.
#[derive(Clone, Copy, Debug, PartialEq, Eq)]
pub enum Kind {
    Sha1 = 1,
    Sha256 = 2,
    /// SHA-256 cut to 20 bytes.
    Sha256Cut = 3,
    Sha384 = 4,
}

impl Kind {
    pub const ALL: [Kind; 4] = [Kind::Sha1, Kind::Sha256, Kind::Sha256Cut, Kind::Sha384];

    pub fn of(number: u8) -> Option<Kind> {
        Kind::ALL.into_iter().find(|kind| *kind as u8 == number)
    }

    pub fn name(self) -> &'static str {
        match self {
            Kind::Sha1 => "SHA-1",
            Kind::Sha256 => "SHA-256",
            Kind::Sha256Cut => "SHA-256 cut",
            Kind::Sha384 => "SHA-384",
        }
    }

    /// The bytes of a digest, and so of a slot.
    pub fn width(self) -> usize {
        match self {
            Kind::Sha1 | Kind::Sha256Cut => 20,
            Kind::Sha256 => 32,
            Kind::Sha384 => MOST,
        }
    }

    /// The digest, which is written to the buffer's start. What is behind it is of no meaning.
    pub fn digest<'a>(self, message: &[u8], buffer: &'a mut [u8; MOST]) -> &'a [u8] {
        #[cfg(debug_assertions)]
        count::one();
        match self {
            Kind::Sha1 => write(&sha1::value(message).map(u32::to_be_bytes), buffer),
            Kind::Sha256 | Kind::Sha256Cut => {
                write(&sha256::value(message).map(u32::to_be_bytes), buffer)
            }
            Kind::Sha384 => write(&sha384::value(message).map(u64::to_be_bytes), buffer),
        }
        &buffer[..self.width()]
    }
}

/// Writes as many words as there is room for.
fn write<const BYTES: usize>(words: &[[u8; BYTES]], buffer: &mut [u8; MOST]) {
    for (bytes, word) in buffer.chunks_exact_mut(BYTES).zip(words) {
        bytes.copy_from_slice(word);
    }
}
