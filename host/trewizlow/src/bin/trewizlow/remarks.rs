//! Notes on a signature; there is one only where the library refuses it.

use crate::files::Lent;
use crate::{flags, kinds, limit, macho, scatter};

pub fn remarks(signature: &Lent) -> impl Iterator<Item = String> {
    let bytes = &signature.bytes;
    let notes = [kinds::note, flags::note, limit::note, scatter::note];
    let said: Vec<String> = notes.iter().filter_map(|note| note(bytes)).collect();
    macho::note(signature).into_iter().chain(said)
}
