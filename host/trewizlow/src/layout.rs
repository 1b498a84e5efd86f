//! The layout that the archive was compiled for, as `../../../include/trewizlow.h` asserts it
//! too. A struct that is laid out otherwise does not compile.

use std::mem::{offset_of, size_of};

use crate::{Answer, Blob, CdHash, Directory, Launch, Verdict};

/// Bytes of a field, by a function that borrows it.
const fn bytes_of<S, F>(_: fn(&S) -> &F) -> usize {
    size_of::<F>()
}

/// For each struct its bytes, and for each field from which byte to which it lies.
macro_rules! laid_out {
    ($($name:ident: $bytes:literal { $($($field:ident).+: $start:literal..$end:literal,)+ })+) => {
        $(
            const _: () = assert!(size_of::<$name>() == $bytes);
            $(
                const _: () = assert!(
                    offset_of!($name, $($field).+) == $start
                        && bytes_of(|whole: &$name| &whole.$($field).+) == $end - $start
                );
            )+
        )+
    };
}

laid_out! {
    Answer: 16 {
        number: 0..4,
        place: 8..16,
    }
    Verdict: 16 {
        number: 0..4,
        place: 8..16,
    }
    Launch: 5 {
        on_authorized_volume: 0..1,
        on_system_volume: 1..2,
        launch_type: 2..3,
        validation_category: 3..4,
        parent_is_init: 4..5,
    }
    Blob: 32 {
        answer.number: 0..4,
        answer.place: 8..16,
        start: 16..24,
        length: 24..32,
    }
    Directory: 88 {
        answer.number: 0..4,
        answer.place: 8..16,
        start: 16..24,
        length: 24..32,
        version: 32..36,
        flags: 36..40,
        hash_offset: 40..44,
        ident_offset: 44..48,
        special_slots: 48..52,
        code_slots: 52..56,
        hash_size: 56..57,
        hash_type: 57..58,
        platform: 58..59,
        page_shift: 59..60,
        code_limit: 64..72,
        page_size: 72..80,
        ident_length: 80..88,
    }
    CdHash: 40 {
        answer.number: 0..4,
        answer.place: 8..16,
        hash: 16..36,
    }
}
