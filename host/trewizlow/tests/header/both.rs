//! Calls made twice, through the header (calls.c) and through the Rust declarations, and held
//! to the same lines: one for each field, and one for the marks.

use std::fmt::Write;
use std::ops::Range;
use std::path::PathBuf;

use reference::inputs::Inputs;
use trewizlow::{Launch, Lent};

use crate::compile::{c, in_repository, run};
use crate::scratch::Scratch;

/// A line for each field. A field of a field goes by its last name.
pub fn lines(fields: &[(&str, u64)]) -> String {
    let line = |(name, value): &(&str, u64)| {
        format!("{} {value}\n", name.rsplit('.').next().unwrap_or(name).trim())
    };
    fields.iter().map(line).collect()
}

/// A line of bytes in hexadecimal.
pub fn bytes_line(name: &str, bytes: &[u8]) -> String {
    let mut line = format!("{name} ");
    bytes.iter().for_each(|byte| write!(line, "{byte:02x}").unwrap());
    line + "\n"
}

/// Lines of these fields of a Rust struct.
macro_rules! lines_of {
    ($answer:ident: $($($field:ident).+),+) => {
        lines(&[$((stringify!($($field).+), $answer.$($field).+ as u64)),+])
    };
}

/// The launch facts as calls.c takes them.
fn words_of(launch: &Launch) -> [String; 5] {
    [
        u8::from(launch.on_authorized_volume),
        u8::from(launch.on_system_volume),
        launch.launch_type,
        launch.validation_category,
        u8::from(launch.parent_is_init),
    ]
    .map(|fact| fact.to_string())
}

pub fn calls_c() -> PathBuf {
    in_repository("host/trewizlow/tests/header/calls.c")
}

/// calls.c as a program, and a directory for the buffers that it is lent.
pub struct Both {
    scratch: Scratch,
}

impl Both {
    pub fn new(test: &str) -> Both {
        let scratch = Scratch::new(&format!("header-{test}"));
        c("-std=c11").build(&[&calls_c()], &scratch.path("calls"));
        Both { scratch }
    }

    /// What calls.c prints.
    pub fn through_header<W: AsRef<str>>(&self, words: &[W]) -> String {
        let words: Vec<&str> = words.iter().map(AsRef::as_ref).collect();
        let (status, out) = run(&self.scratch.path("calls"), &words);
        assert_eq!(status, 0, "{words:?}");
        out
    }

    fn file(&self, name: &str, bytes: &[u8]) -> String {
        self.scratch.file(name, bytes)
    }

    pub fn find(&self, signature: &[u8], kind: u32, expected: &str) {
        let blob = trewizlow::find(signature, kind);
        let rust = lines_of!(blob: answer.number, answer.place, start, length);
        assert_eq!(rust, expected, "type {kind}");
        let words = ["find", &self.file("signature", signature), &kind.to_string()];
        assert_eq!(self.through_header(&words), expected, "type {kind}");
    }

    pub fn read(&self, signature: &[u8], expected: &str) {
        let directory = trewizlow::read(signature);
        let rust = lines_of!(
            directory: answer.number, answer.place, start, length, version, flags, hash_offset,
            ident_offset, special_slots, code_slots, hash_size, hash_type, platform, page_shift,
            code_limit, page_size, ident_length
        );
        assert_eq!(rust, expected);
        let words = ["read", &self.file("signature", signature)];
        assert_eq!(self.through_header(&words), expected);
    }

    pub fn cdhash(&self, signature: &[u8], expected: &str) {
        let cdhash = trewizlow::cdhash(signature);
        let rust = lines_of!(cdhash: answer.number, answer.place);
        assert_eq!(rust + &bytes_line("hash", &cdhash.hash), expected);
        let words = ["cdhash", &self.file("signature", signature)];
        assert_eq!(self.through_header(&words), expected);
    }

    /// `marks` are those before the check.
    pub fn check(&self, inputs: &Inputs, marks: &[u8], expected: &str) {
        let lent = Lent {
            info_plist: inputs.info.as_deref(),
            code_resources: inputs.resources.as_deref(),
            launch: compare::facts(&inputs.launch),
            ..Lent::new(&inputs.signature, &inputs.image, &inputs.cache)
        };
        let mut written = marks.to_vec();
        let verdict = trewizlow::check(&lent, &mut written);
        let rust = lines_of!(verdict: number, place) + &bytes_line("marks", &written);
        assert_eq!(rust, expected);
        assert_eq!(self.through_header(&self.words_of_check(&lent, marks)), expected);
    }

    fn words_of_check(&self, lent: &Lent, marks: &[u8]) -> Vec<String> {
        let side = |name, file: Option<&[u8]>| file.map_or("-".into(), |f| self.file(name, f));
        let mut words = vec![
            "check".to_string(),
            self.file("signature", lent.signature),
            self.file("image", lent.image),
            self.file("marks", marks),
            self.file("cache", lent.cache),
            side("info", lent.info_plist),
            side("resources", lent.code_resources),
        ];
        words.extend(words_of(&lent.launch));
        words
    }

    /// `pages` are the bytes of the image that are lent, `marks` those before the recheck.
    pub fn recheck(&self, inputs: &Inputs, recheck: &Recheck, expected: &str) {
        let Recheck { start, length, ref pages, marks } = *recheck;
        let pages = &inputs.image[pages.clone()];
        let mut written = marks.to_vec();
        let answer = trewizlow::recheck(&inputs.signature, start, length, pages, &mut written);
        let rust = lines_of!(answer: number, place) + &bytes_line("marks", &written);
        assert_eq!(rust, expected, "{recheck:?}");
        let words = [
            "recheck",
            &self.file("signature", &inputs.signature),
            &start.to_string(),
            &length.to_string(),
            &self.file("pages", pages),
            &self.file("marks", &marks),
        ];
        assert_eq!(self.through_header(&words), expected, "{recheck:?}");
    }

    /// The bytes of the struct that is passed.
    pub fn launch(&self, launch: Launch, expected: [u8; 5]) {
        // SAFETY: five fields of one byte each and no padding; every byte is a valid u8.
        let rust = unsafe { std::mem::transmute::<Launch, [u8; 5]>(launch) };
        assert_eq!(rust, expected);
        let words = [vec!["launch".to_string()], words_of(&launch).to_vec()].concat();
        assert_eq!(self.through_header(&words), bytes_line("launch", &expected));
    }
}

/// A recheck: its range, which of the image's bytes are lent, the marks before it.
#[derive(Debug)]
pub struct Recheck {
    pub start: u64,
    pub length: u64,
    pub pages: Range<usize>,
    pub marks: [u8; 3],
}
