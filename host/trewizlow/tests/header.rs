//! The C header against the Rust declarations: the same inputs lent through both, every field
//! and mark compared, and both held to the values that the inputs were built with. Then what
//! the header says of itself: its number, its assertions, its standards. Then the C sources
//! that the repository shows: they compile, and do what is said of them.

mod scratch;

#[path = "header/both.rs"]
mod both;
#[path = "header/compile.rs"]
mod compile;
#[path = "header/inputs.rs"]
mod inputs;
#[path = "header/text.rs"]
mod text;

use std::collections::BTreeSet;
use std::fs::read_to_string;
use std::path::Path;

use both::{bytes_line, calls_c, lines, Both, Recheck};
use compile::{c, cpp, in_repository, installed, run};
use inputs::{plan, refused, whole_checks, ABSENT, BEFORE, BLOBS, DIRECTORY};
use reference::launch::Launch as Facts;
use reference::sha256::digest;
use scratch::{sample, Scratch};
use text::{asserted, declarations, declared, name_in_c, name_in_rust, parameters};
use trewizlow::Launch;

const ACCEPTED: [(&str, u64); 2] = [("number", 0), ("place", 0)];

fn answer(number: u32, place: usize) -> String {
    lines(&[("number", number.into()), ("place", place as u64)])
}

fn with_marks(number: u32, place: usize, marks: &[u8]) -> String {
    answer(number, place) + &bytes_line("marks", marks)
}

fn header() -> String {
    read_to_string(in_repository("include/trewizlow.h")).unwrap()
}

#[test]
fn interface_number() {
    let header = Both::new("interface").through_header(&["interface"]);
    assert_eq!(header, format!("interface {}\n", trewizlow::INTERFACE));
}

/// The SHA-256 of the header's declarations under each interface number. A line that stands
/// here is not changed.
const INTERFACES: [(u32, &str); 1] =
    [(1, "966c148388ee41310358b04481e1dc0786e28d74f289a0b20d0cfb331de6f618")];

fn digest_of_declarations(header: &str) -> String {
    digest(declarations(header).as_bytes()).map(|byte| format!("{byte:02x}")).concat()
}

#[test]
fn interface_number_stands_for_the_declarations() {
    assert!(INTERFACES.is_sorted_by(|(one, _), (next, _)| one < next));
    let (number, stored) = INTERFACES[INTERFACES.len() - 1];
    let found = digest_of_declarations(&header());
    assert!(
        (number, stored) == (trewizlow::INTERFACE, &found),
        "the declarations of include/trewizlow.h are not those of interface {number}: raise \
         TREWIZLOW_INTERFACE there and INTERFACE in host/trewizlow/src/lib.rs, and add the \
         new number with \"{found}\" to INTERFACES in this test"
    );
}

/// Names, types and order count; comments and blanks do not.
#[test]
fn what_changes_the_declarations() {
    let (header, whole) = (header(), digest_of_declarations(&header()));
    let changed = |old: &str, new: &str| {
        assert!(header.contains(old), "{old}");
        digest_of_declarations(&header.replacen(old, new, 1)) != whole
    };
    assert!(changed("    uint32_t number;", "    uint64_t number;"));
    assert!(changed("hash_type, platform,", "platform, hash_type,"));
    assert!(changed("uint64_t start, uint64_t length", "uint64_t length, uint64_t start"));
    assert!(changed("bool parent_is_init;", "bool parent_is_init, more;"));
    assert!(!changed("    uint32_t number;", "\n  uint32_t\n number; /* more; */"));
    assert!(!changed("Takes no marks", "Takes none"));
}

/// A field that is added without its line in the header's list would be asserted nowhere.
#[test]
fn every_field_is_asserted() {
    let header = header();
    assert_eq!(asserted(&header), declared(&header));
    let added = header.replace("uint8_t hash[20];", "uint8_t hash[20], more;");
    assert!(declared(&added).contains(&"trewizlow_cdhash_answer more".to_string()));
    assert_ne!(asserted(&added), declared(&added));
}

#[test]
fn fields_of_a_directory() {
    let values: BTreeSet<u64> = DIRECTORY.iter().map(|(_, value)| *value).collect();
    assert_eq!(values.len(), DIRECTORY.len(), "no two fields are alike");
    let both = Both::new("directory");
    let signature = plan().signature().bytes();
    both.read(&signature, &lines(&[&ACCEPTED[..], &DIRECTORY].concat()));
    let hash = plan().directory.cdhash();
    both.cdhash(&signature, &(lines(&ACCEPTED) + &bytes_line("hash", &hash)));
    for (kind, start, length) in BLOBS {
        let found = [("start", start), ("length", length)];
        both.find(&signature, kind, &lines(&[ACCEPTED, found].concat()));
    }
    for kind in ABSENT {
        both.find(&signature, kind, &lines(&[ACCEPTED, [("start", 0), ("length", 0)]].concat()));
    }
}

/// Every call answers the number and the place; all else is 0, and marks stay.
#[test]
fn refused_signatures() {
    let both = Both::new("refused");
    let zeros: Vec<_> = DIRECTORY.iter().map(|(name, _)| (*name, 0)).collect();
    for refused in refused() {
        let (signature, said) = (&refused.signature, answer(refused.number, refused.place));
        both.find(signature, 0, &(said.clone() + &lines(&[("start", 0), ("length", 0)])));
        both.read(signature, &(said.clone() + &lines(&zeros)));
        both.cdhash(signature, &(said.clone() + &bytes_line("hash", &[0; 20])));
        let mut inputs = plan().build();
        inputs.signature = signature.clone();
        let marks = [BEFORE; 3];
        both.check(&inputs, &marks, &with_marks(refused.number, refused.place, &marks));
        let recheck = Recheck { start: 0, length: 1, pages: 0..4_096, marks };
        both.recheck(&inputs, &recheck, &with_marks(refused.number, refused.place, &marks));
    }
}

#[test]
fn checks() {
    let both = Both::new("checks");
    for whole in whole_checks() {
        let inputs = whole.plan.build();
        let (answer, marks) = inputs.check(BEFORE);
        let reference = with_marks(answer.number, answer.place as usize, &marks);
        assert_eq!(reference, with_marks(whole.number, whole.place, &whole.marks));
        both.check(&inputs, &[BEFORE; 3], &reference);
    }
}

/// Start and length exchanged would meet other pages; either may be above 32 bits.
#[test]
fn rechecks() {
    let both = Both::new("rechecks");
    let inputs = plan().build();
    let high = 1 << 32;
    let cases = [
        ((4_097, 3), 4_096..8_192, [1, 1, 1], (31, 0), [1, 0, 1]),
        ((5_000, 4_000), 4_096..10_001, [0, 1, 1], (0, 0), [0, 0, 0]),
        ((1, 2), 0..4_096, [1, 0, 1], (31, 2), [0, 0, 1]),
        ((5, 0), 0..0, [0, 9, 0], (34, 1), [0, 9, 0]),
        ((5, 1), 0..4_095, [0, 0, 1], (33, 0), [0, 0, 1]),
        ((high, 0), 0..0, [0, 0, 1], (32, 0), [0, 0, 1]),
        ((0, high), 0..0, [0, 0, 1], (32, 0), [0, 0, 1]),
    ];
    for ((start, length), pages, marks, (number, place), after) in cases {
        let recheck = Recheck { start, length, pages, marks };
        both.recheck(&inputs, &recheck, &with_marks(number, place, &after));
    }
}

/// Where each fact lies. Answers cannot tell the two volumes apart, nor the launch type from
/// the validation category.
#[test]
fn bytes_of_the_launch_facts() {
    let both = Both::new("launch");
    let none = Launch::default();
    both.launch(Launch { on_authorized_volume: true, ..none }, [1, 0, 0, 0, 0]);
    both.launch(Launch { on_system_volume: true, ..none }, [0, 1, 0, 0, 0]);
    both.launch(Launch { launch_type: 7, ..none }, [0, 0, 7, 0, 0]);
    both.launch(Launch { validation_category: 9, ..none }, [0, 0, 0, 9, 0]);
    both.launch(Launch { parent_is_init: true, ..none }, [0, 0, 0, 0, 1]);
}

/// An entry of category 1: what each fact decides.
#[test]
fn answers_to_the_launch_facts() {
    let both = Both::new("facts");
    let met = plan().launch;
    let alone = Facts { on_system_volume: false, ..met };
    let cases = [
        (0, Facts { on_authorized_volume: true, ..alone }),
        (29, alone),
        (29, Facts { launch_type: 0, ..met }),
        (29, Facts { validation_category: 0, ..met }),
        (30, Facts { parent_is_init: false, ..met }),
    ];
    for (number, launch) in cases {
        let mut inputs = plan().build();
        inputs.launch = launch;
        let (answer, marks) = inputs.check(BEFORE);
        assert_eq!(answer.number, number, "{launch:?}");
        both.check(&inputs, &[BEFORE; 3], &with_marks(number, answer.place as usize, &marks));
    }
}

/// A call cannot show that two parameters of one type have each other's names.
#[test]
fn names_of_parameters() {
    let header = header();
    let functions = [
        ("interface.rs", "trewizlow_check"),
        ("interface.rs", "trewizlow_recheck"),
        ("signature.rs", "trewizlow_find"),
        ("signature.rs", "trewizlow_read"),
        ("signature.rs", "trewizlow_cdhash"),
    ];
    for (file, function) in functions {
        let rust = read_to_string(in_repository("host/trewizlow/src").join(file)).unwrap();
        let names = parameters(&rust, function, name_in_rust);
        assert_eq!(parameters(&header, function, name_in_c), names);
    }
}

/// Two fields exchanged in the header: from C11 on it does not compile, before that a field
/// has another value.
#[test]
fn exchanged_fields_show() {
    let scratch = Scratch::new("header-exchanged");
    let header = header();
    let exchanged = header.replace("hash_type, platform,", "platform, hash_type,");
    assert_ne!(exchanged, header);
    scratch.file("trewizlow.h", exchanged.as_bytes());
    let (include, program) = (scratch.path(""), scratch.path("calls"));
    let build = |standard| c(standard).program(Path::new(&include), &[&calls_c()], &program);
    assert!(build("-std=c11").unwrap_err().contains("trewizlow_directory, hash_type"));
    build("-std=c99").unwrap();
    let signature = scratch.file("signature", &plan().signature().bytes());
    let (_, out) = run(&program, &["read", &signature]);
    assert!(out.contains("hash_type 6\nplatform 2\n"), "{out}");
}

/// The standards that the header names.
const STANDARDS: [&str; 6] =
    ["-std=c99", "-std=c11", "-std=c17", "-std=c++11", "-std=c++17", "-std=c++20"];

/// The header by itself, by every compiler that is installed.
#[test]
fn header_under_each_standard() {
    let scratch = Scratch::new("header-standards");
    let source =
        scratch.file("alone.c", b"#include \"trewizlow.h\"\nint main(void) { return 0; }\n");
    for compiler in STANDARDS.into_iter().flat_map(installed) {
        compiler.build(&[Path::new(&source)], &scratch.path("alone"));
    }
    let names = STANDARDS.map(|standard| standard.trim_start_matches("-std=").to_uppercase());
    let [others @ .., last] = &names;
    let named = format!("as {} and {last},", others.join(", "));
    assert!(header().contains(&named), "the header does not say {named:?}");
}

/// README's C block as it stands, as C and as C++, called on the samples.
#[test]
fn readme_block() {
    let scratch = Scratch::new("header-readme");
    let readme = read_to_string(in_repository("README.md")).unwrap();
    let (_, rest) = readme.split_once("```c\n").expect("a C block");
    let (block, rest) = rest.split_once("```").expect("its end");
    assert!(!rest.contains("```c\n"), "one C block");
    let block = scratch.file("readme.c", block.as_bytes());
    let main = in_repository("host/trewizlow/tests/header/readme.c");
    let files = ["signature.bin", "image.bin", "image-damaged.bin", "cache.bin"].map(sample);
    let words = files.each_ref().map(String::as_str);
    for compiler in [c("-std=c99"), c("-std=c11"), cpp("-std=c++11"), cpp("-std=c++17")] {
        compiler.build(&[Path::new(&block), &main], &scratch.path("readme"));
        assert_eq!(run(&scratch.path("readme"), &words), (0, "1 1 0 0\n".into()), "{compiler:?}");
    }
}

#[test]
fn example_host() {
    let scratch = Scratch::new("header-example");
    let program = scratch.path("host");
    c("-std=c99").build(&[&in_repository("examples/host.c")], &program);
    let (signature, cache) = (sample("signature.bin"), sample("cache.bin"));
    let host = |image: &str| run(&program, &[&signature, image, &cache]);
    let lines = "check: number 0, place 6\nrecheck of page 0: number 0, place 0\n";
    assert_eq!(host(&sample("image.bin")), (0, lines.into()));
    let lines = "check: number 31, place 1\nrecheck of page 0: number 31, place 1\n";
    assert_eq!(host(&sample("image-damaged.bin")), (1, lines.into()));
    let lines = "check: number 19, place 0\n";
    assert_eq!(host(&scratch.file("empty", b"")), (1, lines.into()));
    assert_eq!(host(&scratch.path("missing")), (2, "".into()));
    assert_eq!(run(&program, &[]), (2, "".into()));
}
