//! The hash kinds in the tool: their names and slots, the note on refusal 13, the warning of
//! SHA-1.

mod scratch;

use std::fs;

use reference::make::Slot;
use scratch::{check, recheck, refused_by_all, run, sample, with_directory, Scratch};

/// hashType, its name, and the bytes of a slot.
const KINDS: [(u8, &str, usize); 4] =
    [(1, "SHA-1", 20), (2, "SHA-256", 32), (3, "SHA-256 cut to 20 bytes", 20), (4, "SHA-384", 48)];

const WARNING: &str = "the directory's hashes are SHA-1, which is weak against collisions: \
    whoever made the image may hold another one with the same hashes; a check says only that \
    the hashes agree";

/// Standard error with the warning.
fn warned() -> String {
    format!("trewizlow: warning: {WARNING}\n")
}

fn hex(slot: &Slot) -> String {
    slot.iter().map(|byte| format!("{byte:02x}")).collect()
}

fn quoted(slots: &[Slot]) -> String {
    let slots: Vec<String> = slots.iter().map(|slot| format!("\"{}\"", hex(slot))).collect();
    format!("[{}]", slots.join(","))
}

#[test]
fn show_names_the_kind_and_cuts_its_slots() {
    let scratch = Scratch::new("kinds");
    for (kind, name, width) in KINDS {
        let plan = reference::samples::plan_of(kind);
        let directory = &plan.directory;
        assert!(directory.code.iter().chain(&directory.special).all(|slot| slot.len() == width));
        let signature = scratch.file("signature", &plan.build().signature);
        let (status, out, err) = run(&["show", &signature]);
        assert_eq!(err, if kind == 1 { warned() } else { String::new() });
        let line = format!("  hash type      {kind} ({name}), {width} bytes a slot\n");
        assert!(status == 0 && out.contains(&line), "{out}");
        for (i, slot) in directory.code.iter().enumerate() {
            assert!(out.contains(&format!("\n  {i:5}  {}\n", hex(slot))), "{out}");
        }
        let entitlements = format!("\n   5  {}  entitlements\n", hex(&directory.special[4]));
        assert!(out.contains(&entitlements) && out.contains("\n   4  empty  nothing\n"), "{out}");
        let (_, out, _) = run(&["show", "--json", &signature]);
        for member in [
            format!("\"hash_size\":{width},\"hash_type\":{kind},\"hash_type_name\":\"{name}\","),
            format!("\"special_slots\":{},", quoted(&directory.special)),
            format!("\"code_slots\":{}}}", quoted(&directory.code)),
        ] {
            assert!(out.contains(&member), "{member}: {out}");
        }
    }
}

/// A sample is accepted, and with the damaged image refused, by the lines that any kind has; with
/// this on standard error.
fn answered(signature: &str, entry: usize, note: &str) {
    let scratch = Scratch::new(signature);
    let (signature, cache) = (sample(signature), sample("cache.bin"));
    let (image, damaged) = (sample("image.bin"), sample("image-damaged.bin"));
    let line =
        format!("0 {entry} accepted: trust cache entry {entry} lists the directory's hash\n");
    assert_eq!(run(&check(&signature, &image, &cache)), (0, line, note.into()));
    let line = "31 1 refused: page 1 differs from its code slot\n";
    assert_eq!(run(&check(&signature, &damaged, &cache)), (1, line.into(), note.into()));
    let page = scratch.file("page", &fs::read(image).unwrap()[..4096]);
    let marks = scratch.file("marks", &[1, 0, 0]);
    let (status, out, err) = run(&recheck(&signature, ["0", "1"], &page, &marks));
    assert!(status == 0 && out.starts_with("0 0 pages agree: "), "{out}");
    assert_eq!((err.as_str(), scratch.read("marks")), (note, vec![0, 0, 0]));
    let (status, _, err) = run(&["show", &signature]);
    assert_eq!((status, err.as_str()), (0, note));
}

/// What a check and a recheck of the sample's image print with `--json`.
fn as_json(signature: &str) -> [String; 2] {
    let scratch = Scratch::new(&format!("json-{signature}"));
    let (signature, image) = (sample(signature), sample("image.bin"));
    let cache = sample("cache.bin");
    let page = scratch.file("page", &fs::read(&image).unwrap()[..4096]);
    let marks = scratch.file("marks", &[1, 0, 0]);
    let checked = [&check(&signature, &image, &cache)[..], &["--json"]].concat();
    let rechecked = [&recheck(&signature, ["0", "1"], &page, &marks)[..], &["--json"]].concat();
    [run(&checked).1, run(&rechecked).1]
}

#[test]
fn sha1_is_warned_of() {
    answered("signature-sha1.bin", 2, &warned());
    let (_, out, _) = run(&["show", "--json", &sample("signature-sha1.bin")]);
    let member = format!(",\"warning\":\"{WARNING}\"");
    assert!(out.contains(&format!("{member},\"directory\":")), "{out}");
    for out in as_json("signature-sha1.bin") {
        assert!(out.ends_with(&format!("{member}}}\n")), "{out}");
    }
}

#[test]
fn no_other_kind_is_warned_of() {
    for (signature, entry) in [("signature.bin", 6), ("signature-sha384.bin", 5)] {
        answered(signature, entry, "");
        let (_, out, _) = run(&["show", "--json", &sample(signature)]);
        assert!(out.contains("\"directory\":") && !out.contains("warning"), "{out}");
        for out in as_json(signature) {
            assert!(out.contains("\"marks_written\":") && !out.contains("warning"), "{out}");
        }
    }
}

/// The sample's signature with this hashType and hashSize, its slots being those of SHA-256.
fn with_kind(scratch: &Scratch, version: u32, kind: u8, size: u8) -> String {
    with_directory(scratch, |directory| {
        (directory.version, directory.hash_type, directory.hash_size) = (version, kind, size);
    })
}

const REFUSED: &str = "13 0 refused: the directory's hash type is not one that is read, or its \
                       hash size is not the type's";

/// Refusal 13, naming which of the two it is. Of hashes that are none of SHA-1 nothing is warned.
#[test]
fn kinds_that_are_not_known_and_sizes_of_another() {
    let scratch = Scratch::new("refused");
    let unknown =
        "is none of 1 (SHA-1), 2 (SHA-256), 3 (SHA-256 cut to 20 bytes), 4 (SHA-384) (13)";
    let other = |kind, name, width, size| {
        let has = format!("has slots of {width} bytes, and its hashSize is {size} (13)");
        format!("the directory's hashType, {kind} ({name}), {has}")
    };
    for (kind, size, note) in [
        (0, 32, format!("the directory's hashType, 0, {unknown}")),
        (5, 64, format!("the directory's hashType, 5, {unknown}")),
        (1, 32, other(1, "SHA-1", 20, 32)),
        (3, 32, other(3, "SHA-256 cut to 20 bytes", 20, 32)),
        (4, 20, other(4, "SHA-384", 48, 20)),
    ] {
        let signature = with_kind(&scratch, 0x20400, kind, size);
        refused_by_all(&scratch, &signature, REFUSED, &note);
        let (status, out, _) = run(&["show", "--json", &signature]);
        assert!(status == 1 && out.starts_with("{\"number\":13,\"place\":0,"), "{out}");
        assert!(out.contains(&format!("\"hash_type\":{kind},\"hash_size\":{size}")), "{out}");
        assert!(!out.contains("warning"), "{out}");
    }
}

/// Of a directory whose version is not known nothing is said.
#[test]
fn no_kind_in_another_version() {
    let scratch = Scratch::new("versions");
    for (version, kind) in [(0x20000, 5), (0x20601, 5), (0x20000, 1), (0x20601, 1)] {
        let (status, out, err) = run(&["show", &with_kind(&scratch, version, kind, 20)]);
        assert!(status == 1 && out.contains("\n11 0 refused: "), "{out}");
        assert_eq!(err, "");
    }
}

/// `explain 13` has every kind by number and name, and the sizes in their order.
#[test]
fn explain_names_the_kinds() {
    let (_, out, _) = run(&["explain", "13"]);
    for (kind, name, _) in KINDS {
        assert!(out.contains(&format!("{kind} ({name})")), "{out}");
    }
    let sizes = KINDS.map(|(_, _, width)| width.to_string()).join(", ");
    assert!(out.contains(&format!("hashSize is not the kind's: {sizes}\n")), "{out}");
    let (_, out, _) = run(&["explain", "27"]);
    assert!(out.contains("the directory is not the directory's\n"), "{out}");
}
