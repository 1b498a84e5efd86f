//! Usage and input errors, odd files, closed pipes.

mod scratch;

use std::process::{Command, Stdio};

use scratch::{run, sample, Run, Scratch, TOOL};
use trewizlow::MOST_SIGNATURE_BYTES;

fn check(signature: &str, image: &str) -> Run {
    run(&scratch::check(signature, image, &sample("cache.bin")))
}

/// Status 2 with this sentence on standard error, and nothing on standard output.
fn wrong(list: &[&str], sentence: &str) {
    let (status, out, err) = run(list);
    assert_eq!((status, out.as_str()), (2, ""), "{list:?}");
    assert!(err.starts_with(&format!("trewizlow: {sentence}")), "{list:?}: {err}");
}

/// Each list would be accepted but for the one thing that is wrong with it.
#[test]
fn usage_of_check() {
    let names = ["signature.bin", "image.bin", "cache.bin"].map(sample);
    let good = scratch::check(&names[0], &names[1], &names[2]);
    assert_eq!(run(&good).0, 0);
    for at in [1, 3, 5] {
        let (name, without) = (good[at], [&good[..at], &good[at + 2..]].concat());
        wrong(&without, &format!("{name} is missing"));
        wrong(&[&without[..], &[name]].concat(), &format!("{name} wants a value"));
        wrong(&[&good[..], &good[at..at + 2]].concat(), &format!("{name} is given twice"));
    }
    let tails: [(&[&str], &str); 7] = [
        (&["--launch-type", "256"], "--launch-type wants a number from 0 to 255, not \"256\""),
        (&["--validation-category", "x"], "--validation-category wants a number from 0 to 255"),
        (&["--parent-is-init=1"], "--parent-is-init takes no value"),
        (&["--help=1"], "--help takes no value"),
        (&["--version"], "no option \"--version\""),
        (&["--start", "0"], "no option \"--start\""),
        (&["word"], "\"word\" belongs to no option"),
    ];
    for (tail, sentence) in tails {
        wrong(&[&good[..], tail].concat(), sentence);
    }
}

#[test]
fn usage_of_recheck() {
    let scratch = Scratch::new("usage");
    let signature = sample("signature.bin");
    let (pages, marks) = (scratch.file("pages", b""), scratch.file("marks", &[0, 0, 0]));
    let list = |range| scratch::recheck(&signature, range, &pages, &marks);
    assert_eq!(run(&list(["0", "0"])).0, 0);
    for value in ["-1", "+5", "0x+5", "0x", "", "18446744073709551616"] {
        let wants = format!("wants a number from 0 to {}, not {value:?}", u64::MAX);
        wrong(&list([value, "0"]), &format!("--start {wants}"));
        wrong(&list(["0", value]), &format!("--length {wants}"));
    }
    let good = list(["0", "0"]);
    for at in [1, 3, 5, 7, 9] {
        let without = [&good[..at], &good[at + 2..]].concat();
        wrong(&without, &format!("{} is missing", good[at]));
    }
    wrong(&[&good[..], &["word"]].concat(), "\"word\" belongs to no option");
}

#[test]
fn usage_of_the_others() {
    let signature = sample("signature.bin");
    assert_eq!(run(&["show", &signature]).0, 0);
    let lists: [(&[&str], &str); 9] = [
        (&[], "no command is given\nusage: trewizlow COMMAND"),
        (&["chek"], "no command \"chek\""),
        (&["--version", "check"], "\"check\" belongs to no option"),
        (&["help", "chek"], "no command \"chek\""),
        (&["help", "check", "show"], "help wants one command"),
        (&["show"], "show wants one signature file"),
        (&["show", &signature, &signature], "show wants one signature file"),
        (&["show", "--verbose", &signature], "no option \"--verbose\""),
        (&["explain", "1", "2"], "explain wants one number"),
    ];
    for (list, sentence) in lists {
        wrong(list, sentence);
    }
}

/// With `--json`, wherever it stands as a name, the sentence is an object on standard output
/// as well.
#[test]
fn errors_in_json() {
    let lists: [&[&str]; 9] = [
        &["--json"],
        &["--json=1"],
        &["chek", "--json"],
        &["check", "--json"],
        &["check", "--bogus", "--json", "word"],
        &["check", "--json", "--json"],
        &["recheck", "--json", "--start", "x"],
        &["explain", "x", "--json"],
        &["show", "/nowhere/file", "--json"],
    ];
    for list in lists {
        let (status, out, err) = run(list);
        let sentence = err.strip_prefix("trewizlow: ").unwrap().trim_end();
        let quoted = sentence.replace('"', "\\\"");
        assert_eq!((status, out), (2, format!("{{\"error\":\"{quoted}\"}}\n")), "{list:?}");
    }
    for list in [["check", "--cache", "--json"], ["check", "--", "--json"]] {
        let (status, out, _) = run(&list);
        assert_eq!((status, out.as_str()), (2, ""), "{list:?}");
    }
}

/// A sentence names the file that is missing or cannot be read.
#[test]
fn unreadable_files() {
    let scratch = Scratch::new("unreadable");
    let missing = scratch.path("missing");
    for (signature, image) in
        [(&missing, sample("image.bin")), (&sample("signature.bin"), missing.clone())]
    {
        let (status, out, err) = check(signature, &image);
        assert_eq!((status, out.as_str()), (2, ""));
        assert!(err.contains("cannot read") && err.contains("missing"));
    }
}

/// A directory opens, and is an error as every kind of input.
#[test]
fn directories() {
    let (scratch, directory) = (Scratch::new("directories"), sample(""));
    let names = ["signature.bin", "image.bin", "cache.bin"].map(sample);
    let good = scratch::check(&names[0], &names[1], &names[2]);
    let (pages, marks) = (scratch.file("pages", b""), scratch.file("marks", &[0, 0, 0]));
    let again = scratch::recheck(&names[0], ["0", "0"], &pages, &marks);
    let mut lists: Vec<Vec<&str>> = ["--info-plist", "--code-resources"]
        .map(|name| [&good[..], &[name, &directory]].concat())
        .into();
    for (list, at) in [(&good, 2), (&good, 4), (&good, 6), (&again, 2), (&again, 8)] {
        let mut list = list.clone();
        list[at] = &directory;
        lists.push(list);
    }
    lists.push(vec!["show", &directory]);
    for list in lists {
        let sentence = format!("cannot read {directory:?}: is a directory");
        wrong(&list, &sentence);
    }
}

/// The library refuses empty and long files; a note says which file is at fault.
#[test]
fn empty_and_long_files() {
    let scratch = Scratch::new("odd");
    let empty = scratch.file("empty", b"");
    let long = scratch.sparse("long", MOST_SIGNATURE_BYTES as u64 + 1);
    for (file, word) in [(&empty, "is empty"), (&long, "is longer than 67108864 bytes")] {
        let (status, out, err) = check(file, &sample("image.bin"));
        assert!(status == 1 && out.starts_with("1 0 refused: "));
        assert!(err.contains(file.as_str()) && err.contains(word));
    }
    let (status, out, err) = check(&sample("signature.bin"), &empty);
    assert!(status == 1 && out.starts_with("19 0 refused: "));
    assert!(err.contains("is empty"));
}

fn words(words: [u32; 2]) -> Vec<u8> {
    words.into_iter().chain([0; 14]).flat_map(u32::to_be_bytes).collect()
}

/// A Mach-O file in the place of its signature is refused; a note says what has to be done.
#[test]
fn macho_files() {
    let scratch = Scratch::new("macho");
    let magics = [0xFEED_FACE_u32, 0xFEED_FACF, 0xCEFA_EDFE, 0xCFFA_EDFE];
    let kinds = magics.map(|magic| (magic, "is a Mach-O file"));
    for (magic, kind) in
        kinds.into_iter().chain([0xCAFE_BABE, 0xCAFE_BABF].map(|magic| (magic, "is a universal")))
    {
        let file = scratch.file("file", &words([magic, 2]));
        let runs = [run(&["show", &file]), check(&file, &sample("image.bin"))];
        for (status, out, err) in runs {
            assert!(status == 1 && out.starts_with("2 0 refused: "));
            assert!(err.contains(kind) && err.contains("cut out first") && err.contains("README"));
        }
    }
    assert_eq!(run(&["show", &sample("signature.bin")]).2, "");
}

/// A Java class file has the magic of a universal file, and then its version: 45.0 was the
/// first.
#[test]
fn java_class_files() {
    let scratch = Scratch::new("java");
    for (next, universal) in [(44, true), (45, false), (52, false), (0x3_0000 + 45, false)] {
        let file = scratch.file("file", &words([0xCAFE_BABE, next]));
        let (status, out, err) = run(&["show", &file]);
        assert!(status == 1 && out.starts_with("2 0 refused: "));
        assert_eq!(err.contains("is a universal file"), universal, "{next}");
    }
}

/// A reader that goes away is neither a panic nor a signal.
#[test]
fn closed_pipes() {
    let mut child = Command::new(TOOL)
        .arg("explain")
        .stdout(Stdio::piped())
        .stderr(Stdio::piped())
        .spawn()
        .unwrap();
    drop(child.stdout.take());
    drop(child.stderr.take());
    assert_eq!(child.wait().unwrap().code(), Some(0));
}
