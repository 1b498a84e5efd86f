//! What the marks' path leads to is exchanged between the first look and the writing: no input
//! is written to, and no mark is said to be written that is not.

mod lock;
mod scratch;

use std::fs::{self, Permissions};
use std::io::Write;
use std::os::unix::fs::{MetadataExt, PermissionsExt};
use std::process::{Child, Stdio};
use std::thread::sleep;
use std::time::Duration;

use lock::{hold, until_it_waits};
use reference::inputs::InputsPlan;
use scratch::{check, check_to, ended, recheck, sample, tool, Run, Scratch};

/// A file by another name: a symbolic link, a hard link, or the file itself after a move.
const NAMED: [fn(&str, &str); 3] = [
    |file, name| std::os::unix::fs::symlink(file, name).unwrap(),
    |file, name| fs::hard_link(file, name).unwrap(),
    |file, name| fs::rename(file, name).unwrap(),
];

/// Copies of the samples, which a fault would destroy.
fn samples(scratch: &Scratch) -> [String; 3] {
    ["signature.bin", "image.bin", "cache.bin"]
        .map(|name| scratch.file(name, &fs::read(sample(name)).unwrap()))
}

/// The run ended with the sentence, the marks are the input under another name, and it is as
/// it was.
fn left_alone((status, out, err): &Run, marks: &str, before: &[u8]) {
    assert_eq!(*status, 2, "{out} {err}");
    assert!(err.contains("are one file"), "{err}");
    assert_eq!(fs::read(marks).unwrap(), before);
}

/// The marks become each input of a check, which waits for their lock.
#[test]
fn while_a_check_waits() {
    for (i, named) in (0..3).flat_map(|i| NAMED.map(|named| (i, named))) {
        let scratch = Scratch::new("check-waits");
        let files = samples(&scratch);
        let before = fs::read(&files[i]).unwrap();
        let marks = scratch.file("marks", &[1, 1, 1]);
        let held = hold(&marks);
        let mut list = check(&files[0], &files[1], &files[2]);
        list.extend(["--marks", &marks, "--json"]);
        let child = until_it_waits(tool(&list));
        fs::remove_file(&marks).unwrap();
        named(&files[i], &marks);
        held.unlock().unwrap();
        let run = ended(child.wait_with_output().unwrap());
        left_alone(&run, &marks, &before);
        assert!(run.1.contains("\"marks_written\":false,\"error\":\"the marks"), "{}", run.1);
        assert!(!scratch.names().iter().any(|name| name.starts_with('.')));
    }
}

/// The same in a recheck: nothing is rechecked then.
#[test]
fn while_a_recheck_waits() {
    for (i, named) in (0..2).flat_map(|i| NAMED.map(|named| (i, named))) {
        let scratch = Scratch::new("recheck-waits");
        // As many zeros as there are pages: as marks they would pass.
        let files = [samples(&scratch)[0].clone(), scratch.file("pages", &[0, 0, 0])];
        let before = fs::read(&files[i]).unwrap();
        let marks = scratch.file("marks", &[1, 1, 1]);
        let held = hold(&marks);
        let child = until_it_waits(tool(&recheck(&files[0], ["0", "0"], &files[1], &marks)));
        fs::remove_file(&marks).unwrap();
        named(&files[i], &marks);
        held.unlock().unwrap();
        let run = ended(child.wait_with_output().unwrap());
        left_alone(&run, &marks, &before);
        assert_eq!(run.1, "");
    }
}

/// A check that reads its image from a pipe, and has looked at the marks' place when this
/// returns.
fn halted(scratch: &Scratch, files: &[String; 3], marks: &str) -> Child {
    let mut list = check(&files[0], "/dev/stdin", &files[2]);
    list.extend(["--marks", marks]);
    let mut command = tool(&list);
    command.stdin(Stdio::piped()).stdout(Stdio::piped()).stderr(Stdio::piped());
    let mut child = command.spawn().unwrap();
    while !scratch.names().iter().any(|name| name.starts_with(".trewizlow-")) {
        assert!(child.try_wait().unwrap().is_none(), "it did not make its file");
        sleep(Duration::from_millis(5));
    }
    child
}

fn go_on(mut child: Child) -> Run {
    child.stdin.take().unwrap().write_all(&fs::read(sample("image.bin")).unwrap()).unwrap();
    ended(child.wait_with_output().unwrap())
}

/// Nothing was there at first.
#[test]
fn while_an_image_is_read() {
    for named in NAMED {
        let scratch = Scratch::new("was-missing");
        let files = samples(&scratch);
        let before = fs::read(&files[2]).unwrap();
        let marks = scratch.path("marks");
        let child = halted(&scratch, &files, &marks);
        named(&files[2], &marks);
        left_alone(&go_on(child), &marks, &before);
    }
}

/// Marks that another run made meanwhile are replaced and keep their permissions, and ones that
/// were removed are made again; a link that leads nowhere stays.
#[test]
fn other_files() {
    let scratch = Scratch::new("others");
    let files = samples(&scratch);
    let marks = scratch.path("marks");
    let child = halted(&scratch, &files, &marks);
    scratch.file("marks", &[1, 1, 1]);
    fs::set_permissions(&marks, Permissions::from_mode(0o620)).unwrap();
    assert_eq!((go_on(child).0, scratch.read("marks")), (0, vec![0, 0, 0]));
    assert_eq!(fs::metadata(&marks).unwrap().mode() & 0o777, 0o620);
    let child = halted(&scratch, &files, &marks);
    fs::remove_file(&marks).unwrap();
    assert_eq!((go_on(child).0, scratch.read("marks")), (0, vec![0, 0, 0]));
    let child = halted(&scratch, &files, &marks);
    fs::remove_file(&marks).unwrap();
    scratch.symlink("nowhere", "marks");
    let (status, _, err) = go_on(child);
    assert!(status == 2 && err.contains("leads to no file"), "{err}");
    assert!(fs::symlink_metadata(&marks).unwrap().is_symlink());
    assert_eq!(scratch.names(), ["cache.bin", "image.bin", "marks", "signature.bin"]);
}

/// A pipe becomes a link to an input: it is not written to. The image is longer than what a
/// pipe holds, so that the check reads it when the first part is written, after it has looked
/// at the marks.
#[test]
fn pipes() {
    let scratch = Scratch::new("was-a-pipe");
    let inputs = InputsPlan::new(0x20400, vec![7; 1 << 20], 14).build();
    let (signature, cache) =
        (scratch.file("signature", &inputs.signature), scratch.file("cache", &inputs.cache));
    let marks = scratch.pipe("marks");
    let mut list = check(&signature, "/dev/stdin", &cache);
    list.extend(["--marks", &marks]);
    let mut command = tool(&list);
    command.stdin(Stdio::piped()).stdout(Stdio::piped()).stderr(Stdio::piped());
    let mut child = command.spawn().unwrap();
    let mut image = child.stdin.take().unwrap();
    let (first, last) = inputs.image.split_at(inputs.image.len() / 2);
    image.write_all(first).unwrap();
    fs::remove_file(&marks).unwrap();
    scratch.symlink(&cache, "marks");
    image.write_all(last).unwrap();
    let (status, out, err) = ended(child.wait_with_output().unwrap());
    assert!(status == 2 && out.starts_with("0 0 accepted"), "{out} {err}");
    assert!(err.contains("another file took its place"), "{err}");
    assert_eq!(scratch.read("cache"), inputs.cache);
}

/// Off a terminal a run that waits for another says so, once.
#[test]
fn a_line_while_it_waits() {
    let scratch = Scratch::new("says-so");
    let marks = scratch.file("marks", &[1, 1, 1]);
    let held = hold(&marks);
    let child = until_it_waits(check_to(&marks));
    // Time for the line, which comes after a second, and for a second one, which does not.
    sleep(Duration::from_secs(3));
    held.unlock().unwrap();
    let (status, _, err) = ended(child.wait_with_output().unwrap());
    let line = "trewizlow: waiting for another run to release the marks\n";
    assert_eq!((status, err.as_str()), (0, line));
}
