//! The marks file: rechecks at once, what may be replaced, and what may not.

mod lock;
mod scratch;

use std::fs::{self, File, Permissions};
use std::os::unix::fs::{chown, MetadataExt, PermissionsExt};
use std::process::{Child, Command, Stdio};

use lock::{hold, until_it_waits};
use reference::inputs::{Inputs, InputsPlan};
use scratch::{check, check_to, ended, recheck, recheck_of, run, tool, Run, Scratch, ACCEPTED};

const PAGE: usize = 4096;

fn done(mut command: Command) -> Run {
    ended(command.output().unwrap())
}

/// Rechecks each page at once, every second one by a symbolic link, and waits for all.
fn recheck_all(scratch: &Scratch, inputs: &Inputs, names: &[String; 2]) {
    let signature = scratch.file("signature", &inputs.signature);
    let pages = inputs.image.chunks(PAGE).enumerate();
    let children: Vec<Child> = pages
        .map(|(i, page)| {
            let pages = scratch.file(&format!("page-{i}"), page);
            let start = (i * PAGE).to_string();
            let list = recheck(&signature, [&start, "1"], &pages, &names[i % 2]);
            tool(&list).stdout(Stdio::null()).spawn().unwrap()
        })
        .collect();
    for mut child in children {
        assert!(child.wait().unwrap().code().is_some_and(|status| status < 2));
    }
}

/// No recheck is lost, however many go on from the same marks.
#[test]
fn rechecks_at_once() {
    let scratch = Scratch::new("at-once");
    let image: Vec<u8> = (0..24 * PAGE).map(|i| (i / 7) as u8).collect();
    let inputs = InputsPlan::new(0x20400, image, 12).build();
    let marks = scratch.path("marks");
    let names = [marks.clone(), scratch.symlink(&marks, "link")];
    for round in 0..10 {
        scratch.file("marks", &[1; 24]);
        recheck_all(&scratch, &inputs, &names);
        assert_eq!(scratch.read("marks"), [0; 24], "round {round}");
    }
    assert_eq!(scratch.names().len(), 24 + ["signature", "marks", "link"].len());
}

/// A recheck that waited goes on from the marks that have taken the old ones' place.
#[test]
fn marks_that_were_replaced_meanwhile() {
    let scratch = Scratch::new("meanwhile");
    let marks = scratch.file("marks", &[1, 1, 1]);
    let held = hold(&marks);
    let child = until_it_waits(recheck_of(&scratch, &marks));
    fs::rename(scratch.file("new", &[1, 0, 0]), &marks).unwrap();
    held.unlock().unwrap();
    assert_eq!(ended(child.wait_with_output().unwrap()).0, 0);
    assert_eq!(scratch.read("marks"), [0, 0, 0]);
}

/// A check replaces no marks that a recheck goes on from.
#[test]
fn a_check_waits() {
    let scratch = Scratch::new("waits");
    let marks = scratch.file("marks", &[1, 1, 1]);
    let held = hold(&marks);
    let mut child = until_it_waits(check_to(&marks));
    assert_eq!(scratch.read("marks"), [1, 1, 1]);
    held.unlock().unwrap();
    assert_eq!(child.wait().unwrap().code(), Some(0));
    assert_eq!(scratch.read("marks"), [0, 0, 0]);
}

/// The marks are one of the inputs, by its path and by links: status 2, and nothing happens.
fn never_replaced(scratch: &Scratch, list: &[&str], options: &[&str]) {
    let at = |option: &str| list.iter().position(|word| *word == option).unwrap() + 1;
    for option in options {
        let input = list[at(option)];
        let before = fs::read(input).unwrap();
        let (soft, hard) = (scratch.symlink(input, "soft"), scratch.hard_link(input, "hard"));
        for marks in [input, &soft, &hard] {
            let mut list = list.to_vec();
            list[at("--marks")] = marks;
            let (status, out, err) = run(&list);
            assert_eq!((status, out.as_str()), (2, ""), "{option} {marks}");
            assert!(err.contains("are one file"), "{option} {marks}");
            assert_eq!(fs::read(input).unwrap(), before);
        }
        assert!(fs::symlink_metadata(&soft).unwrap().is_symlink());
        [soft, hard].iter().for_each(|link| fs::remove_file(link).unwrap());
    }
}

#[test]
fn inputs_of_a_check() {
    let scratch = Scratch::new("inputs-check");
    let mut plan = reference::samples::plan();
    (plan.info, plan.resources) = (Some(b"info".to_vec()), Some(b"code".to_vec()));
    let inputs = plan.covered().build();
    let signature = scratch.file("signature", &inputs.signature);
    let (image, cache) =
        (scratch.file("image", &inputs.image), scratch.file("cache", &inputs.cache));
    let (info, resources) = (scratch.file("info", b"info"), scratch.file("resources", b"code"));
    let mut list = check(&signature, &image, &cache);
    list.extend(["--info-plist", &info, "--code-resources", &resources, "--marks", "/dev/null"]);
    assert_eq!(run(&list).0, 0);
    let options = ["--signature", "--image", "--cache", "--info-plist", "--code-resources"];
    never_replaced(&scratch, &list, &options);
    assert_eq!(scratch.names(), ["cache", "image", "info", "resources", "signature"]);
}

#[test]
fn inputs_of_a_recheck() {
    let scratch = Scratch::new("inputs-recheck");
    let inputs = reference::samples::plan().build();
    let signature = scratch.file("signature", &inputs.signature);
    // As many zeros as there are pages: as marks they would pass.
    let pages = scratch.file("pages", &[0, 0, 0]);
    let list = recheck(&signature, ["0", "0"], &pages, "");
    never_replaced(&scratch, &list, &["--signature", "--pages"]);
    assert_eq!(scratch.names(), ["pages", "signature"]);
}

/// What a crash left, or somebody put there, is neither used nor removed.
#[test]
fn what_lies_beside_the_marks() {
    let scratch = Scratch::new("beside");
    let left = [".trewizlow-", ".trewizlow-0000000000000000", ".trewizlow-ffffffffffffffff"];
    left.iter().for_each(|name| drop(scratch.file(name, b"theirs")));
    let marks = scratch.path("marks");
    assert_eq!(done(check_to(&marks)).0, 0);
    assert_eq!(done(recheck_of(&scratch, &marks)).0, 0);
    assert_eq!(scratch.read("marks"), [0, 0, 0]);
    for name in left {
        assert_eq!(scratch.read(name), b"theirs", "{name}");
    }
    assert_eq!(scratch.names(), [&left[..], &["marks", "page"]].concat());
}

/// The file behind a link is replaced, where it lies, and the link stays.
#[test]
fn symbolic_links() {
    let (scratch, other) = (Scratch::new("links"), Scratch::new("linked"));
    let link = scratch.symlink(&other.file("marks", &[1, 1, 1]), "link");
    assert_eq!(done(recheck_of(&scratch, &link)).0, 1);
    assert_eq!(other.read("marks"), [0, 1, 1]);
    assert_eq!(done(check_to(&link)).0, 0);
    assert_eq!(other.read("marks"), [0, 0, 0]);
    assert!(fs::symlink_metadata(&link).unwrap().is_symlink());
    assert_eq!(
        (scratch.names(), other.names()),
        (vec!["link".into(), "page".into()], vec!["marks".into()])
    );
}

/// What cannot be replaced is written to; so is the file that standard output goes to, from
/// where it stands.
#[test]
fn devices_and_pipes() {
    let scratch = Scratch::new("pipes");
    let both = format!("\0\0\0{ACCEPTED}");
    assert_eq!(done(check_to("/dev/stdout")), (0, both.clone(), "".into()));
    assert_eq!(done(check_to("/dev/null")), (0, ACCEPTED.into(), "".into()));
    let out = File::create(scratch.path("out")).unwrap();
    assert!(check_to("/dev/stdout").stdout(out).status().unwrap().success());
    assert_eq!(scratch.read("out"), both.as_bytes());
    let pipe = scratch.pipe("pipe");
    let mut child = check_to(&pipe).stdout(Stdio::null()).spawn().unwrap();
    let read = Command::new("timeout").args(["30", "cat", &pipe]).output().unwrap();
    assert_eq!(read.stdout, [0, 0, 0]);
    assert_eq!(child.wait().unwrap().code(), Some(0));
}

/// A file that is replaced keeps its permissions, and its owner where the user may give it away.
#[test]
fn permissions() {
    let scratch = Scratch::new("permissions");
    let marks = scratch.file("marks", &[1, 1, 1]);
    let privileged = fs::metadata(&marks).unwrap().uid() == 0;
    if privileged {
        chown(&marks, Some(1), Some(1)).unwrap();
    }
    fs::set_permissions(&marks, Permissions::from_mode(0o620)).unwrap();
    let state = || {
        let metadata = fs::metadata(&marks).unwrap();
        (metadata.mode(), metadata.uid(), metadata.gid())
    };
    let before = state();
    assert_eq!(done(check_to(&marks)).0, 0);
    assert_eq!((scratch.read("marks"), state()), (vec![0, 0, 0], before));
    assert_eq!(done(recheck_of(&scratch, &marks)).0, 0);
    assert_eq!(state(), before);
}

/// A new file has the permissions that the user's mask leaves.
#[test]
fn permissions_of_a_new_file() {
    let scratch = Scratch::new("mask");
    let masked = |check: Command| {
        let mut command = Command::new("sh");
        command.args(["-c", "umask 027; exec \"$@\"", "sh"]).arg(check.get_program());
        command.args(check.get_args()).output().unwrap().status.success()
    };
    let marks = scratch.path("marks");
    assert!(masked(check_to(&marks)));
    assert_eq!(fs::metadata(&marks).unwrap().mode() & 0o777, 0o640);
}
