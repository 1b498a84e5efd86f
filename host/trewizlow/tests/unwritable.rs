//! Marks that cannot be written: told before the check where that can be seen, at the end
//! otherwise. What is there stays as it is, and no file is left behind.

mod scratch;

use std::fs::{self, Permissions};
use std::os::unix::fs::PermissionsExt;
use std::process::Command;

use scratch::{check_to, ended, recheck_of, Run, Scratch, ACCEPTED};

const CANNOT: &str = "cannot write the marks to";

fn done(scratch: &Scratch, mut command: Command) -> Run {
    ended(command.current_dir(&scratch.0).output().unwrap())
}

/// Nothing is checked.
fn nothing((status, out, err): Run, marks: &str, reason: &str) {
    assert_eq!((status, out.as_str()), (2, ""), "{marks}");
    assert!(err.contains(CANNOT) && err.contains(reason), "{marks}: {err}");
}

#[test]
fn files_that_cannot_be_marks() {
    let scratch = Scratch::new("cannot");
    let read_only = scratch.file("read-only", &[1, 1, 1]);
    fs::set_permissions(&read_only, Permissions::from_mode(0o444)).unwrap();
    let dangling = scratch.symlink("nowhere", "dangling");
    let directory = scratch.path("directory");
    fs::create_dir(&directory).unwrap();
    for (marks, reason) in
        [(&read_only, "read-only"), (&dangling, "leads to no file"), (&directory, "Is a directory")]
    {
        nothing(done(&scratch, check_to(marks)), marks, reason);
    }
    for marks in [&read_only, &dangling, &directory, "/dev/null", &scratch.path("missing")] {
        nothing(done(&scratch, recheck_of(&scratch, marks)), marks, "");
    }
    assert_eq!(scratch.read("read-only"), [1, 1, 1]);
    assert_eq!(scratch.names(), ["dangling", "directory", "page", "read-only"]);
}

/// Not even a privileged user can make a file under /proc.
#[test]
fn places_where_no_file_can_be_made() {
    let scratch = Scratch::new("places");
    let no_file = "names no file";
    for (marks, reason) in [
        ("/nowhere/marks", "No such file"),
        ("", no_file),
        ("new/", no_file),
        ("new/.", no_file),
        ("new/..", no_file),
        ("/proc/marks", ""),
    ] {
        nothing(done(&scratch, check_to(marks)), marks, reason);
        let mut json = check_to(marks);
        json.arg("--json");
        let (status, out, _) = done(&scratch, json);
        assert!(status == 2 && out.starts_with("{\"error\":\"cannot write"), "{marks}: {out}");
    }
    assert_eq!(scratch.names(), [""; 0]);
    // A regular file that can be written to and not be replaced.
    let comm = "/proc/self/comm";
    nothing(done(&scratch, check_to(comm)), comm, "");
    nothing(done(&scratch, recheck_of(&scratch, comm)), comm, "");
}

/// Runs the command where no file can have a byte, as on a full disk.
fn on_a_full_disk(command: &Command) -> Run {
    let script = "trap '' XFSZ; ulimit -f 0; exec \"$@\"";
    let mut limited = Command::new("sh");
    limited.args(["-c", script, "sh"]).arg(command.get_program()).args(command.get_args());
    ended(limited.output().unwrap())
}

/// The answer is printed, and the status says that its marks are lost.
#[test]
fn a_full_disk() {
    let scratch = Scratch::new("full");
    let marks = scratch.file("marks", &[1, 0, 0]);
    let new = scratch.path("new");
    let runs = [
        (check_to(&marks), ACCEPTED, &marks),
        (check_to(&new), ACCEPTED, &new),
        (recheck_of(&scratch, &marks), "0 0 pages agree", &marks),
    ];
    for (mut command, said, marks) in runs {
        let (status, out, err) = on_a_full_disk(&command);
        assert!(status == 2 && out.starts_with(said), "{out} {err}");
        assert!(err.contains(&format!("{CANNOT} {marks:?}")), "{err}");
        let (status, out, _) = on_a_full_disk(command.arg("--json"));
        assert!(status == 2 && out.starts_with("{\"number\":0,"), "{out}");
        assert_eq!(out.lines().count(), 1);
        assert!(out.contains(&format!("\"marks_written\":false,\"error\":\"{CANNOT}")), "{out}");
    }
    assert_eq!(scratch.read("marks"), [1, 0, 0]);
    assert_eq!(scratch.names(), ["marks", "page"]);
}
