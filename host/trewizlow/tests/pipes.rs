//! Inputs that are pipes: what can be told without them is told first.

mod scratch;

use std::process::Stdio;

use scratch::{check, ended, limited, recheck, sample, Run, Scratch};

/// A run with a standard input that never ends, from which nothing comes.
fn run_with_silence(list: &[&str]) -> Run {
    let mut command = limited(list);
    command.stdin(Stdio::piped()).stdout(Stdio::piped()).stderr(Stdio::piped());
    let mut child = command.spawn().unwrap();
    let silence = child.stdin.take();
    let run = ended(child.wait_with_output().unwrap());
    drop(silence);
    run
}

/// A missing file is told before the image or the pages are opened: here a pipe that nobody
/// writes.
#[test]
fn pipes_are_opened_last() {
    let scratch = Scratch::new("last");
    let (signature, cache) = (sample("signature.bin"), sample("cache.bin"));
    let (pipe, missing) = (scratch.pipe("pipe"), "/nowhere/file");
    let good = check(&signature, &pipe, &cache);
    let side_file = |name| [&good[..], &[name, missing]].concat();
    for list in [
        check(missing, &pipe, &cache),
        check(&signature, &pipe, missing),
        side_file("--info-plist"),
        side_file("--code-resources"),
        recheck(missing, ["0", "1"], &pipe, &scratch.file("marks", &[0, 0, 0])),
        recheck(&signature, ["0", "1"], &pipe, missing),
    ] {
        let (status, out, err) = ended(limited(&list).output().unwrap());
        assert_eq!((status, out.as_str()), (2, ""), "{list:?}");
        assert!(err.contains(missing), "{err}");
    }
}

/// Of an image from a pipe nothing is read where the signature is refused, or a side file for
/// its length.
#[test]
fn images_that_are_not_wanted() {
    let scratch = Scratch::new("unwanted");
    let (signature, cache) = (sample("signature.bin"), sample("cache.bin"));
    let long = scratch.sparse("long", trewizlow::MOST_SIDE_FILE_BYTES as u64 + 1);
    let good = check(&signature, "/dev/stdin", &cache);
    for (list, answer) in [
        (check(&cache, "/dev/stdin", &cache), "2 0 refused: "),
        ([&good[..], &["--info-plist", &long]].concat(), "1 0 refused: "),
        ([&good[..], &["--code-resources", &long]].concat(), "1 0 refused: "),
    ] {
        let (status, out, _) = run_with_silence(&list);
        assert!(status == 1 && out.starts_with(answer), "{list:?}: {out}");
    }
}

/// A missing file is told before any other is read.
#[test]
fn all_files_are_opened_first() {
    let missing = "/nowhere/cache";
    let (signature, image) = (sample("signature.bin"), sample("image.bin"));
    for list in [check("/dev/stdin", &image, missing), check(&signature, "/dev/stdin", missing)] {
        let (status, out, err) = run_with_silence(&list);
        assert_eq!((status, out.as_str()), (2, ""));
        assert!(err.contains("cannot read") && err.contains(missing), "{err}");
    }
}
